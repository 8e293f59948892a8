"""Scripts of `ccedit`: faulty lines, odd values, long ones, large files, and no file. And removals by `ccremove`.
Places are counted by hand: a ticket has 108 bytes or 106, pa_type's value 136."""

from dataclasses import replace
from functools import partial

from caches.cache_listings import TGT, VALID_HOST, of_host
from keytabs import edits
from keytabs.edits import LINE_FAULTS, by_line, faulty_lines, refused
from keytabs.file_names import LIMIT
from makers.images import (FIELDS, OFFSET, PA_TYPE, TICKET, USUAL, VERSION_3, Credential, Name, cache, config,
                           encrypted, header_field, offset, own_server, ticket)
from runs.harness import Case, Outcome, message, over

SET_3 = "config pa_type krbtgt/R@R 3"
THREE = config(b"pa_type", b"3", b"krbtgt/R@R")
TIMED = replace(TICKET, starttime=2, renew_till=4)  # a ticket with each of the four times

FAULTS = LINE_FAULTS | by_line({
    1: ["add 3 17 0 - b@R", "Config k - v", "config\tk - v", "configk - v"],
    2: ["config", "config ", "config k ", "config k -", "config k a", "config  - v", "config k  v", "config   "],
    6: ["config k a v", "config k -- v", "config k a@R@S v", "config k a@R\\ v", "config k a\\ b@R v"],
}) | {
    # Of several faults the first counts.
    "config  a v": 2, "config k a ": 6,
}


def long_ticket(size: int) -> Credential:
    """Returns a ticket of that many bytes in all. One whose ticket field has three bytes takes 108."""
    return replace(TICKET, ticket=bytes(size - 105))


edit = partial(edits.edit, line="ccedit c")


def value(name: str, line: bytes, key: bytes, data: bytes, principal: bytes | None = None) -> Case:
    """Returns a line that sets a value in a cache without one."""
    return edit(name, cache(), line, ["placed 22"], cache(config(key, data, principal)))


BYTES = bytes(byte for byte in range(256) if byte != 0x0A)
ODD = BYTES.replace(b" ", b"")

CASES = [
    *faulty_lines(edit, USUAL, "cut 40", FAULTS),
    # Keys, principals and values: the last is the rest of the line, byte for byte.
    value("blanks around a value", b"config k -  v ", b"k", b" v "),
    value("each byte of a value", b"config k - " + BYTES, b"k", BYTES),
    value("each byte of a key", b"config " + ODD + b" - v", ODD, b"v"),
    value("a principal as it is written", b"config k a\\/b\\@\\c@R\\\\ v", b"k", b"v", b"a\\/b\\@\\c@R\\\\"),
    edit("in place of another value, and two times stay", cache(PA_TYPE, TIMED), [SET_3, "cut 158"],
         ["placed 266", "gone 22", "gone 158"], cache(PA_TYPE.removed(), TIMED.removed(), THREE)),
    edit("the first whole offset", cache(fields=header_field(1, b"\0\0\0\1") + OFFSET + offset(0, 0)), ["rewrite"],
         ["rewritten 34"], cache(fields=OFFSET)),
    edit("version 3 becomes 4", VERSION_3,
         ["start", "step 0", "step 0", "start", "cut 20", "rewrite", "step 0", "step 1", "config k - v", "step 0",
          "cut 22"],
         refused("walk 0 at 20", "walk 0 gave 20 next 130 etype 17 krbtgt/R@R", "walk 0 end 130", "walk 1 at 20",
                 "refused 8", "rewritten 130", "walk 0 end 130", "walk 1 gave 22 next 130 etype 17 krbtgt/R@R",
                 "placed 130", "walk 0 gave 130 next 246 config k", "gone 22"),
         cache(TICKET.removed(), config(b"k", b"v"))),
    lambda: edit("too long in version 4", cache(default=Name((b"x" * (LIMIT - 19),)), version=3),
                 ["start", "rewrite", "resume 22"], refused(f"walk 0 at {LIMIT}", "refused 3", "refused 4")),
    lambda: edit("no room for a value", cache(long_ticket(LIMIT - 22)), ["config k - v", "cut 22"],
                 refused("refused 3", "gone 22"), cache(long_ticket(LIMIT - 22).removed())),
    # With the old value, of 136 bytes as the new one, as much room is left, and a byte less.
    lambda: edit("a byte too little room, and the old value stays", cache(long_ticket(LIMIT - 293), PA_TYPE),
                 [SET_3, f"resume {LIMIT - 271}", "step 0"],
                 refused("refused 3", f"walk 0 at {LIMIT - 271}",
                         f"walk 0 gave {LIMIT - 271} next {LIMIT - 135} config pa_type(krbtgt/R@R)")),
    lambda: edit("just room", cache(long_ticket(LIMIT - 294), PA_TYPE), [SET_3],
                 [f"placed {LIMIT - 136}", f"gone {LIMIT - 272}"],
                 cache(long_ticket(LIMIT - 294), PA_TYPE.removed(), THREE)),
    *(edit(f"no file, {line!r}", None, line, message(1, "c: no such file")) for line in (b"", b"config k - v\n")),
]

# Tickets over at 40 and 392, a value at 148, valid ones at 284 and 606, and a removed one at 498.
MANY = cache(TICKET, PA_TYPE, TGT, of_host(), TICKET.removed(), VALID_HOST, fields=FIELDS)
AT_40, AT_284 = "removed 40 krbtgt/R@R", "removed 284 krbtgt/R@R"
AT_392, AT_606 = "removed 392 host/a@R", "removed 606 host/a@R"


def tickets(*servers: tuple[bytes, ...]) -> list[Credential]:
    """Returns the usual ticket for each of these servers."""
    return [replace(TICKET, server=Name(components)) for components in servers]


# Tickets that `--all-services` asks for, the lines that report them, and tickets that it does not ask for.
SERVICES = tickets((), (b"", b"krbtgt"), (b"KRBTGT", b"R"), (b"krbtgts",), (b"krbtgt/R",))
REMOVED = ["removed 22 @R", "removed 115 /krbtgt@R", "removed 222 KRBTGT/R@R", "removed 330 krbtgts@R",
           r"removed 434 krbtgt\/R@R"]
GRANTING = tickets((b"krbtgt",), (b"krbtgt", b"S"), (b"krbtgt", b"a", b"b"))

# A user's credentials as gssproxy keeps them, which only their name asks for.
KEPT = replace(TICKET, server=Name((b"Encrypted", b"Credentials", b"v1"), b"X-GSSPROXY:"), enctype=0, key=b"",
               authtime=0, endtime=0, flags=0)
KEPT_TOO = replace(TICKET, server=Name((), b"X-GSSPROXY:"))  # another of its realm, likewise
BY_NAME = "-p Encrypted/Credentials/v1@X-GSSPROXY:"
ENDLESS = replace(TICKET, endtime=0)

# Tickets that name host/b@S themselves: of a server without a realm, of another server, and of gssproxy.
NAMING = [replace(TICKET, server=server, ticket=ticket(encrypted(b"\x12"), own_server(Name((b"host", b"b"), b"S"))))
          for server in (Name((b"host", b"b"), b""), Name((b"krbtgt", b"R")), KEPT.server)]
NAMED = ["removed 22 host/b@", "removed 179 krbtgt/R@R", "removed 339 Encrypted/Credentials/v1@X-GSSPROXY:"]


def remove(words: str, wanted: Outcome | list[str], *left: object) -> Case:
    """Returns a run of ccremove with these words before the file, and what is left then, if anything goes."""
    return over(f"removed by {words}", f"ccremove {words} c", MANY, wanted,
                cache(*left, fields=OFFSET) if left else None)


CASES += [
    remove("-p host/a@R", [AT_392, AT_606], TICKET, PA_TYPE, TGT),
    remove(r"--expired -p \host/a@R", [AT_392], TICKET, PA_TYPE, TGT, VALID_HOST),
    # One of several services; all that is given has to hold.
    remove("-p b@R -p host/a@R --service krbtgt/R@R", [AT_40, AT_284, AT_392, AT_606], PA_TYPE),
    remove("-p b@R -p krbtgt/R@R --expired", [AT_40], PA_TYPE, TGT, of_host(), VALID_HOST),
    remove("--expired --all-services", [AT_392], TICKET, PA_TYPE, TGT, VALID_HOST),
    remove("--all-services -p krbtgt/R@R -p host/a@R -n", [AT_392, AT_606]),
    remove("--all-services -p krbtgt/R@R", message(1, "c: refused 9")),
    over("services alone", "ccremove --all-services c", cache(*SERVICES, *GRANTING, PA_TYPE), REMOVED,
         cache(*GRANTING, PA_TYPE)),
    *(over(f"gssproxy's alone by {words}", f"ccremove {words} c", cache(KEPT), wanted) for words, wanted in (
        ("--expired", []), (f"--expired {BY_NAME}", []), ("--all-services", message(1, "c: refused 9")),
        ("--expired --all-services", message(1, "c: refused 9")))),
    over("gssproxy's by name", f"ccremove --all-services {BY_NAME} c", cache(KEPT, KEPT_TOO),
         ["removed 22 Encrypted/Credentials/v1@X-GSSPROXY:"], cache(KEPT_TOO)),
    *(over(f"all but gssproxy's by {words}", f"ccremove {words} c", cache(KEPT, of_host(), KEPT_TOO, ENDLESS),
           ["removed 143 host/a@R"], cache(KEPT, KEPT_TOO, ENDLESS)) for words in ("--expired", "--all-services")),
    # A ticket is asked for by its server's name, and by its own.
    *(over(f"a ticket's own name: {words}", f"ccremove {words} c", cache(*NAMING), wanted, cache(*left))
      for words, wanted, left in (
          ("-p host/b@S", NAMED, []), ("-p host/b@", NAMED[:1], NAMING[1:]), ("-p krbtgt/R@R", NAMED[1:2], NAMING[::2]),
          ("-p host/b@S --all-services", NAMED[::2], NAMING[1:2]), ("--all-services", NAMED[:1], NAMING[1:]))),
    # Patterns ask by both names, but for gssproxy's only if their realm has no star.
    *(over(f"by {words}", f"ccremove {words} c", cache(*NAMING), wanted, cache(*left)) for words, wanted, left in (
        ("--match */b@S", NAMED, []), ("--match */b@*", NAMED[:2], NAMING[2:]),
        ("--match */b@* --all-services", NAMED[:1], NAMING[1:]))),
    *(over(f"gssproxy's by {words}", f"ccremove {words} c", cache(KEPT, of_host()), [f"removed {it}" for it in gone],
           cache(*left)) for words, gone, left in (
        ("--match */*/*@X-GSSPROXY:", ("22 Encrypted/Credentials/v1@X-GSSPROXY:",), [of_host()]),
        ("--match */*@* --match */*/*@*", ("143 host/a@R",), [KEPT]),
        ("--none-ok --match */*/*@X-*", (), [KEPT, of_host()]))),
    over("gssproxy's by a star", "ccremove --match */*/*@X-GSSPROXY* c", cache(KEPT), message(1, "c: refused 9")),
    remove("--expired --match host/*@R --match *@R", [AT_392], TICKET, PA_TYPE, TGT, VALID_HOST),
    *(over(f"none has expired, {words}", f"ccremove --expired {words} c", cache(VALID_HOST), wanted)
      for words, wanted in (("--match host/*@R", []), ("--match b@*", message(1, "c: refused 9")),
                            ("--none-ok --match b@*", []))),
    over("version 3", "ccremove --none-ok --match b@* c", VERSION_3, message(1, "c: refused 8")),
    over("no service has expired", "ccremove --all-services --expired c", cache(TICKET, VALID_HOST), []),
]
