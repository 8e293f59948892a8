"""`show`: keytabs and caches as tables for people, with ages in place of times, and several files of both kinds."""

from dataclasses import replace
from functools import partial

from makers.images import (B, FIELDS, FLAGS, OFFSET, PA_TYPE, TICKET, Entry, Name, cache, encrypted, keytab, offset,
                           own_server, ticket)
from names.several_files import MISSING, UNREAD
from runs.harness import Case, Line, Outcome, Report
from runs.system_calls import preloaded
from words.explaining import FAILED, FULL, Explained, for_owner, no_keytab, over_files
from words.phrases import BAD_DEFAULT, COLLECTION, FAULTS, NOT_READ, SHORT, SHOWN_AS_NEITHER

NOW = 1_700_864_000  # the time of the clock
DAY, OWN_MODE = 86_400, 0o100_600  # a day, and the mode of files that only their owner may read and write
AGES = {1: "1 s", 119: "119 s", 120: "2 min", 321: "5 min", 7_199: "119 min", 7_200: "2 h", 172_799: "47 h",
        2 * DAY: "2 d", 730 * DAY - 1: "729 d", 730 * DAY: "2 y", NOW - 1: "53 y"}
# A time to come has a second unit if there are fewer than ten of the first, and one or more of the second.
AHEAD = {1: "1 s", 9: "9 s", 119: "119 s", 120: "2 min", 121: "2 min 1 s", 599: "9 min 59 s", 601: "10 min",
         7_199: "119 min", 7_259: "2 h", 7_260: "2 h 1 min", 36_000 - 1: "9 h 59 min", 36_000 + 60: "10 h",
         2 * DAY - 1: "47 h", 2 * DAY + 3_599: "2 d", 2 * DAY + 3_600: "2 d 1 h", 10 * DAY - 1: "9 d 23 h",
         10 * DAY + 7_200: "10 d", 730 * DAY - 1: "729 d", 731 * DAY - 1: "2 y", 731 * DAY: "2 y 1 d",
         3_650 * DAY - 1: "9 y 364 d", 3_651 * DAY: "10 y", NOW - 1: "53 y"}


def table(*rows: str, widths: tuple[int, ...]) -> str:
    """Returns the lines of a table with columns of those widths, which blanks separate."""
    cells = ([*zip(row.split("|"), (*widths, 0), strict=True)] for row in rows)
    return "".join("".join(f"{cell:{width}}  " for cell, width in row).rstrip(" ") + "\n" for row in cells)


of_keys, of_tickets = (partial(table, heads) for heads in (
    "KVNO|ADDED|KEYS|PRINCIPAL", "ENDS|RENEW|SESSION|TICKET|SERVICE"))
ends = partial(replace, TICKET, authtime=NOW - 9, endtime=0)
INVALID = FLAGS[b"i"]
OWN = ticket(encrypted(b"\x12"), own_server(Name((b"h", b"b"), b"S")))  # a ticket that names h/b@S itself


def added(kvno: int, **more: int) -> Entry:
    """Returns an entry of that version, made ten days ago unless another time is given."""
    return replace(Entry(version8=kvno, version32=kvno), **{"timestamp": NOW - 864_000, **more})


# Names come in the order of their first entries, and the newest version is the first line of each.
VERSIONS = (added(1, enctype=23, timestamp=NOW - 10**8), B, added(2), added(2, enctype=18), added(2, timestamp=0),
            added(9, timestamp=0), added(3, timestamp=0))
TYPES = [Entry((b"t",), enctype=each, timestamp=0) for each in (17, 18, 19, 20, 23, 16, 25, 26, 3, 0)]
LONG = Entry((b"l",), enctype=65_535, timestamp=0)
KEYTABS = {
    ("7 keys of 2 principals, 1 weak!, 5 old", VERSIONS): of_keys(
        "9|-|aes128|host/a@R", "3|-|aes128 old|host/a@R", "2|10 d ago|aes128 aes256 old|host/a@R",
        "1|3 y ago|rc4! old|host/a@R", "3|10 d ago|aes128|b@R", widths=(4, 8, 17)),
    ("1 key of 1 principal", (replace(B, timestamp=2**32 - 1),)): of_keys(
        "3|in 82 y|aes128|b@R", widths=(4, 7, 6)),
    # A cell of more than 40 characters pads nothing.
    ("12 keys of 2 principals, 3 weak!, 10 old", (*TYPES, LONG, replace(TYPES[0], version32=4))): of_keys(
        "4|-|aes128|t@R",
        "3|-|aes128 aes256 aes128-sha2 aes256-sha2 rc4! des3! camellia128 camellia256 and 2 more old|t@R",
        "3|-|65535|l@R", widths=(4, 5, 6)),
    ("0 keys of 0 principals", ()): "",
    # The newest version of a name has weak keys alone.
    ("3 keys of 1 principal, 2 weak!, 1 old, 1 principal with weak keys alone!",
     (added(2, enctype=23), added(1), added(2, enctype=16))): of_keys(
        "2|10 d ago|rc4! des3!|host/a@R", "1|10 d ago|aes128 old|host/a@R", widths=(4, 8, 10)),
    ("6 keys of 3 principals, 5 weak!, 1 old, 2 principals with weak keys alone!",
     (added(1, enctype=3), replace(B, enctype=23), added(2), added(2, enctype=24), replace(LONG, enctype=16),
      replace(LONG, enctype=16))): of_keys(
        "2|10 d ago|aes128 24!|host/a@R", "1|10 d ago|3! old|host/a@R", "3|10 d ago|rc4!|b@R", "3|-|des3!|l@R",
        widths=(4, 8, 10)),
    (f"{len(AGES)} keys of {len(AGES)} principals", tuple(
        Entry((b"%d" % at,), timestamp=NOW - at) for at in AGES)):
        of_keys(*(f"3|{age} ago|aes128|{at}@R" for at, age in AGES.items()), widths=(4, 11, 6)),
    (f"{len(AHEAD)} keys of {len(AHEAD)} principals", tuple(
        Entry((b"%d" % at,), timestamp=NOW + at) for at in AHEAD)):
        of_keys(*(f"3|in {age}|aes128|{at}@R" for at, age in AHEAD.items()), widths=(4, 13, 6)),
}
LATER, SERVICE, OTHER_TGT = NOW + 19_220, Name((b"h", b"a")), Name((b"krbtgt", b"S"))  # it is in 5 h 20 min
CACHES = {
    ("0 tickets", (PA_TYPE, TICKET.removed())): "",
    ("1 ticket, expired!", (PA_TYPE, TICKET)): of_tickets(
        "ended 9 d ago|-|aes128|-|krbtgt/R@R", widths=(13, 5, 7, 6)),
    ("6 tickets, 2 weak!", (
        ends(ticket=ticket(encrypted(b"\x12", b"\2"))), ends(starttime=NOW + 5, ticket=ticket(encrypted(b"\x17"))),
        ends(endtime=NOW, ticket=ticket(encrypted(b"\x80"))), ends(endtime=NOW + 7_200, renew_till=NOW + 1),
        ends(endtime=NOW + 7_200, starttime=NOW + 140, renew_till=NOW, enctype=1),
        ends(endtime=NOW + 1, authtime=NOW + 1, server=SERVICE, enctype=77, renew_till=1))):
        of_tickets("-|-|aes128|aes256 kvno 2|krbtgt/R@R", "-|-|aes128|rc4!|krbtgt/R@R",
                   "ended now|-|aes128|-128|krbtgt/R@R",
                   "in 2 h|in 1 s|aes128|-|krbtgt/R@R", "starts in 2 min 20 s|now|1!|-|krbtgt/R@R",
                   "starts in 1 s|53 y ago|77|-|h/a@R", widths=(20, 8, 7, 13)),
    # A ticket's own name is shown for a server without a realm alone.
    ("4 tickets", (ends(ticket=OWN), ends(ticket=OWN, server=Name((b"h",), b"")), ends(server=Name((b"h",), b"")),
                   ends(ticket=OWN[:-1], server=Name((), b"")))): of_tickets(
        "-|-|aes128|aes256|krbtgt/R@R", "-|-|aes128|aes256|h/b@S", "-|-|aes128|-|h@", "-|-|aes128|-|@",
        widths=(4, 5, 7, 6)),
    # A ticket that is invalid has neither ended nor is it to start.
    ("5 tickets", tuple(replace(it, flags=INVALID) for it in (
        ends(), ends(endtime=NOW), ends(endtime=LATER, starttime=NOW + 1), ends(endtime=LATER),
        ends(endtime=LATER, renew_till=LATER + 2 * DAY)))): of_tickets(
        "-|-|aes128|-|krbtgt/R@R", "ended now|-|aes128|-|krbtgt/R@R", "starts in 1 s|-|aes128|-|krbtgt/R@R",
        "invalid|-|aes128|-|krbtgt/R@R", "invalid|in 2 d 5 h|aes128|-|krbtgt/R@R", widths=(13, 10, 7, 6)),
    # The ticket-granting tickets of the default principal's realm say whether a cache has expired, if there are any.
    ("2 tickets, expired!", (TICKET, ends(endtime=LATER, server=SERVICE))): of_tickets(
        "ended 9 d ago|-|aes128|-|krbtgt/R@R", "in 5 h 20 min|-|aes128|-|h/a@R", widths=(13, 5, 7, 6)),
    ("3 tickets, expired!", (ends(server=SERVICE), ends(endtime=NOW), ends(server=OTHER_TGT))): of_tickets(
        "-|-|aes128|-|h/a@R", "ended now|-|aes128|-|krbtgt/R@R", "-|-|aes128|-|krbtgt/S@R", widths=(9, 5, 7, 6)),
    ("3 tickets", (replace(TICKET, server=SERVICE), TICKET, ends(endtime=NOW + 1))): of_tickets(
        "ended 9 d ago|-|aes128|-|h/a@R", "ended 9 d ago|-|aes128|-|krbtgt/R@R", "in 1 s|-|aes128|-|krbtgt/R@R",
        widths=(13, 5, 7, 6)),
    ("2 tickets, 2 weak!", (replace(TICKET, server=OTHER_TGT, enctype=23),
                            ends(server=SERVICE, enctype=24, ticket=ticket(encrypted(b"\x03"))))): of_tickets(
        "ended 9 d ago|-|rc4!|-|krbtgt/S@R", "-|-|24!|3!|h/a@R", widths=(13, 5, 7, 6)),
    # A type of more than 16 bits is not weak, nor is a setting.
    ("1 ticket", (ends(ticket=ticket(encrypted(b"\1\0\x17"))), replace(PA_TYPE, enctype=23))): of_tickets(
        "-|-|aes128|65559|krbtgt/R@R", widths=(4, 5, 7, 6)),
}
# What a view says of the header's offset, and of a mode.
OFFSETS = {offset(5, -10): ", clock offset 5 s", offset(-(2**31), 0): ", clock offset -2147483648 s", offset(0, 5): "",
           FIELDS: ", clock offset 5 s"}
MODES = {0o100_600: "", 0o100_711: "", 0o100_640: ", mode 640", 0o100_620: ", mode 620", 0o100_604: ", mode 604!",
         0o100_602: ", mode 602!", 0o104_664: ", mode 4664!"}

# Files without a time, and their blocks. The first bytes say that `s` is a cache.
FILES = {"k": keytab(replace(B, timestamp=0)), "c": cache(ends()), "a\nb": keytab(), "e": cache(), "x": b"x\0",
         "z": b"", "d": keytab(replace(B, timestamp=0), b"\0"), "s": cache()[:5], "FILE:k": b"\5\1"}
KEY, KEYS = of_keys("3|-|aes128|b@R", widths=(4, 5, 6)), "keytab, 1 key of 1 principal\n"
K, C = f"k: {KEYS}{KEY}", "c: cache of u@R, 1 ticket\n" + of_tickets("-|-|aes128|-|krbtgt/R@R", widths=(4, 5, 7, 6))
NONE, E, D = "keytab, 0 keys of 0 principals\n", "e: cache of u@R, 0 tickets\n", f"d: {KEYS}{KEY}fault 1 at 47\n"
TYPED = ("KCM:k: no such file", NOT_READ.replace("TYPE", "KCM:"))


def show(line: str | Line, blocks: list[str], *output: tuple[str, str], **more) -> Explained:
    """Returns a view of some of the files, with an empty line between them, and its messages."""
    return over_files("show", line, "\n".join(blocks).encode(), *output, files=FILES, setting=for_owner, **more)


CASES = [
    show(("k", "FILE:c", "WRFILE:e", "DIR::k", "a\nb", "FILE:FILE:k", "--v1-big"),
         [K, C, E, K, rf"a\x0ab: {NONE}", f"FILE:k: {NONE}"]),
    # A file with only a message has no block.
    show("no x k z . d s DIR:c KCM:k e", [K, D, E], MISSING, no_keytab(SHOWN_AS_NEITHER, "x", "cache"),
         no_keytab(SHORT, "z", "cache"), UNREAD, ("", "d: fault 1 at 47"), ("", FAULTS[1]),
         no_keytab(BAD_DEFAULT, "s", "cache"), ("DIR:c: no such file", COLLECTION), TYPED, status=3),
    show("no k x", [], MISSING, FAILED, status=3, options=FULL),
]


def at_now(what: str, image: bytes, rows: str, mode: int = OWN_MODE) -> Case:
    """Returns a view of a file at that time, twice."""
    block = f"f: {what}\n{rows}"
    return Case(f"{what}, mode {mode:o}", ("show", "f", "f"), Outcome(0, f"{block}\n{block}".encode()), {"f": image},
                clock=NOW, mode=mode)


NO_TICKETS = "cache of u@R, 0 tickets"
THEOREMS = [
    *(at_now(f"keytab, {what}", keytab(*those), rows) for (what, those), rows in KEYTABS.items()),
    *(at_now(f"cache of u@R, {what}", cache(*those), rows) for (what, those), rows in CACHES.items()),
    *(at_now(NO_TICKETS + note, cache(fields=fields), "") for fields, note in OFFSETS.items()),
    *(at_now(it + note, image, "", mode) for it, image in ((NO_TICKETS, cache()), (NONE[:-1], keytab()))
      for mode, note in MODES.items()),
    at_now("cache of u@R, 1 ticket, expired!, 1 weak!, clock offset 5 s, mode 644!",
           cache(replace(TICKET, enctype=16), fields=OFFSET),
           of_tickets("ended 9 d ago|-|des3!|-|krbtgt/R@R", widths=(13, 5, 7, 6)), 0o100_644),
    at_now("keytab, 2 keys of 1 principal, 1 weak!, 1 old, 1 principal with weak keys alone!, mode 640",
           keytab(added(1), added(2, enctype=23)),
           of_keys("2|10 d ago|rc4!|host/a@R", "1|10 d ago|aes128 old|host/a@R", widths=(4, 8, 10)), 0o100_640),
]


def check(report: Report, program: str) -> None:
    """Makes these, by a clock that can be read once."""
    under = preloaded(report, program, "what is shown at a time")
    for case in THEOREMS if under else ():
        under.check(report, case, CLOCK=NOW, FAIL_CLOCK=2)
