"""`ktmatch` over one cache and over several: what is said of a ticket by its own bytes and by the entries of a keytab,
which tickets are looked at, and what is explained once. An entry of host/a@R takes 51 bytes with its length."""

import json
import re
from dataclasses import replace
from functools import partial
from itertools import accumulate

from keytabs.checks import unchecked
from keytabs.copies import UNSOUND
from makers.images import (CONFIG_REALM, HOST, KRBTGT, PA_TYPE, TICKET, TICKET_VERSION, TWO, Credential, Entry, Name,
                           cache, config_ticket, encrypted, keytab, old, ticket, ticket_of)
from names import several_files
from names.named_files import NEITHER
from names.several_files import MISSING, OTHER, UNREAD, labelled
from runs.harness import Case, message, printed, words_of
from words.explaining import FAILED, FULL, Output, no_keytab, over_files
from words.phrases import BEGINS_AS_NO_CACHE, BEGINS_AS_NO_KEYTAB, FORMATS, MATCHED_AS_KEYTAB, MATCHES, code

WRONG = ("unread", "name", "kvno", "etype")  # the words of lines that make the status 1


def name_of(spelled: str) -> Name:
    """Returns the name of a text without quotes."""
    front, _, realm = spelled.partition("@")
    return Name(tuple(front.encode().split(b"/")), realm.encode())


A, C = name_of("host/a@R"), name_of("c@R")  # a service of TWO, and one that it has no key of


def match(options: str, image: bytes, *rows: tuple[Credential, str]) -> Case:
    """Returns a run over a keytab and a cache of tickets, each with its line, `@` in place of its place, or without."""
    places = accumulate((len(each.spelled()) for each, _ in rows), initial=len(cache()))
    lines = [line.replace(" @", f" {place}", 1) for (_, line), place in zip(rows, places) if line]
    wanted = printed(*lines, status=int(any(line.split()[0] in WRONG for line in lines)))
    return Case(f"{options} {lines}", ("ktmatch", *words_of(options), "k", "c"), wanted,
                {"k": image, "c": cache(*(each for each, _ in rows))})


def said(word: str, kvno: int | None, etype: int, rest: str = "", name: str = "host/a@R") -> str:
    """Returns the line of a ticket with those numbers."""
    return " ".join(filter(None, (f"{word} @ kvno {'-' if kvno is None else kvno} etype {etype}", rest, name)))


def kept(*those: tuple[int, ...]) -> bytes:
    """Returns a keytab of host/a@R by versions, types, and perhaps times."""
    return keytab(*(Entry(version8=kvno % 256, version32=kvno, enctype=etype, timestamp=sum(time))
                    for kvno, etype, *time in those))


# A version as Windows' read-only domain controllers write it, with the low eight bits 44, and eight types.
WRAPPED, EIGHT = 2**32 - 212, (23, 1, 18, 2, 17, 3, 16, 20)
JAVA = Entry(version8=44, version32=None)  # an entry without a 32-bit version, as Java writes it

# Keytabs of host/a@R, and what is said of its tickets by their versions and types.
JUDGED: list[tuple[bytes, dict[tuple[int | None, int], str]]] = [
    # An entry of the ticket's version comes first, then the first that fits by its low eight bits, or with 0.
    (kept((0, 17), (44, 17), (300, 17), (300, 17)), {
        (300, 17): "opens at 104", (44, 17): "opens at 53", (556, 17): "opens at 2", (7, 17): "opens at 2",
        (300, 18): "etype has 17", (300, 17 + 2**16): "etype has 17", (300, 17 - 2**16): "etype has 17"}),
    (kept((300, 17), (44, 18)), {
        (300, 18): "opens at 53", (556, 18): "opens at 53", (WRAPPED, 18): "opens at 53", (WRAPPED, 17): "etype has 18",
        (44, 17): "etype has 18", (300, 23): "etype has 17,18", (45, 17): "kvno has 44", (256, 17): "kvno has 44"}),
    (keytab(5, JAVA, HOST), {(300, 17): "opens at 11", (44, 17): "opens at 11", (259, 17): "opens at 58"}),
    (old(JAVA, HOST), {(300, 17): "opens at 2", (3, 17): "opens at 45"}),
    # The newest version of the name, of any type: one that began again is newer by its time.
    (kept((255, 17, 5), (1, 18, 6)), {(9, 17): "kvno has 1", (255, 17): "opens at 2", (511, 17): "opens at 2"}),
    (kept((255, 17, 6), (1, 18, 5), (241, 18)), {(9, 17): "kvno has 255", (2, 18): "kvno has 255"}),
    # Without a version, or with 0, the newest of the type.
    (kept((255, 17, 5), (1, 17, 6), (1, 17), (9, 18), (3, 18)), {
        (None, 17): "opens at 53", (0, 17): "opens at 53", (None, 18): "opens at 155", (0, 23): "etype has 17,18",
        (None, 0): "etype has 17,18", (1, 17): "opens at 53"}),
    # The types that fit in version, each once, in file order, eight of them.
    (kept(*((3, etype) for etype in (*EIGHT, *EIGHT)), (4, 26)), {(3, 26): "etype has 23,1,18,2,17,3,16,20"}),
    (kept((4, 25), *((etype % 2 * 3, etype) for etype in EIGHT), (259, 19), (0, 25)), {
        (259, 0): "etype has 23,1,18,2,17,3,16,20,..", (3, 19): "etype has 23,1,18,2,17,3,16,20,..",
        (4, 19): "etype has 25,18,2,16,20", (None, 99): "etype has 25,23,1,18,2,17,3,16,.."}),
]


def judged(kvno: int | None, etype: int, verdict: str) -> tuple[Credential, str]:
    """Returns a ticket for host/a@R, and its line by the word and what is before its name."""
    word, _, rest = verdict.partition(" ")
    return ticket_of(A, etype, kvno), said(word, kvno, etype, rest)


OPENS, NO_C = said("opens", 3, 17, "at 2"), said("name", 3, 17, name="c@R")
REFERRED = name_of("host/a@")  # a server as a referral has it
NAMES = {it: name_of(it) for it in ("host/a@S", "host/A@R", "host/a/@R", "host@R")} | {
    r"host\/a@R": Name((b"host/a",)), "@R": Name(())}
# Tickets whose name cannot be read: empty fields, another type of text, and bytes after the components.
NAMELESS = [ticket(encrypted(b"\x11", b"\3"), TICKET_VERSION + bytes.fromhex(it)) for it in (
    "a100 a200", "a1030c0152 a20e300c a003020101 a10530031b0163", "a1031b0152 a210300e a003020101 a10730051b01630c00")]

# Tickets. Some caches have another server.
OWN = [*((ticket_of(name), said("name", 3, 17, name=text)) for text, name in NAMES.items()),
       (ticket_of(replace(A, name_type=99)), OPENS), (ticket_of(A, server=C), OPENS),
       (ticket_of(A, server=REFERRED), OPENS), (ticket_of(C, server=A), NO_C),
       *((replace(TICKET, server=A, ticket=each), OPENS) for each in NAMELESS),
       (replace(TICKET, server=A), "unread @ host/a@R"), (replace(TICKET, server=REFERRED), "unread @ host/a@"),
       (ticket_of(C, 2**31, server=A), "unread @ host/a@R"), (ticket_of(A, is_skey=1, server=C), "user @ host/a@R"),
       (replace(TICKET, server=C, is_skey=255), "user @ c@R")]

# Tickets that are never looked at, and some that are if the keytab has an entry of the name or they are asked for.
NEVER = [(each, "") for each in (ticket_of(A).removed(), PA_TYPE, config_ticket(b"k", ticket=ticket_of(A).ticket),
                                 ticket_of(A, server=name_of("Encrypted@X-GSSPROXY:")))]
TGT, OTHER_TGT, OWN_TGT = ticket_of(KRBTGT), ticket_of(name_of("krbtgt@R")), ticket_of(KRBTGT, server=A)
NO_TGT = said("name", 3, 17, name="krbtgt/R@R")
SEEN = [
    match("", TWO, *NEVER, *((each, "") for each in (TICKET, TGT, OTHER_TGT, OWN_TGT)),
          *((ticket_of(A, server=server), OPENS) for server in (KRBTGT, Name((b"x",), CONFIG_REALM))),
          (ticket_of(name_of("KRBTGT@R")), said("name", 3, 17, name="KRBTGT@R"))),
    match("", keytab(Entry((b"krbtgt", b"R"))), (TGT, said("opens", 3, 17, "at 2", "krbtgt/R@R")), (OTHER_TGT, ""),
          (TICKET, "unread @ krbtgt/R@R")),
    match("-p krbtgt/R@R -p b@R", TWO, (TGT, NO_TGT), (OTHER_TGT, ""), (OWN_TGT, NO_TGT), (ticket_of(A), ""),
          (ticket_of(A, server=KRBTGT), OPENS), (ticket_of(name_of("b@R")), said("opens", 3, 17, "at 53", "b@R"))),
    match(r"--principal=\host/a@R -p Encrypted@X-GSSPROXY:", TWO, *NEVER, (OWN_TGT, NO_TGT), (ticket_of(C), "")),
    match("--match krbtgt/*@R -p b@R", TWO, (TGT, NO_TGT), (OTHER_TGT, ""), (OWN_TGT, NO_TGT), (ticket_of(A), "")),
    match("--match *@* --match */a@R", TWO, *NEVER, (ticket_of(A), OPENS), (TGT, "")),
    match("-p @R", TWO, *((ticket_of(Name(those)), said("name", 3, 17, name="@R")) for those in ((), (b"",)))),
    *(match("-q", TWO, (ticket_of(A), ""), (ticket_of(A, is_skey=1), ""), *more) for more in (
        [(ticket_of(C), NO_C)], [])),
    match("--v1-big -H", old(HOST, order="big"), (ticket_of(A), f"c: {OPENS}")),
]


def ticket_object(place: int, name: str, numbers: tuple[int | None, int | None], word: str, **found) -> dict:
    """Returns JSON of a ticket, and what was found of the keytab."""
    none = dict.fromkeys(("keytab_place", "keytab_kvno", "keytab_etypes"))
    key = "name" if "@" in name else "name_hex"
    return {"place": place, key: name, "kvno": numbers[0], "etype": numbers[1], "match": word, **none, **found}


JSON = {"keytab": "k", "file": "c", "tickets": [
    ticket_object(22, "ff4052", (3, 17), "name"),
    ticket_object(171, "host/a@R", (None, -5), "etype", keytab_etypes=[*EIGHT]),
    ticket_object(329, "host/a@R", (WRAPPED, 17), "kvno", keytab_kvno=3),
    ticket_object(496, "host/a@R", (3, 17), "opens", keytab_place=206),
    ticket_object(659, "host/a@R", (None, None), "unread"), ticket_object(765, "host/a@R", (3, 18), "user"),
    ], "fault": {"kind": 4, "place": 928}, "status": 1}
IN_JSON = cache(ticket_of(Name((b"\xff",))), ticket_of(A, -5, None), ticket_of(A, 17, WRAPPED), ticket_of(A),
                replace(TICKET, server=A), ticket_of(A, 18, is_skey=1), b"\0")

# A keytab, and caches: `o` opens, `m` has each line, `d` and `n` end in a fault, `e` is not looked at.
FILES = {
    "k": TWO, "o": cache(ticket_of(A)), "e": cache(ticket_of(KRBTGT)), "n": cache(b"\0"), "x": NEITHER,
    "m": cache(ticket_of(A, is_skey=1), replace(TICKET, server=A), ticket_of(name_of("Host/a@R")),
               ticket_of(A, 17, 4), ticket_of(A, 18), ticket_of(A)),
    "d": cache(ticket_of(C), b"\0"), "a\nb": cache(ticket_of(A)),
}
M = ["user 22 host/a@R", "unread 185 host/a@R", "name 291 kvno 3 etype 17 Host/a@R",
     "kvno 454 kvno 4 etype 17 has 3 host/a@R", "etype 617 kvno 3 etype 18 has 17 host/a@R",
     "opens 780 kvno 3 etype 17 at 2 host/a@R"]
D, N, OPENED = ["name 22 kvno 3 etype 17 c@R", "fault 4 at 171"], ["fault 4 at 22"], [M[-1].replace("780", "22")]
fault = partial(several_files.fault, kind=4)
match_all = partial(over_files, "ktmatch", files=FILES, status=1)  # a run over a keytab and some caches


def words(*those: str, has: str = "") -> Output:
    """Returns the words of lines, and of an entry of another name."""
    return (*(("", f"{each}: {MATCHES[each]}") for each in those), *[("", f"the keytab has {has}")] * (has != ""))


def none(name: str = "", command: str = "ktmatch") -> tuple[str, str]:
    """Returns the message that no ticket of a cache is looked at, or of any."""
    return f"{name and f'{name}: '}refused 9", code(9, command)


def objects(**those: tuple[int, dict | None, int | None]) -> list[str]:
    """Returns JSON of caches: the status of each, its ticket, and the place of its fault."""
    return [json.dumps({**JSON, "file": name, "tickets": [ticket] if ticket else [], "fault": place and {
        "kind": 4, "place": place}, "status": status}, separators=(",", ":"))
        for name, (status, ticket, place) in those.items()]


# The names of a keytab, and those of tickets with the one that is named: by case or by realm, not by both.
NEAR = keytab(*(Entry(it.components, it.realm) for it in map(name_of, ("host/a@R", "host/A@r", "é@S", "b@"))))
NAMED = {"HOST/A@R": "host/a@R", "host/A@R": "host/a@R", "c@R host/a@S": "host/a@R", "host/A@S": "host/A@r",
         "é@R B@": "é@S", "HOST/a@S É@S": "", "host@R b/a@R a/host@R": ""}

ALL = words(*MATCHES, has="host/a@R")
O_OBJECT = ticket_object(22, "host/a@R", (3, 17), "opens", keytab_place=2)
D_OBJECT = ticket_object(22, "c@R", (3, 17), "name")
NO_CACHE, NOT_ASKED = no_keytab(BEGINS_AS_NO_CACHE, "x", "cache"), "ktmatch Fl p"

THEOREMS = [
    *(match("", TWO, judged(*each)) for each in (
        (3, 17, "opens at 2"), (4, 17, "kvno has 3"), (3, 18, "etype has 17"), (259, 17, "opens at 2"))),
    *(match("", image, *(judged(*numbers, verdict) for numbers, verdict in those.items())) for image, those in JUDGED),
    match("", TWO, *OWN), *SEEN,
    *(Case("JSON", ("ktmatch", "--json", "k", "c"), printed(line, status=1), {"k": image, "c": tickets})
      for line, image, tickets in (
          (json.dumps(JSON, separators=(",", ":")), kept(*((3, etype) for etype in (*EIGHT, 9))), IN_JSON),
          (re.search(r'^{"keytab".*', FORMATS, re.MULTILINE)[0], TWO, cache(ticket_of(A, 17, 4))))),
    match_all("k m", M, *ALL), match_all("-q k m", M[1:-1], *ALL[1:]),
    match_all("k d", D, *words("name"), *fault("d", 171)),
    # No ticket is looked at, of one cache and of all that can be.
    match_all("k e", [], none("e")), match_all("-p c@R k o", [], none("o", NOT_ASKED)),
    match_all("--match c@* k o", [], none("o", NOT_ASKED)),
    match_all("k n", N, *fault("n", 22), none("n")), match_all("k e e", [], none()),
    match_all("-p c@R k no o", [], MISSING, none(command=NOT_ASKED)), match_all("k no x", [], MISSING, NO_CACHE),
    match_all("k e n x", labelled(n=N), *fault("n", 22), NO_CACHE, none()),
    match_all("k e o e", labelled(o=OPENED), status=0), match_all("k n o", labelled(n=N, o=OPENED), *fault("n", 22)),
    match_all("--json k e", objects(e=(1, None, None)), none("e")),
    match_all("--json k n", objects(n=(1, None, 22)), *fault("n", 22), none("n")),
    match_all("--json k e o no", [*objects(e=(0, None, None), o=(0, O_OBJECT, None)),
                                  unchecked("no", "no such file", 1).decode()[:-1]], MISSING),
    match_all("--json -q k o e d", objects(d=(1, D_OBJECT, 171)), *words("name"), *fault("d", 171)),
]

CASES = [
    *THEOREMS,
    # The keytab comes first, with all that is wrong with it.
    *(Case(f"no sound keytab: {what}", ("ktmatch", *options, "k", "c"), message(1, f"k: {what}"), files)
      for what, files in (("no such file", {}), *((what, {"k": image}) for image, what in UNSOUND.items()))
      for options in ((), ("--json",))),
    *(match_all("k c", None, *words("name", has=has), files={
        "k": NEAR, "c": cache(*map(ticket_of, map(name_of, names.split())))}) for names, has in NAMED.items()),
    # Each line has the name of its cache; words once a run, at the first cache with such a line.
    match_all(("k", "FILE:o", "DIR::./o", "a\nb"), labelled(**{"o": OPENED, "./o": OPENED, r"a\x0ab": OPENED}),
              status=0),
    match_all("-H k o", labelled(o=OPENED), status=0), match_all("-q k o e", [], status=0),
    match_all("k m o d m", labelled(m=M, o=OPENED, d=D) + labelled(m=M), *ALL, *fault("d", 171)),
    match_all("k d . KCM:k m", labelled(d=D, m=M), *words("name"), *fault("d", 171), UNREAD, OTHER,
              *words("user", "unread", "kvno", "etype", has="host/a@R"), status=3),
    # What is no cache; and no keytab, beside which nothing is read.
    match_all("k k", [], no_keytab(MATCHED_AS_KEYTAB, "k", "cache")),
    match_all("x no", [], no_keytab(BEGINS_AS_NO_KEYTAB, "x")),
    match_all("d no", [], ("d: refused 1", code(1)), files={"d": TWO[:-1]}),
    # An output that takes nothing ends the run with the first cache that would print something.
    *(match_all(line, [], *lines, status=3, options=FULL) for line, lines in (
        ("k no o x", (MISSING, FAILED)), ("-q k o e m no", (FAILED,)), ("--json k no", (FAILED,)))),
]
