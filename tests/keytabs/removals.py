"""Removals by `ktremove`, look-ups by `ktfind`, and what copies have in common with them: entries, the lines that
report them, and refusals. And `--match`: which names fit a pattern, in each command that has it. What words select in
random keytabs random removals show; of random patterns regular expressions decide."""

import re
from dataclasses import replace
from functools import partial
from itertools import accumulate
from random import Random

from keytabs import greatest
from makers.images import B, HOST, Entry, Name, cache, keytab, name_text, ticket_of
from runs.harness import Case, Outcome, Report, message, over, printed, words_of

NOT_FOUND = message(1, "k: refused 9")
DAMAGED = message(1, "k: refused 1")

AES256 = Entry(version8=5, version32=5, enctype=18, key=bytes(32))
FIVE = Entry(version8=5, version32=5)
B3 = Entry((b"b",))
THOSE = HOST, AES256, FIVE, B3  # host/a@R at 2, 53 and 120, versions 3, 5 and 5 of enctypes 17, 18 and 17; b@R at 171
FOUR = keytab(*THOSE)
X = "removed 2 kvno 3 etype 17 host/a@R"


def line_of(entry: Entry, *before: Entry) -> str:
    """Returns the place of an entry after those, and the entry, as a line of output has them."""
    name = name_text((*entry.components, entry.realm)).decode()
    return f"{len(keytab(*before))} kvno {entry.version32} etype {entry.enctype} {name}"


def versioned(kvno: int, seconds: int) -> Entry:
    """Returns an entry of a@R."""
    return Entry((b"a",), timestamp=seconds, version8=kvno % 256, version32=kvno)


def remove(name: str, words: str, those: tuple[Entry, ...], *gone: int) -> Case:
    """Returns a run with these words over a keytab of some entries; those of these numbers become holes."""
    after = keytab(*(len(it.spelled()) if at in gone else it for at, it in enumerate(those)))
    return over(name, f"ktremove {words} k", keytab(*those),
                [f"removed {line_of(those[at], *those[:at])}" for at in gone], after)


def look_up(words: str, wanted: Outcome, image: bytes = FOUR) -> Case:
    """Returns a look-up of what these words say."""
    return Case(f"looked up: {words}", ("ktfind", "k", *words_of(words)), wanted, {"k": image})


SIGNED = B3, Entry((b"=b",))

# Versions of a@R, each newer than the one before, and the second once more; one of b@R.
WRAPPED = versioned(254, 1), B3, versioned(255, 2), versioned(0, 3), versioned(1, 4), versioned(255, 2)
OTHER = replace(HOST, key=b"other")
DOUBLES = HOST, B, OTHER, replace(HOST, timestamp=9), B, OTHER, FIVE, FIVE
TYPES = tuple(Entry(enctype=etype) for etype in (0, 1, 17, 4, 5, 16, 23, 26, 24, 25, 7))

CASES = [
    remove("all old ones", "-k old", THOSE, 0),
    remove("one by the name of its enctype", r"-k 5 -p b@R -e 17 -p \host/a@R -e aes256-cts-hmac-sha1-96", THOSE, 1, 2),
    remove("old and new words", "-kold -phost/a@R -e17", THOSE, 0),
    remove("old for long", "--age 0000086400 -kold", THOSE, 0),
    remove("a value that begins with =", "-p=b@R", SIGNED, 1),
    over("a file of a name like an option", "ktremove -pb@R -- -p=b@R", keytab(B3), ["removed 2 kvno 3 etype 17 b@R"],
         keytab(41)),
    greatest.most_of_one_name, greatest.many_long_names,
    # All but the newest versions, which entries of all types and names make.
    remove("but one", "--keep 1", THOSE, 0), remove("but two", "--keep=0000000002", THOSE),
    remove("but two that wrapped", "--keep 2", WRAPPED, 0, 2, 5), remove("but three", "--keep 3", WRAPPED, 0),
    remove("but all", "--keep 255", WRAPPED), remove("but one, of a type", "--keep 1 -e 17", (HOST, THOSE[1]), 0),
    remove("but one, of another name", "--keep 1 --match b@*", WRAPPED),
    # An age goes by the last version that is kept.
    remove("but two for long", "--keep 2 --age 1d -p a@R", WRAPPED, 0, 2, 5),
    *(remove("but those, one new", f"--keep {keep} --age 1d", tuple(map(versioned, (1, 2, 3), times)), *gone)
      for keep, times, *gone in ((2, (5, 6, 2**32 - 1), 0), (1, (5, 6, 2**32 - 1)), (2, (5, 0, 7)), (3, (5, 6, 7)),
                                 (2, (2**32 - 1, 6, 0), 0), (1, (0, 0, 7), 0, 1))),
    # Keys that are there already, by the first entry that is alike.
    remove("doubles", "--same", DOUBLES, 3, 4, 7), remove("doubles of a name", "--same -p b@R", DOUBLES, 4),
    remove("old doubles", "--same -k old", DOUBLES, 3), remove("for long", "--keep 1 --same --age 1", DOUBLES, 3),
    remove("doubles of a version", "-k 5 --same", DOUBLES, 7), remove("other keys", "--same", (HOST, OTHER, OTHER)),
    remove("weak types", "-e weak", TYPES, 1, 3, 5, 6, 8),
    remove("and another", "-e WEAK -e 26 -e Weak", TYPES, 1, 3, 5, 6, 7, 8),
    # Nothing is left to be removed, which is no failure if the other words ask for something; and nothing is there.
    *(over(f"nothing by {words}", f"ktremove {words} k", FOUR, wanted) for wanted, those in (
        ([], ("--keep 1 -p b@R", "--same -e 18 -k 5", "--same -k old --match b@*", "--keep 2 --same", "-k 3 --same",
              "--keep 1 --same -p b@R -e 17", "--none-ok -p c@R", "--none-ok -k 9 -e weak", "--none-ok --same -e 1")),
        (NOT_FOUND, ("--keep 1 -p c@R", "--same -e 23", "--same -k 9", "-k old --same --match c@*", "-e weak",
                     "--keep 1 -p b@R -e 18"))) for words in those),
    # What is not there or damaged is reported all the same.
    over("no file", "ktremove --none-ok -p c@R k", None, message(1, "k: no such file")),
    over("a damaged file", "ktremove --none-ok -p c@R k", FOUR + b"\0", DAMAGED),
    over("something is there", "ktremove -n --none-ok -p b@R k", keytab(B), ["removed 2 kvno 3 etype 17 b@R"]),
    # The first of the highest version that is asked for, or code 10 if there are others of the name and the type.
    look_up("0 0 host/a@R", printed(f"found {line_of(AES256, HOST)}")),
    look_up("0 17 host/a@R", printed(f"found {line_of(FIVE, HOST, AES256)}")),
    look_up("3 0 host/a@R", printed(f"found {line_of(HOST)}")), look_up("4 0 host/a@R", message(1, "k: refused 10")),
    look_up("0 23 host/a@R", NOT_FOUND), look_up("0 17 host/a@S", NOT_FOUND),
    look_up("0 0 host/a@R", DAMAGED, FOUR + b"\0"),
]

# Names, each its components followed by its realm.
NAMES = dict(zip("abcdefghijkl", (
    (b"host", b"w", b"R"), (b"host", b"v", b"R"), (b"HTTP", b"w", b"S"), (b"host", b"x", b"w", b"R"),
    (b"host", b"x/w", b"R"), (b"b", b"R"), (b"", b"R"), (b"R",), (b"*", b"R"), (b"host", b"\xff", b"R"),
    (b"host", b"w", b""), (b"aab", b"R")), strict=True))
ENTRIES = {each: Entry(tuple(parts), realm) for each, (*parts, realm) in NAMES.items()}
TICKETS = {each: ticket_of(Name(tuple(parts), realm)) for each, (*parts, realm) in NAMES.items()}
FILES = {"k": keytab(*ENTRIES.values()), "e": keytab(), "c": cache(*TICKETS.values())}

# Words, and the names that they ask for.
ASKED = {
    "--match host/*@R": "abej", "--match b@*": "f", "--match @R": "g", "--match *@R": "fgil", "--match **@*R": "fgil",
    r"--match \*@R": "i", r"--match \\*@R": "", "--match */*@": "k", "--match=*/*/*@R": "d", "--match host/*w@R": "ae",
    r"--match host/x\/*@R": "e", "--match *o*t*/*@*": "abejk", r"--match h\ost/w@R": "a", "--match a*a*b@R": "l",
    "--match *a**b*@R": "l", "--match aab*b@R": "", "--match a*ab*ab@R": "", "--match @": "", "--match *é@R": "",
    "--match */w@S --match b@*": "cf", "-p host/w@R --match */*/w@R": "ad", "-p *@R --match b@*R -p c@R": "fi",
}
EACH = {"--match */w@*": "ack", "--match HOST/*@R": "", "-p @R --match */*@S": "cgh"}  # of each command


def lines(form: bytes, asked: str, *those: tuple[int, dict]) -> bytes:
    """Returns a line for each name that is asked for, with the places of its records, which begin at some place."""
    places = [dict(zip(records, accumulate((len(it.spelled()) + 4 * isinstance(it, Entry) for it in records.values()),
                                           initial=first))) for first, records in those]
    return b"".join(form % tuple(each[name] for each in places) + b" %b\n" % name_text(NAMES[name]) for name in asked)


def cases(words: str, asked: str) -> list[Case]:
    """Returns a run of each command that is asked for those names, of ktremove first."""
    keys, tickets, copied = (2, ENTRIES), (22, TICKETS), (2, {name: ENTRIES[name] for name in asked})
    entry, opens = b" %d kvno 3 etype 17", b"opens %d kvno 3 etype 17 at %d"
    outs = {f"ktremove -n {words} k": lines(b"removed" + entry, asked, keys),
            f"ktcopy -n {words} k t": lines(b"copied" + entry, asked, copied),
            f"ktdiff {words} k e": lines(b"-" + entry, asked, keys),
            f"ccremove -n {words} c": lines(b"removed %d", asked, tickets),
            f"ktmatch {words} k c": lines(opens, asked, tickets, keys)}
    return [Case(line, words_of(line), Outcome(int("diff" in line), out) if asked else
                 message(1, f"{'c' if line[-1] == 'c' else 'k'}: refused 9"), FILES) for line, out in outs.items()]


CASES += [*(cases(*each)[0] for each in ASKED.items()), *(case for each in EACH.items() for case in cases(*each))]

# What parts of random patterns are made of, by how it is spelled: its bytes, or nothing for a star.
TOKENS = {b"*": None, b"a": b"a", b"b": b"b", rb"\*": b"*", rb"\/": b"/", rb"\@": b"@", rb"\\": b"\\", rb"\n": b"\n"}


def fits(pattern: list[list[bytes]], name: tuple[bytes, ...]) -> bool:
    """Returns whether a name fits a pattern."""
    expressions = (b"".join(b".*" if TOKENS[it] is None else re.escape(TOKENS[it]) for it in part) for part in pattern)
    return len(pattern) == len(name) and all(map(partial(re.fullmatch, flags=re.DOTALL), expressions, name))


def random_case(random: Random) -> Case:
    """Returns a removal by up to three patterns from a keytab of names that mostly fit one."""
    patterns = [[random.choices((b"*", b"a", *TOKENS), k=random.randrange(5)) for _ in range(random.choice((2, 2, 3)))]
                for _ in range(random.choice((1, 1, 3)))]
    names = [tuple(b"".join(random.choice((b"", b"a", b"ba", b"*", b"\xff")) if TOKENS[it] is None else TOKENS[it]
                            for it in part if random.random() < 0.95) for part in random.choice(patterns))
             for _ in range(9)]
    spelled = (b"/".join(map(b"".join, parts)) + b"@" + b"".join(realm) for *parts, realm in patterns)
    entries = [Entry(tuple(parts), realm) for *parts, realm in names]
    words = ("ktremove", "-n", *(word for each in spelled for word in ("--match", each)), "k")
    lines = [b"removed %d kvno 3 etype 17 %b\n" % (len(keytab(*entries[:at])), name_text(name))
             for at, name in enumerate(names) if any(fits(each, name) for each in patterns)]
    return Case(f"patterns {words}", words, Outcome(0, b"".join(lines)) if lines else message(1, "k: refused 9"),
                {"k": keytab(*entries)})


def check(report: Report, program: str) -> None:
    """Runs some with random patterns."""
    for random in map(Random, range(60)):
        random_case(random).check(report, program)
