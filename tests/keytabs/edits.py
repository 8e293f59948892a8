"""Scripts of `ktedit`: faulty lines, changes and walks, long lines, large files, and no file. Random scripts show the
rest. And lines of `ktutil`: what they print and save, and their errors, all written by hand."""

from collections.abc import Callable
from dataclasses import replace

from keytabs.file_names import LIMIT
from makers.images import B, END, HOST, TWO, Entry, hole, keytab, old, record
from runs.harness import Case, Outcome, message, over, printed, text

# Lines that add host/a@R and b@R, as HOST and B have them, and c@R.
ADD_HOST = "add 3 17 1700000000 000102030405060708090a0b0c0d0e0f host/a@R"
B_KEY = B.key.hex()
ADD = f"add 3 17 1700000000 {B_KEY}"
ADD_B = f"{ADD} b@R"
ADD_C = "add 3 17 1700000000 202122232425262728292a2b2c2d2e2f c@R"
C = replace(B, components=(b"c",), key=bytes(range(32, 48)))


def by_line(lines: dict[int, list[str]]) -> dict[str, int]:
    """Returns the fault of each line, from the lines of each fault."""
    return {line: fault for fault, those in lines.items() for line in those}


# Lines that are faulty in a script over a keytab and in one over a cache, and their faults.
LINE_FAULTS = by_line({
    1: [" ", " start", "Start", "start\r", "start\t", "put 2"],
    2: ["start ", "start 2", "rewrite 2", "resume", "resume 2 ", "resume  2", "step 0 0", "cut"],
    3: ["resume ", "step x", "step -1", "step +1", "cut 0x2", "cut 00000000002", "resume 4294967296"],
})

# The same of those over a keytab.
FAULTS = LINE_FAULTS | by_line({
    2: ["add", f"add 3 17 0 {B_KEY}"],
    3: [f"add x 17 0 {B_KEY} b@R", f"add  17 0 {B_KEY} b@R", f"add 3 17 4294967296 {B_KEY} b@R"],
    4: [f"add 3 {etype} 0 {B_KEY} b@R" for etype in ("65536", "aes", "weak")],
    5: ["add 3 17 0 00 b@R", "add 3 17 0 - b@R", "add 3 1 0 0 b@R", "add 3 1 0 0x b@R", "add 3 1 0 -- b@R"],
    6: [f"add 3 17 0 {B_KEY} {name}" for name in ("", "b", "b@R@R", "b@R/a", "b@R\\")],
}) | {
    # Of several faults the leftmost counts.
    "add x y z 0 b": 3, "add 3 y z 0 b": 4, "add 3 17 z 0 b": 3, "add 3 17 0 0 b": 5,
}

NUMBERS = (*range(201), 2**32 - 1)
RESUMES = [f"resume {it}" for it in NUMBERS]  # a walk begins at a cell, or at the end

DAMAGED = keytab(HOST, record(bytes(10)), B)  # a bad entry between two good ones
MOST = keytab(Entry((b"",) * 65_535))  # an entry of the most components, all empty


def refused(*replies: str) -> Outcome:
    """Returns replies that report a refusal or a fault, among others."""
    return printed(*replies, status=1)


def gave(walk: int, place: int, end: int, name: str) -> str:
    """Returns the reply to a step of a walk that gives an entry."""
    return f"walk {walk} gave {place} next {end} kvno 3 etype 17 {name}"


def edit(name: str, image: bytes | None, script: bytes | list[str], wanted: Outcome | list[str],
         after: bytes | None = None, line: str = "ktedit k") -> Case:
    """Returns a script over a file, by default of `ktedit`, or over none; see `over`."""
    return over(name, line, image, wanted, after, script)


def begun(*places: int) -> list[str]:
    """Returns the replies to RESUMES over a file whose cells are at these places."""
    return [f"walk {places.index(it)} at {it}" if it in places else "refused 4" for it in NUMBERS]


def faulty_lines(edit: Callable[..., Case], image: bytes, cut: str, faults: dict[str, int]) -> list[Case]:
    """Returns each faulty line after a removal that is not run, the first of two, and one before an empty file."""
    return [
        *(edit(f"faulty line {line!r}", image, [cut, line], message(1, f"line 2: fault {fault}"))
          for line, fault in faults.items()),
        edit("the first of two faulty lines", image, ["# no", "", "start 2", "frob"], message(1, "line 3: fault 2")),
        edit("a faulty line comes before a file that cannot be opened", b"", ["frob"], message(1, "line 1: fault 1")),
    ]


CASES = [
    *faulty_lines(edit, TWO, "cut 2", FAULTS),
    # Other spellings of a line's words, and lines that are skipped.
    edit("comments, empty lines and no last line end", TWO, b"\n# cut 2\n#\n\n\ncut 53", ["gone 53"], keytab(HOST, 41)),
    edit("a name with spaces and odd bytes", None, ADD.encode() + b" x y\xff /\\@\\/\\n\\0\\z@ R\\\\", ["placed 2"],
         keytab(Entry((b"x y\xff ", b"@/\n\0z"), b" R\\", key=B.key))),
    # Additions: to the first hole that is large enough, which keeps its size, to the end, and to an end mark.
    edit("into a hole and at the end", keytab(*(hole(b"\xff" * size) for size in (20, 47, 41))), [ADD_B, ADD_HOST],
         ["placed 26", "placed 122"],
         keytab(hole(b"\xff" * 20), record(B.spelled() + bytes(6)), hole(b"\xff" * 41), HOST)),
    *(edit(f"at an end mark before {size} bytes", keytab(HOST, END, b"\xff" * size), ["start", *["step 0"] * 2, ADD_B],
           ["walk 0 at 2", gave(0, 2, 53, "host/a@R"), "walk 0 end 53", "placed 53"], TWO + END) for size in (20, 50)),
    edit("a version of more than 8 bits", keytab(), [ADD_B.replace(" 3 ", " 300 ", 1)], ["placed 2"],
         keytab(replace(B, version8=44, version32=300))),
    edit("into version 1", old(), [ADD_HOST], ["placed 2"], old(HOST)),
    edit("version 1 becomes 2", old(HOST), ["start", "step 0", "rewrite", "step 0"],
         ["walk 0 at 2", gave(0, 2, 49, "host/a@R"), "rewritten 53", "walk 0 end 53"],
         keytab(replace(HOST, name_type=0))),
    edit("no records to remove", TWO, ["cut 3", "cut 2", "cut 2"], refused("refused 5", "gone 2", "refused 5"),
         keytab(47, B)),
    edit("a damaged keytab", DAMAGED, [*RESUMES, *["step 0"] * 3, "step 1", ADD_B, "cut 2", "rewrite"],
         refused(*begun(2, 53), gave(0, 2, 53, "host/a@R"), *["walk 0 fault 3 at 53"] * 2, "walk 1 fault 3 at 53",
                 *["refused 1"] * 3)),
    edit("nothing to save makes no file", None, ["start"], ["walk 0 at 2"]),
    # A walk goes on in the next run, and also over what comes at its cursor.
    edit("places of walks", TWO, [*RESUMES, "step 2", "step 3", "cut 2"],
         refused(*begun(2, 53, 98), "walk 2 end 98", "refused 6", "gone 2"), keytab(47, B)),
    edit("a walk goes on", keytab(47, B), ["resume 53", "step 0"], ["walk 0 at 53", gave(0, 53, 98, "b@R")]),
    edit("a walk goes on over changes", TWO, ["cut 53", ADD_C, "resume 53", "step 0", "step 0"],
         ["gone 53", "placed 53", "walk 0 at 53", gave(0, 53, 98, "c@R"), "walk 0 end 98"], keytab(HOST, C)),
    # Only walk 1 has yet to pass the place to which something comes.
    edit("the same entry again, behind a walk", TWO,
         ["start", "step 0", "cut 2", ADD_HOST, "step 0", "step 0", "start", "step 1"],
         ["walk 0 at 2", gave(0, 2, 53, "host/a@R"), "gone 2", "placed 2", gave(0, 53, 98, "b@R"), "walk 0 end 98",
          "walk 1 at 2", gave(1, 2, 53, "host/a@R")]),
    edit("walks over changes", TWO,
         ["start", "step 0", "start", "cut 2", ADD_C, "step 1", "step 0", "step 0", ADD_HOST, "step 0"],
         ["walk 0 at 2", gave(0, 2, 53, "host/a@R"), "walk 1 at 2", "gone 2", "placed 2", gave(1, 2, 53, "c@R"),
          gave(0, 53, 98, "b@R"), "walk 0 end 98", "placed 98", gave(0, 98, 149, "host/a@R")],
         keytab(record(C.spelled() + bytes(6)), B, HOST)),
    edit("walks over a rewrite", TWO + END + b"\1",
         ["start", "step 0", "start", "cut 2", "rewrite", "step 0", "step 1"],
         ["walk 0 at 2", gave(0, 2, 53, "host/a@R"), "walk 1 at 2", "gone 2", "rewritten 47", gave(0, 2, 47, "b@R"),
          gave(1, 2, 47, "b@R")], keytab(B)),
    edit("too long a component, too long a key, too many components", TWO,
         [f"add 3 17 0 {B_KEY} {'x' * 65_536}@R", f"add 3 1 0 {'00' * 65_536} b@R", f"add 3 1 0 - {'/' * 65_535}@R"],
         refused(*["refused 2"] * 3)),
    lambda: edit("the greatest script", TWO, b"start\n#" + b"x" * (LIMIT - 7), ["walk 0 at 2"]),
    lambda: edit("too large a script", TWO, b"cut 2\n" + b"\n" * (LIMIT - 5), message(1, "input too large")),
    # Looking up each component from the first would pass 2,147,385,345 of them.
    edit("the most components", MOST, ["rewrite"], [f"rewritten {len(MOST)}"]),
    # A keytab of the greatest size takes an entry only in place of another.
    lambda: edit("the file is full", keytab(HOST, record(B.spelled().ljust(LIMIT - 57, b"\0"))),
                 [ADD_B, "cut 2", ADD_B], refused("refused 3", "gone 2", "placed 2"),
                 keytab(record(B.spelled() + bytes(6)), record(B.spelled().ljust(LIMIT - 57, b"\0")))),
    over("no folder", "ktedit no/k", None, message(3, "no/k: cannot write"), given=[ADD_B]),
]

KEY = "000102030405060708090a0b0c0d0e0f"
ADDENT = "addent -key -p host/a@R -k 3 -e aes128-cts-hmac-sha1-96"

HEADING = ["slot KVNO Principal", "---- ---- ---------"]
TIMES = ["slot KVNO Timestamp            Principal", "---- ---- -------------------- ---------"]
NO_SLOTS = text(HEADING)
TWO_LISTED = [*HEADING, "   1    3 host/a@R", "   2    3 b@R"]
ETYPE = " (aes128-cts-hmac-sha1-96)"


def lines(name: str, given: list[str] | bytes, printed: list[str], *output: str, files: dict[str, bytes] | None = None,
          after: dict[str, bytes] | None = None, status: int | None = None) -> Case:
    """Returns a run over an input, its output and messages, and the files that it adds or changes."""
    wanted = Outcome(int(bool(output)) if status is None else status, text(printed),
                     text(f"krbfile: {one}" for one in output))
    before = files or {}
    return Case(name, ("ktutil",), wanted, before, before | (after or {}),
                given if isinstance(given, bytes) else text(given))


PASSWORD = "addent -password -p a@R -k 1 -e 17"
PASSWORDS = by_line({
    2: [PASSWORD, "add_entry -key -p b@R -k 3 -e 17 -password", "addent -password", "addent x -password"],
    3: ["addent -key -p b@R -k -password -e 17"],
})

# Lines that are faulty over a list of two entries, and their faults.
KTUTIL_FAULTS = by_line({
    1: ["frob", "L", "l\r", "\\l", "list_requests", "?", "ktutil:"],
    2: [*"l -x, l -t -t, l -te, l k, clear 1, q now, rkt, wkt k k, delent 1 2, addent, l -password".split(", "),
        *(f"addent {words}" for words in (
            "-Password -p b@R -k 3 -e 17", "-p b@R -k 3 -e 17", "-key -p b@R -k 3", "-key -p b@R -k 3 -e",
            "-key -key -p b@R -k 3 -e 17", "-key -p b@R -k 3 -k 3 -e 17", "-key -p b c@R -k 3 -e 17"))],
    3: ["addent -key -p b@R -k x -e 17", "addent -key -p b -k 4294967296 -e x", "delent x", "delent 00000000001"],
    4: [f"addent -key -p {words}" for words in ("b -k 3 -e x", "b@R -k 3 -e 65536", "b@R -k 3 -e weak")],
    6: ["addent -key -p b -k 3 -e 17", "addent -key -k 3 -e 17 -p b@R\\"],
    7: ["delent 0", "delent 3", "delent 4294967295"],
}) | PASSWORDS

# Key lines that are refused for an entry of enctype 17.
NO_KEYS = "", " \t", "-", "0" * 30, "0" * 34, "0" * 31, "0x" + "0" * 30, "0" * 30 + "0g", KEY + " 0", "q", "l"
FILES = {"k": TWO}

CASES += [
    lines("all columns", ["read_kt k", "list -k -e -t"],
          [*TIMES, f"   1    3 2023-11-14T22:13:20Z host/a@R{ETYPE} (0x{KEY})",
           f"   2    3 2023-11-14T22:13:20Z b@R{ETYPE} (0x{B_KEY})"], files=FILES),
    lines("a file twice", ["rkt k", "rkt k", "delent 1", "delete_entry 3", "l"],
          [*HEADING, "   1    3 b@R", "   2    3 host/a@R"], files=FILES),
    lines("numbers wider than their columns", ["rkt k", "l"],
          [*HEADING, *(f"{slot:4} 10000 a@R" for slot in range(1, 10_001))],
          files={"k": keytab(*[Entry((b"a",), key=b"", version32=10_000)] * 10_000)}),
    *(lines(f"an end by {word}", ["l", word, "l", "frob"], HEADING) for word in ("quit", "exit", " q ")),
    # Each faulty line between two others, which are handled; the line after one with a password is that.
    *(lines(f"faulty line {line!r}", ["rkt k", line, *["quit"] * (line in PASSWORDS), "l"], TWO_LISTED,
            f"line 2: fault {fault}", files=FILES) for line, fault in KTUTIL_FAULTS.items()),
    *(lines(f"password {line!r}", ["rkt k", PASSWORD, line, "l"], TWO_LISTED, "line 2: fault 2", files=FILES)
      for line in ("", " \t", "clear", PASSWORD, ADDENT, KEY)),
    lines("a password of any bytes", f"{PASSWORD}\n\xff\0\r\nl\n".encode("latin-1"), HEADING, "line 1: fault 2"),
    lines("a key line is no command", [ADDENT, PASSWORD, "l"], HEADING, "line 2: fault 5"),
    *(lines(f"key line {line[:40]!r}", ["rkt k", ADDENT, line, "l"], TWO_LISTED, "line 3: fault 5", files=FILES)
      for line in NO_KEYS),
    lines("lines that are passed over count", ["", " ", "frob", "", "l 1"], [], "line 3: fault 1", "line 5: fault 2"),
    lines("after too long a name nothing is saved",
          [ADDENT, KEY, f"addent -key -p {'x' * 65_536}@R -k 3 -e 17", KEY, "wkt k"], [], "line 5: refused 2"),
    lines("messages in the order of the lines", ["frob", "rkt a\\b", "delent 1", "rkt .", "rkt d", "l"], HEADING,
          "line 1: fault 1", "a\\b: no such file", "line 3: fault 7", ".: cannot read", "line 5: refused 1",
          files={"d": DAMAGED}, status=3),
    lines("to no keytab", ["rkt j", "wkt k"], [], "k: not a keytab (2)", files={"k": b"\x05\x03", "j": TWO}),
    lines("no folder", ["rkt k", "wkt d/k", "l"], TWO_LISTED, "d/k: cannot write", files=FILES, status=3),
    # An input that is too large: the lines within the limit are handled.
    lambda: lines("too large an input", b"l\n#" + b"x" * (LIMIT - 3) + b"x\n", HEADING, "input too large"),
    lambda: lines("an end before the limit", b"l\nq\n" + bytes(LIMIT), HEADING),
]
