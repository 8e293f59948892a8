"""Findings of `ktcheck`, entries that it calls hidden and some that it does not, what it says of modes, objects of
JSON, and what it and `show` say of the keytab of a host in Active Directory. Random checks show the rest."""

import json
import os
from dataclasses import replace

from keytabs.listings import KEY_SIZES
from keytabs.removals import line_of
from makers.images import B, HOST, TWO, Entry, keytab, name_text, record
from runs.harness import Case, Outcome, Report, folder_of, over, printed, run, with_mode

LONG = 32_768  # the smallest length that MIT's reader takes for the end

# Entries at which MIT's programs stop, and some that they list: another topic shows each beside these programs.
ODD = {
    "no components": Entry(()), "no components and an empty realm": Entry((), b""), "an empty component": Entry((b"",)),
    "an empty first component": Entry((b"", b"x")), "an empty middle component": Entry((b"a", b"", b"b")),
    "an empty last component": Entry((b"host", b"")), "an empty realm": Entry((b"a",), b""), "no key": Entry(key=b""),
    "a long key": Entry(key=bytes(LONG)), "the longest key": Entry(key=bytes(65_535)),
    "a long component": Entry((b"x" * LONG,)), "a long second component": Entry((b"a", b"x" * 65_535)),
    "a long realm": Entry((b"a",), b"R" * LONG), "many components": Entry((b"p",) * LONG),
}
EVEN = {
    "a key of a byte": Entry(key=b"x"), "a key almost too long": Entry(key=bytes(LONG - 1)),
    "a component almost too long": Entry((b"x" * (LONG - 1),)),
    "a realm almost too long": Entry((b"a",), b"R" * (LONG - 1)),
    "almost too many components": Entry((b"p",) * (LONG - 1)),
    "odd numbers": Entry(name_type=2**32 - 1, timestamp=2**31, enctype=65_535, version32=0),
}

# Modes, and the status; None where the mode has no line, since no other than the owner may read or write the file.
MODES = {0o600: None, 0o711: None, 0o640: 0, 0o620: 0, 0o604: 1, 0o602: 1}

# A keytab with two holes that has each finding but `empty`, and a fault; and its object, and that of no file.
EACH = keytab(5, replace(HOST, components=(b"\xff\x7f",), enctype=23, timestamp=0), B, B, replace(B, key=b""), 7,
              replace(B, version8=4, version32=4), b"\0")
OBJECTS = """{"file":"k","mode":"4644","entries":5,"free":12,"holes":2,"findings":[{"finding":"mode"},\
{"finding":"weak","place":11,"kvno":3,"etype":23,"principal_hex":"ff7f4052"},\
{"finding":"old","place":57,"kvno":3,"etype":17,"principal":"b@R"},\
{"finding":"same","place":102,"first":57,"kvno":3,"etype":17,"principal":"b@R"},\
{"finding":"old","place":102,"kvno":3,"etype":17,"principal":"b@R"},\
{"finding":"size","place":147,"kvno":3,"etype":17,"principal":"b@R"},\
{"finding":"hidden","place":147,"kvno":3,"etype":17,"principal":"b@R"},\
{"finding":"clash","place":147,"first":57,"kvno":3,"etype":17,"principal":"b@R"},\
{"finding":"old","place":147,"kvno":3,"etype":17,"principal":"b@R"},\
{"finding":"aged","place":187,"kvno":4,"etype":17,"principal":"b@R"},\
{"finding":"nostrong","kvno":3,"principal_hex":"ff7f4052"},\
{"finding":"missing","principal":"\\u007f\\"c\\u0080\\u009f\u00a0@R"},\
{"finding":"unwanted","principal_hex":"ff7f4052"},{"finding":"unwanted","principal":"b@R"}],\
"fault":{"kind":1,"place":232},"status":1}
{"file":"no","error":"no such file","status":1}
"""
PIPED = """{"file":"/dev/stdin","mode":null,"entries":2,"free":0,"holes":0,"findings":[],"fault":{"kind":1,"place":98},\
"status":1}
"""

# Keys as long as their type's, a byte shorter and longer. The last three types have no length.
SIZED = [Entry((b"%d" % size,), enctype=etype, key=bytes(size))
         for etype, due in {**KEY_SIZES, 0: 5, 3: 8, 99: 16}.items() for size in (due - 1, due, due + 1)]


def unchecked(name: str, message: str, status: int) -> bytes:
    """Returns the object of a file that is missing, refused or not read, by the message about it."""
    members = {"file": name, "error": message.removeprefix(f"{name}: "), "status": status}
    return json.dumps(members, ensure_ascii=False, separators=(",", ":")).encode() + b"\n"


def found(name: str, entries: list[Entry], *lines: str) -> Case:
    """Returns a check that has those findings about entries."""
    return over(name, "ktcheck k", keytab(*entries), with_mode(*lines, f"entries {len(entries)} free 0 holes 0"))


# Versions of a name, the old one first. A version of 8 bits begins again: one above 240 is older than one below 128.
VERSIONS = (255, 1), (241, 127), (128, 241), (127, 240)

# Entries of names: versions and types, and what is found about each. A name with another name type is the same.
MIXED = [(replace(B, components=(name,), version8=kvno, version32=kvno, enctype=enctype, **more), words)
         for name, kvno, enctype, words, more in (
    (b"b", 3, 23, "weak", {}), (b"a", 3, 16, "weak", {"key": bytes(24)}), (b"c", 3, 23, "weak old", {}),
    (b"c", 4, 17, "", {}), (b"d", 4, 17, "old", {}), (b"d", 5, 23, "weak", {}), (b"d", 5, 3, "weak", {"key": bytes(8)}),
    (b"e", 3, 23, "weak", {}), (b"e", 3, 17, "", {"name_type": 3}), (b"f", 255, 17, "old", {}),
    (b"f", 1, 23, "weak", {"name_type": 3}), (b"b", 3, 1, "weak", {"name_type": 3, "key": bytes(8)}))]

# A domain's keytab: three versions of six names, each with keys of five types, but one with rc4 keys alone.
REALM = b"AD.TEST"
NAMES = [(b"WEB$",), (b"host", b"WEB"), (b"host", b"web.ad.test"), (b"RestrictedKrbHost", b"WEB"),
         (b"RestrictedKrbHost", b"web.ad.test"), (b"HTTP", b"web.ad.test")]
ALONE = NAMES[-1]  # the name with rc4 keys alone
SIZES = {1: 8, 3: 8, 17: 16, 18: 32, 23: 16}  # the types, and how long their keys are
ENTRIES = [Entry(name, REALM, 1, 0, kvno, enctype, bytes([kvno]) * size, kvno)
           for kvno in (3, 4, 5) for name in NAMES for enctype, size in SIZES.items() if name != ALONE or enctype == 23]

COUNTED = ["nostrong kvno 5 HTTP/web.ad.test@AD.TEST", "entries 78 free 0 holes 0"]
FOUND = [f"{word} {line_of(it, *ENTRIES[:at])}" for at, it in enumerate(ENTRIES)
         for word, is_so in (("weak", it.enctype in (1, 3, 23)), ("old", it.version8 < 5)) if is_so]

HEADING = "k: keytab, 78 keys of 6 principals, 48 weak!, 52 old, 1 principal with weak keys alone!"
KEYS = {kvno: ("1! 3! aes128 aes256 rc4!" + old, "rc4!" + old) for kvno, old in ((5, ""), (4, " old"), (3, " old"))}
TABLE = [f"{kvno}     -      {keys[name == ALONE]:28}  {name_text((*name, REALM)).decode()}"
         for name in NAMES for kvno, keys in KEYS.items()]


def of_host(line: str, *lines: str, status: int) -> Case:
    """Returns a run over that keytab, which only its owner may read."""
    return replace(over(line, f"{line} k", keytab(*ENTRIES), printed(*lines, status=status)), mode=0o100_600)


THEOREMS = [
    Case("objects", ("ktcheck", "--json", "--older=0", "--only", "--want", "\x7f\"c\x80\x9f\xa0@R", "k", "no"),
         Outcome(1, OBJECTS.encode(), b"krbfile: no: no such file\n"), {"k": EACH}, mode=0o104_644),
]

CASES = [
    *THEOREMS, Case("an object", ("ktcheck", "--json", "/dev/stdin"), Outcome(1, PIPED.encode()), stdin=TWO + b"\0"),
    found("keys of each length", SIZED, *(
        f"{word} {line_of(it, *SIZED[:at])}" for at, it in enumerate(SIZED) for word, is_so in (
            ("weak", it.enctype in (3, 16, 23)),
            ("size", KEY_SIZES.get(it.enctype, len(it.key)) != len(it.key))) if is_so),
          *(f"nostrong kvno 3 {size}@R" for size in (23, 24, 25, 7, 8, 9))),
    found("versions that begin again", [
        Entry((b"%d" % at,), version8=it, version32=it) for at, those in enumerate(VERSIONS) for it in those],
        *(f"old {2 + 90 * at} kvno {it} etype 17 {at}@R" for at, (it, _) in enumerate(VERSIONS))),
    over("names that are wanted", "ktcheck --want c@R --want b@R --want c@R k", TWO,
         with_mode("missing c@R", "entries 2 free 0 holes 0")),
    found("the same key", [HOST, HOST], "same 53 2 kvno 3 etype 17 host/a@R"),
    found("another key", [HOST, B, replace(B, key=b"another key here")], "clash 98 53 kvno 3 etype 17 b@R"),
    found("names with weak keys alone", [it for it, _ in MIXED], *(
        f"{word} {line_of(it, *(each for each, _ in MIXED[:at]))}"
        for at, (it, words) in enumerate(MIXED) for word in words.split()),
        *(f"nostrong kvno {name}@R" for name in ("3 b", "3 a", "5 d", "1 f"))),
    # Two names that print alike are two, and one with another name type is the same.
    over("names that are not wanted", r"ktcheck --only --want \c@R --want b@R k",
         keytab(HOST, B, replace(HOST, name_type=3), Entry((b"c",)), Entry(()), Entry((b"",))),
         with_mode("same 98 2 kvno 3 etype 17 host/a@R", "hidden 194 kvno 3 etype 17 @R", "unwanted host/a@R",
                   "unwanted @R", "unwanted @R", "entries 6 free 0 holes 0")),
    # What follows a fault changes nothing.
    over("a damaged file", "ktcheck --only --want c@R --want b@R k",
         keytab(replace(HOST, enctype=23), B, record(bytes(10)), HOST, Entry((b"c",))),
         with_mode("weak 2 kvno 3 etype 23 host/a@R", "nostrong kvno 3 host/a@R", "missing c@R", "unwanted host/a@R",
                   "fault 3 at 98", "entries 2 free 0 holes 0")),
    found("all of an entry", [replace(B, enctype=23), replace(B, enctype=23, key=b""), replace(B, version32=4)],
          *(f"{it} kvno 3 etype 23 b@R" for it in (
              "weak 2", "old 2", "weak 47", "size 47", "hidden 47", "clash 47 2", "old 47"))),
    found("the first with an empty component", [ODD["an empty middle component"], Entry((b"a", b"", b"c")), B],
          "hidden 2 kvno 3 etype 17 a//b@R"),
    of_host("ktcheck", *FOUND, *COUNTED, status=1), of_host("ktcheck -q --allow weak", *COUNTED, status=1),
    of_host("ktcheck -q --allow weak --allow nostrong", status=0),
    of_host("show", HEADING, f"KVNO  ADDED  {'KEYS':28}  PRINCIPAL", *TABLE, status=0),
]


def check(report: Report, program: str) -> None:
    """Checks the mode of a plain file, also through a link."""
    with folder_of({"k": TWO}) as folder:
        path = os.path.join(folder, "k")
        os.symlink("k", os.path.join(folder, "link"))
        for mode, status in MODES.items():
            os.chmod(path, mode)
            lines = [*[f"mode {mode:o}"] * (status is not None), "entries 2 free 0 holes 0"]
            for name in ("k", "link"):
                got = run(program, ("ktcheck", name), folder)
                report.compare(f"mode {mode:o} of {name}", printed(*lines, status=status or 0), got)
            report.compare(f"mode {mode:o} with -q", printed(*lines * (status == 1), status=status or 0),
                           run(program, ("ktcheck", "-q", "k"), folder))
