"""Several files. `ktcheck` over keytabs: each finding, a label on each line, what is explained once, what is left out
or allowed, JSON, and what ends the run; a shell runs the commands of hints. `ktremove` and `ccremove`: what is said of
others, where one is missing, or nothing is asked for; two runs in opposite orders both end, and make each change."""

import os
import re
from collections.abc import Iterable
from concurrent.futures import ThreadPoolExecutor
from dataclasses import replace
from functools import partial

from caches.cache_listings import OVER, TGT, VALID_HOST
from keytabs.removals import FIVE
from makers.images import B, HOST, OFFSET, PA_TYPE, TWO, VERSION_3, cache, hole, keytab
from names.named_files import NEITHER
from pages.readme import installed
from runs.harness import EXPLAIN, Line, Outcome, Report, every, files_in, folder_of, printed, run
from system.saving import link
from words.explaining import FAILED, FULL, Explained, Output, in_the_way, over_files
from words.phrases import BEGINS_AS_NO_KEYTAB, CAUSES, FAULTS, FINDINGS, HINTS, NOT_READ, TO_NAME, code

# Keytabs, for their owner alone, but `all`, which all users may read and has each finding but `empty`.
RC4 = replace(HOST, enctype=23)
FILES = {
    "k": TWO, "o": keytab(HOST, FIVE), "w": keytab(replace(B, enctype=23), B), "d": keytab(HOST, b"\0"), "x": NEITHER,
    "n": keytab(), "z": keytab(b"\0"), "m": keytab(HOST, replace(B, enctype=23)),
    "all": keytab(replace(RC4, key=b""), RC4, replace(RC4, key=b""), FIVE, replace(B, enctype=23)),
    "e": keytab(3, B, hole(b"xyz12")), "FILE:k": keytab(replace(B, enctype=23), B), "a\nb": TWO,
}

SOUND = "entries 2 free 0 holes 0"
WEAK = ["weak 2 kvno 3 etype 23 b@R", SOUND]
ALONE = ["weak 53 kvno 3 etype 23 b@R", "nostrong kvno 3 b@R", SOUND]
OLD = ["old 2 kvno 3 etype 17 host/a@R", SOUND]
BROKEN = ["fault 1 at 53", "entries 1 free 0 holes 0"]
EMPTY = "entries 0 free 0 holes 0"
ALL = ["mode 644", *(f"{word} kvno 3 etype 23 host/a@R" for word in (
    "weak 2", "size 2", "hidden 2", "old 2", "weak 37", "clash 37 2", "old 37", "weak 88", "size 88", "same 88 2",
    "old 88")), "weak 174 kvno 3 etype 23 b@R", "nostrong kvno 3 b@R", "entries 5 free 0 holes 0"]
COUNTED = [line for line in ALL if line[:3] not in ("wea", "old")]
ASKED = [*ALL[:-3], "aged 123 kvno 5 etype 17 host/a@R", ALL[-3], "aged 174 kvno 3 etype 23 b@R", ALL[-2],
         "missing c@R", "unwanted host/a@R", "unwanted b@R", ALL[-1]]
IN_ALL = tuple(each for each in FINDINGS if each != "empty")

NO_KEYTAB, UNREAD = ("x: not a keytab (2)", BEGINS_AS_NO_KEYTAB[1]), (".: cannot read", CAUSES["EISDIR"])
MISSING, OTHER = ("no: no such file", ""), ("KCM:k: no such file", NOT_READ.replace("TYPE", "KCM:"))


def set_modes(folder: str) -> None:
    """Sets the modes of the files."""
    for name in FILES:
        os.chmod(os.path.join(folder, name), 0o644 if name == "all" else 0o600)


check_up = partial(over_files, "ktcheck", files=FILES, setting=set_modes)  # a run over some of the files


def labelled(**those: list[str]) -> list[str]:
    """Returns the lines of several files, each with its label."""
    return [f"{name}: {line}" for name, lines in those.items() for line in lines]


def words(file: str, *findings: str, lacks_strong: bool = False) -> Output:
    """Returns the words of findings, and the hints; no hint removes weak keys from a name that has no others."""
    hints = (hint.replace("ETYPE..", "arcfour-hmac") for finding, hint in HINTS.items()
             if finding in findings and (finding, lacks_strong) != ("weak", True))
    lines = (*(f"{finding}: {FINDINGS[finding]}" for finding in findings), *hints)
    return tuple(("", line.replace("FILE", file)) for line in lines)


def fault(name: str, place: int = 53, kind: int = 1) -> Output:
    """Returns the words of a fault, by default of the damaged keytab, under a name."""
    return (("", f"{name}: fault {kind} at {place}"), ("", FAULTS[kind]))


K = labelled(k=[SOUND])

THEOREMS = [
    # Names without entries, each once, as they print, and a file without an entry.
    check_up("--want c@R --want=b@R --only --want \\c@R --want @R n d k z e", labelled(
        n=["empty", "missing c@R", "missing b@R", "missing @R", EMPTY],
        d=["missing c@R", "missing b@R", "missing @R", "unwanted host/a@R", *BROKEN],
        k=["missing c@R", "missing @R", "unwanted host/a@R", SOUND],
        z=["missing c@R", "missing b@R", "missing @R", "fault 1 at 2", EMPTY],
        e=["missing c@R", "missing @R", "entries 1 free 8 holes 2"]),
        *words("n", "missing", "empty"), *words("d", "unwanted"), *fault("d"), *fault("z", 2), status=1,
        mode=0o100_600),
    # What is allowed has its lines, and only other findings count for the status.
    *(check_up(" ".join(["--older 1 --only --want c@R all", *(f"--allow {it}" for it in FINDINGS if it != counted)]),
               ASKED, *words("all", *IN_ALL, lacks_strong=True), status=int(counted not in ("", "old")), mode=0o100_644)
      for counted in ("", *IN_ALL)),
]

CASES = [
    *THEOREMS,
    # One file has no label; of several each line has one, with the name as it is loaded. A newline makes no line.
    check_up("FILE:k", [SOUND]), check_up("-H FILE:k", K),
    check_up(("FILE:FILE:k", "./k", "a\nb", "no\nk"), labelled(**{"FILE:k": WEAK, "./k": [SOUND], r"a\x0ab": [SOUND]}),
             *words("./FILE:k", "weak"), (r"no\x0ak: no such file", ""), status=1),
    # A file that cannot be checked has its message, and the next goes on; the status is the greatest.
    check_up(". no KCM:k k w", K + labelled(w=WEAK), UNREAD, MISSING, OTHER, *words("w", "weak"), status=3),
    # Words once a run, at the first file that has the finding, in their order; then the fault of that file, of each.
    check_up("w d no w o", labelled(w=WEAK, d=BROKEN) + labelled(w=WEAK, o=OLD),
             *words("w", "weak"), *fault("d"), MISSING, *words("o", "old"), status=1),
    check_up("o all", labelled(o=OLD, all=ALL), *words("o", "old"),
             *words("all", "weak", "hidden", "same", "clash", "mode", "size", "nostrong", lacks_strong=True), status=1),
    # The hint for weak is for the first file with it alone, and for none that lacks other keys, with a line or not.
    check_up("m w", labelled(m=ALONE, w=WEAK), *words("m", "weak", "nostrong", lacks_strong=True), status=1),
    check_up("-q --allow nostrong m w", labelled(m=[ALONE[0], SOUND], w=WEAK), *words("m", "weak", lacks_strong=True),
             status=1),
    # What does not count has no line, nor words; a file without another line has none at all, and no object.
    check_up("-q --allow weak k no e o w", [], MISSING, status=1),
    check_up("-q --allow weak o w all d n", labelled(all=COUNTED, d=BROKEN, n=["empty", EMPTY]),
             *words("all", "hidden", "same", "clash", "mode", "size", "nostrong"), *fault("d"), *words("n", "empty"),
             status=1),
    check_up("-q -H --allow empty --allow missing --want c@R n", []),
    check_up("-q --json --allow weak --want b@R k w o", [
        '{"file":"o","mode":"600","entries":2,"free":0,"holes":0,"findings":[{"finding":"old","place":2,"kvno":3,'
        '"etype":17,"principal":"host/a@R"},{"finding":"missing","principal":"b@R"}],"fault":null,"status":1}'],
             *words("o", "missing"), status=1),
    # An output that takes nothing ends the run with the first file that would print something.
    *(check_up(line, [], *lines, status=status, options=FULL) for line, lines, status in (
        ("no k x", [MISSING, FAILED], 3), ("--json k no", [FAILED], 3), ("--json -q k e o", [], 0),
        ("-q no k . o w x", [MISSING, UNREAD, FAILED], 3))),
]

HINTED = keytab(RC4, B, B, FIVE)  # a keytab of the three findings that have hints
REMOVED = printed("removed 2 kvno 3 etype 23 host/a@R")  # what the hints' commands print
COPIED = printed("copied 2 kvno 3 etype 23 host/a@R", "copied 53 kvno 3 etype 17 b@R",
                 "copied 98 kvno 5 etype 17 host/a@R")

# Words for files.
WORDS = ("./k", "AZaz09_-.:@%+,=", "''a", "$HOME", "`id`", "*", "~", "#k", "-k", "--", "-'", "FILE:FILE:k",
         "FILE:ab:it's", "".join(map(chr, range(32, 127))).replace("/", "").replace("\\", ""))


def check_hints(report: Report, program: str) -> None:
    """Has a shell run the commands of the hints, beside no other file."""
    for word in WORDS:
        with folder_of({re.sub("^(WR)?FILE:", "", word): HINTED}) as folder, installed(program) as env:
            hints = run(program, (EXPLAIN, "ktcheck", "--", word), folder).err.decode()
            commands = re.findall(r"^krbfile: to .*: (krbfile (?s:.+?))\n(?=krbfile: to|\Z)", hints, re.MULTILINE)
            report.check(f"the hints for {word!r}", [] if len(commands) == 3 else [f"{commands}"])
            for command, wanted in zip(commands, (REMOVED, REMOVED, COPIED)):
                report.compare(command, wanted, run("sh", ("-c", command), folder, env=env))


# Keytabs: `o` alone has an old entry. Caches: `c` has an expired ticket and a service's valid one, the others one each.
REMOVED_FROM = {
    "k": TWO, "j": keytab(B), "o": keytab(HOST, FIVE), "d": keytab(HOST, b"\0"), "x": NEITHER, "a\nb": keytab(B),
    "c": cache(OVER, PA_TYPE, VALID_HOST, fields=OFFSET), "t": cache(TGT), "h": cache(VALID_HOST), "v": VERSION_3,
}

# Keytabs and caches once something is removed, and the lines that report it.
GONE = {"k": keytab(HOST, 41), "j": keytab(41), "a\nb": keytab(41), "o": keytab(47, FIVE), "h": cache(), "t": cache(),
        "c": cache(PA_TYPE, VALID_HOST, fields=OFFSET)}
B_K, B_J = "k: removed 53 kvno 3 etype 17 b@R", "j: removed 2 kvno 3 etype 17 b@R"
X_O = "o: removed 2 kvno 3 etype 17 host/a@R"
TGT_C, HOST_C, HOST_H = "c: removed 34 krbtgt/R@R", "c: removed 278 host/a@R", "h: removed 22 host/a@R"

# What is said where nothing is asked for, and of files that cannot be asked.
NO_ENTRY, NO_TICKET = (("refused 9", code(9, command)) for command in ("ktremove", "ccremove"))
DAMAGED, OLD_CACHE = ("d: refused 1", code(1, "ktremove")), ("v: refused 8", code(8, "ccremove"))
UNSAVED = ("k: cannot write", CAUSES["in the way"].replace("NAME", "k"))
# A principal in the place of a file, and a name of another type.
NAMED, OTHER_NAMED = ("host/a@R: no such file", TO_NAME), ("KCM:u@R: no such file", OTHER[1])


def remove(line: str | Line, out: list[str], *output: tuple[str, str], left: dict[str, bytes] | Iterable[str] = (),
           **more) -> Explained:
    """Returns a run over some of the files, its lines and messages, and the files that it changes, as in GONE."""
    changed = left if isinstance(left, dict) else {name: GONE[name] for name in left}
    return over_files("", line, out, *output, files=REMOVED_FROM, after=REMOVED_FROM | changed, **more)


CASES += [
    # In order, with the name as it is loaded. A file in which nothing is asked for is passed over.
    remove(("ktremove", "-e17", "FILE:k", "-pb@R", "--", "o", "WRFILE:./j", "a\nb"),
           [B_K, f"./{B_J}", r"a\x0ab" + B_J[1:]], left=("k", "j", "a\nb")),
    remove("ccremove -p krbtgt/R@R DIR::c h FILE:t", [TGT_C, "t: removed 22 krbtgt/R@R"], left="ct"),
    remove("ccremove --all-services t c h", [HOST_C, HOST_H],
           left={"c": cache(OVER, PA_TYPE, fields=OFFSET), "h": cache()}),
    # A file that is given twice is two runs.
    remove("ktremove --in-place -p b@R k ./k k", [B_K], left="k"), remove("ktremove -n -p b@R k k", [B_K, B_K]),
    # One that cannot be read has its message, and the next goes on; the status is the greatest.
    remove("ktremove -p b@R k . d x j", [B_K, B_J], UNREAD, DAMAGED, NO_KEYTAB, status=3, left="kj"),
    # If one is missing nothing is done, whatever the others are: each that is has its message, in order.
    *(remove(line, [], NAMED, status=1) for line in (
        "ktremove -k old o host/a@R", "ktremove -n -k old o host/a@R", "ktremove -k old host/a@R o",
        "ktremove -e 17 host/a@R",
        "ccremove --all-services c FILE:host/a@R", "ccremove --expired c host/a@R")),
    remove("ktremove -k old o k/a@R", [], ("k/a@R: no such file", TO_NAME), status=1),
    remove(("ktremove", "-pb@R", "no", "k", "KCM:u@R", ".", "", "d", "KCM:k"), [], MISSING, (*OTHER_NAMED, TO_NAME),
           (": no such file", ""), OTHER, status=1),
    replace(remove("ktremove --in-place -p b@R k l", [], ("l: no such file", ""), status=1, setting=link("l", "no")),
            after=None),
    remove("ktremove -p b@R no k j", [], MISSING, status=1, options=FULL),
    # It is said last that nothing is asked for anywhere, unless no file could be asked.
    *(remove(f"ktremove {options}", [], *lines, NO_ENTRY, status=status) for options, lines, status in (
        ("-n -p c@R k k", (), 1), ("-p c@R k d .", (DAMAGED, UNREAD), 3), ("-k old -p c@R k o", (), 1),
        ("-k old -p host/a@R j d", (DAMAGED,), 1))),
    *(remove(f"ccremove {options}", [], *lines, NO_TICKET, status=1) for options, lines in (
        ("-p c@R v c", (OLD_CACHE,)), ("--all-services --expired t v", (OLD_CACHE,)))),
    remove("ktremove -p c@R x d", [], NO_KEYTAB, DAMAGED, status=1),
    # That nothing is old, or has expired, is no failure.
    remove("ktremove -k old o k", [X_O], left="o"), remove("ktremove -k old -p host/a@R k j", []),
    remove("ktremove -k old d k", [], DAMAGED, status=1), remove("ccremove --expired t c h", [TGT_C], left="c"),
    remove("ktremove --keep 1 o k", [X_O], left="o"), remove("ktremove --same --match b@* k o", []),
    remove("ktremove --same --match *@S k o", [], NO_ENTRY, status=1),
    # Nor is it with --none-ok that nothing is asked for anywhere.
    *(remove(f"{command} --none-ok -p c@R {files}", [], *lines, status=len(lines)) for command, files, *lines in (
        ("ktremove", "k j"), ("ktremove -n", "k d", DAMAGED), ("ktremove", "k no", MISSING), ("ccremove", "t c"),
        ("ccremove", "c v", OLD_CACHE))),
    remove("ktremove --none-ok --match b@* o j k", [B_J, B_K], left="kj"),
    # A save that fails leaves the others as they are alone, and something was asked for.
    remove("ktremove -p b@R k j", [B_J], UNSAVED, status=3, left="j", setting=in_the_way),
    remove("ktremove -p host/a@R k j", [], UNSAVED, status=3, setting=in_the_way),
    # An output that takes nothing ends the run with the first file that would print something.
    remove("ktremove -p b@R d k j", [], DAMAGED, FAILED, status=3, left="k", options=FULL),
    remove("ktremove -p c@R k d", [], DAMAGED, NO_ENTRY, status=1, options=FULL),
]

NAMES = [f"f{number}" for number in range(100)]

# The words of each pair, what each file is before them, and after both.
KEYTAB, CACHE = (TWO, keytab(47, 41)), (cache(OVER, VALID_HOST), cache())
PAIRS = ((("ktremove -p b@R", "ktremove -p host/a@R"), KEYTAB),
         (("ktremove --in-place -p b@R", "ktremove -p host/a@R"), KEYTAB),
         (("ktremove --in-place -p b@R", "ktremove --in-place -p host/a@R"), KEYTAB),
         (("ccremove --all-services", "ccremove -p krbtgt/R@R"), CACHE))


def check_pairs(report: Report, program: str) -> None:
    """Makes each pair of runs. Each run reports each file once, in its order."""
    for pair, (before, after) in PAIRS:
        with folder_of(dict.fromkeys(NAMES, before)) as folder, ThreadPoolExecutor(2) as pool:
            orders = NAMES, NAMES[::-1]
            ended = [pool.submit(run, program, (*line.split(), *names), folder) for line, names in zip(pair, orders)]
            found = []
            for names, each in zip(orders, ended):
                got = each.result()
                reported = [line.partition(": removed ")[0] for line in got.out.decode().splitlines()]
                found += [] if got == Outcome(0, got.out) and reported == names else [f"{got}"[:300]]
            left = [name for name, image in files_in(folder).items() if image != after or name not in NAMES]
        report.check(" beside ".join(pair), found + [f"{name} is not as it should be" for name in left])


check = every(check_hints, check_pairs)
