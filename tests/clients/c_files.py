"""Edits of files from C and from Go, whatever the caller does with its children and its signals: what they return, and
the files then. By scripts in place of the program, which end in each way, and by the program."""

import errno
import os
import re
import shutil
import signal
from functools import partial
from itertools import product

from clients.c_library import SANITIZED, build, lack
from clients.python_ends import FRAME
from makers.images import BIG, HOST, TWO, USUAL, B, Entry, hole, keytab, old
from makers.samples import SAMPLES
from pages.documents import read
from pages.readme import installed
from runs.harness import TOP, Outcome, Report, differences, every, folder_of, run, text
from runs.system_calls import Preloaded
from runs.undisturbed import preload_library, undisturbed
from system.saving import as_another, owned, tree_faults

REAPING = ("handler", "ignored", "thread")  # the ways of a caller to take the program's status away
WAYS = (*REAPING, "default", "blocked", "closed")
SAVES = 100  # by each of those that take it away

# What such a script does first, its last line, and where an edit ends, with its status. The first has no signal ignored
# or blocked, and three descriptors; the second has the largest image.
CLEAN = r"while read -r name mask; do case $name$mask in Sig[BI]??:*[08]0000000) ;; Sig[BI]*) exit; esac; done " \
        r"</proc/$$/status; set -- /proc/$$/fd/[3-9]; for it; do test -e $it && exit; done; " \
        rf"test -e /proc/$$/fd/2 || exit; {FRAME}"
LARGEST = r"printf '16777216\n'; head -c 16777216 /dev/zero; test $(wc -c) = 16777225 || exit"
NAMES = {*re.findall('"(E[A-Z]+)"', read("crates/krb_files/src/cause.rt")), "ENOMEM", "EBADMSG"}
ENDS = (
    (CLEAN, r"saved\n", "same 0"), (LARGEST, r"saved\n", "same 0"), (FRAME, r"left\n", "same 0"),
    (FRAME, r"lost\n", "same 61"), (FRAME, r"damaged\n", "same 62"), (FRAME, r"failed 1 31\n", "same 31"),
    *((FRAME, rf"failed 3 {name}\n", f"same {1000 + getattr(errno, name)}") for name in sorted(NAMES)),
    (FRAME, r"failed 9 EODD\n", "same 1005"),
    ("", r"failed 3 EACCES\n", "begin 1013"), ("", r"failed 1 12\n", "begin 12"),
    *((FRAME, line, "same 62") for line in ("", "saved", r"failed 1\n", r"failed 1 0\n", r"2\n", r"%80d\n")),
    *((f"printf '{first}'", "", "begin 1005") for first in ("", "2", r"2\n", r"2x\n\5\2", r"3\n\5\2", r"saved\n")),
    (LARGEST.replace("216", "217"), "", "begin 1005"),
)

# Edits by the program: the way, the change, the file and the options, what is done meanwhile, where they end, and the
# files that are others then.
FILES = {"k": TWO, "c": USUAL, "big": old(HOST, order=BIG), "cut": TWO[:97]}
ADDED = Entry((b"a",), timestamp=0, version8=1, version32=1)
KILL = "read -r it _ </proc/$PPID/task/$PPID/children; kill -KILL $it; until grep -q ') Z' /proc/$it/stat; do :; done"
EDITS = (
    *((f"default same {words}", "", end, {}) for words, end in (
        ("k 1", "same 0"), ("FILE:c 0", "same 0"), ("big 3", "same 0"), ("big 1", "begin 31"), ("cut 1", "begin 31"),
        ("c 1", "begin 12"), ("k 0", "begin 12"), ("none 0", "begin 1002"), ("none 5", "begin 1002"),
        ("no/k 1", "begin 1002"), ("KCM:0 0", "begin 1002"), ("a.krbfile 1", "begin 1022"), ("c 2", "begin 1005"))),
    ("default leave k 1", "", "leave 0", {}), ("default leave k 1", KILL, "leave 1005", {"k.krbfile": b""}),
    ("default cut k 1", "", "cut 31", {}), ("default cut c 0", "", "cut 31", {}),
    ("default fork k 1", "", "fork 0", {}),
    ("default add k 1", r"printf '\5\2' > k", f"add {1000 + errno.ESTALE}", {"k": keytab()}),
    ("default add k 1", KILL, "add 1005", {"k.krbfile": b""}),
    ("blocked add -k 1", "kill -INT 0", "add 0", {"-k": keytab(ADDED)}),
    ("closed add k 5", "", "add 0", {"k": keytab(HOST, B, ADDED)}),
)


def faults_of(words: str, end: str, folder: str, env: dict[str, str], front: tuple[str, ...], count: int = 1,
              **more: object) -> list[str]:
    """Makes edits in a folder by the program in C after those words, and returns what is wrong with what it prints."""
    first, *rest = (*front, *words.replace(" ", f" {count} ", 1).split())
    got = run(first, rest, folder, env={**os.environ, **env}, start_new_session=True, **more)
    return [] if (got.status, got.out) == (0, f"{end}\n".encode() * count) else [f"{got}, not {end}"]


def check_ends(report: Report, program: str, built: str) -> None:
    """Makes an edit with each script, for each way of a caller; and without a program."""
    with folder_of({"p": b'#!/bin/sh\neval "$FIRST"\nprintf "$LINE"\n'}) as folder:
        os.chmod(os.path.join(folder, "p"), 0o755)
        for way, (first, line, end) in product(WAYS, ENDS):
            env = {"KRBFILE": "./p", "FIRST": first, "LINE": line}
            report.check(f"{way}: {first}, {line}", faults_of(f"{way} same k 1", end, folder, env, (built,)))
        env = {"KRBFILE": "", "PATH": "/none"}
        report.check("no program", faults_of("default same k 1", "begin 1002", folder, env, (built,)))


def check_edits(report: Report, program: str, built: str) -> None:
    """Makes the edits by the program; and one in a folder that the caller may not write to, if there is one."""
    env = {"KRBFILE": program}
    for words, deed, end, after in EDITS:
        with folder_of(FILES) as folder:
            faults = faults_of(words, end, folder, {**env, **({"DEED": deed} if deed else {})}, (built,))
            report.check(f"{words}; {deed}", faults + tree_faults({**FILES, **after}, folder))
    if (options := as_another(program)) is None:
        report.skip("edits of files of others", "none but root may start the program")
        return
    with folder_of({"k": TWO}) as folder:
        os.chmod(folder, 0o555)
        os.chmod(os.path.join(folder, "k"), 0o444)
        faults = faults_of("default add k 1", "begin 1013", folder, env, (built,), **options)
        report.check("a folder of others", faults)


def check_saves(report: Report, program: str, built: str, count: int = SAVES) -> None:
    """Makes many saves by each caller that takes the program's status away: each is in the file."""
    entries = [Entry((b"a",), timestamp=0, version8=it & 255, version32=it) for it in range(1, count + 1)]
    for way in REAPING:
        with folder_of({}) as folder:
            faults = faults_of(f"{way} add k 1", "add 0", folder, {"KRBFILE": program}, (built,), count)
            report.check(f"{count} saves, {way}", faults + tree_faults({"k": keytab(*entries)}, folder))


def check_memory(report: Report, program: str, built: str) -> None:
    """Refuses the memory of an edit, looks for keys in what is given back, and makes edits under valgrind."""
    one = undisturbed("default 1 add k 1", k=TWO)
    for setting, end, after in (("REFUSE", "begin 1012", TWO), ("KEYS", "add 0", keytab(HOST, B, ADDED))):
        got = Preloaded(built, preload_library()).run(one, KRBFILE=program, **{setting: 1})
        is_seen = setting == "REFUSE" or got.freed > 0
        is_right = (got.outcome.status, got.outcome.out, got.files) == (0, f"{end}\n".encode(), {"k": after})
        report.check(setting, [] if is_right and is_seen else [f"{got}"])
    if shutil.which("valgrind") is None:
        report.skip("edits.c under valgrind", "valgrind is not there")
        return
    front = ("valgrind", "-q", "--error-exitcode=97", "--leak-check=full", built)
    for words, end in (("default add k 1", "add 0"), ("default cut k 1", "cut 31"), ("default add k 0", "begin 12")):
        with folder_of({"k": TWO}) as folder:
            report.check(f"valgrind: {words}", faults_of(words, end, folder, {"KRBFILE": program}, front))


def check_programs(report: Report, program: str) -> None:
    """Makes the checks by the program in C that edits, which any user may start. The calls are sanitized too."""
    sanitized = (*SANITIZED, f"{TOP}/c/krbfile_files.c")
    with folder_of({}) as folder:
        os.chmod(folder, 0o755)
        for words, checks in ((sanitized, (check_ends, check_edits)), ((), (check_memory, check_saves))):
            built = build(folder, "edits", "-pthread", *words)
            for each in checks:
                each(report, program, built)


# Keytabs that an example takes keys of arcfour-hmac out of: the words before its own, and what the program and then the
# example print. The last two are killed between the length and the bytes, and another has the lock.
MIXED, LARGE = SAMPLES["mixed.keytab"], TWO + hole(bytes(1 << 24))
KILLED = ("strace", "-o", os.devnull, "-e", "trace=sendto", "-e", "inject=sendto:signal=KILL:when=2")
ROWS = ((MIXED, (), "", ""), (MIXED + b"\x7f", (), "k: refused 1", "31"), (LARGE, (), "k: file too large", "1027"),
        (MIXED, KILLED, "input is not whole", ""), (MIXED, ("flock", "k"), "k: cannot write", "1011"))


def check_example(name: str, make: tuple[str, ...], own: tuple[str, ...], rows: tuple, report: Report,
                  program: str) -> None:
    """Builds and runs an example: it keeps the mode, and changes nothing of a keytab that cannot be held."""
    with folder_of({}) as top, installed(program) as env:
        env["KRBFILE"] = ""  # so that it is found on PATH
        got = run(make[0], make[1:], top, env=env)
        report.check(f"building {name}", [f"{got}"] * (got.status != 0))
        for image, front, said, status in rows:
            with folder_of({"k": image}) as folder:
                os.chmod(os.path.join(folder, "k"), 0o640)
                first, *rest = (*front, os.path.join(top, name), "k", *own)
                err = text([f"krbfile: {said}"] * bool(said) + [f"{name}: status {status}"] * bool(status))
                wanted = Outcome(-signal.SIGKILL if front == KILLED else bool(said), err=err)
                faults = differences(wanted, run(first, rest, folder, env=env))
                faults += tree_faults({"k": image if said else keytab(HOST, 41)}, folder)
                faults += [] if owned(os.path.join(folder, "k")).mode == 0o640 else ["another mode"]
            report.check(f"{name}: {front[:1]}, {len(image)} bytes", faults)


def check_long(program: str, _seed: int, count: int) -> Report:
    """Makes more saves by each caller that takes the program's status away."""
    report = Report(topic="c_files")
    with folder_of({}) as folder:
        check_saves(report, program, build(folder, "edits", "-pthread"), count // 20)
    return report


C = partial(check_example, "drop-rc4", ("cc", "-o", "drop-rc4", f"{TOP}/examples/drop-rc4.c", "-lkrbfile"), (), ROWS)
GO = partial(check_example, "drop-enctype", ("go", "build", f"{TOP}/examples/drop-enctype.go"), ("23",), ROWS[:3])
check = every(check_programs, every(C, of="drop-rc4.c", needs=("flock", "strace")),
              every(GO, of="drop-enctype.go", needs=("go",)), of="edits from C", lack=lack)
