"""System calls of a save that fail: the cause that is reported for each error, and what a save goes on without. Those
of saves in place, which fail, or at which a run is killed: the old bytes come back, or a message says otherwise."""

import errno
import os
import re
from collections.abc import Iterator
from functools import partial
from itertools import chain, product

from makers.images import B, HOST, TWO, keytab
from runs.commands import NEW, OLD, SCRIPT, file_of
from runs.harness import EXPLAIN, Case, Outcome, Report, differences, every, folder_of, message, printed, shown
from runs.system_calls import Call, calls_of, traced, under_strace
from runs.undisturbed import IN_PLACE, Undisturbed, in_place, undisturbed
from runs.undisturbed import explained as with_words
from system.failing_system_calls import killed, traced_run
from system.saving import (CUT_OFF, EQUAL, GROUP, LONGER, MIXED, SAVED, SHORTER, UNREAD, UNSAVED, USER, Owned, Place,
                           at, check_over, explained, images, message_of, tree_faults, unsaved, write)
from words.phrases import AFTERMATHS, CAUSES

LOOK, OPEN = "?statx,?newfstatat,?stat,?lstat", "?openat,?open"  # what looks at a path, and opens it, whichever exists


def named(errors: str) -> dict[str, str]:
    """Returns errors with their phrases."""
    return {error: CAUSES[error] for error in errors.split()}


NO_MEMORY = {"ENOMEM": "error 12"}

# Calls, of a path or of any, what the first one fails with, and the phrase of it.
FAILED = {
    (OPEN, "k.krbfile"): named("EACCES ENOENT ENOTDIR EISDIR EROFS ENAMETOOLONG") | {"EPERM": CAUSES["EACCES"]},
    (LOOK, "k"): named("EACCES ENOTDIR ELOOP") | NO_MEMORY, ("flock", ""): named("ENOLCK"),
    ("write", ""): named("EINTR EFBIG ENOSPC EPIPE EDQUOT EIO") | {"EPROTO": "error 71"} | NO_MEMORY,
    ("fchown", ""): {"EIO": CAUSES["owner"]}, ("fchmod", ""): named("EIO"),
    ("fsync", ""): {"EBUSY": "error 16"}, ("rename", ""): named("EBUSY EIO"),
}

MOST_ERRORS = 134  # more than the number of any error of the system
# The rename, and then the sync of the folder.
SYNCED = re.compile(r'^rename.*"d/k\.krbfile".* = 0\nopen.*"d", .* = (\d+)\nfsync\(\1\) += 0$', re.MULTILINE)


def check_synced(report: Report, program: str) -> None:
    """Checks what no failure shows: the folder of a file is synced after the rename, also another than the run's."""
    with folder_of({}) as folder:
        os.mkdir(os.path.join(folder, "d"))
        write(os.path.join(folder, "d", "k"), TWO)
        outcome, trace = traced(program, undisturbed("ktremove -p host/a@R d/k"), folder)
        faults = differences(printed("removed 2 kvno 3 etype 17 host/a@R"), outcome)
        faults += tree_faults({"d": "d", "d/k": keytab(47, B)}, folder)
    faults += [] if SYNCED.search("\n".join(trace)) else ["the folder is not synced"]
    report.check("a file in another folder", faults)


# A run whose calls fail, the options of strace by which they do, what is made before, and how the file is left.
Row = tuple[Case, tuple[str, ...], tuple[Place, ...], Owned | None]


def fails(calls: str, error: str, path: str = "") -> tuple[str, ...]:
    """Returns the options by which calls fail, of a path or of any."""
    return *(("-P", path) if path else ()), "-e", f"inject={calls}:error={error}"


def adds(name: str, wanted: Outcome, *options: str, stale: bytes | None = None) -> Case:
    """Returns a run that adds an entry, beside a stale new file or none, which a save removes."""
    left = {} if stale is None else {"k.krbfile": stale}
    after = {"k": NEW, **dict.fromkeys(left)} if wanted == SAVED else None
    return Case(name, (*options, "ktedit", "k"), wanted, {"k": OLD, **left}, after, SCRIPT)


def causes() -> Iterator[Row]:
    """Yields the cause that is reported for each error."""
    for (calls, path), errors in FAILED.items():
        for error, phrase in errors.items():
            case = adds(f"{calls} of {path} fails with {error}", explained(UNSAVED, phrase), EXPLAIN)
            yield case, fails(calls, f"{error}:when=1", path), (), None


def missing() -> Iterator[Row]:
    """Yields each error of an opening: only ENOENT means that there is no file. EINTR is tried again."""
    for error in {*range(1, MOST_ERRORS)} - {errno.EINTR}:
        wanted = message(1, "k: no such file") if error == errno.ENOENT else UNREAD
        yield Case(f"error {error}", ("klist", "-k", "k"), wanted, {"k": OLD}), fails(OPEN, str(error), "k"), (), None


def owners() -> Iterator[Row]:
    """Yields errors of fchown: an owner who may not be set narrows the mode, and any other one refuses the save."""
    narrow = ("EPERM", "EACCES", "ENOSYS", "EOPNOTSUPP", "EINVAL")
    me = os.geteuid()
    old = Owned(0o644, USER, GROUP) if me == 0 else Owned(0o644, me, os.getegid())
    for error, when in product((*narrow, "EIO", "EDQUOT", "ENOSPC", "EROFS", "EINTR"), ("", ":when=1")):
        new = Owned(0o644 if when else 0o604, 0, GROUP if when else 0) if error in narrow and me == 0 else old
        yield (adds(f"no owner can be given: {error}{when}", SAVED if error in narrow else UNSAVED),
               fails("fchown", f"{error}{when}"), (at("k", old.give),), new)


def locks() -> Iterator[Row]:
    """Yields saves without locks: the run that made the new file may save, and a stale one stays."""
    for error, stale in product(("EOPNOTSUPP", "ENOSYS", "ENOLCK", "EIO"), (None, b"left")):
        is_saved = error in ("EOPNOTSUPP", "ENOSYS") and stale is None
        yield (adds(f"no lock can be taken: {error}, beside {stale}", SAVED if is_saved else UNSAVED, stale=stale),
               fails("flock", error), (), None)


def without_proc() -> Iterator[Row]:
    """Yields saves without /proc, which then accept a stale file of the file's own owner only."""
    me = os.geteuid()
    rows = (("/proc/locks", None, me, SAVED), ("/proc/self", b"left", me, SAVED),
            ("/proc/self", b"left", USER, UNSAVED))
    for path, stale, owner, wanted in rows if me == 0 else rows[:-1]:
        yield (adds(f"{path} cannot be reached, the file is of {owner}", wanted, stale=stale),
               fails(f"{LOOK},{OPEN}", "ENOENT", path), (at("k", partial(os.chown, uid=owner, gid=-1)),), None)


def check_rows(report: Report, program: str) -> None:
    """Checks each of those runs."""
    for case, options, places, left in chain(causes(), missing(), owners(), locks(), without_proc()):
        check_over(report, "strace", under_strace(program, case, *options), *places, left=left)


PLACE = re.compile(r"(?:pwrite64\(\d+, .*, \d+|ftruncate\(\d+), (\d+)\) ")  # from where a call writes, or cuts
CHANGES = ("pwrite64", "ftruncate", "fsync")  # the calls that change a file, whose order is proved
ERRORS_IN_PLACE = ("EIO", "ENOSPC", "EDQUOT")


def run_failing(program: str, case: Undisturbed, *options: str) -> tuple[Outcome, dict[str, bytes], list[Call]]:
    """Makes a run; returns its outcome, the files after it, and its calls that change the file."""
    (outcome, files), trace = traced_run(program, case, *options)
    return outcome, files, [call for call in calls_of(trace, "") if call.name in CHANGES]


def is_written_over(trace: list[str], end: int) -> bool:
    """Returns whether a call of a trace writes over bytes before that end, or cuts them off."""
    return any(int(found[1]) < end for found in map(PLACE.match, trace) if found)


def check_unsaved(report: Report, program: str, case: Undisturbed, calls: list[Call], error: str) -> list[Call]:
    """Lets the last of the calls that change the file fail, and returns the calls that bring the old bytes back."""
    call, is_over = calls[-1], is_written_over([each.line for each in calls], len(images(case)[0]))
    words = [CAUSES[error], *([AFTERMATHS["restored"]] if is_over else [])]
    got, files, made = run_failing(program, with_words(case), *call.to(f"error={error}"))
    backs = made[len(calls):]
    faults = differences(explained(unsaved(case), *words), got)
    faults += [] if files == case.files else ["the old bytes are not back"]
    report.check(f"{call} fails with {error}: {case.name}", faults)
    return backs


def both_fail(call: Call, back: Call) -> tuple[str, ...]:
    """Returns the options by which a call fails, and then one that brings the old bytes back."""
    if call.name == back.name:
        return "-e", f"inject={call.name}:error=EIO:when={call.nth}+{back.nth - call.nth}"
    return (*call.to("error=EIO"), *back.to("error=EROFS"))


def check_lost(report: Report, program: str, case: Undisturbed, call: Call, back: Call, left: str) -> None:
    """Lets a call fail, and then one that brings the old bytes back: what that leaves is reported."""
    damage = [message_of(case, "damaged")] if left == "damaged" else []
    phrases = [AFTERMATHS["restored"]] if left == "restored" else damage
    for one, words in ((case, damage), (with_words(case), [CAUSES["EIO"], *phrases])):
        got, files, _ = run_failing(program, one, *both_fail(call, back))
        faults = differences(explained(unsaved(case), *words), got)
        faults += [] if files.keys() == case.files.keys() else [f"{[*files]} are there"]
        faults += [] if damage or files[file_of(case)].startswith(images(case)[0]) else ["an old byte is lost"]
        report.check(f"{call} fails, then {back}: {shown(one.words)}: {case.name}", faults)


def left_behind(backs: list[Call], back: Call, is_over: bool) -> str:
    """Returns what a failing call of those that bring old bytes back leaves: the first two write these, if any do."""
    if backs[0].name != "pwrite64" or back not in backs[:2]:
        return ""
    return "damaged" if is_over or back == backs[1] else "restored"


def check_failures(report: Report, program: str) -> None:
    """Lets each call fail that changes the file, and then also each of those that bring the old bytes back."""
    for case in map(in_place, (LONGER, MIXED, EQUAL, SHORTER, CUT_OFF)):
        outcome, _, calls = run_failing(program, case)
        report.compare(f"no call fails: {case.name}", case.wanted, outcome)
        for nth, call in enumerate(calls):
            backs = [check_unsaved(report, program, case, calls[:nth + 1], error) for error in ERRORS_IN_PLACE][0]
            interrupted, *_ = run_failing(program, case, *call.to("error=EINTR"))
            report.compare(f"{call} is interrupted: {case.name}", case.wanted, interrupted)
            is_over = is_written_over([each.line for each in calls[:nth]], len(images(case)[0]))
            for back in backs:
                check_lost(report, program, case, call, back, left_behind(backs, back, is_over))


def check_talk(report: Report, program: str) -> None:
    """Checks lines of ktutil. One fails to write into a hole: what it left is reported once, and the next saves."""
    files = {"j": keytab(B), "k": keytab(60, HOST)}
    talk = b"rkt j\nwkt k\nwkt k.krbfile\nwkt no\nwkt k\n"
    lines = ("k: cannot write", f"line 2: {CAUSES['EIO']}", f"line 2: {AFTERMATHS['restored']}",
             "k.krbfile: cannot write", f"line 3: {CAUSES['name of saves']}", "no: cannot write",
             f"line 4: {CAUSES['no file']}")
    case = Case("a line of ktutil that fails in place", (EXPLAIN, "ktutil", IN_PLACE), explained(Outcome(3), *lines),
                files, undisturbed("ktutil", b"rkt j\nwkt k\n", **files).files_after, talk)
    check_over(report, "strace", under_strace(program, case, "-e", "inject=pwrite64:error=EIO:when=1"))


def faults_of_kill(case: Undisturbed, files: dict[str, bytes], trace: list[str]) -> list[str]:
    """Returns the faults of what a killed run left: until it writes over old bytes, these are the front of the file."""
    before, after = images(case)
    left = files.pop(file_of(case))
    is_overwriting = is_written_over(trace, len(before))
    may_be = [{old, new} if is_overwriting else {old} for old, new in zip(before, after)]
    is_mix = len(left) >= len(may_be) and all(byte in those for byte, those in zip(left, may_be))
    is_front = is_overwriting or left.startswith(before)
    return ([] if is_mix and is_front else [f"{left} is left"]) + ([f"{[*files]} are left"] if files else [])


def check_kills(report: Report, program: str) -> None:
    """Kills runs at each call, or at those that change the file: what was not written over is there, and no more."""
    for case in (MIXED, LONGER, SHORTER):
        placed = in_place(case)
        _, trace = traced_run(program, placed)
        for call in calls_of(trace, '"k", O_RDWR'):
            if case == MIXED or call.name in CHANGES:
                report.check(f"killed at {call}: {placed.name}", killed(
                    program, placed, call, partial(faults_of_kill, placed)))


check = every(check_synced, check_rows, check_failures, check_talk, check_kills, of="system calls of saves that fail",
              needs=("strace",))
