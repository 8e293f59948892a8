"""The lock of a file that may be changed: who else has it is waited for, and runs that change nothing take none."""

import fcntl
import os
import struct
import threading
import time
from collections.abc import Callable
from concurrent.futures import ThreadPoolExecutor
from dataclasses import replace

from makers.images import TWO
from runs.commands import CHANGES, LEAVES, OLD, READS, SAVING, SCRIPT, Run, both_ways, file_of
from runs.harness import Case, Report, differences, every, faults_of, files_in, folder_of, run
from runs.system_calls import Halt, disk, halted, no_disks, traced, under_strace
from runs.undisturbed import IN_PLACE, Undisturbed, in_place, undisturbed
from system.saving import (ADD, B_OLD, EQUAL, LONGER, PLACED, SAVED, check_over, edit, refused, run_over, state_of,
                           tree_faults, with_words, write)

LEAST_WAIT = 9  # a run that gives up takes so many seconds at least
LONGEST_WAIT = 20  # and so many at most, however busy the machine is
AT_ONCE = 3  # one that needs no hold has ended within so many
RUNS = 8  # how many runs wait at the same time

# Runs that change a file, that have nothing to save, and that take no lock, in both ways if there are two.
BOTH_WAYS, LEAVING, LOCKING_NOTHING = (both_ways(*runs) for runs in (CHANGES, LEAVES, READS))

# Kinds of locks: of a whole file, and record locks. Each run that saves waits for some of these.
FLOCK, TO_READ, TO_WRITE = "a flock", "a lock to read", "a lock to write"
OPEN_READ, OPEN_WRITE, PART = "a lock of an open file to read", "a lock of an open file", "a lock of a part"
LOCKS: dict[str, Callable[[object], None]] = {
    FLOCK: lambda file: fcntl.flock(file, fcntl.LOCK_EX),
    "a shared flock": lambda file: fcntl.flock(file, fcntl.LOCK_SH),
    TO_READ: lambda file: fcntl.lockf(file, fcntl.LOCK_SH), TO_WRITE: lambda file: fcntl.lockf(file, fcntl.LOCK_EX),
    OPEN_READ: lambda file: ofd_lock(file, fcntl.F_RDLCK), OPEN_WRITE: lambda file: ofd_lock(file, fcntl.F_WRLCK),
    PART: lambda file: fcntl.lockf(file, fcntl.LOCK_EX, 1, 9),
}


def ofd_lock(file, kind: int) -> None:
    """Locks a file by an open file description lock, as MIT's programs do."""
    fcntl.fcntl(file, fcntl.F_OFD_SETLK, struct.pack("hhqqixxxx", kind, os.SEEK_SET, 0, 0, 0))


def set_back(folder: str) -> dict[str, tuple[object, ...]]:
    """Sets the times of a folder and of its files back, and returns their state."""
    for path in (folder, *(each.path for each in os.scandir(folder))):
        os.utime(path, (1, 1))
    return state_of(folder)


def faults_of_waiting(program: str, folder: str, end: Callable[[], None], case: Run = ADD) -> list[str]:
    """Returns the faults of a run that has to wait until `end`, which is called after a moment."""
    has_ended = threading.Event()
    timer = threading.Timer(0.3, lambda: (has_ended.set(), end()))
    timer.start()
    faults = differences(case.wanted, run_over(program, case, folder))
    faults += [] if has_ended.is_set() else ["it did not wait"]
    timer.join()
    return faults + tree_faults(case.files_after, folder)


def waited_for(program: str, case: Run, lock: str, name: str) -> list[str]:
    """Returns the faults of a run that has to wait for a lock of its file, or of its new one."""
    with folder_of({name: b"held", **case.files}) as folder, open(os.path.join(folder, name), "r+b") as file:
        before = set_back(folder)
        LOCKS[lock](file)
        faults = faults_of_waiting(program, folder, file.close, case)
        is_written = case.files_after == case.files and state_of(folder) != before
        return faults + (["a file was written"] if is_written else [])


def check_waits(report: Report, program: str) -> None:
    """Checks that each run that may change a file waits for another program's lock of it, and of its new file."""
    rows = [(case, FLOCK, file_of(case)) for case in (*BOTH_WAYS, *LEAVING)]
    rows += [(in_place(EQUAL), lock, "k") for lock in LOCKS] + [(EQUAL, "a shared flock", "k")]
    rows += [(case, lock, file_of(case)) for case in CHANGES for lock in (TO_WRITE, OPEN_WRITE, PART)]
    rows += [(case, FLOCK, f"{file_of(case)}.krbfile") for case in CHANGES]
    with ThreadPoolExecutor(RUNS) as pool:
        for (case, lock, name), faults in zip(rows, pool.map(lambda row: waited_for(program, *row), rows)):
            report.check(f"{lock} of {name} is waited for: {case.name}", faults)


def ended_beside(program: str, case: Run, lock: str, file: str) -> tuple[list[str], float]:
    """Returns the faults of a run while another program has a lock of a file, and how long it took."""
    with folder_of(case.files) as folder, open(os.path.join(folder, file), "r+b") as locked:
        before = set_back(folder)
        LOCKS[lock](locked)
        begun = time.monotonic()
        got = run(program, case.words, folder, case.stdin)
        seconds, faults = time.monotonic() - begun, faults_of(case, got, files_in(folder))
        is_changed = case in LOCKING_NOTHING and (os.stat(folder).st_mtime != 1 or state_of(folder) != before)
        return faults + (["the folder, or a file, was changed"] if is_changed else []), seconds


def beside(case: Undisturbed, name: str = "") -> tuple[Case, str]:
    """Returns a run beside another file, which it leaves, and that file's name: by default that of the new file."""
    name = name or f"{file_of(case)}.krbfile"
    before, after = ({**files, name: b"held"} for files in (case.files, case.files_after))
    return replace(case.as_case(), files=before, files_after=after), name


def check_no_waits(report: Report, program: str) -> None:
    """Checks that runs that change nothing wait for no lock and make no file, nor replacing ones for one to read."""
    rows = [(case, file, lock) for case in LOCKING_NOTHING for lock in (FLOCK, TO_WRITE) for file in case.files]
    rows += [(case, file_of(case), lock) for case in PLACED for lock in (TO_READ, OPEN_READ)]
    # What a run only reads is not locked.
    sources = [(case, file) for case in BOTH_WAYS for file in case.files if file != file_of(case)]
    rows += [(case, file, lock) for case, file in sources for lock in (FLOCK, TO_WRITE)]
    rows += [(*beside(case, f"{file}.krbfile"), FLOCK) for case, file in sources]
    rows += [(*beside(case), FLOCK) for case in READS if case.words[0] in SAVING]
    for case, file, lock in rows:
        faults, seconds = ended_beside(program, case, lock, file)
        faults += [] if seconds < AT_ONCE else [f"it took {seconds:.1f} seconds"]
        report.check(f"{lock} of {file} is not waited for: {case.name}", faults)


def gives_up(program: str, case: Run, file: str) -> list[str]:
    """Returns the faults of a run while another program keeps a lock: after ten seconds its save is refused."""
    case = case if case.files_after == case.files else refused(case, "in use")
    faults, seconds = ended_beside(program, case, FLOCK, file)
    return faults + ([] if LEAST_WAIT <= seconds <= LONGEST_WAIT else [f"it took {seconds:.1f} seconds"])


def check_given_up(report: Report, program: str) -> None:
    """Checks that a lock of the file that stays, or of its new file, is waited for some ten seconds."""
    rows = [(case, file_of(case)) for case in (*BOTH_WAYS, *LEAVING[:2])]
    rows += map(beside, (*CHANGES, *LEAVES))
    with ThreadPoolExecutor(len(rows)) as pool:
        for (case, file), faults in zip(rows, pool.map(lambda row: gives_up(program, *row), rows)):
            report.check(f"a flock of {file} that stays: {case.name}", faults)


def check_without(report: Report, program: str) -> None:
    """Checks a file that cannot be locked: it is replaced, and not saved in place."""
    placed = in_place(LONGER)
    rows = [*((LONGER, error, ":when=2+") for error in ("ENOLCK", "EOPNOTSUPP", "EBADF")),
            *((placed, error, "") for error in ("ENOLCK", "EOPNOTSUPP", "EBADF", "EIO"))]
    for case, error, when in rows:
        one = refused(case, "ENOLCK") if case is placed else with_words(case).as_case()
        one = replace(one, name=f"no lock can be had, {error}: {case.name}")
        check_over(report, "strace", under_strace(program, one, "-e", f"inject=flock:error={error}{when}"))


def check_other_handle(report: Report, program: str) -> None:
    """Checks a file that can be locked only by a handle that writes: then that one is."""
    for case, nth in ((LONGER, 2), (in_place(LONGER), 1)):
        with folder_of(case.files) as folder:
            outcome, trace = traced(program, case, folder, "-e", f"inject=flock:error=EBADF:when={nth}")
            faults = differences(case.wanted, outcome) + tree_faults(case.files_after, folder)
        opened = [number for number, each in enumerate(trace) if '"k", O_RDWR' in each]
        after = trace[opened[-1] + 1] if opened else ""
        faults += [] if after.startswith("flock(") and after.endswith("= 0") else [f"no lock, but {after}"]
        report.check(f"a handle that reads cannot be locked: {case.name}", faults)


def is_locked(path: str) -> bool:
    """Whether a program has the lock of a file."""
    with open(path, "rb") as file:
        try:
            fcntl.flock(file, fcntl.LOCK_EX | fcntl.LOCK_NB)
        except BlockingIOError:
            return True
    return False


# Runs whose save, or load, has ended when they print: a script, one that changes nothing, and what is refused.
TALK = undisturbed("ktutil", b"rkt j\nwkt k\nwkt x\nl\n", j=B_OLD, k=OLD, x=b"other", name="saves, and is refused")
PRINTING = (ADD, undisturbed("ktedit k", b"cut 3\n", k=OLD), undisturbed("ktedit k", SCRIPT, k=b"other"), TALK,
            *(replace(TALK, files={**TALK.files, "k": image}) for image in (b"other", TWO[:-1])))


def check_printing(report: Report, program: str) -> None:
    """Checks that no file is locked any more once a run prints, which may take as long as nobody reads that."""
    for case in both_ways(*PRINTING):
        # The new bytes of a file that is replaced are the first write.
        writes = case.files != case.files_after and IN_PLACE not in case.words
        for nth in range(1, 3 if "ktutil" in case.words else 2):
            found: list[str] = []
            with folder_of(case.files) as folder:
                got = halted(program, case, folder, Halt("write", nth + writes), lambda folder, found=found: (
                    found.extend(f"{each.name} is locked" for each in os.scandir(folder) if is_locked(each.path))))
                found += differences(case.wanted, got) + tree_faults(case.files_after, folder)
            report.check(f"write {nth} without a lock: {case.name}", found)


def check_other_disk(report: Report, program: str) -> None:
    """Checks that a lock counts only on the file's own disk, not on a file of the same number elsewhere."""
    with disk() as here, disk() as there:
        for where, what in ((there, "a file of the same number elsewhere"), (here, "the file")):
            write(os.path.join(here, "k"), OLD)
            write(os.path.join(where, "k"), OLD)
            number = os.stat(os.path.join(here, "k")).st_ino
            with open(os.path.join(where, "k"), "r+b") as file:
                faults = [] if os.fstat(file.fileno()).st_ino == number else ["another number"]
                ofd_lock(file, fcntl.F_WRLCK)
                if where == here:
                    faults += faults_of_waiting(program, here, file.close)
                else:
                    faults += differences(SAVED, edit(program, here))
            report.check(f"a lock of {what} on a disk in memory", faults)


check = every(check_waits, check_no_waits, check_given_up,
              every(check_other_disk, of="locks on two disks", lack=no_disks),
              every(check_without, check_other_handle, check_printing, of="locks of files", needs=("strace",)))
