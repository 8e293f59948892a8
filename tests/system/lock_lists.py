"""Lists of locks that no system shows at will, and waits by a clock that passes at once. Each file has the number 0 on
the device 0:0; that of its mount is 0:38, if that is known."""

import os
from itertools import product

from runs.commands import OLD, SCRIPT, Run
from runs.harness import EXPLAIN, Report, differences, folder_of
from runs.system_calls import Counted, Preloaded, preloaded
from runs.undisturbed import in_place, undisturbed
from system.saving import ADD, EQUAL, UNSAVED, explained
from words.phrases import CAUSES

ADDING = undisturbed(f"{EXPLAIN} ktedit k", SCRIPT, k=OLD)


def lock(file: str, kind: str = "POSIX  ADVISORY  WRITE 12") -> bytes:
    """Returns the line of a lock on the file of that device and number, by default one to write."""
    return f"1: {kind} {file} 0 EOF\n".encode()


LOCK = lock("00:00:0")  # a lock to write on the file
NO_LOCK = lock("00:00:0", "POSIX  ADVISORY  READ 12")  # one to read, for which only a save in place waits
FLOCK = lock("00:00:0", "FLOCK  ADVISORY  WRITE 9")  # the lock that another run has
OPEN_FILE = b"pos:\t0\nflags:\t0100001\nmnt_id:\t25\nino:\t131\n"  # the description of an open file, on mount 25

# A list of mounts, one with a name that is not UTF-8.
MOUNTS = (b"24 1 0:37 / / rw,relatime - overlay overlay rw\n26 24 0:31 / /\xff rw - tmpfs t1 rw\n"
          b"25 24 0:38 / /tmp rw shared:2 - tmpfs t2 rw\n")

# Whether lines are such a lock if all is known, without the list of mounts, without the description; and these.
LOCK_LINES = {
    (True, True, True): (LOCK, lock("00:00:0", "OFDLCK ADVISORY  WRITE -1"), FLOCK + lock("00:26:0"),
                         lock("00:26:0", "-> POSIX  MANDATORY WRITE 12"), lock("00:00:1") * 300 + LOCK),
    (False, False, False): (FLOCK, NO_LOCK, b"\xff", *map(lock, ("00:00:10", "00:26:1", "fe:00:0", "103:26:0",
                                                                 "fe:00:131"))),
    (False, True, True): (lock("00:1f:0"),), (True, True, False): (lock("00:26:131"), lock("00:00:131")),
}

WAITS = {"in use": 10_000, "in the way": 1_000}  # the milliseconds before a wait ends, by the cause reported then
MOMENT = 100  # more at most, if time passes by sleeps alone; also the most that is slept for a lock that is there once
MORE = 2_000  # and if time passes by looks at the clock
ENDLESS = None  # a list without an end
READINGS = 5  # how often the list of locks is read in each look

# Saves, how often each looks for locks, and those that it waits for. One that grows in place looks once more.
LOOKS = ((ADD, 2, (LOCK,)), (in_place(EQUAL), 2, (LOCK, NO_LOCK)), (in_place(ADD), 3, (LOCK, NO_LOCK)))

# Whether the new file's name is taken, the locks, the milliseconds of a reading of the clock, and the cause.
ENDS = (
    (False, LOCK, 0, "in use"), (False, LOCK, 10, "in use"), (False, ENDLESS, 100, "in use"),
    (True, FLOCK, 0, "in use"),
    (True, b"", 0, "in the way"), (True, LOCK, 0, "in the way"), (True, b"", 100, "in the way"),
)


def seen(under: Preloaded, lists: dict[str, bytes | None], pace: int = 0, is_taken: bool = False,
         one: Run = ADDING, opening: int = 0) -> Counted:
    """Makes a run to which the system shows those lists, and by whose clock time passes in that way."""
    lists = {"locks": b"", "fdinfo": OPEN_FILE, "mountinfo": MOUNTS, **lists}
    there = {name: data for name, data in lists.items() if data is not ENDLESS}
    with folder_of(there) as proc, folder_of(one.files) as folder:
        for name in lists.keys() - there.keys():
            os.symlink("/dev/zero", os.path.join(proc, name))
        if is_taken:
            os.mkdir(os.path.join(folder, "k.krbfile"))
        return under.run_in(folder, one, PROC=proc, PACE=pace, OPENING=opening)


def faults_of_save(got: Counted, is_waited: bool, case: Run = ADD) -> list[str]:
    """Returns the faults of a run that saves, after a moment or at once."""
    found = differences(case.wanted, got.outcome) + ([] if got.files == case.files_after else ["other files"])
    is_due = 0 < got.slept <= MOMENT if is_waited else got.slept == 0
    return found + ([] if is_due else [f"it slept for {got.slept} ms"])


def check_readings(report: Report, under: Preloaded) -> None:
    """Checks that a lock which one reading shows is waited for: most readings may miss it. So is a list too long."""
    for case, looks, locks in LOOKS:
        for lock in locks:
            for nth in range(1, looks * READINGS + 2):
                faults = faults_of_save(seen(under, {str(nth): lock}, one=case), nth <= looks * READINGS, case)
                report.check(f"a lock to {lock.split()[3].decode()} in reading {nth}: {case.name}", faults)
    report.check("a list without an end, once", faults_of_save(seen(under, {str(2 * READINGS): ENDLESS}), True))


def check_lines(report: Report, under: Preloaded) -> None:
    """Checks each line: a lock on the file is waited for, on its device, its mount's, or any without a disk."""
    for waits, lines in LOCK_LINES.items():
        for line, (lists, is_waited) in product(lines, zip(({}, {"mountinfo": b""}, {"fdinfo": b""}), waits)):
            report.check(f"{line}, without {[*lists]}", faults_of_save(seen(under, {"1": line, **lists}), is_waited))


def check_ends(report: Report, under: Preloaded) -> None:
    """Checks how waits end: by the clock, or if it cannot be read by the sleeps, which add up to the same."""
    for is_taken, locks, pace, cause in ENDS:
        got = seen(under, {"locks": locks}, pace, is_taken)
        faults = differences(explained(UNSAVED, CAUSES[cause].replace("NAME", "k")), got.outcome)
        faults += [] if got.files == {"k": OLD} else ["other files"]
        most = WAITS[cause] + (MORE if pace else MOMENT)
        faults += [] if WAITS[cause] <= got.passed <= most else [f"it took {got.passed} ms"]
        report.check(f"{locks} stays, {pace} ms a reading, {is_taken}", faults)


def check_two_waits(report: Report, under: Preloaded) -> None:
    """Checks that the wait before a save has its own ten seconds. One that is over at once still looks once."""
    got = seen(under, {"locks": NO_LOCK}, pace=600)
    faults = [] if got.passed > WAITS["in use"] else [f"it took {got.passed} ms"]
    report.check("two long waits", faults + faults_of_save(got, False))
    for case in (ADD, in_place(EQUAL)):
        over = seen(under, {}, 1, one=case, opening=WAITS["in use"])
        report.check(f"an open takes as long as a wait: {case.name}", faults_of_save(over, False, case))


def check(report: Report, program: str) -> None:
    if under := preloaded(report, program, "lists of locks"):
        for each in (check_readings, check_lines, check_ends, check_two_waits):
            each(report, under)
