"""Each system call of each command fails, by several errors, and is the last of its run. What a failure changes depends
on the call and on its file, which strace shows."""

import os
import re
import signal
from collections.abc import Callable
from itertools import product

from makers.images import B, TWO, keytab
from runs.commands import CHANGES, MAKES, READS, file_of
from runs.harness import Outcome, Report, differences, every, files_in, folder_of
from runs.system_calls import Call, calls_of, traced
from runs.undisturbed import IN_PLACE, Undisturbed, in_place, undisturbed
from runs.undisturbed import explained as with_words
from system.failing_streams import NO_OUTPUT, End, Ends, ends_in_output
from system.saving import ADD, UNREAD, UNSAVED, explained, images, run_over, reported, tree, tree_faults, write
from words.phrases import CAUSES

ERRORS = ("EIO", "ENOSPC", "EACCES", "EPERM", "EINTR", "ENOMEM")

# The calls that are repeated if they were interrupted, as reads and writes are not.
REPEATED = ("open", "openat", "flock", "fchmod", "fsync", "pwrite64", "ftruncate")
REMAINS = b"remains"  # what an earlier save left

# Calls that are spared: about the system's files, the folder and what was replaced, a lock, and each close.
SPARED = re.compile(r'close|.*[<"]/proc/|.*"\."|.*\(deleted\)|(?:flock|fsync)\((?!.*\.krbfile>)')

LOOK = re.compile(r'\w*stat\w*\((?:AT_FDCWD\S* )?"')  # a look at one of several files, which may be a pipe
NARROWED = re.compile(r"fchown.* (?:EACCES|EPERM) ")  # an owner that may not be set, so that the mode is narrowed

# Lines of ktutil that list, save and load, and runs over two files.
TALK = undisturbed("ktutil", b"rkt j\nl\nwkt k\nwkt n\nl -e\nrkt n\nl\n", j=TWO, k=keytab(B))
TWO_FILES = (undisturbed("ktcheck k j", k=TWO, j=keytab(B, B)),
             undisturbed("ktremove -p b@R k j", k=TWO, j=keytab(B, B)))


def is_met(ends: Ends, line: str, end: End) -> bool:
    """Whether a run ended as it has to where the call of that line of its trace failed."""
    if line.startswith("read(0<"):
        return end in ends.of_input(0) + ends.of_input(len(ends.run.stdin))
    if line.startswith("write(1<"):
        return ends_in_output(ends, end)
    is_repeated = " EINTR " in line and line.partition("(")[0] in REPEATED
    if is_repeated or SPARED.match(line) or NARROWED.match(line):
        return end == ends.whole
    saves = ends.of_saves if ends.run.files_after != ends.run.files else []
    return end in [*ends.of_loads, *saves] or (ends.run in TWO_FILES and bool(LOOK.match(line)) and end == ends.whole)


def faults_of_files(ends: Ends, files: dict[str, bytes]) -> list[str]:
    """Returns the faults of what a killed run left: each file is whole. Other new files are allowed."""
    left = {name: data for name, data in files.items() if not name.endswith(".krbfile")}
    return [] if left in [ends.run.files_after, *(stage.files for stage in ends.stages)] else [f"{left} is left"]


def killed(program: str, run: Undisturbed, call: Call, judge: Callable[[dict[str, bytes], list[str]], list[str]],
           ) -> list[str]:
    """Returns the faults of a run that is killed at a call, of what it left, and of the next if it changes a file."""
    with folder_of(run.files) as folder:
        got, trace = traced(program, run, folder, *call.to("signal=KILL"))
        has_ended = got.status == run.wanted.status
        faults = differences(run.wanted if has_ended else Outcome(-signal.SIGKILL, got.out, got.err), got)
        faults += tree_faults(run.files_after, folder) if has_ended else judge(files_in(folder), trace)
        if run.files_after == run.files:
            return faults
        for name in {*files_in(folder), *run.files}:
            if name in run.files:
                write(os.path.join(folder, name), run.files[name])
            elif not name.endswith(".krbfile"):
                os.remove(os.path.join(folder, name))
        return faults + differences(run.wanted, run_over(program, run, folder)) + tree_faults(run.files_after, folder)


def traced_run(program: str, run: Undisturbed, *options: str) -> tuple[End, list[str]]:
    """Makes a run under strace."""
    with folder_of(run.files) as folder:
        outcome, trace = traced(program, run, folder, *options)
        return (outcome, files_in(folder)), trace


def calls_of_run(report: Report, program: str, ends: Ends) -> list[Call]:
    """Returns the calls of a run from its input or file on. After a rename the folder is synced at once."""
    end, trace = traced_run(program, ends.run)
    has_read = ends.run.stdin and ends.command != "hold"
    calls = [*calls_of(trace, "read(0" if has_read else f'"{ends.names[0]}"')]
    lines = [call.line for call in calls]
    faults = [line for at, line in enumerate(lines) if line.startswith("rename")
              and not re.match(r'open.*"\.", .* = (\d+)\nfsync\(\1\) += 0$', "\n".join(lines[at + 1:at + 3]))]
    faults += [] if calls and end == ends.whole else [f"{end}"]
    report.check(f"no call fails: {ends.run.name}", faults)
    return calls


def check_failure(report: Report, program: str, ends: Ends, call: Call, error: str) -> None:
    """Lets a call of a run fail. How often the list of locks is read depends on how many others have."""
    end, trace = traced_run(program, ends.run, "-y", *call.to(f"error={error}"))
    failed = [line for line in trace if line.endswith("(INJECTED)")]
    is_wanted = is_met(ends, failed[0], end) if failed else end == ends.whole
    report.check(f"{call} fails with {error}: {ends.run.name}", [] if is_wanted else [f"{failed}: {end}"])


def check_runs(report: Report, program: str) -> None:
    """Lets each call of each run fail, and kills the run at each."""
    # Those that list as JSON, print nothing or are at fault, or only walk, have the calls of others.
    reads = {(run.words[0], file_of(run)): run for run in READS
             if not {"--json", "-s"} & {*run.words} and not run.stdin and not run.wanted.err}
    changes = {run.words[0]: run for run in CHANGES} | {"ktutil": TALK}
    for ends in map(Ends, (*reads.values(), *TWO_FILES, *changes.values(), *MAKES)):
        for call in calls_of_run(report, program, ends):
            for error in ERRORS:
                check_failure(report, program, ends, call, error)
            report.check(f"killed at {call}: {ends.run.name}", killed(
                program, ends.run, call, lambda files, _, ends=ends: faults_of_files(ends, files)))


def at_link(program: str, run: Undisturbed, *options: str) -> tuple[Outcome, dict[str, object], list[str]]:
    """Makes a run over a link to its file, beside a stale file of an earlier save."""
    with folder_of({"file": run.files["k"], "file.krbfile": REMAINS}) as folder:
        os.symlink("file", os.path.join(folder, "k"))
        outcome, trace = traced(program, run, folder, *options)
        return outcome, tree(folder), trace


def faults_at_link(program: str, run: Undisturbed, call: Call, error: str) -> list[str]:
    """Returns the faults of such a run in which a call fails: the cause is reported, and the file is whole. One that
    fails early does not reach the stale file, nor does one that saves in place."""
    got, left, _ = at_link(program, run, *call.to(f"error={error}"))
    (old, new), is_placed = images(run), IN_PLACE in run.words
    phrase = CAUSES["owner" if call.name == "fchown" else error]
    failed = {UNREAD: old, UNSAVED: old, NO_OUTPUT: new}
    ends = {run.wanted: new, **{explained(outcome, phrase): image for outcome, image in failed.items()}}
    image = (ends | ({reported(run, "mixed"): new} if is_placed else {})).get(got)
    stale = [{}] * (not is_placed) + [{"file.krbfile": REMAINS}] * (is_placed or image == old)
    return [] if left in [{"k": "file", "file": image, **more} for more in stale] else [f"{got} and {left}"]


def check_links(report: Report, program: str) -> None:
    """Lets each call of such runs fail, in both ways."""
    for run in map(with_words, (ADD, in_place(ADD))):
        outcome, _, trace = at_link(program, run)
        report.compare(f"no call fails at a link: {run.name}", run.wanted, outcome)
        for call, error in product(calls_of(trace, '"k"'), ERRORS[:2]):
            report.check(f"{call} fails with {error}, at a link: {run.name}", faults_at_link(program, run, call, error))


check = every(check_runs, check_links, of="system calls that fail", needs=("strace",))
