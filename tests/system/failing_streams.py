"""Each read and each write of each command fails, by several errors, or moves few bytes; and how runs end if a part of
them fails, and where they may end early.

An interrupted read or write counts as failed, but a write in place is repeated; after one in place that fails the old
bytes are back. A file that was saved is read once more: where that fails, it is said of one in place alone.
"""

from collections.abc import Iterable, Iterator
from dataclasses import dataclass, replace
from errno import EACCES, EAGAIN, EINTR, ENOMEM, ENOSPC, errorcode
from functools import cached_property
from itertools import product

from keytabs.checks import unchecked
from runs.commands import COMMANDS, NOW, SAVING, large_runs, small_runs
from runs.harness import EXPLAIN, Case, Outcome, Report, differences, message
from runs.system_calls import Preloaded, preloaded
from runs.undisturbed import IN_PLACE, Undisturbed
from system.saving import HOLD_SAVED, last_line, reported
from words.phrases import ERRORS as HOLD_ERRORS

NO_MEMORY = message(4, "out of memory")

# What a run says of a file that it cannot use: one that is never there, or, as removals then do nothing, a folder.
UNUSED = {"none": message(1, "none: no such file").err, ".": message(3, ".: cannot read").err}
READ_MISSING = b"rkt none\n"  # the line of ktutil that reads it
OBJECT = unchecked("none", "no such file", 1)  # what ktcheck and ktmatch say of it in JSON

OVER_FILES = ("klist", "show", "ktmatch", "ktcheck", "ktremove", "ccremove")  # those that take several files, in turn
End = tuple[Outcome, dict[str, bytes]]  # a run's end, and the files after it


@dataclass(frozen=True)
class Stage:
    """A point at which a run may end early: its output and messages so far, and the files."""

    out: bytes
    err: bytes
    files: dict[str, bytes]


def failed(run: Undisturbed, unused: str, instead: str = "none") -> End:
    """Returns how a run over a file that it cannot use would end with that message of it."""
    (outcome, files), end = run.done, message(3, unused)
    out = outcome.out.replace(OBJECT, unchecked(unused.partition(": ")[0], unused, 3))
    return replace(end, out=out, err=outcome.err.replace(UNUSED[instead], end.err)), files


class Ends:
    """How a run ends: as a whole, early, or if a read or a write fails."""

    def __init__(self, run: Case | Undisturbed) -> None:
        self.run = run
        self.command = run.words[run.words[0] == EXPLAIN]
        self.unused = "." if self.command in ("ktremove", "ccremove") else "none"
        self.lines = run.stdin.splitlines(keepends=True)
        # How it ends if nothing fails, the files that its words name, and what a hold prints before its last line.
        self.whole: End = run.wanted, run.files_after
        self.names = [word for word in run.words if word in {*run.files, *run.files_after}]
        self.frame = run.wanted.out.removesuffix(HOLD_SAVED) if self.command == "hold" else b""

    def ended(self, front: bytes, last: Outcome) -> list[Outcome]:
        """Returns the outcomes of a failed call, after that output. The last line of a hold has the cause."""
        lines = map(last_line, HOLD_ERRORS.values()) if self.command == "hold" else [b""]
        return [replace(last, out=front + line) for line in lines]

    @cached_property
    def places(self) -> range:
        """Where its words name files that it takes one after the other, if there are several, as ktmatch's is not."""
        words = self.run.words
        first = min(map(words.index, self.names), default=len(words)) + (self.command == "ktmatch")
        return range(first, len(words) if self.command in OVER_FILES and first < len(words) - 1 else first)

    def up_to(self, end: int) -> Stage:
        """Returns what it has done after the files before that place."""
        got, files = replace(self.run, words=(*self.run.words[:end], self.unused), plain=None).done
        return Stage(got.out.removesuffix(OBJECT), got.err.removesuffix(UNUSED[self.unused]), files)

    def without(self, at: int, unused: str) -> End:
        """Returns how it ends with that message of the file at a place."""
        words = self.run.words
        instead = replace(self.run, words=(*words[:at], self.unused, *words[at + 1:]))
        return failed(instead, f"{words[at]}: {unused}", self.unused)

    @cached_property
    def stages(self) -> list[Stage]:
        """Where it may end: ktutil before a line or at its end, before one of several files, others at the start."""
        run = self.run
        if self.command == "ktutil":
            ends = [replace(run, stdin=b"".join(self.lines[:count])).done for count in range(len(self.lines) + 1)]
            return [Stage(got.out, got.err, files) for got, files in ends]
        return [self.up_to(at) for at in self.places] or [Stage(b"", b"", run.files)]

    @cached_property
    def of_outputs(self) -> list[Stage]:
        """Where it may end if its output fails: what it prints of is saved, but not by hold."""
        if self.command in ("ktutil", "hold"):
            return self.stages
        return [self.up_to(at + 1) for at in self.places] or [Stage(b"", b"", self.run.files_after)]

    def stops(self, end: End, last: Outcome, stages: list[Stage], may_print: bool = True) -> bool:
        """Whether it stopped at one of these stages, perhaps after a prefix of its output. A hold has its last line."""
        got, files = end
        line = last_line("ENOMEM", 4) if self.command == "hold" and last == NO_MEMORY and got.out else b""
        is_front = may_print and got.out.endswith(line) and self.run.wanted.out.startswith(got.out.removesuffix(line))
        return got.status == last.status and any(
            got.err == stage.err + last.err and files == stage.files and (is_front or got.out == stage.out + line)
            for stage in stages)

    def failing_lines(self, commands: tuple[str, ...], use: str) -> Iterator[tuple[int, End]]:
        """Yields each line of ktutil with one of these commands, and how the run ends if its file cannot be so used."""
        for at, line in enumerate(self.lines):
            command, _, name = line.decode().strip().partition(" ")
            if command in commands:
                lines = (*self.lines[:at], READ_MISSING, *self.lines[at + 1:])
                yield at, failed(replace(self.run, stdin=b"".join(lines)), f"{name}: cannot {use}")

    @cached_property
    def of_loads(self) -> list[End]:
        """How it ends for each load that fails."""
        run, words = self.run, self.run.words
        if self.command == "ktutil":
            return [end for _, end in self.failing_lines(("rkt", "wkt"), "read")]
        if self.places:
            keytab = [(message(3, f"{self.names[0]}: cannot read"), run.files)] * (self.command == "ktmatch")
            return keytab + [self.without(at, "cannot read") for at in self.places]
        if "-s" in words:
            return [(Outcome(3), run.files)]
        return [(outcome, run.files) for name in self.names
                for outcome in self.ended(b"", message(3, f"{name}: cannot read"))]

    @cached_property
    def of_saves(self) -> list[End]:
        """How it ends for each save that fails. A hold that cannot be had, or not save, prints no frame."""
        if self.command == "ktutil":
            return [end for at, end in self.failing_lines(("wkt",), "write")
                    if self.stages[at].files != self.stages[at + 1].files]
        if self.places:
            return [self.without(at, "cannot write") for at in self.places]
        unsaved = message(3, f"{self.run.words[-1]}: cannot write")
        return [(outcome, self.run.files) for front in (b"", self.frame) for outcome in self.ended(front, unsaved)]

    def of_input(self, given: int) -> list[End]:
        """Returns how it may end if its input fails after that many bytes."""
        unread = message(3, "cannot read input")
        stage = Stage(self.frame, b"", self.run.files)
        if self.command == "ktutil":
            stage = self.stages[self.run.stdin[:given].count(b"\n")]
        return [(replace(outcome, err=stage.err + unread.err), stage.files)
                for outcome in self.ended(stage.out, unread)]


ERRORS = (EINTR, EAGAIN, ENOSPC, ENOMEM, EACCES)
WHOLE, FEW = 1_000_000, 60  # more bytes than any read or write moves, and few
NO_OUTPUT = message(3, "cannot write output")
OF_EACH = ("FAIL_READ", "FAIL_WRITE", "ZERO_WRITE")  # what may fail in each run
OF_SAVE = ("FAIL_SAVE", "ZERO_SAVE")  # and also in one of a command that saves
OF_INPUT = ("FAIL_INPUT",)  # and of one that saves and reads an input

# How many bytes a call moves, and how one fails: over small files, and over larger ones.
OF_SMALL = (*((WHOLE, error) for error in ERRORS), (FEW, EINTR), (FEW, ENOSPC))
OF_LARGE = ((WHOLE, EINTR), (20_000, EACCES))


def settings(command: str) -> tuple[str, ...]:
    """Returns what may fail in runs of a command."""
    if command not in SAVING:
        return OF_EACH
    return OF_EACH + OF_SAVE + OF_INPUT * COMMANDS[command].reads_input


def ends_in_output(ends: Ends, end: End) -> bool:
    """Whether a run ended because its output failed, after a prefix. A hold after its frame ends as ever."""
    got, files = end
    is_late = bool(ends.frame) and ends.run.wanted.out.startswith(got.out) and got.out.startswith(ends.frame)
    is_whole = is_late and (replace(got, out=ends.run.wanted.out), files) == ends.whole
    return is_whole or ends.stops(end, NO_OUTPUT, ends.of_outputs)


def are_met(ends: Ends, setting: str, given: int, end: End) -> bool:
    """Whether a run in which that failed ended as it has to."""
    is_placed, is_saved = IN_PLACE in ends.run.words, ends.run.files_after != ends.run.files
    if setting == "FAIL_INPUT":
        return end in ends.of_input(given)
    if setting == "FAIL_READ":
        # A file that is to be saved is read again before, and after it too: if it was replaced nothing is said of that.
        seen = (reported(ends.run, "mixed"), ends.run.files_after) if is_placed else ends.whole
        return end in [*ends.of_loads, *ends.of_saves, *[seen] * is_saved]
    return end in ends.of_saves if setting in ("FAIL_SAVE", "ZERO_SAVE") else ends_in_output(ends, end)


def check_setting(report: Report, under: Preloaded, ends: Ends, setting: str, ways: Iterable[tuple[int, int]]) -> None:
    """Lets each call of a kind fail in each way."""
    for most, error in ways:
        is_repeated = setting == "FAIL_SAVE" and error == EINTR and IN_PLACE in ends.run.words
        faults, nth, is_made = [], 0, True
        while is_made:
            nth += 1
            got = under.run(ends.run, CLOCK=NOW, **{setting: nth, "MOST": most, "ERROR": error})
            end, is_made = (got.outcome, got.files), bool(got.failures)
            has_effect = is_made and not is_repeated
            is_wanted = are_met(ends, setting, (nth - 1) * most, end) if has_effect else end == ends.whole
            faults += [] if is_wanted else [f"at {nth} {got.outcome.status}, {got.outcome.err!r}"]
        report.check(f"{setting} {errorcode[error]}, at most {most} bytes: {ends.run.name}", faults[:3])


def check_few_bytes(report: Report, under: Preloaded, ends: Ends, most: int) -> None:
    """Checks that reads and writes of at most that many bytes change nothing."""
    got = under.run(ends.run, CLOCK=NOW, MOST=most)
    is_whole = (got.outcome, got.files) == ends.whole
    faults = [] if is_whole else [*differences(ends.run.wanted, got.outcome), "or other files"]
    report.check(f"{most} bytes at a time: {ends.run.name}", faults)


def check(report: Report, program: str) -> None:
    under = preloaded(report, program, "failing streams")
    for run, ways in (*product(small_runs(), [OF_SMALL]), *product(large_runs(), [OF_LARGE])) if under else ():
        ends = Ends(run)
        for setting in settings(ends.command):
            check_setting(report, under, ends, setting, ways)
        for most in (1, 7, 4_095):
            check_few_bytes(report, under, ends, most)
