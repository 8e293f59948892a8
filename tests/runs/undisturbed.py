"""Runs that nothing disturbs. A test that disturbs a run compares it with the same run undisturbed; what such runs
print and save is compared with the definitions by `computed`. None of them may be out of memory."""

import atexit
import os
import shutil
import subprocess
import tempfile
from dataclasses import dataclass, field, replace
from functools import cache, cached_property

from runs.harness import EXPLAIN, Case, Line, Outcome, Report, mode_of_files, run_case, shown, words_of

IN_PLACE = "--in-place"
PROGRAM: list[str] = []  # the program that is tested, once `use` has named it
SEEN: list[Case] = []  # its runs
SPENT: list[str] = []  # those that were out of memory


def use(program: str) -> None:
    """Names the program that is tested."""
    PROGRAM[:] = [program]


def run_alone(case: Case, **options: object) -> tuple[Outcome, dict[str, bytes]]:
    """Runs a case that nothing disturbs, and returns its outcome and the files afterwards."""
    outcome, after = run_case(PROGRAM[0], case, **options)
    if outcome.status == 4 or b"out of memory" in outcome.err:
        SPENT.append(case.name)
    return outcome, after


def hand_over(report: Report) -> None:
    """Gives a report the runs that were made since the last time."""
    report.seen += SEEN
    for name in SPENT:
        report.check(f"nothing disturbs {name}", ["it is out of memory"])
    SEEN.clear()
    SPENT.clear()


@cache
def preload_library() -> str | None:
    """Returns the library of preload.c, built by the installed C compiler, or None if there is none."""
    compilers = map(shutil.which, (os.environ.get("CC") or "cc", "gcc", "clang"))
    folder = tempfile.mkdtemp(prefix="krbfile-")
    atexit.register(shutil.rmtree, folder, ignore_errors=True)
    library, source = os.path.join(folder, "preload.so"), os.path.join(os.path.dirname(__file__), "preload.c")
    words = [next(filter(None, compilers), "false"), "-O2", "-Wall", "-shared", "-fPIC", "-o", library, source, "-ldl"]
    return library if subprocess.run(words, check=False).returncode == 0 else None


@dataclass(frozen=True)
class Undisturbed:
    """A run: its words, the files in its folder, its input, and the time of its clock, if that is not the system's."""

    name: str
    words: Line
    files: dict[str, bytes] = field(default_factory=dict)
    stdin: bytes = b""
    clock: int | None = None
    plain: Line | None = None  # the words of the run that it is compared with, if these are others

    @cached_property
    def done(self) -> tuple[Outcome, dict[str, bytes]]:
        """How it ends, and the files afterwards."""
        case = Case(self.name, self.plain or self.words, Outcome(0), self.files, stdin=self.stdin)
        library = None if self.clock is None else preload_library()
        options = {"env": {"LD_PRELOAD": library, "CLOCK": str(self.clock)}} if library else {}
        outcome, after = run_alone(case, **options)
        clock = self.clock if library else None
        SEEN.append(replace(case, wanted=outcome, files_after=after, clock=clock, mode=mode_of_files()))
        return outcome, after

    @property
    def wanted(self) -> Outcome:
        """How it ends."""
        return self.done[0]

    @property
    def files_after(self) -> dict[str, bytes]:
        """The files after it."""
        return self.done[1]

    def as_case(self) -> Case:
        """Returns it as a case with its result."""
        return Case(self.name, self.words, self.wanted, self.files, self.files_after, self.stdin)


Run = Case | Undisturbed  # a run, with its result or with what nothing disturbs


def undisturbed(line: str | Line, stdin: bytes = b"", *, name: str = "", clock: int | None = None,
                **files: bytes | None) -> Undisturbed:
    """Returns the run of a line over files, by name; one that is None is missing."""
    words = words_of(line)
    those = {each: image for each, image in files.items() if image is not None}
    size = len(stdin) + sum(map(len, those.values()))
    return Undisturbed(f"{words[0]} {name}" if name else f"{shown(words)}, {size} bytes", words, those, stdin, clock)


def in_place(made: Undisturbed) -> Undisturbed:
    """Returns the same run, which saves in place; it is compared with the one that does not."""
    command, *rest = made.words
    words = (command, IN_PLACE, *rest)
    return replace(made, name=f"{made.name}, in place", words=words, plain=made.plain or made.words)


def explained(made: Undisturbed) -> Undisturbed:
    """Returns the same run, with its messages explained."""
    return replace(made, words=(EXPLAIN, *made.words), plain=made.plain and (EXPLAIN, *made.plain))


def frame(image: bytes) -> bytes:
    """Returns an image as `hold` gives and takes it."""
    return b"%d\n%b" % (len(image), image)
