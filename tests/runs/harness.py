"""Runs the program on a case in a folder of its own, and reports what differs from the expected result. How tables of
cases are made, and run, and runs on a terminal."""
from __future__ import annotations

import os
import resource
import shutil
import signal
import stat
import subprocess
import tempfile
from collections.abc import Callable, Iterable
from concurrent.futures import ThreadPoolExecutor
from contextlib import contextmanager, suppress
from dataclasses import dataclass, field, replace
from pathlib import Path

TOP = os.path.dirname(os.path.dirname(os.path.dirname(os.path.abspath(__file__))))  # the repository
EXPLAIN = "--explain"  # the option by which messages are explained
SECONDS = 60  # longer than any run takes
LARGE = 1_000_000  # with more input bytes an unproved program takes longer: it checks each access to memory


@dataclass(frozen=True)
class Outcome:
    """The result of a run: its status (negative: the signal that ended it), and what it wrote."""

    status: int
    out: bytes = b""
    err: bytes = b""


def message(status: int, text: str) -> Outcome:
    """Returns the outcome of a run that only prints an error."""
    return Outcome(status, err=f"krbfile: {text}\n".encode())


@dataclass(frozen=True)
class Case:
    """The program's words, the expected result, and the files in its folder."""

    name: str
    words: tuple[str | bytes, ...]
    wanted: Outcome
    files: dict[str, bytes] = field(default_factory=dict)
    files_after: dict[str, bytes] | None = None  # the files after the run, if they differ from those before it
    stdin: bytes = b""
    clock: int | None = None  # the time of the clock, if it is not that of the system
    mode: int = 0  # the mode of the files, or 0: that of files as a test makes them

    def size(self) -> int:
        """Returns the number of bytes that it gives the program."""
        return len(self.stdin) + sum(map(len, self.files.values()))

    def check(self, report: Report, program: str) -> None:
        """Runs it and reports it."""
        if report.leaves_out(self.size()):
            return
        report.seen.append(replace(self, mode=self.mode or mode_of_files()))
        try:
            found = faults_of(self, *run_case(program, self))
        except subprocess.TimeoutExpired:
            found = [f"no end in {SECONDS} seconds"]
        report.check(self.name, found)


def mode_of_files() -> int:
    """Returns the mode of a file that a test makes."""
    os.umask(mask := os.umask(0))
    return stat.S_IFREG | 0o666 & ~mask


class Report:
    """Counts what passed and failed, and prints a line for each failure, after the topic's name."""

    def __init__(self, is_proved: bool = True, topic: str = "") -> None:
        self.is_proved = is_proved
        self.front = f"{topic}: " if topic else ""
        self.passed = self.failed = self.large = 0
        self.left_out: list[str] = []
        self.seen: list[Case] = []  # what is compared with the definitions

    def check(self, name: str, faults: list[str]) -> None:
        """Counts one case, which failed if there are faults."""
        if faults:
            self.failed += 1
            print(f"{self.front}{name}: {'; '.join(faults)}", flush=True)
        else:
            self.passed += 1

    def leaves_out(self, size: int) -> bool:
        """Whether a case with that much input is left out. One that is left out is counted."""
        is_large = not self.is_proved and size > LARGE
        self.large += is_large
        return is_large

    def add(self, other: Report) -> None:
        """Adds what another report counted."""
        self.passed += other.passed
        self.failed += other.failed
        self.large += other.large
        self.left_out += other.left_out
        self.seen += other.seen

    def compare(self, name: str, wanted: Outcome, got: Outcome) -> None:
        """Counts one case, which failed if the outcomes differ."""
        self.check(name, differences(wanted, got))

    def skip(self, what: str, why: str) -> None:
        """Records that a part is left out."""
        self.left_out.append(f"{what}: left out, since {why}")

    def summary(self) -> str:
        """Returns what was left out, a line each, and the counts."""
        if self.large:
            self.skip(f"cases of over {LARGE:,} bytes, {self.large} in all",
                      "the program is not proved, and takes long")
        return "\n".join([*self.left_out, f"{self.passed} passed, {self.failed} failed"])


def short(data: bytes) -> str:
    """Returns bytes as a message shows them."""
    return repr(data) if len(data) <= 300 else f"{data[:140]!r} ... {data[-140:]!r} ({len(data)} bytes)"


def differences(wanted: Outcome, got: Outcome) -> list[str]:
    """Returns what differs between two outcomes, one text each."""
    parts = (("status", got.status, wanted.status, str), ("output", got.out, wanted.out, short),
             ("error output", got.err, wanted.err, short))
    return [f"{what} {show(is_so)}, not {show(due)}" for what, is_so, due, show in parts if is_so != due]


def files_in(folder: str) -> dict[str, bytes]:
    """Returns the files below a folder, by relative path."""
    return {str(path.relative_to(folder)): path.read_bytes() for path in Path(folder).rglob("*") if not path.is_dir()}


@contextmanager
def folder_of(files: dict[str, bytes]):
    """Yields a folder that has those files."""
    with tempfile.TemporaryDirectory(prefix="krbfile-") as folder:
        for name, data in files.items():
            Path(folder, name).write_bytes(data)
        yield folder


def run(program: str, words, folder: str, stdin: bytes = b"", **options) -> Outcome:
    """Makes a run in that folder. Both outputs are captured, except one that `options` redirect."""
    options = {"stdout": subprocess.PIPE, "stderr": subprocess.PIPE, **options}
    done = subprocess.run([program, *words], cwd=folder, input=stdin, timeout=SECONDS, **options)
    return Outcome(done.returncode, done.stdout or b"", done.stderr or b"")


def piped(program: str, words, folder: str, **options) -> subprocess.Popen[bytes]:
    """Starts a run in that folder. Its input and its outputs are pipes, except those that `options` redirect."""
    pipes = dict.fromkeys(("stdin", "stdout", "stderr"), subprocess.PIPE)
    return subprocess.Popen([program, *words], cwd=folder, **{**pipes, **options})


def all_of(end: int) -> bytes:
    """Returns what was written to a terminal, once nobody has its other end open."""
    parts = []
    with suppress(OSError):
        while part := os.read(end, 65_536):
            parts.append(part)
    return b"".join(parts).replace(b"\r\n", b"\n")


def run_on_terminal(program: str, words, folder: str, stdin: bytes = b"", stream: str = "stderr", **options) -> Outcome:
    """Makes a run with one output on a terminal, by default the error output."""
    ours, theirs = os.openpty()
    with ThreadPoolExecutor(1) as pool:
        shown = pool.submit(all_of, ours)
        try:
            got = run(program, words, folder, stdin, **options, **{stream: theirs})
        finally:
            os.close(theirs)
    os.close(ours)
    return replace(got, **{stream.removeprefix("std"): shown.result()})


# The ways to make a run, each with whether it explains messages.
WAYS = {"on a pipe": (run, False), "on a terminal": (run_on_terminal, True),
        EXPLAIN: (lambda program, words, *more, **options: run(program, (EXPLAIN, *words), *more, **options), True)}


def set_mode(folder: str, case: Case) -> None:
    """Gives the files of a case their mode, if it has one."""
    for name in case.files if case.mode else ():
        os.chmod(os.path.join(folder, name), stat.S_IMODE(case.mode))


def run_case(program: str, case: Case, **options) -> tuple[Outcome, dict[str, bytes]]:
    """Runs a case in a folder of its own, and returns its outcome and the files that are there afterwards."""
    with folder_of(case.files) as folder:
        set_mode(folder, case)
        return run(program, case.words, folder, case.stdin, **options), files_in(folder)


def limit(kind: int, most: int, is_spared: bool = True) -> Callable[[], None]:
    """Returns a function that limits a resource. A write over it is cut, if the run is spared the signal."""
    def before_run() -> None:
        signal.signal(signal.SIGXFSZ, signal.SIG_IGN if is_spared else signal.SIG_DFL)
        resource.setrlimit(kind, (most, most))

    return before_run


def faults_of(case: Case, got: Outcome, after: dict[str, bytes]) -> list[str]:
    """Returns the faults of a run of a case, and of the files afterwards."""
    wanted = case.files if case.files_after is None else case.files_after
    wrong = [name for name in sorted({*after, *wanted}) if after.get(name) != wanted.get(name)]
    return differences(case.wanted, got) + [f"file {name} is not as it should be" for name in wrong]


Check = Callable[[Report, str], None]  # what checks a program, and reports that


def every(*checks: Check, of: str = "", needs: tuple[str, ...] = (), lack: Callable[[], str] = str) -> Check:
    """Returns a check that makes those in turn, or reports the part OF as left out if a tool or more is lacking."""
    def check(report: Report, program: str) -> None:
        missing = [tool for tool in needs if shutil.which(tool) is None]
        if why := f"{missing[0]} is not there" if missing else lack():
            report.skip(of, why)
            return
        for each in checks:
            each(report, program)

    return check


Line = tuple[str | bytes, ...]  # the words after the program's name; if blanks part them, a row has them as one text
BAD_LINE = message(2, "bad command line")


def words_of(line: str | Line) -> Line:
    """Returns the words of a line."""
    return tuple(line.split()) if isinstance(line, str) else line


def shown(line: str | Line) -> str:
    """Returns a line as a message shows it."""
    return " ".join(word if isinstance(word, str) and word else repr(word) for word in ("krbfile", *words_of(line)))


def text(lines: Iterable[str]) -> bytes:
    """Returns lines, each with its end."""
    return "".join(line + "\n" for line in lines).encode()


def printed(*lines: str, status: int = 0) -> Outcome:
    """Returns a run that prints those lines."""
    return Outcome(status, text(lines))


def with_mode(*lines: str, is_wrong: bool = True) -> Outcome:
    """Returns a check of a file as a test makes it: before those lines comes that of its mode."""
    mode = stat.S_IMODE(mode_of_files())
    return printed(*[f"mode {mode:o}"] * bool(mode & 0o66), *lines, status=int(is_wrong or mode & 0o6 > 0))


def over(name: str, line: str | Line, image: bytes | None, wanted: Outcome | list[str],
         after: bytes | None = None, given: bytes | list[str] = b"") -> Case:
    """Returns a run over the file that its last word names, or none. With no `after` the file stays as it is."""
    words = words_of(line)
    files, files_after = ({} if each is None else {words[-1]: each} for each in (image, after))
    return Case(name, words, wanted if isinstance(wanted, Outcome) else printed(*wanted), files,
                files_after or files, given if isinstance(given, bytes) else text(given))


Row = Case | Callable[[], Case]  # checked as a case is; one of large files is a function, which makes it when it is run


def check_rows(report: Report, program: str, rows: Iterable[Row]) -> None:
    """Runs a table."""
    for row in rows:
        (row() if callable(row) else row).check(report, program)
