"""Runs of the program under strace, which lists its system calls and lets chosen ones fail, and under a preloaded
library (preload.c), which lets chosen calls of the C library fail, shows other lists of the system, and finds keys.
Runs that see other files in place of the system's, by mounts of their own, and disks that are mounted for them."""

import os
import re
import signal
import struct
import subprocess
import tempfile
import time
from collections import Counter
from collections.abc import Callable, Iterator
from contextlib import contextmanager, suppress
from dataclasses import dataclass, replace
from shlex import quote

from runs.harness import (SECONDS, Case, Outcome, Report, faults_of, files_in, folder_of, mode_of_files, piped, run,
                          set_mode)
from runs.undisturbed import Run, preload_library, undisturbed

CALL = re.compile(r"(\w+)\(")  # a line of a trace that begins a system call

# The calls by which a run accesses its files.
CALLS = (
    "open,openat,lseek,read,pread64,write,pwrite64,writev,close,statx,fstat,newfstatat,lstat,"
    "stat,readlink,readlinkat,ftruncate,chown,fchown,lchown,fchownat,chmod,fchmod,fchmodat,fsync,"
    "fdatasync,flock,fcntl,link,linkat,rename,renameat,renameat2,unlink,unlinkat"
)


@dataclass(frozen=True)
class Call:
    """A system call of a run: its name, its number among those of that name, from 1 on, and its trace."""

    name: str
    nth: int
    line: str

    def to(self, fate: str) -> tuple[str, str]:
        """Returns the options of strace that end the call in that way."""
        return ("-e", f"inject={self.name}:{fate}:when={self.nth}")

    def __str__(self) -> str:
        return f"{self.name} {self.nth}"


def traced(program: str, one: Run, folder: str, *options: str) -> tuple[Outcome, list[str]]:
    """Makes a run under strace, and returns its outcome and the lines of its trace."""
    with tempfile.NamedTemporaryFile("r", errors="replace") as trace:
        words = ("-o", trace.name, "-e", "quiet=all", "-e", f"trace={CALLS}", *options, program, *one.words)
        outcome = run("strace", words, folder, one.stdin)
        return outcome, trace.read().splitlines()


def under_strace(program: str, case: Case, *options: str) -> Case:
    """Returns the run of strace, with those options, that makes that run."""
    words = ("-o", os.devnull, "-e", "quiet=all", "-e", f"trace={CALLS}", *options, program, *case.words)
    return replace(case, words=words)


def calls_of(lines: list[str], first: str) -> Iterator[Call]:
    """Yields the calls of a trace from the first that contains a text."""
    counts: Counter[str] = Counter()
    is_begun = False
    for found in filter(None, map(CALL.match, lines)):
        counts[found[1]] += 1
        is_begun = is_begun or first in found.string
        if is_begun:
            yield Call(found[1], counts[found[1]], found.string)


@dataclass(frozen=True)
class Halt:
    """A system call after which a run is halted: its names, which one, and of what paths."""

    calls: str
    nth: int = 1
    paths: tuple[str, ...] = ()


def halted(program: str, one: Run, folder: str, halt: Halt, change: Callable[[str], None],
           env: dict[str, str] | None = None) -> Outcome:
    """Makes a run that is halted somewhere until a change is made in its folder, and then goes on."""
    inject = f"inject={halt.calls}:signal=STOP:when={halt.nth}"
    options = ["-e", inject, *(word for path in halt.paths for word in ("-P", path))]
    with tempfile.NamedTemporaryFile() as trace:
        words = ["-f", "-o", trace.name, "-e", "quiet=all", "-e", f"trace={halt.calls}", *options, program, *one.words]
        with piped("strace", words, folder, env=env) as started:
            started.stdin.write(one.stdin)
            started.stdin.close()
            started.stdin = None
            seen = b""
            while b"stopped by" not in seen and started.poll() is None:
                time.sleep(0.005)
                seen += trace.read()
            change(folder)
            if started.poll() is None:
                os.kill(int(seen.split()[0]), signal.SIGCONT)
            out, err = started.communicate(timeout=SECONDS)
            return Outcome(started.returncode, out, err)


@dataclass(frozen=True)
class Counted:
    """A run, the files after it, its allocations and failed calls; milliseconds slept and passed; blocks given back."""

    outcome: Outcome
    files: dict[str, bytes]
    requests: int
    failures: int
    slept: int
    passed: int
    freed: int


@dataclass(frozen=True)
class Preloaded:
    """Runs a program with some of its calls failing, each time over the files of the run."""

    program: str
    library: str

    def run(self, one: Run, **settings: int | str) -> Counted | None:
        """Makes a run with the settings that the source describes, and other variables; None if that was not loaded."""
        with folder_of(one.files) as folder:
            return self.run_in(folder, one, **settings)

    def run_in(self, folder: str, one: Run, **settings: int | str) -> Counted | None:
        """Makes a run in a folder, with those settings."""
        with tempfile.NamedTemporaryFile() as counts:
            env = {"LD_PRELOAD": self.library, "PRELOAD_COUNTS": counts.name}
            env.update((name, str(value)) for name, value in settings.items())
            outcome = run(self.program, one.words, folder, one.stdin, env=env)
            if not (counted := counts.read(40)):
                return None
            return Counted(outcome, files_in(folder), *struct.unpack("=5Q", counted))

    def check(self, report: Report, case: Case, **clock: int) -> None:
        """Makes a run by a clock and reports it. What it comes to is computed too, but not by a clock past 32 bits."""
        with folder_of(case.files) as folder:
            set_mode(folder, case)
            got, second = self.run_in(folder, case, **clock), clock.get("CLOCK", 2**32)
        mode = case.mode or mode_of_files()
        report.seen.append(replace(case, clock=second if second < 2**32 else None, mode=mode))
        report.check(case.name, faults_of(case, got.outcome, got.files))


def preloaded(report: Report, program: str, what: str) -> Preloaded | None:
    """Returns the program with the library under it, or None, with a report, if that cannot be had."""
    made = Preloaded(program, preload_library() or "")
    if made.library and made.run(undisturbed("--help")):
        return made
    report.skip(what, "the program does not load a preloaded library" if made.library else
                "no C compiler built preload.c")
    return None


# What makes the mounts, and starts the words after it.
UNSHARE = ("unshare", "--mount") if os.geteuid() == 0 else ("unshare", "--mount", "--user", "--map-root-user")
STATUS = "/proc/$$/status"  # what the system reports of the run, in its shell's place


def front(mounts: dict[str, str]) -> list[str]:
    """Returns the words before a program's, for which those files and folders take the place of the system's."""
    lines = [f"mount --bind {path if '$' in path else quote(path)} {place}" for place, path in mounts.items()]
    return [*UNSHARE, "sh", "-c", " && ".join([*lines, 'exec "$0" "$@"'])]


def run_within(program: str, words, folder: str, mounts: dict[str, str], **options) -> Outcome:
    """Makes a run in a folder, for which those files and folders take the place of the system's."""
    first, *rest = [*front(mounts), program, *words]
    return run(first, rest, folder, **options)


def no_mounts() -> str:
    """Returns why such runs cannot be made, or nothing."""
    try:
        done = subprocess.run([*front({"/etc": "/etc"}), "true"], capture_output=True, timeout=SECONDS, check=False)
        why = done.returncode and (done.stderr.decode(errors="replace").strip() or "mounts are not allowed")
    except FileNotFoundError:
        why = "unshare is not there"
    return f"no folder can be mounted: {why}" if why else ""


@contextmanager
def disk(size: str = "1m") -> Iterator[str]:
    """Yields the folder of a disk in memory."""
    with folder_of({}) as folder:
        words = ("mount", "-t", "tmpfs", "-o", f"size={size}", "krbfile", folder)
        subprocess.run(words, check=True, capture_output=True)
        try:
            yield folder
        finally:
            subprocess.run(["umount", folder], check=True)


def no_disks() -> str:
    """Returns that no disk can be mounted, or nothing."""
    with suppress(subprocess.CalledProcessError), disk():
        return ""
    return "none can be mounted"
