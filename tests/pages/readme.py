"""The sessions of README and the examples of the manual page, one of each command, print what they show."""

import os
import re
import shutil
from collections.abc import Iterator
from contextlib import contextmanager
from itertools import takewhile

from makers.samples import make
from pages.documents import literals, read
from runs.commands import COMMANDS
from runs.harness import TOP, Outcome, Report, folder_of, run
from runs.undisturbed import preload_library

NOW = 1_708_640_000  # the time of the clock where ages are shown: 100 days after the times of most samples
LIBRARY = os.path.join(TOP, "lib", "libkrbfile.so.1")


def parted(session: str) -> tuple[str, bytes]:
    """Returns the command of a session, with its input if that follows it, and its output."""
    end = session.find("\nEND\n") + 5 if "<<'END'" in session else session.find("\n") + 1
    return session[:end], session[end:].encode()


def sessions() -> Iterator[tuple[str, bytes]]:
    """Yields the commands of README, each with its output."""
    for part in re.split(r"^    \$ ", read("README.md"), flags=re.MULTILINE)[1:]:
        lines = takewhile(lambda line: line[:4] in ("", "    "), ("    " + part).splitlines())
        yield parted("\n".join(line[4:] for line in lines).rstrip("\n") + "\n")


def no_library() -> str:
    """Returns that there is no C library, or nothing."""
    return "" if os.path.exists(LIBRARY) else "there is no C library: make lib builds it"


def lacks(command: str) -> str:
    """Returns what a session needs that is missing."""
    if "| jq " in command and shutil.which("jq") is None:
        return "jq is not there"
    if command.startswith("krbfile show") and preload_library() is None:
        return "no C compiler built preload.c"
    return "" if command.startswith(("krbfile ", "printf ")) else no_library()


def surroundings(programs: str) -> dict[str, str]:
    """Returns the environment of the sessions: the program and the library are as installed."""
    path = programs + os.pathsep + os.environ["PATH"]
    libraries = os.path.dirname(LIBRARY)
    return {**os.environ, "PATH": path, "CPATH": os.path.join(TOP, "c"), "LIBRARY_PATH": libraries,
            "LD_LIBRARY_PATH": libraries, "PYTHONPATH": os.path.join(TOP, "python"),
            "PYTHONDONTWRITEBYTECODE": "1", "KRBFILE": os.path.join(programs, "krbfile")}


@contextmanager
def installed(program: str) -> Iterator[dict[str, str]]:
    """Yields the environment in which the program, in a folder of its own, and the library are as installed."""
    with folder_of({}) as programs:
        os.symlink(program, os.path.join(programs, "krbfile"))
        yield surroundings(programs)


@contextmanager
def checkout(program: str) -> Iterator[str]:
    """Yields a folder with what the sessions need of a checkout: the program, new samples, and the libraries."""
    with folder_of({}) as top:
        for name in ("bin", "samples"):
            os.mkdir(os.path.join(top, name))
        make(os.path.join(top, "samples"))
        os.symlink(program, os.path.join(top, "bin", "krbfile"))
        for name in ("c", "examples", "lib", "python"):
            os.symlink(os.path.join(TOP, name), os.path.join(top, name))
        yield top


def check_session(report: Report, top: str, session: tuple[str, bytes]) -> None:
    """Runs a session in a checkout. A fault, a finding or a difference has the status 1."""
    command, wanted = session
    name = f"session: {command.splitlines()[0]}"
    if lack := lacks(command):
        report.skip(name, lack)
        return
    env = {**os.environ, "PYTHONDONTWRITEBYTECODE": "1", "KRBFILE": os.path.join(top, "bin", "krbfile")}
    clock = f"LD_PRELOAD={preload_library()} CLOCK={NOW} " if command.startswith("krbfile show") else ""
    before = re.findall(r"^    ((?:cd samples|export) .*)$", read("README.md"), re.MULTILINE)
    got = run("sh", ("-c", "\n".join([*before, clock + command])), top, env=env)
    status = 1 if "||" not in command and re.search(rb"\nfault |^(?:same|weak|-) ", wanted) else 0
    report.compare(name, Outcome(status, wanted), got)


def check(report: Report, program: str) -> None:
    """Runs the sessions one after the other over the samples, and each example over new ones."""
    examples = [parted(each[2:]) for each in literals("docs/krbfile.1")]
    wrong = {command.split()[1] for command, _ in examples} ^ {*COMMANDS}
    report.check("the commands of the examples", sorted(wrong))
    report.check("README has sessions", [] if [*sessions()] else ["none"])
    with checkout(program) as top:
        for session in sessions():
            check_session(report, top, session)
    for example in examples:
        with checkout(program) as top:
            check_session(report, top, example)
