"""Runs of programs, and the processor time that they take."""

import os
import platform
import re
import shutil
import subprocess
import sys
import time
from collections.abc import Sequence
from pathlib import Path
from resource import RUSAGE_CHILDREN, getrusage
from statistics import median
from typing import NamedTuple

HERE = Path(__file__).resolve().parent
ROOT = HERE.parent


class Side(NamedTuple):
    """A run, its input, and the files that are written before it."""

    words: list[str]
    given: str = ""
    files: dict[str, bytes] = {}


class Bench:
    """A folder in which programs run, the krbfile that is measured, and whether quick runs are enough."""

    def __init__(self, folder: Path, krbfile: str, quick: bool):
        self.folder, self.krbfile, self.quick = folder, krbfile, quick
        (folder / "krb5.conf").touch()
        os.environ.update(KRB5_CONFIG=str(folder / "krb5.conf"), LC_ALL="C")  # for MIT's programs

    def built(self, name: str, *more: object) -> str:
        """Builds NAME.c, with further words for the compiler, and returns the program."""
        words = [os.environ.get("CC", "cc"), "-O2", "-Wall", f"-I{ROOT / 'c'}", HERE / f"{name}.c", *more]
        subprocess.run([*words, "-o", self.folder / name], check=True)
        return str(self.folder / name)

    def run(self, side: Side) -> None:
        """Makes a run, which has to succeed. The file `out` is what it prints."""
        for name, image in side.files.items():
            (self.folder / name).write_bytes(image)
        if side.files:
            os.sync()
        with open(self.folder / "out", "wb") as out:
            subprocess.run(side.words, cwd=self.folder, input=side.given, text=True, stdout=out,
                           stderr=subprocess.DEVNULL, check=True)

    def milliseconds(self, side: Side) -> float:
        """Makes a run, and returns its processor time, the kernel's part included."""
        before = getrusage(RUSAGE_CHILDREN)
        self.run(side)
        after = getrusage(RUSAGE_CHILDREN)
        return (after.ru_utime + after.ru_stime - before.ru_utime - before.ru_stime) * 1000

    def medians(self, sides: Sequence[Side], runs: int) -> list[float]:
        """Returns the median time of each side. They run in turn, once before it counts."""
        times = [[self.milliseconds(side) for side in sides] for _ in range(runs + 1)]
        return [median(each) for each in zip(*times[1:])]

    def instructions(self, words: list[str]) -> int:
        """Returns the instructions of a program, without the kernel's. No `rep stosb`, which counts as one a byte."""
        tool = ("valgrind", "--tool=callgrind", "--callgrind-out-file=/dev/null", "--log-file=log")
        self.run(Side(["env", "GLIBC_TUNABLES=glibc.cpu.x86_rep_stosb_threshold=1073741824", *tool, *words]))
        return int(re.search(r"Collected : (\d+)", (self.folder / "log").read_text())[1])


def version() -> str:
    """Returns what the klist on the path says of its version."""
    return subprocess.run(["klist", "-V"], stdout=subprocess.PIPE, text=True, check=True).stdout.strip()


def mit(program: str) -> str:
    """Returns MIT's program of that name on the path."""
    path = shutil.which(program)
    if path is None or not version().startswith("Kerberos 5 version"):
        sys.exit(f"bench: no {program} of MIT's on the path (Debian: krb5-user)")
    return path


def machine() -> str:
    """Returns a line about the day, the machine and its load."""
    processor = re.search(r"model name\s*: (.*)", Path("/proc/cpuinfo").read_text())[1]
    load = " ".join(f"{value:.1f}" for value in os.getloadavg())
    return (f"{time.strftime('%Y-%m-%d')}, {processor}, {os.cpu_count()} processors, Linux {platform.release()}, "
            f"{version()}; load {load} over 1, 5 and 15 minutes")
