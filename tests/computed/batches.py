"""Batches of runs, which the prover compares with what the definitions compute; and topics of random runs, each made
from a number, which are compared so, or in rounds of checks of other kinds. Those that went wrong are kept."""

import os
import re
import shutil
import subprocess
import tempfile
from collections import Counter
from collections.abc import Callable, Iterable, Iterator
from concurrent.futures import ThreadPoolExecutor
from dataclasses import dataclass
from pathlib import Path
from random import Random
from shlex import quote

from computed.terms import TIME, Module, NotComputed, Words, row_of, seconds, spellings, time_theorems
from proving import compiler
from runs import undisturbed
from runs.harness import Case, Outcome, Report
from runs.undisturbed import Undisturbed, explained

ONE_IN = 10  # an unproved program is slow: it runs one of this many numbers
KEPT = os.path.join(tempfile.gettempdir(), "krbfile-kept")  # the folder of the cases that went wrong


def keep(name: str, case: Case, program: str = "krbfile") -> str:
    """Keeps a case that went wrong in a folder of its own, and returns the line that runs it again, over a copy."""
    folder = os.path.join(KEPT, name.replace(" ", "-"))
    shutil.rmtree(folder, ignore_errors=True)
    os.makedirs(os.path.join(folder, "files"))
    front = f'here=$(mktemp -d) && cp -r {folder}/files/. "$here" && cd "$here" && '
    line = " ".join(quote(os.fsdecode(word)) for word in (program, *case.words))
    files = {os.path.join("files", each): data for each, data in case.files.items()}
    again = os.fsencode(f"{front}{line} < {folder}/stdin\n")
    for path, data in {**files, "stdin": case.stdin, "again": again}.items():
        Path(folder, path).write_bytes(data)
    return f"sh {folder}/again"


@dataclass(frozen=True)
class Rounds:
    """Checks in rounds, each made from a number, which take long and report by themselves."""

    check_rounds: Callable[[Report, str, range], None]
    share: int  # a long run takes its count divided by this
    usual: int = 0  # how many numbers a short run takes
    name: str = ""

    def check(self, report: Report, program: str) -> None:
        """Runs a few, the same in each run."""
        self.check_rounds(report, program, range(self.usual))

    def check_long(self, program: str, seed: int, count: int) -> Report:
        """Runs many, from a seed on."""
        report = Report()
        self.check_rounds(report, program, range(seed, seed + max(1, count // self.share)))
        return report


NAME = "computed"  # the crate of a batch
ROWS = 100  # how many rows a module has
MOST = 4_000  # the most bytes that a row is about
SHARE = 50  # a long run takes its count divided by this
DAYS = 16  # how many days there are: the date of a day is found by counting, which takes as long as many rows

REFUSED = re.compile(r"\./proofs/\w+\.antt:\S+ error: `row_(\d+)`: (.*)")  # a refusal of a row, with its first line
FAILED = (3, 4)  # the statuses of runs in which a call failed
# The options without a computed run: the same is saved in place, and each such run is compared with the other.
NEVER_COMPUTED = {f"{it} --in-place" for it in ("ktedit", "ktremove", "ktcopy", "ktutil", "ccedit", "ccremove")}


def days_of(case: Case) -> set[int]:
    """Returns the days that a run prints."""
    return {seconds(moment) // 86_400 for moment in TIME.findall(case.wanted.out)}


def row_within(case: Case, days: set[int]) -> str:
    """Returns the theorem of a run that is small enough, and prints few days that others do not."""
    if case.wanted.status in FAILED:
        raise NotComputed("a status of 3 or 4")
    if case.size() + len(case.wanted.out) + sum(map(len, (case.files_after or {}).values())) > MOST:
        raise NotComputed(f"more than {MOST:,} bytes")
    if len(days | days_of(case)) > DAYS:
        raise NotComputed(f"more than {DAYS} days")
    return row_of("row_N", case)


def rows_of(seen: Iterable[Case]) -> dict[int, tuple[Case, str]]:
    """Returns the runs that the definitions compute, with their theorems, by number; prints why they do not others."""
    found: dict[str, Case] = {}
    days: set[int] = set()
    why: Counter[str] = Counter()
    for case in seen:
        try:
            found.setdefault(row_within(case, days), case)
            days |= days_of(case)
        except NotComputed as reason:
            why[str(reason)] += 1
    for reason, count in why.most_common():
        print(f"{count} runs are not compared with the definitions: {reason}")
    return {number: (case, text.replace("row_N", f"row_{number}")) for number, (text, case) in enumerate(found.items())}


def modules_of(rows: dict[int, tuple[Case, str]]) -> list[Module]:
    """Returns the modules of some rows: the times in them, and the rows."""
    numbers = list(rows)
    moments = {moment for case, _ in rows.values() for moment in TIME.findall(case.wanted.out)}
    parts = [numbers[at:at + ROWS] for at in range(0, len(numbers), ROWS)]
    found = [Module(f"Rows{part[0]}", "Runs.", tuple(rows[it][1] for it in part), NAME) for part in parts]
    return [Module("Times", "Times.", tuple(time_theorems(moments)), NAME), *found] if moments else found


def write(folder: str, modules: list[Module]) -> None:
    """Writes a crate of some modules."""
    lemmas = [f"crate::proofs::{it.name}::row_{it.name[4:]}" for it in modules if it.name != "Times"]
    texts = {"src/lib.rt": compiler.SOURCE.format(lemmas=", ".join(lemmas)),
             "proofs/Lib.antt": "".join(f"mod {it.name}\n" for it in modules),
             **{f"proofs/{it.name}.antt": it.written() for it in modules}}
    for path, text in texts.items():
        Path(folder, path).parent.mkdir(exist_ok=True)
        Path(folder, path).write_text(text, "utf-8")


def refusals(rows: dict[int, tuple[Case, str]], are_sources: bool) -> dict[int, str]:
    """Returns why rows are refused, by number: the definitions compute something else."""
    with tempfile.TemporaryDirectory(prefix="krbfile-") as folder:
        write(folder, modules_of(rows))
        as_sources = compiler.below("corpus_samples") if are_sources else ()
        words = [*compiler.command("check", "corpus_samples", 1, NAME, as_sources), "--only", "computes"]
        done = subprocess.run(words, cwd=folder, stdin=subprocess.DEVNULL, stdout=subprocess.PIPE,
                              stderr=subprocess.STDOUT, text=True, errors="replace", check=False)
    found = {int(number): why for number, why in REFUSED.findall(done.stdout)}
    if done.returncode and not found:
        errors = [line for line in done.stdout.splitlines() if "error" in line]
        return {next(iter(rows)): f"the rows were not checked: {' '.join(errors[:2])}"}
    return found


def compare(report: Report, seen: list[Case], are_sources: bool, jobs: int, is_whole: bool = False) -> None:
    """Compares runs with the definitions, some at a time. Whole tests have a run of each option."""
    rows = rows_of(seen)
    if is_whole:
        computed = {option for case, _ in rows.values() for option in Words(case).spelled()}
        known = {f"{command} --{name}" for command, spelling in spellings().items() for name in spelling.options}
        report.check("computed: each option", [f"{option} is in no run" for option in sorted(
            known - computed - NEVER_COMPUTED)])
    print(f"{len(rows)} runs are compared with the definitions", flush=True)
    parts = [dict(part) for each in range(jobs) if (part := list(rows.items())[each::jobs])]
    with ThreadPoolExecutor(jobs) as pool:
        for part, found in zip(parts, pool.map(lambda part: refusals(part, are_sources), parts), strict=True):
            report.passed += len(part) - len(found)
            for number, why in found.items():
                report.check(f"computed: {rows[number][0].name}", [keep(f"computed {number}", rows[number][0]), why])


@dataclass(frozen=True)
class Topic:
    """Random runs of one topic: its title, the runs by a random source, and how many numbers a short run takes."""

    title: str
    runs: Callable[[Random], Iterator[Undisturbed]]
    usual: int

    @property
    def name(self) -> str:
        """Its name on a command line."""
        return self.title.replace(" ", "_")

    def make(self, numbers: range) -> list[Outcome]:
        """Makes the runs of some numbers, with their messages explained if the number is odd; returns how they end."""
        return [(explained(run) if number % 2 else run).wanted
                for number in numbers for run in self.runs(Random(number))]

    def check(self, report: Report, _program: str) -> None:
        """Makes as many as usual, the same in each run; fewer of an unproved program, which is slow."""
        self.make(range(self.usual if report.is_proved else self.usual // ONE_IN))

    def check_long(self, program: str, seed: int, count: int) -> Report:
        """Makes many from a seed on, and compares them with the definitions."""
        report = Report()
        self.make(range(seed, seed + max(1, count // SHARE)))
        compare(report, undisturbed.SEEN, not compiler.is_proved("samples"),
                compiler.at_once(len(os.sched_getaffinity(0))))
        undisturbed.SEEN.clear()
        return report
