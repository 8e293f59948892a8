"""Listings by krbfile, beside those by MIT's klist and by programs in C. Changes of keytabs by libkrbfile, beside those
by MIT's libkrb5, and copies by ktcopy beside MIT's ktutil."""

import re
import subprocess
import sys
from collections.abc import Callable, Iterator

import images
from measure import ROOT, Bench, Side, mit

SIZES = {  # how many entries each file has, and how many in a quick run
    images.services: (200_000, 10_000), images.holes: (3_000_000, 100_000), images.quoted: (550, 33),
    images.tickets: (50_000, 1_000),
}

MOST_OF_MANY = 1.2  # how many times the instructions of one keytab many may take, with as many entries


def named(bench: Bench, make: Callable[[int], bytes]) -> str:
    """Writes a file, and returns its name in a table."""
    count = SIZES[make][bench.quick]
    (bench.folder / "k").write_bytes(make(count))
    return f"{make.__name__}, {count:,}"


def times(bench: Bench, runs: int, *fronts: list[str]) -> list[float]:
    """Returns the median times of listings of that file."""
    return bench.medians([Side([*front, "k"]) for front in fronts], 3 if bench.quick else runs)


def beside_mit(bench: Bench) -> Iterator[list[str]]:
    """Yields our listings and MIT's."""
    for make, *options in ((images.services, "-k"), (images.services, "-k", "-t", "-K", "-e"), (images.holes, "-k"),
                           (images.quoted, "-k"), (images.tickets, "-c")):
        name = f"`{' '.join(options)}`, {named(bench, make)}"
        ours, theirs = times(bench, 9, [bench.krbfile, "klist", *options], [mit("klist"), *options])
        yield [name, f"{ours:.1f}", f"{theirs:.1f}", f"{ours / theirs:.3f}"]


def must_agree(bench: Bench, *fronts: list[str]) -> None:
    """Ends the benchmark if the listings or statuses of the file differ, but for the line of a fault."""
    runs = [subprocess.run([*front, "k"], cwd=bench.folder, capture_output=True, check=False) for front in fronts]
    if len({(run.returncode, re.sub(rb"fault \d at \d+\n\Z", b"", run.stdout)) for run in runs}) > 1:
        sys.exit(f"bench: whole.c and klist -k differ over {(bench.folder / 'k').read_bytes()[:1000]}")


def beside_c(bench: Bench) -> Iterator[list[str]]:
    """Yields our listings and those of a program in C, which has to print the same, of damaged files too."""
    ours, whole = [bench.krbfile, "klist", "-k"], [bench.built("whole")]
    for image in images.damaged():
        (bench.folder / "k").write_bytes(image)
        must_agree(bench, ours, whole)
    for make in (images.services, images.holes, images.quoted):
        name = named(bench, make)
        must_agree(bench, ours, whole)
        found = times(bench, 51, ours, whole)
        counts = [bench.instructions([*words, "k"]) for words in (ours, whole)]
        yield [name, *(f"{ms:.1f}" for ms in found), f"{found[0] / found[1]:.2f}", f"{counts[0] / counts[1]:.2f}"]


def many(bench: Bench) -> Iterator[list[str]]:
    """Yields the instructions of one listing of many keytabs, and of one of a keytab with all their entries."""
    count, entries = 100 if bench.quick else 1_000, 100
    names = [f"k{number}" for number in range(count)]
    for number, name in enumerate(names):
        (bench.folder / name).write_bytes(images.services(entries, number * entries))
    (bench.folder / "k").write_bytes(images.services(count * entries))
    found, one = (bench.instructions([bench.krbfile, "klist", "-k", *those]) for those in (names, ["k"]))
    if found > MOST_OF_MANY * one:
        sys.exit(f"bench: {count:,} keytabs take {found / one:.2f} times the instructions of one")
    yield [f"{count:,} of {entries}, one of {count * entries:,}", f"{found:,}", f"{one:,}", f"{found / one:.3f}"]


def left(bench: Bench, side: Side) -> list[bytes]:
    """Makes a run, and returns the entries in the file `a`, without their times."""
    bench.run(side)
    bench.run(Side([bench.krbfile, "klist", "-k", "-K", "-e", "a"]))
    return (bench.folder / "out").read_bytes().splitlines()


def row(bench: Bench, name: str, *sides: Side) -> list[str]:
    """Returns the times of both sides, which leave the same entries in `a`."""
    if left(bench, sides[0]) != left(bench, sides[1]):
        sys.exit(f"bench: {name}: the sides leave different entries")
    ours, theirs = bench.medians(sides, 3 if bench.quick else 9)
    return [name, f"{ours:,.1f}", f"{theirs:,.1f}", f"{ours / theirs:.3f}"]


def edits(bench: Bench) -> Iterator[list[str]]:
    """Yields additions to keytabs and removals from them, by edits.c and mit_edits.c."""
    library, many = ROOT / "lib" / "libkrbfile.a", 10_000 if bench.quick else 100_000
    if not library.exists():
        sys.exit(f"bench: {library} is not there: make lib builds it")
    programs = bench.built("edits", library), bench.built("mit_edits", "-lkrb5")
    for entries, roomy, additions, removals in (
            (1_000, 500, 1, 0), (1_000, 500, 250, 0), (1_000, 500, 0, 250), (many, many // 2, 1, 0),
            (many, many // 2, 10, 0), (many, many // 2, 0, 5), (many, 0, 1, 0)):
        work = f"{additions} added to" if additions else f"{removals} removed from"
        files = {"a": images.holed(entries, roomy)}
        yield row(bench, f"{work} {entries:,}, room from {roomy:,} on",
                  *(Side([program, "a", str(additions), str(removals)], files=files) for program in programs))


def copies(bench: Bench) -> Iterator[list[str]]:
    """Yields a copy of a keytab's entries into another one."""
    entries = 400 if bench.quick else 4_000
    files = {"a": images.services(entries), "b": images.services(entries, entries)}
    yield row(bench, f"{entries:,} copied to {entries:,}", Side([bench.krbfile, "ktcopy", "b", "a"], files=files),
              Side([mit("ktutil")], "rkt b\nwkt a\nquit\n", files))
