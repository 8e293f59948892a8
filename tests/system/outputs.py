"""Outputs that take a prefix of the text, or nothing, inputs that give nothing, and how both are read and written. What
is no plain file, and so not changed: a pipe is not opened, nor a terminal among several files, or by an overview."""

import os
import select
import signal
import socket
import stat
import threading
from collections.abc import Callable, Iterator
from contextlib import AbstractContextManager, contextmanager, nullcontext, suppress
from dataclasses import replace
from functools import partial
from itertools import product

from caches import cache_listings
from caches.cache_listings import HEADING, TICKET_LINE, line_of
from keytabs.conversations import stop
from keytabs.listings import B_LINE, HOST_LINE, listed
from makers.images import B, HOST, TICKET, TWO, Entry, cache, keytab
from runs.commands import (CHANGES, COMMANDS, LEAVES, OLD, READS, both_ways, file_of, mixed_cache, mixed_keytab,
                           renamed, small_runs)
from runs.harness import EXPLAIN, SECONDS, Outcome, Report, differences, every, folder_of, piped, run, run_case
from runs.undisturbed import IN_PLACE, Undisturbed, undisturbed
from system.failing_streams import NO_OUTPUT, End, Ends, ends_in_output
from system.saving import last_line, tree_faults
from words.explaining import for_owner
from words.phrases import CAUSES

LONG = undisturbed("klist -k k", k=keytab(*[Entry((b"x" * 992,))] * 300))  # 300 lines of 1000 bytes overfill a pipe

# Runs of ktutil that do not depend on the clock.
FILES = {"k": TWO, "j": keytab(HOST), "n": keytab(B)}
TALKS = (
    undisturbed("ktutil", b"rkt j\nl\nwkt k\n", name="saves", **FILES),
    undisturbed("ktutil", b"frob\nrkt k\nrkt j\nwkt n\n", name="is at fault", **FILES),
)

LONGEST = 32_768 + 2_000  # a buffered write has at most one more line or element, all below 2,000 bytes here
MESSAGE = 1 << 20  # no message is longer than a write may be


def check_closed_pipe(report: Report, program: str) -> None:
    """Closes the reader after some bytes: the write fails, since the program ignores SIGPIPE in each case."""
    for action, taken in product((signal.SIG_DFL, signal.SIG_IGN), (0, 1, 20, 1000, 70_000)):
        options = {"preexec_fn": partial(signal.signal, signal.SIGPIPE, action)}
        with folder_of(LONG.files) as folder, piped(program, LONG.words, folder, **options) as started:
            out = started.stdout.read(taken)
            started.stdout.close()
            err = started.stderr.read()
            got = Outcome(started.wait(SECONDS), out, err)
        wanted = replace(NO_OUTPUT, out=LONG.wanted.out[:taken])
        report.compare(f"pipe closed after {taken} bytes, {action.name}", wanted, got)


def check_stopped(report: Report, program: str) -> None:
    """Stops klist while it waits for a reader of its output: it goes on as if nothing had happened."""
    with folder_of(LONG.files) as folder, piped(program, LONG.words, folder) as started:
        stop(started.pid)
        out, err = started.communicate(timeout=SECONDS)
    report.compare("klist is stopped and continued at a full pipe", LONG.wanted, Outcome(started.returncode, out, err))


def is_met(ends: Ends, stream: str, end: End) -> bool:
    """Whether a run ended as it has to without that stream. It does not matter if that is not used."""
    wanted, files = ends.whole
    if stream == "stdin":
        reads_input = ends.command in COMMANDS and COMMANDS[ends.command].reads_input
        return end in (ends.of_input(0) if reads_input else [ends.whole])
    if stream == "stdout" and wanted.out:
        return ends_in_output(ends, end)
    return end == (wanted if stream == "stdout" else replace(wanted, err=b""), files)


def check_lost(report: Report, program: str) -> None:
    """Makes runs that do not depend on the clock with each stream closed, and with outputs on a full device."""
    timeless = [run for run in small_runs() if run.words[0] not in ("ccremove", "ktutil", "show")]
    with open("/dev/full", "wb") as full:
        lost = (("stdin", "closed", {"preexec_fn": partial(os.close, 0)}),
                ("stdout", "full", {"stdout": full}), ("stderr", "full", {"stderr": full}),
                ("stdout", "closed", {"preexec_fn": partial(os.close, 1), "stdout": None}),
                ("stderr", "closed", {"preexec_fn": partial(os.close, 2), "stderr": None}))
        for ends, (stream, how, options) in product(
                map(Ends, (*timeless, *both_ways(*CHANGES), *READS, *LEAVES, *TALKS)), lost):
            got, files = run_case(program, ends.run.as_case(), **options)
            found = [] if is_met(ends, stream, (got, files)) else [f"{got} and {sorted(files)}"]
            report.check(f"{how} {stream}: {ends.run.name}", found)


def pieces_of(program: str, case: Undisturbed, stream: str = "stdout") -> tuple[Outcome, list[int]]:
    """Makes a run with a socket as one output, and returns the length of each write to it."""
    ours, theirs = socket.socketpair(socket.AF_UNIX, socket.SOCK_SEQPACKET)
    with folder_of(case.files) as folder, ours, piped(program, case.words, folder, **{stream: theirs}) as started:
        theirs.close()
        parts = [*iter(lambda: ours.recv(MESSAGE), b"")]
        out, err = (other.read() if other else b"".join(parts) for other in (started.stdout, started.stderr))
        got = Outcome(started.wait(SECONDS), out, err)
    return got, [*map(len, parts)]


def check_pieces(report: Report, program: str) -> None:
    """Lists a keytab and a cache of more than three pieces. A message is one, so that those of runs do not mix."""
    image, cache = mixed_keytab(3_000), mixed_cache(400)
    for one in (undisturbed("klist -k k", k=image), undisturbed("klist -kK --json k", k=image),
                undisturbed("klist -cefC c", c=cache), undisturbed("klist --json c", c=cache),
                undisturbed("ktcheck --json --older 1 --only --want c@R k", k=image)):
        got, lengths = pieces_of(program, one)
        faults = differences(one.wanted, got)
        faults += [f"a write of {max(lengths)} bytes"] if max(lengths, default=0) > LONGEST else []
        faults += [f"{len(lengths)} writes"] if len(lengths) < 3 else []
        report.check(f"in pieces: {one.name}", faults)
    missing = undisturbed("klist -k none")
    got, lengths = pieces_of(program, missing, "stderr")
    faults = [f"{len(lengths)} writes"] if len(lengths) != 1 else []
    report.check(f"in one piece: {missing.name}", differences(missing.wanted, got) + faults)


PIPES, OTHERS = ("pipe", "link"), (".", "/dev/null", "/dev/full/k")  # a pipe and a link to it, and other things

# Lines over several files, and what they print of those that are plain; and an overview of one.
SEVERAL = {
    "klist -k pipe k link": listed(HOST_LINE, B_LINE), "klist --json link pipe": b"",
    "klist c pipe": cache_listings.listed(b"u@R", TICKET_LINE), "klist -l pipe": HEADING,
    "klist -l link c pipe": HEADING + line_of("c", True), "show pipe link": b"",
    "ktmatch k pipe link": b"",
    "ktcheck pipe k": b"k: entries 2 free 0 holes 0\n",
    "ktcheck --json k pipe":
        b'{"file":"k","mode":"600","entries":2,"free":0,"holes":0,"findings":[],"fault":null,"status":0}\n'
        b'{"file":"pipe","error":"cannot read","status":3}\n',
    "ktremove -p b@R pipe k": b"k: removed 53 kvno 3 etype 17 b@R\n", "ktremove -n -p host/a@R pipe link": b"",
    "ccremove -p krbtgt/R@R c link": b"c: removed 22 krbtgt/R@R\n",
}

IsUsed = Callable[[], bool]  # what says whether a file was used


@contextmanager
def fed(path: str) -> Iterator[IsUsed]:
    """Makes a pipe that gives a keytab to who opens it to read, and yields what says whether it was opened."""
    opened: list[bool] = []

    def feed() -> None:
        with suppress(BrokenPipeError), open(path, "wb", buffering=0) as pipe:
            opened.append(True)
            pipe.write(OLD)

    os.mkfifo(path)
    feeder = threading.Thread(target=feed)
    feeder.start()
    try:
        yield lambda: bool(opened)
    finally:
        os.close(os.open(path, os.O_RDONLY | os.O_NONBLOCK))
        feeder.join()


@contextmanager
def typed(path: str) -> Iterator[IsUsed]:
    """Makes a link to a terminal on which a line is typed, and yields what says whether that was read."""
    typist, terminal = os.openpty()
    os.symlink(os.ttyname(terminal), path)
    os.write(typist, b"typed\n")
    try:
        yield lambda: not select.select([terminal], [], [], 0)[0]
    finally:
        os.close(terminal)
        os.close(typist)


def made(make: Callable[[str], object], path: str) -> AbstractContextManager[IsUsed]:
    """Makes what does not show whether it was used."""
    make(path)
    return nullcontext(bool)


# What is no plain file and no folder, each under a name.
KINDS: dict[str, Callable[[str], AbstractContextManager[IsUsed]]] = {
    "a pipe": fed, "a terminal": typed, "a socket": partial(made, lambda path: os.mknod(path, stat.S_IFSOCK | 0o600)),
    "a device": partial(made, partial(os.symlink, "/dev/null")),
}


def check_changes(report: Report, program: str) -> None:
    """Checks each run over each of these, in both ways."""
    for case, name in product(CHANGES, (*PIPES, *OTHERS)):
        place, one = "line 2: " if case.words[0] == "ktutil" else "", renamed(case, name)
        others = {each: data for each, data in case.files.items() if each != file_of(case)}
        with folder_of(others) as folder:
            os.symlink("pipe", os.path.join(folder, "link"))
            with fed(os.path.join(folder, "pipe")) as is_used:
                found = [run(program, (EXPLAIN, *words), folder, one.stdin)
                         for words in (one.words, (one.words[0], IN_PLACE, *one.words[1:]))]
                faults = ["it was opened"] * is_used()
            faults += differences(*found) + ([] if found[0].status else [f"{found[0]}"])
            if name in PIPES:
                output = f"krbfile: {name}: cannot read\nkrbfile: {place}{CAUSES['no plain file']}\n"
                line = last_line("EINVAL") if case.words[0] == "hold" else b""
                faults += differences(Outcome(3, line, output.encode()), found[0])
            faults += tree_faults({"pipe": "p", "link": "pipe", **others}, folder)
        report.check(f"no plain file is changed: {case.name}, {name}", faults)


def check_several(report: Report, program: str) -> None:
    """Checks runs over a pipe or another such thing, a link to it, and a file."""
    for (line, out), (kind, make) in product(SEVERAL.items(), KINDS.items()):
        with folder_of({"k": TWO, "c": cache(TICKET)}) as folder:
            for_owner(folder)
            os.symlink("pipe", os.path.join(folder, "link"))
            with make(os.path.join(folder, "pipe")) as is_used:
                got = run(program, (EXPLAIN, *line.split()), folder)
                faults = ["it was opened"] * is_used()
        errors = "".join(f"krbfile: {name}: cannot read\nkrbfile: {CAUSES['no plain file']}\n"
                         for name in line.split() if name in PIPES)
        report.check(f"{kind} among others: {line}", differences(Outcome(3, out, errors.encode()), got) + faults)


def check_silent(report: Report, program: str) -> None:
    """Checks names that lead `klist -s` to no plain file: it says nothing, and does not open a pipe."""
    with folder_of({}) as folder, fed(f"{folder}/pipe") as is_used:
        for name in (".", "/dev/null", "x" * 256, "pipe"):
            report.compare(f"klist -s {name[:20]}", Outcome(3), run(program, ("klist", "-s", name), folder))
        report.check("klist -s pipe", ["it was opened"] * is_used())


check = every(check_closed_pipe, check_stopped, check_lost, check_pieces, check_changes, check_several, check_silent)
