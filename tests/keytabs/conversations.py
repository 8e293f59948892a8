"""Runs with somebody at the other end: ktutil handles each line before the next one arrives. At a terminal it has
prompts, and what is printed there escapes, a byte at a time, what could change the terminal."""

import os
import pty
import re
import select
import signal
import subprocess
import termios
import time
from collections.abc import Callable, Iterator
from dataclasses import replace

from keytabs.edits import KEY, NO_SLOTS, TWO_LISTED
from makers.images import B, TICKET, TWO, USUAL, Entry, Name, cache, keytab
from runs.commands import READS
from runs.harness import (EXPLAIN, SECONDS, Outcome, Report, all_of, differences, every, folder_of, piped, run,
                          run_on_terminal, short, text)
from runs.undisturbed import Undisturbed, undisturbed
from words.phrases import NO_ENTRY, NO_PASSWORDS

LISTED = text(TWO_LISTED)
MOMENT = 0.05  # how long a run has to reach the point where it waits


def stop(pid: int) -> None:
    """Stops a run for a moment, as a shell does."""
    time.sleep(MOMENT)
    os.kill(pid, signal.SIGSTOP)
    os.waitid(os.P_PID, pid, os.WSTOPPED)
    os.kill(pid, signal.SIGCONT)


def terminal() -> tuple[int, int]:
    """Returns a terminal without echo: its two ends."""
    master, slave = pty.openpty()
    settings = termios.tcgetattr(slave)
    settings[3] &= ~termios.ECHO
    termios.tcsetattr(slave, termios.TCSANOW, settings)
    return slave, master


def heard_from(stream, count: int, seconds: float = SECONDS) -> bytes:
    """Waits for that many bytes of an output, or that long."""
    heard = b""
    while (len(heard) < count and select.select([stream], [], [], seconds)[0]
           and (piece := stream.read(count - len(heard)))):
        heard += piece
    return heard


def faults_of_talk(program: str, opened: Callable[[], tuple[int, int]], lines: list[tuple[bytes, bytes]], last: bytes,
                   wanted: Outcome, is_stopped: bool) -> list[str]:
    """Returns the faults of a run by what comes of each line, before the next is sent, and by how it ends."""
    theirs, ours = opened()
    found: list[str] = []
    with folder_of({"k": TWO}) as folder, piped(program, ("ktutil",), folder, stdin=theirs, bufsize=0) as talk:
        os.close(theirs)
        for sent, due in lines:
            if is_stopped:
                stop(talk.pid)
            os.write(ours, sent)
            stream = talk.stderr if due.startswith(b"krbfile: ") else talk.stdout
            heard = heard_from(stream, len(due)) if due else heard_from(stream, 1, 0.2)
            found += [] if heard == due else [f"{short(heard)} came, not {short(due)}"]
        if last:
            os.write(ours, last)
        else:
            os.close(ours)
        try:
            out, err = talk.communicate(timeout=SECONDS)
            found += differences(wanted, Outcome(talk.returncode, out, err))
        except subprocess.TimeoutExpired:
            talk.kill()
            found.append("it does not end")
        if last:
            os.close(ours)
    return found


# Lines that are sent one by one, one in pieces, some faulty, each with what comes of it.
LINES = [(b"l\n", NO_SLOTS), (b"rkt k\nl\n", LISTED), (b"frob\n", b"krbfile: line 4: fault 1\n"), (b"cle", b""),
         (b"ar\nl\n", NO_SLOTS)]

# How the input is open, the lines, the last bytes, how the run ends, and whether it is stopped before each line.
TALKS = {"up to quit": (os.pipe, LINES, b"q\n", Outcome(1), False),
         "up to the end of the input": (os.pipe, [*LINES, (b"l", b"")], b"", Outcome(1, NO_SLOTS), False),
         "at a terminal": (terminal, LINES[:2], b"\x04", Outcome(0), False),
         "stopped at a pipe": (os.pipe, LINES[:2], b"q\n", Outcome(0), True),
         "stopped at a terminal": (terminal, LINES[:2], b"q\n", Outcome(0), True)}

END = "\x04"
SCRIPT = "krbfile: reading a script; end it with Ctrl-D\n"
COMMAND, KEY_PROMPT, PASSWORD = "ktutil: ", "Key for a@R (hex): ", "password (not used): "
ADD, FROM_PASSWORD = (f"addent {word} -p a@R -k 1 -e 17\n" for word in ("-key", "-password"))
FAULT = f"krbfile: line 1: fault 2\nkrbfile: line 1: {NO_PASSWORDS}\n"

# Words, what is typed, and what is on the terminal then, which does not show what is typed.
TYPED = (
    ("ktutil", "q\n", COMMAND), ("ktutil", f"\nl\n{END}", COMMAND * 3 + "\n"),
    ("ktutil", f"{ADD}{KEY}\nexit\n", COMMAND + KEY_PROMPT + COMMAND),
    ("ktutil", f"{ADD}{END}{END}", COMMAND + KEY_PROMPT + "\n"),
    ("ktutil", f"{FROM_PASSWORD}quit\nq\n", COMMAND + FAULT + PASSWORD + COMMAND),
    ("ktutil", FROM_PASSWORD + END, COMMAND + FAULT + PASSWORD + "\n"),
    ("ktutil", "wkt n\nq\n", f"{COMMAND}krbfile: line 1: {NO_ENTRY.replace('NAME', 'n')}\n{COMMAND}"),
    ("ktedit k", f"start\n{END}", SCRIPT), ("ccedit c", END, SCRIPT),
    ("ktedit k", f"frob\n{END}", f'{SCRIPT}krbfile: line 1: fault 1\nkrbfile: unknown first word: "frob"\n'),
    ("klist -k k", "", ""), ("hold -k k", END, ""),
)


def typed(program: str, words: str, lines: str, folder: str, shows_errors: bool) -> Outcome:
    """Makes a run whose input is a terminal, and its error output too if it `shows_errors`."""
    theirs, ours = terminal()
    os.write(ours, lines.encode())
    errors = theirs if shows_errors else subprocess.PIPE
    try:
        with piped(program, words.split(), folder, stdin=theirs, stderr=errors) as process:
            os.close(theirs)
            out, err = process.communicate(timeout=SECONDS)
        return Outcome(process.returncode, out, all_of(ours) if shows_errors else err)
    finally:
        os.close(ours)


def check_talks(report: Report, program: str) -> None:
    """Makes each talk, and types each; nothing asks for what is typed where the error output is a pipe."""
    for name, talk in TALKS.items():
        report.check(f"ktutil answers line by line, {name}", faults_of_talk(program, *talk))
    for words, lines, wanted in TYPED:
        with folder_of({"k": TWO, "c": USUAL}) as folder:
            got = typed(program, words, lines, folder, True)
            report.check(f"{words}, {lines!r}", [] if got.err.decode() == wanted else [f"{got}, not {wanted!r}"])
            silent = typed(program, words, lines, folder, False)
            prompts = [each for each in (COMMAND, KEY_PROMPT, PASSWORD, SCRIPT) if each.encode() in silent.err]
            report.check(f"{words}, {lines!r}: no prompt in a pipe", prompts)


# What is escaped: each byte below hexadecimal 20 but newlines, 7f, and pairs of c2 and 80 to 9f.
ESCAPED = re.compile(rb"[\x00-\x09\x0b-\x1f\x7f]|\xc2[\x80-\x9f]")
# A part of a name, and what a terminal is sent for it: its last c2 begins no pair.
WILD = b"\x1b]0;x\x07\r\x0b\x1f\x7f \xc2\x9b31m\xc2\x80\xc2\xa0\xc3\xa9\xc2\xc2\x9f\x9b\xff\xc2"
TAMED = b"\\x1b]0;x\\x07\\x0d\\x0b\\x1f\\x7f \\xc2\\x9b31m\\xc2\\x80\xc2\xa0\xc3\xa9\xc2\\xc2\\x9f\x9b\xff\xc2"

WILD_FILES = {"k": keytab(Entry((WILD, b"a")), B),
              "c": cache(replace(TICKET, server=Name((WILD, b"a"))), default=Name((WILD,)))}

FILE = "k\x1b[2J\r\t\x7f\x9b31mé"  # the name of a file, which is UTF-8
TEXTS = {"j": keytab(Entry((FILE.encode(),))),  # with such a name, for JSON
         "d": cache(replace(TICKET, server=Name((FILE.encode(),))), default=Name((FILE.encode(),)))}


def named(*words: str, image: bytes | None = None) -> Undisturbed:
    """Returns a run over the file of that name, or over none."""
    return undisturbed((*words, FILE), **{FILE: image})


RUNS = [
    undisturbed("klist --json -k j", **TEXTS), undisturbed("klist --json d", **TEXTS),
    undisturbed("klist -l --json d", **TEXTS), undisturbed("ktmatch --json j d", **TEXTS),
    undisturbed("ktcheck --json --older 1 --only --want b@R j", **TEXTS),
    undisturbed(("ktcheck", "--only", "--want", "\x1b@R", "j"), **TEXTS), undisturbed("ktutil", b"rkt k\x1b\n"),
    named("klist", "-k"), named("klist", "--json", "-k"), named("ktcheck"), named("ktcheck", "--json"),
    named("ktcheck", "-H", image=keytab(B) + b"\0"), named("ktremove", "-n", "-p", "b@R", FILE, image=keytab(B)),
    undisturbed("klist -l c", **WILD_FILES),
]


def of_commands() -> Iterator[Undisturbed]:
    """Yields the runs of each command that print the name of the first entry or ticket, over others."""
    for each in READS:
        if re.search(b" (host/a|krbtgt/R)@R[ \n]", each.wanted.out):
            yield replace(each, files={name: WILD_FILES.get(name, image) for name, image in each.files.items()})


def escaped(text: bytes) -> bytes:
    """Returns a text as a terminal is sent it."""
    return ESCAPED.sub(lambda found: b"".join(b"\\x%02x" % byte for byte in found[0]), text)


def check_printed(report: Report, program: str, made: Undisturbed) -> None:
    """Makes a run with its outputs in pipes, and then with each on a terminal. JSON has no byte that is escaped."""
    words = (EXPLAIN, *made.words)
    with folder_of(made.files) as folder:
        piped = run(program, words, folder, made.stdin)
        for stream, tamed in (("stdout", {"out": escaped(piped.out)}), ("stderr", {"err": escaped(piped.err)})):
            got = run_on_terminal(program, words, folder, made.stdin, stream)
            report.check(f"{made.name}: {stream} on a terminal", differences(replace(piped, **tamed), got))
    is_wild = b"\\u001b" in piped.out or ESCAPED.search(piped.out + piped.err)
    is_json = "--json" in words and ESCAPED.search(piped.out)
    report.check(f"{made.name}: in a pipe", [] if is_wild and not is_json else [f"{piped}"])


def check_screens(report: Report, program: str) -> None:
    """Makes each run on a terminal."""
    report.check("what is escaped", [] if escaped(WILD) == TAMED else [f"{escaped(WILD)}"])
    for made in (*RUNS, *of_commands()):
        check_printed(report, program, made)


check = every(check_talks, check_screens)
