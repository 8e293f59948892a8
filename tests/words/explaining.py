"""Runs with their messages and what explains these: on a pipe, which gets the message alone, on a terminal, and with
`--explain`. Random runs have each of the others."""

import os
import stat
from collections.abc import Callable
from dataclasses import dataclass, field, replace
from errno import ENXIO
from functools import partial
from itertools import product

from keytabs.edits import ADD_HOST, KEY
from keytabs.file_names import LIMIT
from makers.images import B, TWO, USUAL, keytab
from runs.harness import (EXPLAIN, WAYS, Case, Line, Outcome, Report, differences, files_in, folder_of, run, shown,
                          text, words_of)
from runs.undisturbed import frame
from system.saving import as_another, at, last_line, link
from words.phrases import (BEGINS_AS_CACHE, CAUSES, CLASH, ERRORS, LARGE, OTHER_FILES, SEE_HELP, SHORT, TO_REPLACE,
                           code, line_fault, unknown)

CUT_CACHE = USUAL + b"\0"  # a damaged cache
Output = tuple[tuple[str, str], ...]  # messages, each with its explanation or an empty text
FULL = {"preexec_fn": lambda: os.dup2(os.open("/dev/full", os.O_WRONLY), 1)}  # an output that takes nothing
FAILED = ("cannot write output", CAUSES["ENOSPC"])  # what is said of that


@dataclass(frozen=True)
class Explained:
    """A run, and the messages on its error output."""

    name: str
    words: Line
    output: Output
    files: dict[str, bytes]
    stdin: bytes = b""
    status: int = 1
    out: bytes | None = None  # the output, if it is known
    after: dict[str, bytes] | None = None  # the files afterwards, if they are checked
    options: dict[str, object] = field(default_factory=dict)  # the options of the run, such as its environment
    setting: Callable[[str], None] = lambda folder: None  # a change to the folder before the run
    mode: int = 0  # the mode of its files, if its output depends on that

    def wanted(self, explained: bool, out: bytes) -> Outcome:
        """Returns the expected outcome with that output."""
        lines = [line for one in self.output for line in (one if explained else one[:1]) if line]
        return Outcome(self.status, out, "".join(f"krbfile: {line}\n" for line in lines).encode())

    def as_case(self) -> Case:
        """Returns it as a case, with explanations."""
        wanted = self.wanted(True, self.out or b"")
        return Case(self.name, (EXPLAIN, *self.words), wanted, self.files, self.after, self.stdin, mode=self.mode)

    def check(self, report: Report, program: str) -> None:
        """Runs it on a pipe and with explanations: everything else is the same."""
        if report.leaves_out(len(self.stdin) + sum(map(len, self.files.values()))):
            return
        if self.status == 2:
            report.seen.append(self.as_case())
        out = self.out
        for way, (make, explains) in WAYS.items():
            with folder_of(self.files) as folder:
                self.setting(folder)
                got = make(program, self.words, folder, self.stdin, **self.options)
                out = got.out if out is None else out
                found = differences(self.wanted(explains, out), got)
                if self.after is not None and files_in(folder) != self.after:
                    found.append("other files")
            report.check(f"{self.name}, {way}", found)


def case(name: str, line: str | Line, image: bytes | None, *output: tuple[str, str], file: str = "k",
         **more) -> Explained:
    """Returns a run over that file, or over none."""
    return Explained(name, words_of(line), output, {} if image is None else {file: image}, **more)


def over_files(command: str, line: str | Line, out: bytes | list[str] | None, *output: tuple[str, str],
               files: dict[str, bytes], **more) -> Explained:
    """Returns a run over some of those files, its output, or its lines, if it is known, and its messages."""
    words, out = (*command.split(), *words_of(line)), text(out) if isinstance(out, list) else out
    return Explained(shown(words), words, output, files, out=out, **{"status": 0, "after": files, **more})


def unchanged(line: str | Line, *output: tuple[str, str], files: dict[str, bytes] | None = None, stdin: bytes = b"",
              status: int = 1, out: bytes = b"", **more) -> Explained:
    """Returns a run that leaves its files as they are."""
    name = f"{shown(line)}, {stdin[:24]!r}, {[*(files or ())]}"
    return Explained(name, words_of(line), output, files or {}, stdin, status, out, files or {}, **more)


def no_keytab(why: tuple[int, str], name: str = "k", kind: str = "keytab") -> tuple[str, str]:
    """Returns the message about a file, or an input, that is not a keytab, or no other kind of file."""
    return f"{name}: not a {kind} ({why[0]})", why[1]


def failed(words: Line, does: str, cause: str, image: bytes | None, **more) -> Explained:
    """Returns a run over the file that its last word names, which it cannot read or write."""
    name = words[-1]
    return case(f"{words[0]}: cannot {does}, {cause}", words, image,
                (f"{name}: cannot {does}", CAUSES.get(cause, cause).replace("NAME", name)), status=3, **more)


def copy(options: str, source: bytes | None, target: bytes | None, *output: tuple[str, str], status: int = 1,
         out: list[str] | tuple[str, ...] = (), to: str = "t", **more) -> Explained:
    """Returns a copy from `k` to a file, or to none, its messages, and the lines that it prints."""
    words = ("ktcopy", *words_of(options), "k", to)
    files = {file: image for file, image in (("k", source), (to, target)) if image is not None}
    name = f"{shown(words)}, files of {[len(image) for image in files.values()]} bytes"
    more = {"after": files if status else None, **more}
    return Explained(name, words, output, files, status=status, out=text(out), **more)


FINDS_NONE = ("k: refused 9", code(9, "ktcopy"))  # a copy finds nothing that was asked for


def for_owner(folder: str) -> None:
    """Lets the files of a folder be read by their owner alone."""
    for each in os.scandir(folder):
        os.chmod(each, 0o600)


in_the_way = at("k.krbfile", os.mkdir)  # what makes something in the place of the new file of one

ADD = f"{ADD_HOST}\n".encode()
NO_INPUT = {"preexec_fn": lambda: os.dup2(os.open(".", os.O_RDONLY), 0)}  # an input that is a folder cannot be read

# Files of other programs by their first bytes, in the order of the page.
OTHERS = [(what, start) for what, starts in zip(OTHER_FILES, (
    [b"\x1f\x8b"], [b"-----BEGIN"], [b"\xfe\xed\xfe\xed"], [b"v\x81", b"v\x82"], [b"0\x82"], [b"PK\3\4"],
    [b"BQI", b"BQE"], [b"BQQ", b"BQM"], [b"ab", b"\t \r\n", b"~" * 64 + b"\0"]), strict=True) for start in starts]

CASES = [
    # A message about a file, a line of ktutil and of a script, and replies.
    case("a cache with a newline in its name", ("ktfind", "a\nb", "0", "0", "b@R"), b"\5\4",
         no_keytab(BEGINS_AS_CACHE, "a\\x0ab"), file="a\nb"),
    case("ktutil", "ktutil", TWO, ("line 2: fault 1", f"line 2: {SEE_HELP}"), stdin=b"l\n?\n"),
    case("ktedit", "ktedit k", TWO, ("line 3: fault 1", unknown("a\\\\b")), stdin=b"start\n\na\\b 1 cut 2"),
    case("what may be a key is not shown", "ktedit k", TWO, ("line 1: fault 1", line_fault(1)),
         stdin=KEY.upper().encode()),
    case("ccedit", "ccedit k", USUAL, ("", f"refused 5: {code(5, 'ccedit')}"), stdin=b"cut 2\ncut 2\n"),
    # Files of other programs are known by their first bytes, and `--replace` is hinted at without it alone.
    *(case(f"{command}: {what}", f"{command} k", image, no_keytab((2, what), kind=kind), stdin=TWO)
      for what, image in OTHERS for command, kind in (("klist -k", "keytab"), ("show", "cache"), ("klist", "cache"),
                                                      ("ktmatch", "keytab"), ("ktmatch /dev/stdin", "cache"))),
    *(copy(options, keytab(B, replace(B, key=b"1" * 16)), target, ("", f"clash: {CLASH}{more}"), out=[f"clash {line}"])
      for options, target, more, line in (
          ("", TWO, f"\nkrbfile: {TO_REPLACE}", "47 53 kvno 3 etype 17 b@R"),
          ("--replace", keytab(B), "", "47 2 kvno 3 etype 17 b@R"))),
    # Files that are not read, and one that is not saved: new_names has others.
    failed(("klist", "-k", "k/x"), "read", "ENOTDIR", TWO),
    failed(("klist", "-k", "x" * 256), "read", "ENAMETOOLONG", TWO),
    failed(("klist", "-k", "l"), "read", "ELOOP", TWO, setting=link("l", "l")),
    failed(("klist", "-k", "s"), "read", f"error {ENXIO}", TWO,
           setting=at("s", lambda path: os.mknod(path, stat.S_IFSOCK))),
    failed(("ktedit", "l"), "write", "bad link", None, stdin=ADD, setting=link("l", b"\xff")),
    # Inputs that fail, and large scripts.
    *(case(f"{line} < .", line, TWO, ("cannot read input", CAUSES["EISDIR"]), status=3, out=out, options=NO_INPUT)
      for line, out in (("ktutil", b""), ("ktedit k", b""), ("ccedit k", b""),
                        ("hold -k k", frame(TWO) + last_line(ERRORS["EISDIR"])))),
    *(partial(case, f"{command}: a large script", f"{command} k", None, ("input too large", LARGE),
              stdin=bytes(LIMIT + 1)) for command in ("ktedit", "ccedit")),
]


def check(report: Report, program: str) -> None:
    """Sets KRBFILE_EXPLAIN. A file that may not be read is read by another user than root, who can read each."""
    if (options := as_another(program)) is None:
        report.skip("an unreadable file", "none but root may start the program")
    else:
        unreadable = failed(("klist", "-k", "k"), "read", "EACCES", TWO, options=options, setting=lambda folder: [
            os.chmod(os.path.join(folder, name), mode) for name, mode in ((".", 0o755), ("k", 0))])
        unreadable.check(report, program)
    rows = (case("a listing", "klist -k k", b"", no_keytab(SHORT)), case("a question", "klist -s k", b""),
            case("a bad line", "x", b"", ("bad command line", "unknown command x; see krbfile --help"), status=2))
    for value, row in product((b"1", b"00", b"no", b"\xff", b"0", b""), rows):
        with folder_of(row.files) as folder:
            got = run(program, row.words, folder, env={**os.environb, b"KRBFILE_EXPLAIN": value})
        report.compare(f"{value!r} in the environment, {row.name}", row.wanted(value not in (b"0", b""), b""), got)
