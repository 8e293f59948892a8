"""Runs that save a file, in place too: what they print, what they leave in its folder, and what is kept of the file."""

import os
import stat
from collections.abc import Callable
from dataclasses import dataclass, replace
from pathlib import Path

from keytabs.edits import ADDENT, KEY
from makers.images import B, HOST, TWO, keytab
from runs.commands import CHANGES, COMMANDS, NEW, OLD, SCRIPT, Run, file_of
from runs.harness import EXPLAIN, Case, Outcome, Report, differences, folder_of, message, run, text
from runs.undisturbed import undisturbed
from runs.undisturbed import explained as with_words
from words.phrases import AFTERMATHS, CAUSES, ERRORS

# A run of that script, what it prints, and so over a file with another entry.
(ADD,), SAVED = COMMANDS["ktedit"].changes, Outcome(0, b"placed 2\n")
B_OLD, B_NEW, B_SAVED = keytab(B), keytab(B, HOST), Outcome(0, b"placed 47\n")
UNSAVED, UNREAD = message(3, "k: cannot write"), message(3, "k: cannot read")

LINES = text([ADDENT, KEY])  # lines of ktutil that add an entry
USER = 65_534  # a user who is not root
GROUP = 54_321  # a group that user may be in
ADD_LONG = b"add 3 17 1700000000 000102030405060708090a0b0c0d0e0f a/long/name@R\n"  # an entry that is longer

# Runs that make the file longer, that change old bytes too, and that keep its length or make it shorter.
LONGER = undisturbed("ktedit k", ADD_LONG, k=TWO, name="adds at the end")
MIXED = undisturbed("ktedit k", b"cut 2\n" + ADD_LONG, k=TWO, name="removes, and adds at the end")
EQUAL = undisturbed("ktedit k", b"cut 2\n", k=TWO, name="removes")
SHORTER = undisturbed("ktedit k", b"rewrite\n", k=keytab(60, HOST, 41, B), name="rewrites")
CUT_OFF = undisturbed("ktedit k", b"rewrite\n", k=keytab(HOST, 41), name="drops the hole at the end")

PLACED = (LONGER, MIXED, EQUAL, SHORTER, CUT_OFF, *CHANGES)  # runs that can save in place, without that
HOLD_SAVED = b"saved\n"  # the last line of a hold that saved
Place = Callable[[str], object]  # what makes something in a folder


@dataclass(frozen=True)
class Owned:
    """A file's mode, owner and group."""

    mode: int
    owner: int
    group: int

    def give(self, path: str) -> None:
        """Gives a file these."""
        os.chown(path, self.owner, self.group)
        os.chmod(path, self.mode)


def run_over(program: str, case: Run, folder: str, **options: object) -> Outcome:
    """Makes a run of a case in a folder."""
    return run(program, case.words, folder, case.stdin, **options)


def last_line(why: str, status: int = 3) -> bytes:
    """Returns the last line of a hold that failed."""
    return f"failed {status} {why}\n".encode()


def unsaved(case: Run, name: str = "", cause: str = "EIO") -> Outcome:
    """Returns the outcome if that file is not saved, of a hold for that cause and before its frame."""
    out = last_line(ERRORS[cause]) if "hold" in case.words else b""
    return replace(message(3, f"{name or file_of(case)}: cannot write"), out=out)


def faults_over(program: str, case: Run, *places: Place, left: Owned | None = None,
                make: Callable[..., Outcome] = run_over, **options: object) -> list[str]:
    """Returns the faults of a case in a folder where more is made before: what it does not change stays as it was."""
    with folder_of(case.files) as folder:
        for place in places:
            place(folder)
        before = state_of(folder)
        wanted = {**tree(folder), **(case.files_after or {})}
        faults = differences(case.wanted, make(program, case, folder, **options))
        after = state_of(folder)
        faults += [f"{name} is not as it was" for name, own in before.items()
                   if own[0] == wanted[name] != "d" and own != after.get(name)]
        found = left and owned(os.path.join(folder, file_of(case)))
        faults += [] if found == left else [f"{found}, not {left}"]
        return faults + tree_faults(wanted, folder)


def check_over(report: Report, program: str, case: Run, *places: Place, **options: object) -> None:
    """Checks a case in a folder where more is made before."""
    report.check(case.name, faults_over(program, case, *places, **options))


def at(name: str, make: Callable[[str], object]) -> Place:
    """Returns what makes something under that name."""
    return lambda folder: make(os.path.join(folder, name))


def link(name: str, text: str | bytes) -> Place:
    """Returns what makes a link of that name and text."""
    return at(name, lambda path: os.symlink(text, path))


def edit(program: str, folder: str, name: str = "k", script: bytes = SCRIPT, **options: object) -> Outcome:
    """Makes a run of a script, by default one that adds an entry, over the file of that name."""
    return run(program, ("ktedit", name), folder, script, **options)


def as_user(groups: tuple[int, ...] = ()) -> dict[str, object]:
    """Returns the options of a run by a user who is not root, in these groups and the user's own."""
    return {"user": USER, "group": USER, "extra_groups": list(groups)}


def as_another(program: str) -> dict[str, object] | None:
    """Returns the options of a run by a user who is not root, or None if that user may not start the program."""
    if os.geteuid() != 0:
        return {}
    try:
        run(program, ("--help",), "/", **as_user())
    except PermissionError:
        return None
    return as_user()


def write(path: str, data: bytes, mode: int = 0o600) -> None:
    """Writes a file of that mode."""
    Path(path).write_bytes(data)
    os.chmod(path, mode)


def tree(folder: str) -> dict[str, object]:
    """Returns the contents of a folder, by path: bytes of files, texts of links, and the kind of all else."""
    found: dict[str, object] = {}
    for path in Path(folder).rglob("*"):
        kind = stat.filemode(path.lstat().st_mode)[0]
        left = path.read_bytes() if kind == "-" else os.readlink(path) if kind == "l" else kind
        found[str(path.relative_to(folder))] = left
    return found


def tree_faults(wanted: dict[str, object], folder: str) -> list[str]:
    """Returns what differs in a folder from the expected contents."""
    got = tree(folder)
    return [f"{name} is {got.get(name)!r}" for name in sorted({*wanted, *got}) if got.get(name) != wanted.get(name)]


def state_of(folder: str) -> dict[str, tuple[object, ...]]:
    """Returns the contents of a folder, with owners, modes and times."""
    found = {}
    for name, data in tree(folder).items():
        own = os.lstat(os.path.join(folder, name))
        found[name] = (data, own.st_ino, own.st_mode, own.st_uid, own.st_gid, own.st_mtime_ns)
    return found


def owned(path: str) -> Owned:
    """Returns the mode, owner and group of a file."""
    found = os.stat(path)
    return Owned(stat.S_IMODE(found.st_mode), found.st_uid, found.st_gid)


def images(case: Run) -> tuple[bytes, bytes]:
    """Returns the file that a run changes, before and after it."""
    name = file_of(case)
    return case.files[name], case.files_after[name]


def explained(outcome: Outcome, *phrases: str) -> Outcome:
    """Returns the outcome of a run that also prints those lines."""
    return replace(outcome, err=outcome.err + "".join(f"krbfile: {each}\n" for each in phrases).encode())


def refused(case: Run, cause: str, name: str = "") -> Case:
    """Returns a run that does not save the file of that name, or its own, for that cause, which is explained."""
    line = "line 2: " if "ktutil" in case.words else ""
    wanted = explained(unsaved(case, name, cause), line + CAUSES[cause].replace("NAME", name or file_of(case)))
    return Case(case.name, (EXPLAIN, *case.words), wanted, case.files, case.files, case.stdin)


def message_of(case: Run, aftermath: str) -> str:
    """Returns the message, with words or without, of what the first save of a run left."""
    return f"{'line 2' if 'ktutil' in case.words else file_of(case)}: {AFTERMATHS[aftermath]}"


def reported(case: Run, aftermath: str) -> Outcome:
    """Returns the outcome of a run that saves and reports what that left."""
    out = case.wanted.out
    if "hold" in case.words:
        out = out.removesuffix(HOLD_SAVED) + (b"lost\n" if aftermath == "lost change" else b"damaged\n")
    front = explained(Outcome(case.wanted.status or 1, out), message_of(case, aftermath))
    return replace(front, err=front.err + case.wanted.err)


def kept(path: str) -> tuple[object, ...]:
    """Returns what a save in place keeps of a file."""
    own, attributes = os.stat(path), {name: os.getxattr(path, name) for name in os.listxattr(path)}
    return own.st_ino, own.st_mode, own.st_uid, own.st_gid, own.st_nlink, attributes
