"""What has the name of a new file: what is stale is removed, all else stays. And names under which no file is saved."""

import os
from collections.abc import Iterator
from concurrent.futures import ThreadPoolExecutor
from dataclasses import replace

from runs.commands import CHANGES, MAKES, NEW, OLD, SCRIPT, WALK, both_ways, file_of, renamed
from runs.harness import Case, Outcome, Report, every, message, printed
from runs.undisturbed import IN_PLACE, Undisturbed, in_place
from system.file_locks import RUNS
from system.saving import (ADD, SAVED, USER, Place, as_another, at, check_over, faults_over, last_line, link, run_over,
                           unsaved, write)
from words.explaining import Explained, unchanged
from words.phrases import CAUSES

STRANGER = 1234  # another user who is not root


def own(path: str) -> str:
    """Returns the file whose new file has that path."""
    return path.removesuffix(".krbfile")


def owned_by(owner: int, mode: int = 0o600) -> Place:
    """Returns a function that makes a file of that owner."""
    return lambda path: (write(path, b"strange", mode), os.chown(path, owner, -1))


# What no killed run leaves.
STRANGE: list[tuple[str, Place]] = [
    ("an empty folder", os.mkdir), ("a folder", lambda path: os.makedirs(os.path.join(path, "other"))),
    ("a link to a file", lambda path: os.symlink("other", path)),
    ("a link to the file", lambda path: os.symlink(os.path.basename(own(path)), path)),
    ("a link that dangles", lambda path: os.symlink("no", path)),
    ("a link to itself", lambda path: os.symlink(os.path.basename(path), path)), ("a pipe", os.mkfifo),
    ("another name of a file", lambda path: os.link(os.path.join(os.path.dirname(path), "other"), path)),
    ("another name of the file", lambda path: os.link(own(path), path)),
]


def run_beside(program: str, case: Case, folder: str, **options: object) -> Outcome:
    """Makes a run. A hold may say that what is in the way is in use, as it is waited for."""
    got = run_over(program, case, folder, **options)
    return replace(got, out=got.out.replace(last_line("EAGAIN"), last_line("EEXIST")))


def faults_beside(program: str, make: Place, owner: int | None, case: Undisturbed = ADD, mode: int = 0o777,
                  is_saved: bool = False, **options) -> list[str]:
    """Returns the faults of a run with something in its new file's place. A save that replaces removes it."""
    name, files = file_of(case), {"other": b"other", **(case.files if owner is not None else {})}
    new = f"{name}.krbfile"
    places = [at(new, make), at(".", lambda path: os.chmod(path, mode))]
    if owner is not None:
        places.insert(0, at(name, lambda path: os.chown(path, owner, -1)))
    after = {**case.files_after, **({} if IN_PLACE in case.words else {new: None})} if is_saved else None
    wanted = case.wanted if is_saved else unsaved(case, cause="in the way")
    return faults_over(program, Case(case.name, case.words, wanted, files, after, case.stdin), *places, make=run_beside,
                       **options)


# What has the name of a new file, what makes it, who owns the file, and how the run differs from a refused one.
Row = tuple[str, Place, int | None, dict[str, object]]
SAVES = {"is_saved": True}


def own_rows() -> list[Row]:
    """Returns what no killed run left, and what one of this user did. A save in place looks at neither."""
    me = os.geteuid()
    return [
        *((f"{name}: {case.name}", make, me, {"case": case}) for name, make in STRANGE for case in CHANGES),
        ("a folder where no file is", os.mkdir, None, {}),
        *((f"{name}, in place", make, me, {"case": in_place(ADD)} | SAVES)
          for name, make in (*STRANGE[:-1], ("a file", owned_by(me)))),
        ("what a killed run left", owned_by(me), me, SAVES),
        ("what a killed run left, to be read", owned_by(me, 0o400), me, SAVES),
        ("what a killed run left where no file is", owned_by(me), None, SAVES),
    ]


def others_rows(user: dict[str, object]) -> list[Row]:
    """Returns what is there of others: what the file's owner, root or the user of the run left is removed."""
    strange, is_sticky = owned_by(STRANGER), {"mode": 0o1777}
    return [
        *((f"a user's file, {owner} owns that", strange, owner, {}) for owner in (0, None, USER)),
        *((f"another's that is open to all, {more}", owned_by(STRANGER, 0o666), USER, user | more)
          for more in ({}, is_sticky)),
        *((f"another's that is closed: {case.name}", strange, USER, user | is_sticky | {"case": case})
          for case in CHANGES),
        *((f"an own file of mode {mode:o}", owned_by(USER, mode), USER, user) for mode in (0, 0o200)),
        ("root's that may not be read", owned_by(0, 0), 0, SAVES),
        *((f"a file of {left} left beside one of {owner}", owned_by(left), owner, SAVES | more)
          for left, owner, more in ((STRANGER, STRANGER, {}), (0, STRANGER, {}), (USER, USER, user), (USER, 0, user))),
    ]


def check_beside(report: Report, program: str) -> None:
    """Checks that what killed runs of this user, or of the file's owner, left is removed, and nothing else touched."""
    user, rows = as_another(program), own_rows()
    if user:
        rows += others_rows(user)
    else:
        report.skip("new files of others", "none but root may make them, or start the program")
    with ThreadPoolExecutor(len(rows)) as pool:
        found = pool.map(lambda row: faults_beside(program, row[1], row[2], **row[3]), rows)
        for (name, *_), faults in zip(rows, found):
            report.check(f"{name} in the new file's place", faults)


# Names under which a file is saved, and is not; and those that a new file may have.
LONGEST = "x" * (255 - len(".krbfile"))
SAVED_AS, UNSAVED_AS = ("k", "./k", "k.krbfil", "krbfile", LONGEST), (f"{LONGEST}x", "no/k", "", "dangling")
OWN_NAMES = ("k.krbfile", ".krbfile", "k.krbfile.krbfile", "./k.krbfile", "link")


def check_places(report: Report, program: str) -> None:
    """Checks those names: a file with the name of a new one can be walked over, but not changed, also by a link."""
    for name in (*SAVED_AS, *UNSAVED_AS, *OWN_NAMES):
        path, wanted = os.path.normpath(name), SAVED if name in SAVED_AS else message(3, f"{name}: cannot write")
        files = {".krbfile": OLD, "t.krbfile": OLD, **({path: OLD} if name in OWN_NAMES[:-1] else {})}
        rows = [(SCRIPT, wanted, {path: NEW} if name in SAVED_AS else None)]
        rows += [(WALK, printed("walk 0 at 2", "walk 0 end 2"), None)] * (name in OWN_NAMES)
        for script, ends, after in rows:
            case = Case(f"{script[:6]} as {name[:20]!r}", ("ktedit", name), ends, files, after, script)
            check_over(report, program, case, link("link", "t.krbfile"), link("dangling", "no.krbfile"))


def unsaved_as(run: Undisturbed, name: str, cause: str, setting: Place = lambda folder: None) -> Explained:
    """Returns a run over a file of another name, which is not saved for that cause."""
    one, line = renamed(run, name), "line 2: " * (run.words[0] == "ktutil")
    return unchanged(one.words, (f"{name}: cannot write", line + CAUSES[cause].replace("NAME", name)), files=one.files,
                     stdin=one.stdin, status=3, setting=setting, out=unsaved(one, cause=cause).out)


def of_names() -> Iterator[Explained | Case]:
    """Yields runs over files with the name of a new one, too long a name, something in the way, or no folder."""
    for run in (*both_ways(*CHANGES), *MAKES):
        yield unsaved_as(run, f"{file_of(run)}.krbfile", "name of saves")
        yield from (renamed(run, name) if IN_PLACE in run.words else unsaved_as(run, name, "ENAMETOOLONG")
                    for name in ("x" * 248, "x" * 255))
        if IN_PLACE not in run.words:
            yield unsaved_as(run, file_of(run), "in the way", at(f"{file_of(run)}.krbfile", os.mkdir))
    yield from (unsaved_as(run, "d/k", "ENOENT") for run in MAKES)


def check_names(report: Report, program: str) -> None:
    """Checks each of those."""
    def checked(row: Explained | Case) -> Report:
        one = Report(report.is_proved, "new_names")
        row.check(one, program)
        return one

    with ThreadPoolExecutor(RUNS) as pool:
        for one in pool.map(checked, [*of_names()]):
            report.add(one)


check = every(check_beside, check_places, check_names)
