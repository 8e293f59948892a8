"""A save while others change the file, by a handle that they have too, its name or its folder. If the file is replaced,
a change after the comparison is lost; in place it is kept, unless the same bytes were written. Either is reported."""

import os
from collections.abc import Callable, Iterator
from dataclasses import replace
from functools import partial
from typing import BinaryIO

from keytabs.edits import ADD_B
from makers.images import B, HOST, keytab
from runs.commands import NEW, OLD, SCRIPT, file_of
from runs.commands import CHANGES as CHANGES_OF_ALL
from runs.harness import EXPLAIN, Case, Outcome, Report, differences, every, folder_of, message, shown, text
from runs.system_calls import Halt, halted
from runs.undisturbed import IN_PLACE, PROGRAM, Undisturbed, in_place, undisturbed
from system.lock_lists import READINGS
from system.saving import (ADD, B_NEW, B_OLD, B_SAVED, CUT_OFF, EQUAL, LONGER, MIXED, SAVED, SHORTER, UNSAVED, USER,
                           Place, at, check_over, edit, explained, images, link, message_of, refused, reported,
                           state_of, tree, tree_faults, unsaved, with_words, write)
from words.phrases import AFTERMATHS, CAUSES

HALTS = {
    "look": Halt("?statx,?newfstatat,?lstat,?lstat64", paths=("file",)), "making": Halt("openat", paths=("k.krbfile",)),
    "finding": Halt("openat", 2, ("k.krbfile",)), "opening": Halt("openat", paths=("k", "file")),
    "missing": Halt("?statx,?newfstatat,?lstat,?lstat64", 2, ("k",)), "load": Halt("read", 2, ("k", "file")),
    "writing": Halt("write"), "syncing": Halt("fsync"),
}


def named(name: str, make: Callable[[str], None]) -> Place:
    """Returns a change that makes a file under another name and renames it to that name."""
    return lambda folder: (make(os.path.join(folder, "spare")),
                           os.rename(os.path.join(folder, "spare"), os.path.join(folder, name)))


at_name = partial(at, "k")

OTHER, GONE = named("k", lambda path: write(path, B_OLD)), at_name(os.remove)  # another file, or none, under its name
MAKE, LINK = named("file", lambda path: write(path, OLD)), link("k", "file")  # a new file at a link's end, and the link

# What replaces the file after it was looked at, and whether there was one. The last replace the new file.
REPLACED: list[tuple[str, bool, Place]] = [
    ("another file of the same bytes", True, named("k", lambda path: write(path, OLD))),
    ("a link to another file", True, named("k", lambda path: os.symlink("other", path))),
    ("a link to a file of the same bytes", True, named("k", lambda path: os.symlink("old", path))),
    ("a file where none was", False, at_name(lambda path: write(path, OLD))),
    ("an empty file where none was", False, at_name(lambda path: write(path, b""))),
    ("a link where no file was", False, at_name(lambda path: os.symlink("none", path))),
    ("no file any more", True, GONE),
    ("another new file", True, named("k.krbfile", lambda path: write(path, b"strange"))),
    ("a link as new file", True, named("k.krbfile", lambda path: os.symlink("other", path))),
]

# What changes in the file after it was loaded. Only root may make the last ones.
CHANGED: list[tuple[str, bool, Place]] = [
    ("another mode", True, at_name(lambda path: os.chmod(path, 0o640))),
    ("no bytes", True, at_name(lambda path: write(path, b""))),
    ("another byte", True, at_name(lambda path: write(path, OLD[:-1] + b"\x01"))),
    ("a byte less", True, at_name(lambda path: write(path, OLD[:-1]))),
    ("an entry more", True, at_name(lambda path: write(path, B_OLD))),
    ("another group", True, at_name(lambda path: os.chown(path, -1, USER))),
    ("another owner", True, at_name(lambda path: os.chown(path, USER, -1))),
]


def known(folder: str) -> dict[str, tuple[object, ...]]:
    """Returns the contents of a folder, with owners, modes and times, except a new file of ours."""
    return {name: own for name, own in state_of(folder).items() if name != "k.krbfile" or own[0] not in (b"", NEW)}


def check_change(report: Report, program: str, call: str, of: tuple[str, bool, Place], *options: str) -> None:
    """Makes a change after that call of a run: the file stays as it is, and so does what took its name."""
    what, is_there, change = of
    with folder_of({"old": OLD, "other": b"other"}) as folder:
        if is_there:
            write(os.path.join(folder, "k"), OLD)
        wanted: dict[str, object] = {}
        adds = undisturbed(("ktedit", *options, "k"), SCRIPT)
        faults = differences(UNSAVED, halted(program, adds, folder, HALTS[call], lambda folder: (
            change(folder), wanted.update(known(folder)))))
        if known(folder) != wanted or NEW in tree(folder).values():
            faults.append(f"{[*tree(folder)]} are there, or are not as they were")
    report.check(f"{what}, behind the {call} of a run {' '.join(options)}", faults)


def check_changes(report: Report, program: str) -> None:
    """Checks that a file that changed since it was loaded is not saved."""
    changed = CHANGED if os.geteuid() == 0 else CHANGED[:-2]
    rows = [(call, of) for of in (*REPLACED, *changed)
            for call in ("load" if of[1] else "missing", "writing", "syncing")]
    replaced = [of for of in REPLACED[:-2] if of[1]]
    rows += [("load", of, IN_PLACE) for of in (*replaced, *changed)]
    rows += [("syncing", of, IN_PLACE) for of in replaced]
    for row in rows:
        check_change(report, program, *row)


def added(name: str, wanted: Outcome, files: dict[str, bytes], after: dict[str, object], *options: str) -> Case:
    """Returns a run that adds an entry, and what is in its folder then."""
    return Case(name, ("ktedit", *options, "k"), wanted, files, after, SCRIPT)


# A removal in place, whose file does not grow, so that it is not looked at before it is synced.
CUTS = Case("", ("ktedit", IN_PLACE, "k"), UNSAVED, {"k": NEW, "other": B_OLD}, stdin=b"cut 2\n")

# Runs while which others change the name of their file: behind which call, the change, and what is made before.
MOVED: list[tuple[Case, str, Place, *tuple[Place, ...]]] = [
    # A save in place whose file has lost its name when it is synced.
    *((replace(one, name=what, files_after=after), "syncing", change) for what, cause, change, after in (
        ("another file", "other file", OTHER, {"k": B_OLD}), ("no file any more", "no file", GONE, {"k": None}),
        ("a link to another file", "other file", named("k", lambda path: os.symlink("other", path)), {"k": "other"}))
      for one in (CUTS, refused(CUTS, cause))),
    # A link that changes: the file that was loaded is saved, and no other gets its keys.
    *((added(f"{what} in place of a link", SAVED, {"file": OLD, "other": OLD},
             {"file": NEW, "k": left}), call, named("k", make), LINK)
      for call in ("opening", "load", "writing", "syncing")
      for what, left, make in (("another link", "other", lambda path: os.symlink("other", path)),
                               ("a file", OLD, lambda path: write(path, OLD, 0o644)))),
    # A file that others save, make or remove while a link to it is followed.
    *((added(f"{what} at the end of a link", SAVED, files, {"file": NEW}), "look", change, LINK)
      for what, files, change in (("another file", {"file": OLD}, MAKE), ("a file where none was", {}, MAKE),
                                  ("no file any more", {"file": OLD}, at("file", os.remove)))),
    # A file that is replaced before it is locked: the one that is there then is loaded and saved.
    *((added(what, wanted, {"k": OLD}, after, *options), "opening", change)
      for what, change, options, wanted, after in (
          ("another file", OTHER, (), B_SAVED, {"k": B_NEW}), ("no file any more", GONE, (), SAVED, {"k": NEW}),
          ("another file", OTHER, (IN_PLACE,), B_SAVED, {"k": B_NEW}),
          ("no file any more", GONE, (IN_PLACE,), message(1, "k: no such file"), {"k": None}))),
    # Another run overtakes this one while it makes its new file, or looks at a stale one.
    *((added(f"overtaken beside {left}", B_SAVED, {"k": OLD, **left}, {"k": B_NEW, **dict.fromkeys(left)}), call,
       lambda folder: edit(PROGRAM[0], folder, script=text([ADD_B])))
      for call, left in (("making", {}), ("making", {"k.krbfile": b"left"}), ("finding", {"k.krbfile": b"left"}))),
]


def check_moved(report: Report, program: str) -> None:
    """Checks each of those runs, which is halted after a system call while a change is made."""
    for case, call, change, *places in MOVED:
        one = replace(case, name=f"{case.name}, behind the {call} of {' '.join(case.words)}")
        check_over(report, program, one, *places,
                   make=lambda *run, call=call, change=change: halted(*run, HALTS[call], change))


# A run of each command, and lines of ktutil, the last ones at fault and refused.
TALK = undisturbed("ktutil", b"rkt j\nwkt k\nfrob\nwkt FILE:k\n", j=keytab(B), k=keytab(HOST),
                   name="adds, is at fault, and is refused")
CASES_OF_ALL = (*CHANGES_OF_ALL, TALK)

# Where a run is halted: at the last reading of the locks, and behind its rename.
WATCHED, RENAMED = Halt("openat", 2 * READINGS, ("/proc/locks",)), Halt("?rename,?renameat,?renameat2")
WRITTEN, CUT, SYNCED = Halt("pwrite64"), Halt("ftruncate"), Halt("fsync")  # in place, at each of these
COMPARED = Halt("lseek", 2)  # at the last reading of the locks, in place, of one that grows

Change = Callable[[BinaryIO], object]
MORE = b"more"  # what another program adds at the end

# What another program does to the file, by its handle, and whether that leaves other bytes.
CHANGES: dict[str, tuple[Change, bool]] = {
    "bytes at the end": (lambda file: file.seek(0, os.SEEK_END) and file.write(MORE), True),
    "the last byte": (lambda file: file.seek(-1, os.SEEK_END) and file.write(b"\xff"), True),
    "no byte any more": (lambda file: file.truncate(0), True),
    "another mode": (lambda file: os.fchmod(file.fileno(), 0o640), False),
    "the same bytes": (lambda file: file.write(b"\x05"), False),
}
ADD_MORE, _ = CHANGES["bytes at the end"]


def both_ways(case: Undisturbed, aftermath: str) -> list[Case]:
    """Returns a run that reports what its save left, without words and with them."""
    return [replace(one.as_case(), wanted=reported(one, aftermath)) for one in (case, with_words(case))]


def with_more(case: Case) -> Case:
    """Returns a run whose file then has more at its end too."""
    name = file_of(case)
    return replace(case, files_after={**case.files_after, name: case.files_after[name] + MORE})


Row = tuple[Case, Halt, Change]  # a run, where it is halted, and the change then


def of_each() -> Iterator[Row]:
    """Yields runs of each command: a change is lost where the file is replaced, and stays in place; both report it."""
    for case in CASES_OF_ALL:
        before, after = images(case)
        # The load reads the bytes and the end, and so does the comparison.
        halts = (Halt("read", 4, (file_of(case),)), RENAMED)
        yield from ((one, halt, ADD_MORE) for one in both_ways(case, "lost change") for halt in halts)
        yield from ((with_more(one), COMPARED if len(after) > len(before) else SYNCED, ADD_MORE)
                    for one in both_ways(in_place(case), "mixed"))
    yield from ((with_more(both_ways(in_place(case), "mixed")[0]), halt, ADD_MORE) for case, halt in (
        (MIXED, Halt("fsync", 2)), (SHORTER, CUT), (SHORTER, SYNCED), (CUT_OFF, CUT)))


def of_kinds() -> Iterator[Row]:
    """Yields each kind of change, in place if the length stays: where the bytes are the same, nothing is reported."""
    lost, placed = ADD.as_case(), in_place(EQUAL).as_case()
    _, after = images(placed)
    left = {"bytes at the end": after + MORE, "the last byte": after[:-1] + b"\xff", "no byte any more": b""}
    for name, (change, is_reported) in CHANGES.items():
        yield replace(lost, wanted=reported(lost, "lost change")) if is_reported else lost, RENAMED, change
        yield replace(placed, wanted=reported(placed, "mixed") if is_reported else placed.wanted,
                      files_after={"k": left.get(name, after)}), SYNCED, change


def of_refused() -> Iterator[Row]:
    """Yields changes before an old byte is replaced, written over or cut off: what another program wrote stays."""
    (before, longer), shorter = images(LONGER), SHORTER.files["k"]
    old_byte: Change = lambda file: file.seek(len(before) - 1) and file.write(b"\xff")
    rows = [(ADD, WATCHED, ADD_MORE, OLD + MORE, ""),
            (in_place(LONGER), WATCHED, ADD_MORE, before + MORE, ""),
            (in_place(LONGER), SYNCED, ADD_MORE, longer + MORE, "mixed"),
            (in_place(LONGER), SYNCED, CHANGES["no byte any more"][0], b"", "mixed"),
            (in_place(LONGER), SYNCED, old_byte, before[:-1] + b"\xff", ""),
            (in_place(SHORTER), WRITTEN, ADD_MORE, shorter + MORE, "restored")]
    for one, halt, change, image, left in rows:
        placed = one.as_case()
        message = [message_of(placed, left)] if left == "mixed" else []
        words = [CAUSES["in use" if left == "mixed" else "changed"]]
        words += [AFTERMATHS[left]] if left == "restored" else []
        for options, lines in (((), message), ((EXPLAIN,), [*words, *message])):
            yield replace(placed, words=(*options, *placed.words), files_after={"k": image},
                          wanted=explained(unsaved(placed), *lines)), halt, change


def check_handles(report: Report, program: str) -> None:
    """Makes each of those runs while which another program changes the file by a handle that it has."""
    for case, halt, change in (*of_each(), *of_kinds(), *of_refused()):
        with folder_of(case.files) as folder, open(os.path.join(folder, file_of(case)), "r+b", buffering=0) as file:
            got = halted(program, case, folder, halt, lambda _, change=change, file=file: change(file))
            faults = differences(case.wanted, got) + tree_faults(case.files_after, folder)
        report.check(f"{shown(case.words)} behind {halt.calls} {halt.nth}, {case.wanted.err}: {case.name}", faults)


check = every(check_changes, check_moved, check_handles, of="files that are changed meanwhile", needs=("strace",))
