"""What a save leaves on the disk: the new file's mode, owner and group, links, and nothing else. What copies read from
a pipe, leave alone, and keep of the file that is saved."""

import os
from dataclasses import replace
from itertools import product

from makers.images import B, HOST, TWO, keytab
from runs.commands import CHANGES, CLASH, LEAVES, MAKES, NEW, OLD, READS, SAVING, SCRIPT, WALK, Run, copies, file_of
from runs.harness import EXPLAIN, Case, Line, Outcome, Report, differences, folder_of, message, printed, run, words_of
from runs.undisturbed import IN_PLACE, in_place, undisturbed
from system.outputs import fed
from system.saving import (ADD, GROUP, PLACED, SAVED, UNREAD, UNSAVED, USER, Owned, Place, as_another, as_user, at,
                           check_over, explained, faults_over, link, tree_faults, unsaved, write)
from words.phrases import CAUSES

ALL = (*CHANGES, *copies(("", TWO, b"", "into no bytes")))  # runs that change a file, the last one of no bytes
MODES = (0o400, 0o600, 0o640, 0o664, 0o604, 0o6755)  # of files that are replaced by their owner


def check_owned(report: Report, name: str, program: str, old: Owned, new: Owned, case: Run = ADD, **options) -> None:
    """Checks a save over a file of that mode, owner and group, in a folder of the user who makes the run."""
    folder = Owned(0o700, options.get("user", -1), options.get("group", -1))
    report.check(f"{name}, mode {old.mode:o}: {case.name}", faults_over(
        program, case, at(".", folder.give), at(file_of(case), old.give), left=new, **options))


def check_new_files(report: Report, program: str) -> None:
    """Checks that a new file is readable by its owner only, whatever the umask."""
    for case, umask in product(MAKES, (0, 0o022, 0o077, 0o777)):
        faults = faults_over(program, case, left=Owned(0o600, os.geteuid(), os.getegid()), umask=umask)
        report.check(f"a new file under the umask {umask:o}: {case.name}", faults)


def check_own_files(report: Report, program: str) -> None:
    """Checks that an owner who is in a file's group saves it with its mode."""
    for case, mode in product(ALL, MODES):
        here = Owned(mode, os.geteuid(), os.getegid())
        check_owned(report, "an own file", program, here, here, case, umask=0o077)


# What is lost in a save by another user, the owner and group before and after, the user's groups, and modes.
LOST = (
    ("the owner is", (0, GROUP), (USER, GROUP), (GROUP,),
     ((0o6664, 0o664), (0o264, 0o220), (0o666, 0o666), (0o474, 0o444))),
    ("the group is", (USER, 0), (USER, USER), (), ((0o6664, 0o604), (0o604, 0o600), (0o647, 0o604), (0o775, 0o705))),
    ("both are", (0, 0), (USER, USER), (), ((0o644, 0o604), (0o6777, 0o707), (0o657, 0o604), (0o464, 0o404))),
)


def check_others_files(report: Report, program: str) -> None:
    """Checks that root keeps owner and group, and that others give no user more rights than the old file did."""
    if os.geteuid() != 0 or as_another(program) is None:
        report.skip("files of others", "none but root may make them, or start the program")
        return
    for mode in MODES:
        theirs = Owned(mode, USER, GROUP)
        for case in ALL:
            check_owned(report, "a user's file saved by root", program, theirs, theirs, case)
        check_owned(report, "a user's file in one of its groups", program, theirs, theirs, **as_user((GROUP,)))
    for what, before, after, groups, modes in LOST:
        for old, new in modes:
            check_owned(report, f"{what} lost", program, Owned(old, *before), Owned(new, *after), **as_user(groups))


def links_to(*links: tuple[str, str], data: bytes | None = OLD) -> Place:
    """Returns a place with two folders, links of these names and texts, and a file unless `data` is None."""
    def place(folder: str) -> None:
        for below in ("t", "u"):
            os.mkdir(os.path.join(folder, below))
        for name, text in links:
            os.symlink(text.replace("FOLDER", folder), os.path.join(folder, name))
        if data is not None:
            write(os.path.join(folder, "t/k"), data)

    return place


def long_chain(count: int) -> list[tuple[str, str]]:
    """Returns a chain of that many links, from `k` to `t/k`."""
    names = ["k", *(f"k{number}" for number in range(1, count)), "t/k"]
    return [*zip(names, names[1:])]


# How a run ends that replaces its file, and one in place: over a file, none, no folder, and links to nowhere.
MISSING = message(1, "k: no such file")
OVER, MAKES_IT, NO_FOLDER, NOWHERE = (SAVED, SAVED), (SAVED, MISSING), (UNSAVED, MISSING), (UNREAD, UNREAD)

# What leads to the file, if anything does. Each link stays.
CHAIN = (("k", "u/a"), ("u/a", "../u/b"), ("u/b", "FOLDER/t/k"))
LINKS = (
    ("a relative link", OVER, links_to(("k", "t/k"))),
    ("a link through a parent folder", OVER, links_to(("k", "u/../t/k"))),
    ("an absolute link", OVER, links_to(("k", "FOLDER/t/k"))),
    ("a chain of links", OVER, links_to(*CHAIN)),
    ("a link through a link to a folder", OVER, links_to(("d", "t"), ("k", "d/k"))),
    ("a link that dangles", MAKES_IT, links_to(("k", "t/k"), data=None)),
    ("a chain that dangles", MAKES_IT, links_to(*CHAIN, data=None)),
    # Linux follows 40, and counts them again if it begins again, as while another program mounts.
    ("a chain of 20 links", OVER, links_to(*long_chain(20))),
    ("a link into no folder", NO_FOLDER, links_to(("k", "no/k"))),
    ("a link to no folder", NO_FOLDER, links_to(("k", "no/"), data=None)),
    ("a link in a circle", NOWHERE, links_to(("k", "u/k"), ("u/k", "../k"))),
    ("a chain of 41 links", NOWHERE, links_to(*long_chain(41))),
)


def check_hard_links(report: Report, program: str) -> None:
    """Checks that a link is followed, a hard link is broken, a stale file is removed, and all else stays."""
    for case in ALL:
        name = file_of(case)
        files = {each: data for each, data in case.files.items() if each != name}
        files |= {"file": case.files[name], "file.krbfile": b"left", "file.new": b"new"}
        one = Case(f"a file of two names behind a link: {case.name}", case.words, case.wanted, files,
                   {"file": case.files_after[name], "file.krbfile": None}, case.stdin)
        check_over(report, program, one, link(name, "file"), lambda folder: os.link(
            os.path.join(folder, "file"), os.path.join(folder, "other")))


def check_removed(report: Report, program: str) -> None:
    """Checks that an open file that has lost its name is not saved, and that one with another name is."""
    cases = [
        ("rm d", {}, UNSAVED), ("cp d 'd (deleted)'; rm d", {"d (deleted)": OLD}, UNSAVED),
        ("rm d; echo >d", {"d": b"\n"}, UNSAVED), (":", {"d": NEW}, SAVED), ("mv d e", {"e": NEW}, SAVED),
        ("mv d 'd (deleted)'", {"d (deleted)": NEW}, SAVED),
    ]
    for name in ("/dev/fd/7", "/proc/self/fd/7"):
        for deed, files, outcome in cases:
            wanted = outcome if outcome == SAVED else message(3, f"{name}: cannot write")
            words = ("-c", f'exec 7<d; {deed}; exec "$0" ktedit {name}', program)
            after = {"d": None, **files}
            check_over(report, "sh", Case(f"save over {name} after {deed}", words, wanted, {"d": OLD}, after, SCRIPT))


def lock_folder(folder: str) -> None:
    """Lets all write the files of a folder, and none but root make one there."""
    for each in os.scandir(folder):
        os.chmod(each, 0o666)
    os.chmod(folder, 0o555)


def check_locked_folder(report: Report, program: str) -> None:
    """Checks a folder in which none but root may make files: what saves nothing, or in place, needs none."""
    if (options := as_another(program)) is None:
        report.skip("a locked folder", "none but root may start the program")
        return
    scripts = [undisturbed("ktedit k", script, k=before, name=f"{script[-6:-1]!r} over {before}")
               for before in (OLD, None) for script in (b"cut 3\n", WALK + b"cut 2\n")]
    cases = [case if case.files == case.files_after else Case(
        case.name, case.words, unsaved(case, cause="EACCES"), case.files, stdin=case.stdin)
             for case in (*CHANGES, *scripts, *READS, *LEAVES) if case.words[0] in SAVING]
    for case in (*cases, *map(in_place, PLACED)):
        check_over(report, program, replace(case, name=f"a locked folder: {case.name}"), lock_folder, **options)


COPY = ("ktcopy", "k", "t")
COPIED = printed("copied 2 kvno 3 etype 17 host/a@R", "copied 53 kvno 3 etype 17 b@R")


def copy(name: str, line: str | Line, files: dict[str, bytes], wanted: Outcome = COPIED, after: bytes | None = None,
         stdin: bytes = b"") -> Case:
    """Returns a copy, by default one that leaves its files as they are."""
    return Case(name, words_of(line), wanted, files, None if after is None else {"t": after}, stdin)


def from_new_file(source: str, target: str, before: bytes, wanted: Outcome) -> list[tuple[Case, Place, Place]]:
    """Returns copies from a file that has the name of the new one, as a killed run leaves it: it stays as it is."""
    ways = [((), wanted)]
    if wanted.err:
        ways.append(((EXPLAIN,), explained(wanted, CAUSES["in the way"].replace("NAME", "t"))))
    return [(copy(f"{' '.join(options)} from {source} into {target} of {len(before)} bytes",
                  (*options, "ktcopy", source, target), {"t.krbfile": keytab(B), "t": before}, outcome),
             link("link", "t.krbfile"), link("to", "t")) for options, outcome in ways]


# Saves over links, copies, and what is made in their folders before.
ROWS: list[tuple[Case, *tuple[Place, ...]]] = [
    *((Case(f"save over {name} {option}", ("ktedit", *option.split(), "k"), wanted, {},
            {"t/k": NEW} if wanted == SAVED else None, SCRIPT), place)
      for name, ends, place in LINKS for option, wanted in zip(("", IN_PLACE), ends)),
    # The standard input is read to its end.
    *((copy(f"{len(image)} bytes on the standard input", "ktcopy /dev/stdin t", {}, wanted, after, image),)
      for image, wanted, after in ((TWO, COPIED, TWO), (b"", message(1, "/dev/stdin: not a keytab (1)"), None),
                                   (TWO[:-1], message(1, "/dev/stdin: refused 1"), None))),
    # Two names of one keytab are one keytab.
    *((copy(f"{what} of the same keytab", COPY, {"k": TWO}, Outcome(0)), place) for what, place in (
        ("a link", link("t", "k")),
        ("a second name", lambda folder: os.link(os.path.join(folder, "k"), os.path.join(folder, "t"))))),
    # What is under the name of the new file: only a save is refused.
    *((copy(f"a folder in the way: {' '.join(words)}, {wanted.status}", words, {"k": TWO, "t": target}, wanted),
       at("t.krbfile", os.mkdir)) for words, target, wanted in (
           (COPY, keytab(HOST), message(3, "t: cannot write")), (COPY, TWO, Outcome(0)),
           (("ktcopy", "-n", "k", "t"), keytab(), COPIED))),
    (copy("a keytab to copy from that may not be written", COPY, {"k": TWO}, after=TWO),
     at("k", lambda path: os.chmod(path, 0o400))),
    *(row for source, target in (("t.krbfile", "t"), ("./t.krbfile", "t"), ("link", "t"), ("t.krbfile", "to"))
      for row in from_new_file(source, target, keytab(HOST), message(3, f"{target}: cannot write"))),
    *from_new_file("t.krbfile", "t", CLASH, printed("clash 2 2 kvno 3 etype 17 b@R", status=1)),
    *from_new_file("t.krbfile", "t", keytab(HOST, B), Outcome(0)),
]


def check_pipe(report: Report, program: str) -> None:
    """Checks that a dry run opens a pipe that it would copy into."""
    with folder_of({"k": TWO}) as folder, fed(os.path.join(folder, "t")) as is_used:
        faults = differences(COPIED, run(program, (EXPLAIN, "ktcopy", "-n", "k", "t"), folder))
        faults += tree_faults({"k": TWO, "t": "p"}, folder) + ([] if is_used() else ["it was not opened"])
    report.check("a pipe to copy into, in a dry run", faults)


def check(report: Report, program: str) -> None:
    for each in (check_new_files, check_own_files, check_others_files, check_hard_links, check_removed,
                 check_locked_folder, check_pipe):
        each(report, program)
    for row in ROWS:
        check_over(report, program, *row)
