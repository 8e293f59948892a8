"""What a save in place keeps: the file itself, with its owner, mode, other names, access list and label. Files that can
be saved in place only, and disks that are full or read-only. A missing file is not made in place."""

import os
import resource
import struct
import subprocess
from contextlib import suppress
from dataclasses import replace
from itertools import product
from pathlib import Path
from shlex import quote

from makers.images import HOST, TWO, USUAL, Entry, keytab
from runs.commands import CHANGES, COMMANDS, LEAVES, NEW, OLD, READS, SAVING, SCRIPT, file_of, renamed
from runs.harness import EXPLAIN, Case, Report, differences, every, faults_of, files_in, folder_of, limit, run
from runs.system_calls import disk, no_disks, no_mounts, run_within
from runs.undisturbed import IN_PLACE, Undisturbed, in_place, undisturbed
from system.saving import (ADD, B_OLD, EQUAL, GROUP, LINES, LONGER, MIXED, PLACED, UNSAVED, USER, Owned, as_another, at,
                           check_over, explained, faults_over, kept, last_line, refused, tree_faults, with_words, write)
from words.explaining import FINDS_NONE, Explained, copy, no_keytab, unchanged
from words.phrases import AFTERMATHS, BEGINS_AS_CACHE, CAUSES, LEAVE_OUT, NOT_READ, code, line_fault

FULL = keytab(*[HOST] * 79, Entry((b"x" * 14,)))  # a keytab that fills a page of 4,096 bytes but for less than an entry
TOO_MUCH = undisturbed("ktedit k", SCRIPT, k=FULL, name="adds to a full page")
LESS = undisturbed("ktedit k", b"cut 2\n", k=FULL, name="removes from a full page")

SPARSE = keytab(HOST, 200_000)  # a keytab whose hole takes no room on a disk
SPARSE_FROM = 100  # how many of its bytes are written
ROOM = 24_576  # what room is left on the disk
# A script that adds 20,000 bytes to the hole and 15,000 behind it.
INTO_BOTH = "".join(f"add 3 17 1 {'00' * 16} {'z' * length}@R\n" for length in (20_000, 15_000)).encode()

MODE = 0o640
NOBODY = 0xffffffff  # the number of an entry that is about no single user

# An access list of that mode by which another user may read the file, as stored: tag, permissions, number.
LIST = struct.pack("<I", 2) + b"".join(struct.pack("<HHI", *entry) for entry in (
    (1, 6, NOBODY), (2, 4, 1234), (4, 4, NOBODY), (16, 4, NOBODY), (32, 0, NOBODY)))

# Attributes of a file. A label may be set by root only.
ATTRIBUTES = {"system.posix_acl_access": LIST, "user.origin": b"a realm",
              "security.selinux": b"system_u:object_r:krb5_keytab_t:s0\0"}


def kinds(report: Report) -> list[tuple[str, bytes] | tuple[()]]:
    """Returns the attribute that a file may have: none, and each that can be set."""
    found: list[tuple[str, bytes] | tuple[()]] = [()]
    with folder_of({"k": b""}) as folder:
        for name, value in ATTRIBUTES.items():
            try:
                os.setxattr(os.path.join(folder, "k"), name, value)
                found.append((name, value))
            except OSError as error:
                report.skip(f"the attribute {name}", f"a file cannot have it: {error.strerror}")
    return found


def check_kept(report: Report, program: str) -> None:
    """Checks a save of a file with such an attribute, another name, and another owner: it stays the same file."""
    for case, attribute in product(map(in_place, PLACED), kinds(report)):
        with folder_of(case.files) as folder, folder_of({}) as other:
            path = os.path.join(folder, file_of(case))
            with suppress(PermissionError):
                os.chown(path, USER, GROUP)
            os.chmod(path, MODE)
            if attribute:
                os.setxattr(path, *attribute)
            os.link(path, os.path.join(other, "k"))
            wanted = kept(path)
            os.utime(folder, (1, 1))
            got = run(program, case.words, folder, case.stdin)
            faults = ["the folder was changed"] if os.stat(folder).st_mtime != 1 else []
            faults += [] if kept(path) == wanted else [f"{kept(path)}, not {wanted}"]
            faults += faults_of(case, got, files_in(folder))
        report.check(f"{case.name}, with {[*attribute[:1]]}", faults)


def check_set_id(report: Report, program: str) -> None:
    """Checks that a file that loses setuid while its new end is added is saved all the same."""
    case = in_place(LONGER)
    if (options := as_another(program)) is None:
        report.skip("files with setuid", "none but root may start the program")
        return
    mine = (USER, USER) if os.geteuid() == 0 else (os.geteuid(), os.getegid())
    report.check(f"setuid: {case.name}", faults_over(
        program, case, at(".", lambda path: os.chmod(path, 0o777)), at("k", Owned(0o4600, *mine).give),
        left=Owned(0o600, *mine), **options))


def check_mounted(report: Report, program: str) -> None:
    """Checks a file over which another is mounted: that one is saved in place, and cannot be replaced."""
    for case in (EQUAL, MIXED):
        for row in (refused(case, "EBUSY"), with_words(in_place(case))):
            one = Case(f"a mount over the file: {row.name}", row.words, row.wanted,
                       {"k": b"under", "over": case.files["k"]}, {"over": row.files_after["k"]}, row.stdin)
            check_over(report, program, one, make=lambda program, case, folder: run_within(
                program, case.words, folder, {quote(os.path.join(folder, "k")): os.path.join(folder, "over")},
                stdin=case.stdin))


# Rows over a full disk: a save without room leaves the old bytes, and another's `k.new`; others are made.
TWO_FILES = {"k": OLD, "k.new": NEW}
FULL_DISKS = (refused(in_place(TOO_MUCH), "ENOSPC"), refused(LESS, "ENOSPC"), in_place(LESS), refused(ADD, "ENOSPC"),
              replace(refused(ADD, "ENOSPC"), files=TWO_FILES, files_after=TWO_FILES),
              Case("ktutil writes what it has read", ("ktutil",), UNSAVED, TWO_FILES, stdin=b"rkt k.new\nwkt k\n"))

# Rows over one that is read-only: a file there is loaded, and only its save is refused.
WALK_OVER = undisturbed("ktedit k", b"start\n", k=OLD, name="walks")
READ_ONLY = (*(refused(case, "EROFS") for case in (ADD, in_place(ADD), *COMMANDS["ktedit"].makes)),
             WALK_OVER, in_place(WALK_OVER))


def check_disks(report: Report, program: str) -> None:
    """Checks each of those rows on a disk of its own."""
    for case, is_read_only in (*((each, False) for each in FULL_DISKS), *((each, True) for each in READ_ONLY)):
        with disk(f"{4 * (len(case.files) + is_read_only)}k") as folder:
            for name, data in case.files.items():
                write(os.path.join(folder, name), data)
            before = [kept(os.path.join(folder, name)) for name in case.files]
            if is_read_only:
                subprocess.run(["mount", "-o", "remount,ro", folder], check=True)
            faults = differences(case.wanted, run(program, case.words, folder, case.stdin))
            faults += [] if [kept(os.path.join(folder, name)) for name in case.files] == before else ["not kept"]
            faults += tree_faults(case.files if case.files_after is None else case.files_after, folder)
        report.check(f"a disk that is {'read-only' if is_read_only else 'full'}: {case.name}", faults)


def check_limit(report: Report, program: str) -> None:
    """Checks a file that may not become as long as it would: the system would end a run that wrote so much."""
    for case in (LONGER, MIXED, in_place(LONGER), in_place(MIXED)):
        length = len(case.files_after["k"])
        for most, one in ((length, with_words(case)), (length - 1, refused(case, "EFBIG"))):
            check_over(report, program, replace(one, name=f"at most {most} bytes: {case.name}"),
                       preexec_fn=limit(resource.RLIMIT_FSIZE, most, is_spared=False))


def check_sparse(report: Report, program: str) -> None:
    """Checks a hole that takes no room, on a disk that is full once it is written into: the old bytes come back."""
    with disk("48k") as folder:
        path, fill = Path(folder, "k"), Path(folder, "fill")
        path.write_bytes(SPARSE[:SPARSE_FROM])
        os.truncate(path, len(SPARSE))
        with suppress(OSError), open(fill, "wb", buffering=0) as file:
            while file.write(bytes(4096)):
                pass
        os.truncate(fill, fill.stat().st_size - ROOM)
        got = run(program, (EXPLAIN, "ktedit", IN_PLACE, "k"), folder, INTO_BOTH)
        faults = differences(explained(UNSAVED, CAUSES["ENOSPC"], AFTERMATHS["restored"]), got)
        faults += [] if path.read_bytes() == SPARSE else ["the old bytes are not back"]
    report.check("a sparse file on a full disk", faults)


NO_FILE = CAUSES["no file"]


def missing(run: Undisturbed, name: str = "") -> Explained:
    """Returns a run in place whose file is missing, by default its own."""
    one, own = renamed(in_place(run), name or file_of(run)), name or file_of(run)
    return unchanged(one.words, (f"{own}: no such file", NOT_READ.replace("TYPE", "KCM:") if "KCM" in own else ""),
                     files={each: data for each, data in one.files.items() if each != own}, stdin=one.stdin,
                     out=last_line("ENOENT", 1) if run.words[0] == "hold" else b"")


def unwritten(name: str, phrase: str, lines: bytes = LINES, **more) -> Explained:
    """Returns a run of ktutil that after those lines is to write that file, and does not."""
    messages = (f"{name}: cannot write", f"line {len(lines.splitlines()) + 1}: {phrase}")
    return unchanged("ktutil --in-place", messages, status=3, stdin=lines + f"wkt {name}\n".encode(), **more)


CASES = [
    # What comes before: a faulty script, and the file that is copied from.
    unchanged("ktedit --in-place k", ("line 1: fault 2", line_fault(2)), stdin=b"start 1\n"),
    *(copy("--in-place", None, target, ("k: no such file", "")) for target in (TWO, None)),
    copy("--in-place -p c@R", TWO, None, FINDS_NONE), copy("--in-place", TWO[:-1], None, ("k: refused 1", code(1))),
    unchanged("ktutil --in-place", ("k: no such file", f"line 1: {NO_FILE}"), stdin=b"rkt k\n"),
    unwritten("k", NO_FILE, b""), unwritten("k", NO_FILE), unwritten("no/k", NO_FILE),
    unwritten("FILE:k", LEAVE_OUT.replace("TYPE", "FILE:")),
    unchanged("ktedit --in-place k", no_keytab(BEGINS_AS_CACHE), stdin=SCRIPT, files={"k": USUAL}),
    copy("--in-place", B_OLD, b"", status=0, out=["copied 2 kvno 3 etype 17 b@R"], after={"k": B_OLD, "t": B_OLD}),
]


def check_missing(report: Report, program: str) -> None:
    """Checks runs in place over a file that is missing, in no folder, or of another type."""
    for case in (*CHANGES, *READS, *LEAVES):
        if case.words[0] in SAVING and case.words[0] != "ktutil" and case.wanted.status == 0:
            missing(case).check(report, program)
    for name in ("no/k", "KCM:k"):
        missing(ADD, name).check(report, program)


check = every(check_missing, check_kept, check_set_id, check_limit,
              every(check_disks, check_sparse, of="disks that are full or read-only", lack=no_disks),
              every(check_mounted, of="files that are mounted, saved in place", lack=no_mounts))
