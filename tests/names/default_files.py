"""Lines that leave out the file: that which a variable names, or the default, beside another /etc, by what the system
reports of a run, and for other users. What is wrong with a line comes first."""

import os
import shutil
from collections.abc import Callable, Iterator
from contextlib import ExitStack, contextmanager
from itertools import product

from makers.images import TWO
from names.named_files import BESIDE, DEFAULTS, IMAGES, KLIST, KLIST_CACHE, NEITHER, FileName, Kind
from runs.harness import EXPLAIN, Line, Report, every, folder_of, message, run, words_of
from runs.system_calls import STATUS, no_mounts, run_within
from system.saving import write
from system.saving import USER as NOBODY
from words.explaining import Explained, unchanged
from words.phrases import DEFAULT

CCNAME, KTNAME = Kind.CACHE.value, Kind.KEYTAB.value
CACHE = IMAGES[Kind.CACHE]
KEYTAB = FileName("/etc/krb5.keytab", source=DEFAULT)
USER = 4_000_123_456  # a user whom no system has
OWN = "/tmp/krb5cc_{}"  # the name of a user's cache

# What the system reports of a process: the first number is that of the real user.
OF_USER = "Name:\tUid:\nUmask:\t0022\nTgid:\t5\nUid:\t{}\t0\t7\t8\nGid:\t9\t9\t9\t9\n"
UNKNOWN = (b"", b"Uid:\n", b"Uid:\tx\t0\t0\t0\n", b"xUid:\t5\t5\t5\t5\n")  # no bytes, no such line, or no number in it

# Environments in which the default is taken: none, an empty value, and a value for the other kind.
UNNAMED = {Kind.KEYTAB: ({}, {KTNAME: ""}, {CCNAME: "c"}), Kind.CACHE: ({}, {CCNAME: ""}, {KTNAME: "c"})}


def bad(words: str | Line, env: dict[str, str | bytes], phrase: str) -> Explained:
    """Returns a bad line, and what is wrong with it."""
    lines = ("bad command line", f"{phrase}; see krbfile {words_of(words)[0]} --help")
    return unchanged(words, lines, files={"k": TWO, "c": CACHE}, status=2, options={"env": env})


CASES = [
    *(bad(each.words(None), {each.kind.value: value}, f"{each.kind.value} is not UTF-8")
      for each in DEFAULTS for value in (b"\xff", b"FILE:c\xc3")),
    # What is wrong with a line comes first, and other commands want the file.
    *(bad(words, {CCNAME: b"\xff", KTNAME: b"\xff"}, phrase) for words, phrase in (
        ("klist -x", "unknown option -x"), ("klist -k -f", "-f does not go with -k"),
        ("klist --for 3", "--for goes with -s alone"), ("ktcheck --allow", "--allow needs a value"),
        ("ktedit", "no FILE"), ("ktcopy k", "no TO"))),
]


@contextmanager
def other_system(report: Report, program: str, keytab: bytes | None, status: bytes = b"",
                 mounts: dict[str, str] | None = None) -> Iterator[Callable[[Explained], None]]:
    """Yields what checks a line beside a default keytab or none, another text about the run, and other mounts."""
    with folder_of({"c": CACHE, BESIDE: TWO, "status": status}) as folder:
        os.mkdir(os.path.join(folder, "etc"))
        if keytab is not None:
            write(os.path.join(folder, "etc", "krb5.keytab"), keytab)
        places = {"/etc": os.path.join(folder, "etc"), STATUS: os.path.join(folder, "status"), **(mounts or {})}

        def compare(row: Explained) -> None:
            for explains in (False, True):
                env = {"PATH": os.environ["PATH"], **row.options["env"]}
                got = run_within(program, (*[EXPLAIN] * explains, *row.words), folder, places, env=env)
                report.compare(f"{row.name}, beside {status[:20]}", row.wanted(explains, row.out), got)

        yield compare


def check_defaults(report: Report, program: str) -> None:
    """Checks each command that may leave out its file. The default cache has the number of the real user."""
    rows = [(KEYTAB, USER, each, None) for each in (TWO, NEITHER, None)]
    rows += [(FileName(OWN.format(user), source=DEFAULT), user, None, image) for user, image in (
        (USER, CACHE), (USER, NEITHER), (2**32 - 2, None))]
    for name, user, keytab, own in rows:
        kind = Kind.KEYTAB if name is KEYTAB else Kind.CACHE
        with other_system(report, program, keytab, OF_USER.format(user).encode()) as compare, ExitStack() as meanwhile:
            if own is not None:
                write(name.text, own)
                meanwhile.callback(os.remove, name.text)
            for command, env in product(DEFAULTS, UNNAMED[kind]):
                if command.kind is kind:
                    compare(command.row(name, keytab or own, None, {}, env))


def check_unknown(report: Report, program: str) -> None:
    """Checks that a line which leaves out the cache is bad if the user's number cannot be had, and no other line."""
    ways = [{"status": each} for each in UNKNOWN] + [{"mounts": {STATUS: "/proc/$$/mem"}}]
    with folder_of({}) as none:
        if report.is_proved:
            ways.append({"mounts": {"/proc": none}})
        else:
            report.skip("a run without /proc", "the program is not proved: its checks read there")
        for way in ways:
            with other_system(report, program, TWO, **way) as compare:
                for line, phrase in (("klist", "no FILE"), ("klist -s", "no FILE"), ("klist -x", "unknown option -x")):
                    compare(bad(line, {}, phrase))
                compare(KLIST_CACHE.row(FileName("c"), CACHE, "c", {}, {}))
                compare(KLIST_CACHE.row(FileName("c"), CACHE, None, {}, {CCNAME: "c"}))
                compare(KLIST.row(KEYTAB, TWO, None, {}, {}))


def check_users(report: Report, program: str) -> None:
    """Checks which cache is missing: of a real user beside root, of another user, and of root for another user."""
    ways = {(): os.getuid()}
    if os.geteuid() == 0 and shutil.which("setpriv"):
        ways |= {("setpriv", f"--ruid={NOBODY}"): NOBODY, ("setpriv", f"--euid={NOBODY}"): 0,
                 ("setpriv", f"--reuid={NOBODY}", f"--regid={NOBODY}", "--clear-groups"): NOBODY}
    else:
        report.skip("default caches of other users", "none but root may run as another, by setpriv")
    with folder_of({}) as folder:
        # All users may run a copy of the program.
        copy = shutil.copy(program, folder)
        for path in (folder, copy):
            os.chmod(path, 0o755)
        for front, user in ways.items():
            own = OWN.format(user)
            if os.path.lexists(own):
                report.skip(f"the default cache of user {user}", "it is there")
                continue
            first, *rest = [*front, copy, "klist"]
            got = run(first, rest, folder, env={"PATH": os.environ["PATH"]})
            report.compare(f"the default cache of user {user}, {front}", message(1, f"{own}: no such file"), got)


check = every(check_users, every(check_defaults, check_unknown, of="default files beside other folders",
                                 lack=no_mounts))
