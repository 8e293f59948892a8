"""Keytabs that ours changed, and entries that ktcheck calls hidden, beside MIT's programs; saves in place beside those,
which lock a file to read it, and to add to it; and what README's first lines say of them and of ours."""

import re
import sys
from concurrent.futures import Future, ThreadPoolExecutor, wait
from dataclasses import replace
from functools import partial
from random import Random

from keytabs.checks import EVEN, ODD
from keytabs.copies import OTHER, THIRD
from keytabs.edits import ADD_B, ADD_C, ADD_HOST
from keytabs.listings import BY_NAME, KEY_SIZES
from makers.images import B, BIG, END, HOST, LITTLE, TWO, Entry, keytab, old
from peers.beside_mit import SURROUNDINGS, Mit, are_there, as_json, check_seeds, entries, lack, mit_klist
from peers.caches_beside_mit import REALM, Failed, Realm, in_realm
from runs.harness import EXPLAIN, SECONDS, Outcome, Report, differences, every, files_in, folder_of, printed, run, text
from runs.system_calls import Halt, halted
from runs.undisturbed import IN_PLACE, Undisturbed, preload_library, undisturbed
from system.changes_at_once import names_of
from system.saving import ADD_LONG

# Entries of each enctype that has a name, with quoted names, and versions of more than 8 bits.
EACH_ETYPE = [f"add {300 * number} {number} {number} {bytes(range(size)).hex()} a\\/b\\@/c d\\n\\\\/e@R\\/S"
              for number, size in KEY_SIZES.items()]
HOLES = keytab(60, HOST, 41, B)
OLD = old(HOST, Entry((b"a",), b"R", version32=None))
A, MARKED = Entry((b"a",)), keytab(HOST, END, b"\xff" * 20)

# Scripts and copies, with how many entries there are then. MIT's read version 1 in the machine's byte order.
CHANGES = [
    *((undisturbed("ktedit k", text(script), name=name, k=image), count) for name, image, script, count in (
        ("a new file", None, [ADD_HOST, *EACH_ETYPE], 9), ("holes that are filled", HOLES, [ADD_B, ADD_C, ADD_HOST], 5),
        ("removals and additions", TWO, ["cut 2", ADD_C, *EACH_ETYPE, "cut 53", "cut 98", ADD_B], 9),
        ("a rewrite", HOLES, [ADD_C, *EACH_ETYPE, "cut 66", "rewrite", ADD_HOST], 11),
        ("all removed", TWO, ["cut 2", "cut 53"], 0), ("an end mark", MARKED, [ADD_B, ADD_C], 3),
        ("version 1", OLD, ["cut 2", ADD_B, ADD_HOST], 3),
        ("version 1 that is rewritten", OLD, ["cut 2", "rewrite", ADD_B], 2))),
    *((undisturbed(line, name=name, k=source, t=target), count) for name, line, source, target, count in (
        ("a file of no bytes", "ktcopy k t", TWO, b"", 2),
        ("other keys", "ktcopy --replace k t", TWO, keytab(OTHER, A, THIRD), 3),
        ("odd names", "ktcopy k t", keytab(Entry((b"a/b", b"c@d\n\\"), b"R@S")), TWO, 3),
        ("wide versions", "ktcopy k t",
         keytab(replace(B, version32=300), replace(B, version8=255, version32=2**31 - 1)), TWO, 4),
        ("from version 1", "ktcopy k t", old(HOST, B), None, 2),
        ("to version 1", "ktcopy k t", TWO, old(A), 3))),
]

KEY = bytes(range(32)).hex()
LINES = ["rkt j", "rkt k", "delent 1", f"addent -key -p host/z@R -k 300 -e aes256-cts-hmac-sha1-96\n{KEY}", "wkt n",
         "wkt k", "clear", "wkt n"]
NARROW = Entry((b"a", b"b"), version32=None)
BY_NAMES = [*(f"addent -key -p a@R -k {at} -e {word}\n{KEY[:2 * KEY_SIZES[number]]}"
              for at, (name, number) in enumerate(BY_NAME.items(), 1) if "-" in name for word in (name, name.upper())),
            "wkt n"]

# Runs at the time of the entries, which MIT's ktutil sets in all, and its lines that leave the same files.
NOW = HOST.timestamp
SAME = [
    *((undisturbed("ktcopy k t", clock=NOW, k=source, t=target), ["rkt k", "wkt t"]) for source, target in (
        (TWO, None), (keytab(NARROW, Entry((b"c",)), Entry((b"d", b"e"), key=bytes(32))), HOLES), (keytab(A), MARKED),
        (TWO, keytab(47, A, 41, 90)))),
    (undisturbed("ktutil", text(LINES), clock=NOW, j=keytab(HOST, NARROW), k=HOLES), LINES),
    (undisturbed("ktutil", text(BY_NAMES), clock=NOW), BY_NAMES),
]

NAMES = ((b"a",), (b"host", b"a"), (b"b",))
VERSIONS = (1, 2, 126, 127, 128, 129, 239, 240, 241, 242, 254, 255, 256, 257)  # on both sides of where they wrap
FIRST, LAST = Entry((b"first",)), Entry((b"last",))  # entries around another
# Of the version 1 files, MIT's programs read those of the machine's own byte order.
KINDS = ((2, BIG, ()), (1, sys.byteorder, ("--v1-big",) if sys.byteorder == BIG else ()))
USER, SERVICE = (b"user@" + REALM).decode(), (b"svc/h@" + REALM).decode()


def check_read(report: Report, program: str) -> None:
    """Checks that MIT's programs read what a run saves as ours does."""
    for made, count in CHANGES:
        if sys.byteorder != LITTLE and "version 1" in made.name:
            continue
        file = made.words[-1]
        with folder_of(made.files_after) as folder:
            mit, wanted = Mit(folder), entries(program, folder, file)
            faults = [] if len(wanted) == count else [f"{len(wanted)} are there, not {count}"]
            for peer, listed in (("klist", mit.klist(file)), ("ktutil", mit.ktutil_list(file))):
                faults += [] if listed == wanted else [f"MIT's {peer} lists {listed}, not {wanted}"]
        report.check(f"MIT's programs after {made.name}", faults)


def check_same(report: Report, _: str) -> None:
    """Checks that MIT's ktutil and ours leave the same bytes at the same time."""
    if (library := preload_library()) is None:
        report.skip("what MIT's ktutil saves", "no C compiler built preload.c")
        return
    for made, requests in SAME:
        with folder_of(made.files) as folder:
            Mit(folder, LD_PRELOAD=library, CLOCK=str(NOW)).ktutil(*requests)
            theirs, ours = files_in(folder), made.files_after
        found = [f"{name}: MIT's is {theirs.get(name)}, krbfile's {ours.get(name)}"
                 for name in sorted({*theirs, *ours}) if theirs.get(name) != ours.get(name)]
        report.check(f"MIT's ktutil and {made.name}", found + (["nothing is saved"] if theirs == made.files else []))


def faults_of_hidden(program: str, image: bytes, place: int | None, options: tuple[str, ...]) -> list[str]:
    """Returns the faults of a check and a script over a keytab whose second entry of three may be hidden."""
    edited = undisturbed((EXPLAIN, "ktedit", *options, "k"), ADD_C.encode(), k=image).wanted.err
    warned = [int(at) for at in re.findall(rb"MIT's programs see no entry from (\d+) on\n", edited)]
    with folder_of({"k": image}) as folder:
        mit = Mit(folder)
        name = as_json(program, folder, "-k", *options, "k")["entries"][1]["principal"]
        out = run(program, ("ktcheck", *options, "k"), folder).out
        reported = [int(line.split()[1]) for line in out.splitlines() if line.startswith(b"hidden ")]
        count = len(mit.klist("k"))
        status = run(program, ("ktremove", *options, "-p", name, "k"), folder).status
        left = len(mit.klist("k"))
    found = [] if reported == warned == ([place] if place else []) else [f"{reported} and {warned} are hidden"]
    found += [] if count == (1 if place else 3) else [f"MIT's klist lists {count}"]
    return found + ([] if (status, left) == (0, 2) else [f"status {status}, then it lists {left}"])


def check_hidden(report: Report, program: str) -> None:
    """Checks entries that hide others, and some that hide none."""
    for version, order, options in KINDS:
        place = len(keytab(FIRST, version=version, order=order))
        for name, entry in {**ODD, **EVEN}.items():
            image = keytab(FIRST, entry, LAST, version=version, order=order)
            report.check(f"MIT's klist and ktcheck: {name}, version {version}",
                         faults_of_hidden(program, image, place if name in ODD else None, options))


def is_done(made: Realm, folder: str, line: str) -> bool:
    """Whether a program of MIT's succeeds."""
    try:
        made.call(*line.split(), folder=folder)
    except Failed:
        return False
    return True


def check_used(report: Report, program: str, made: Realm) -> None:
    """Checks that kinit and kvno use the keys of a copy, and only those: one service is handed its own."""
    user, service = made.keys()
    image, stale = keytab(user, service), keytab(replace(service, key=bytes(len(service.key))))
    for name, files, words in (("a new keytab", {}, ""), ("a stale key", {"t": stale}, "--replace")):
        with folder_of({"k": image} | files) as folder:
            faults = ["kinit needs no copy"] * is_done(made, folder, f"kinit -k -t t {SERVICE}")
            got = run(program, f"ktcopy {words} -p {SERVICE} k t".split(), folder)
            faults += [f"it ended with {got}"] * (got.status != 0)
            done = [is_done(made, folder, line) for line in (
                f"kinit -k -t t {SERVICE}", f"kinit -k -t k {USER}", f"kvno -k t {SERVICE}", f"kinit -k -t t {USER}")]
            faults += [f"{done}"] * (done != [True, True, True, False])
        report.check(f"kinit and kvno after ktcopy into {name}", faults)
    # Its key, under a name that it does not have, and then under its own.
    with folder_of({"k": keytab(replace(service, components=(b"old",)))}) as folder:
        lines = (f"kinit -k -t k {SERVICE}", f"kvno -k k {SERVICE}")
        faults = [f"it needs no alias: {lines[0]}"] * is_done(made, folder, lines[0])
        got = run(program, f"ktcopy -p old@{REALM.decode()} --as {SERVICE} k k".split(), folder)
        faults += [line for line in lines if not is_done(made, folder, line)]
    report.check("kinit and kvno after ktcopy --as", faults + [f"it ended with {got}"] * (got.status != 0))


def rotated_entry(random: Random) -> Entry:
    """Returns an entry with a 32-bit version, or sometimes with 8 bits only, if they suffice."""
    kvno = random.choice(VERSIONS)
    wide = kvno if kvno > 255 or random.random() < 0.5 else None
    return Entry(random.choice(NAMES), timestamp=NOW + random.randrange(3), version8=kvno % 256,
                 enctype=random.choice((17, 18)), version32=wide)


def faults_of_removal(program: str, realm: Realm, random: Random) -> list[str]:
    """Returns what differs from kadmin.local's in a removal of a name's old entries from a random keytab."""
    those = [rotated_entry(random) for _ in range(random.randrange(1, 9))]
    image, name = keytab(*those), b"/".join(random.choice(those).components) + b"@R"
    with folder_of({"k": image}) as folder:
        words = ("-r", REALM.decode(), "ktremove", "-k", "FILE:k", name.decode(), "old")
        realm.call("kadmin.local", *words, folder=folder)
        theirs = files_in(folder)["k"]
    with folder_of({"k": image}) as folder:
        got = run(program, ("ktremove", "-p", name, "-k", "old", "k"), folder)
        ours, left = files_in(folder)["k"], len(entries(program, folder, "k"))
    found = [] if theirs == ours else [f"MIT's is {theirs.hex()} of {image.hex()}, not {ours.hex()}"]
    is_said = got.status == 0 and got.out.count(b"removed ") + left == len(those)
    return found + ([] if is_said else [f"{got} of {len(those)} entries, {left} are left"])


def check_old(report: Report, program: str, made: Realm) -> None:
    """Checks that kadmin.local and ktremove leave the same file without its old entries."""
    if are_there(report, "removals beside MIT's kadmin.local", "kadmin.local"):
        check_seeds(report, "old entries that kadmin.local and ktremove remove",
                    partial(faults_of_removal, program, made))


def check_readme(report: Report, program: str) -> None:
    """Runs MIT's programs, and ours over the same files."""
    mit = partial(run, env=SURROUNDINGS)
    with folder_of({"d": TWO + b"\0\0", "a": TWO, "b": keytab(HOST, replace(B, timestamp=1))}) as folder:
        listed = mit("klist", ("-k", "d"), folder)
        report.check("klist ends silently at damage", [f"{listed}"] * (listed.status != 0 or listed.err != b""))
        ours = run(program, ("klist", "-k", "d"), folder)
        report.check("ours reports it", [f"{ours}"] * (ours.status != 1 or not ours.out.endswith(b"\nfault 1 at 98\n")))
        merged = mit("ktutil", (), folder, b"rkt no\nrkt a\nrkt b\nwkt n\nq\n")
        report.check("ktutil ends with 0", [f"{merged}"] * (merged.status != 0 or b"No such" not in merged.err))
        entries = mit_klist(folder, "-kt", "n").decode().splitlines()[3:]
        report.check("ktutil merges with doubles", [f"{entries}"] * (len(entries) != 4))
        report.check("ktutil sets times to now", [each for each in entries if "11/14/23" in each or "01/01/70" in each])
        report.compare("ours merges without", printed(), run(program, ("ktcopy", "b", "a"), folder))
        gone = mit("k5srvutil", ("-f", "a", "delold"), folder)
        report.check("delold wants the admin server", ["it goes"] * (gone.status == 0))


MOMENT = 0.3  # how long a run is watched that has to wait
FIRST_NAME, MITS, OURS = "host/a", "b", "a/long/name"  # the names at first, of MIT's entry, and of a run's

# MIT's programs, halted while they have the lock: one that reads the file, and one that begins to add what is in J.
READS = ("klist", undisturbed("-k k"), Halt("read", paths=("k",)))
ADDS = ("ktutil", undisturbed("", b"rkt j\nwkt k\nq\n"), Halt("write", paths=("k",)))
J = keytab(Entry((b"b",)))

# One of these, the options of a run beside it, whether that waits, where it puts its entry, and the names then.
ROWS = (
    (READS, (IN_PLACE,), True, 53, [FIRST_NAME, OURS]), (READS, (), False, 53, [FIRST_NAME, OURS]),
    (ADDS, (IN_PLACE,), True, 98, [FIRST_NAME, MITS, OURS]), (ADDS, (), True, 98, [FIRST_NAME, MITS, OURS]))


def ended_beside(program: str, options: tuple[str, ...], folder: str, mits: tuple[str, Undisturbed, Halt],
                 seconds: float) -> tuple[Outcome, bool, Outcome]:
    """Returns how a run ends beside a halted program of MIT's, whether it waits so long, and how MIT's ends."""
    started: list[tuple[Future[Outcome], bool]] = []
    with ThreadPoolExecutor(1) as pool:

        def begin(folder: str) -> None:
            """Starts the run."""
            ours = pool.submit(run, program, ("ktedit", *options, "k"), folder, ADD_LONG)
            started.append((ours, ours in wait([ours], seconds).not_done))

        peer, one, halt = mits
        theirs = halted(peer, one, folder, halt, begin, SURROUNDINGS)
        (ours, waits), = started
        return ours.result(), waits, theirs


def check_peers(report: Report, program: str) -> None:
    """Checks that a save in place waits for who reads or adds, and that one that replaces waits for who adds."""
    for mits, options, has_to_wait, place, wanted in ROWS:
        with folder_of({"k": keytab(HOST), "j": J}) as folder:
            ours, waits, theirs = ended_beside(program, options, folder, mits, MOMENT if has_to_wait else SECONDS)
            names = names_of("-k", files_in(folder)["k"])
        faults = differences(printed(f"placed {place}"), ours)
        faults += [] if names == wanted else [f"{names}, not {wanted}"]
        faults += [] if waits == has_to_wait else [f"it waits: {waits}"]
        is_listed = FIRST_NAME.encode() in theirs.out and OURS.encode() not in theirs.out
        faults += [f"{theirs}"] if theirs.status or (mits is READS and not is_listed) else []
        report.check(f"beside MIT's {mits[0]}, {' '.join(options) or 'replacing'}", faults)


check = every(every(check_read, check_same, check_hidden, of="keytabs beside MIT's programs", lack=lack),
              every(check_readme, of="what README says of MIT's programs",
                    lack=partial(lack, "klist", "ktutil", "k5srvutil")),
              every(check_peers, of="saves in place beside MIT's programs", needs=("strace",), lack=lack),
              in_realm("copies used by MIT's programs", check_used, check_old))
