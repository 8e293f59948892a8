"""Tickets of MIT's kinit and kvno, in the realm of caches_beside_mit. Caches of them that ccedit and ccremove change
can still be used. `ktmatch` beside kvno, over keytabs of some keys from before and after changes: kvno tries each key
of a ticket's type, so no two here have the same numbers. Storms over one cache beside kvno, which stores in it too."""

import json
import re
from collections.abc import Iterator
from contextlib import contextmanager
from dataclasses import replace
from random import Random

from computed.batches import Rounds
from makers.images import Entry, keytab
from peers.beside_mit import SEEDS, as_json, differences_of
from peers.caches_beside_mit import ETYPES, HOST, REALM, USER, Realm, in_realm
from runs.harness import Outcome, Report, differences, every, files_in, folder_of, message, printed, run
from system.changes_at_once import Run, names_of, rage
from system.saving import write

TGT = "krbtgt/CACHE.TEST@CACHE.TEST"
HOST_TEXT = f"{HOST}@CACHE.TEST"
SVC_TEXT = "svc/h@CACHE.TEST"
SESSION_KEY = re.compile(rb"\0\x12\0\0\0\x20(.{32})", re.DOTALL)  # its type, its length, and its bytes


class Filled:
    """A cache `c` that MIT's programs filled, and the programs that use it."""

    def __init__(self, program: str, made: Realm, folder: str) -> None:
        self.program, self.made, self.folder = program, made, folder
        self.found: list[str] = []

    def image(self) -> bytes:
        """Returns the bytes of the file."""
        return files_in(self.folder)["c"]

    def want(self, what: str, is_so: bool) -> None:
        """Records a fault unless the condition is true."""
        self.found += [] if is_so else [what]

    def change(self, line: str, wanted: Outcome | None = None, script: str = "") -> None:
        """Makes a run of ours, which has to end so, or to succeed, and compares MIT's listing and ours then."""
        got = run(self.program, (*line.split(), "c"), self.folder, script.encode())
        self.found += differences(wanted or replace(got, status=0, err=b""), got)
        self.found += differences_of(self.program, self.folder, "-f", "-e", "-C")

    def use(self, *words: str, version: int = 4) -> None:
        """Makes a run of MIT's over the cache, which has to succeed."""
        self.made.call(*words, folder=self.folder, version=version)

    def places_of(self, server: str) -> list[int]:
        """Returns the places of the live tickets for a server."""
        tickets = as_json(self.program, self.folder, "c")["tickets"]
        return [ticket["place"] for ticket in tickets if ticket["server"] == server]

    def keys_of(self, server: str) -> list[bytes]:
        """Returns the session keys of the live tickets for a server."""
        return [SESSION_KEY.search(self.image(), place)[1] for place in self.places_of(server)]

    def remove(self, server: str) -> None:
        """Removes the ticket for a server."""
        place, = self.places_of(server)
        self.change(f"ccremove -p {server}", printed(f"removed {place} {server}"))


@contextmanager
def filled(what: str, report: Report, program: str, made: Realm, *commands: tuple[str, ...],
           version: int = 4) -> Iterator[Filled]:
    """Yields a cache that some commands of MIT's filled, and reports the faults that are found."""
    with folder_of({"k": keytab(*made.keys())}) as folder:
        one = Filled(program, made, folder)
        for words in commands:
            one.use(*words, version=version)
        yield one
    report.check(what, one.found)


def check_removed(*where: Report | str | Realm) -> None:
    """Checks that a ticket that ccremove removed is requested again, and that a new ticket of kinit is used."""
    with filled("kvno asks again for what is removed", *where, USER, ("kvno", HOST, "svc/h")) as one:
        old, = one.keys_of(HOST_TEXT)
        kept = [one.keys_of(server) for server in (TGT, SVC_TEXT)]
        one.remove(HOST_TEXT)
        one.want("its key is left", old not in one.image())
        one.want("others are gone", kept == [one.keys_of(name) for name in (TGT, SVC_TEXT)])
        one.use("kvno", HOST)
        new = one.keys_of(HOST_TEXT)
        one.want("kvno asked for no other", len(new) == 1 and new != [old])
        one.change("ccedit", script="rewrite\n")
        one.use("kvno", HOST, "svc/h")
        one.want("kvno asks again for what is there", one.keys_of(HOST_TEXT) == new)
        one.remove(TGT)
        one.use(*USER)
        one.use("kvno", HOST)
        one.want("a new ticket of kinit is not used", len(one.keys_of(HOST_TEXT)) == 1)


def check_version_3(*where: Report | str | Realm) -> None:
    """Checks that a cache of version 3 is refused, and that kvno uses it as version 4 after a rewrite."""
    with filled("a cache of version 3 that is rewritten", *where, USER, ("kvno", HOST), version=3) as one:
        before, keys = one.image(), one.keys_of(HOST_TEXT)
        one.change("ccremove --expired", message(1, "c: refused 8"))
        one.want("it changed", one.image() == before)
        one.change("ccedit", script="rewrite\n")
        one.want("it has other keys", one.keys_of(HOST_TEXT) == keys)
        one.use("kvno", HOST, "svc/h")
        one.want("kvno asks again for what is there", one.keys_of(HOST_TEXT) == keys)
        one.remove(HOST_TEXT)


WHAT, ONCE = "matches beside MIT's kvno", "svc/once"  # a service whose key never changes
# Services, and the versions of the keys that each has in turn.
VERSIONS = {"svc/h": (1, 2, 255, 300, 65_000), "svc/H": (2, 259, 1_001), HOST: (3, 260), ONCE: (7,)}


def tickets(made: Realm, folder: str) -> list[tuple[str, str]]:
    """Adds keys of each service in turn to the keytab `all`. Returns a cache of a ticket under each, and its name."""
    found = []
    for at, (name, kvno) in enumerate((name, kvno) for name, versions in VERSIONS.items() for kvno in versions):
        etypes = ",".join(f"{each}:normal" for each in (ETYPES * 3)[at:at + 2])
        for line in (f"cpw -randkey -e {etypes} {name}", f"modprinc -kvno {kvno} {name}",
                     f"ktadd -norandkey -k all {name}"):
            made.call("kadmin.local", "-q", line, folder=folder)
        for words in (USER, ("kvno", name)):
            made.call(*words, folder=folder, KRB5CCNAME=f"FILE:c{at}")
        found.append((f"c{at}", name))
    return found


def written(random: Random, entry: Entry) -> Entry:
    """Returns an entry as some program writes it: with a version of 32 bits, of eight alone, or with none."""
    if entry.components == tuple(ONCE.encode().split(b"/")) and random.random() < 0.5:
        return replace(entry, version8=0, version32=0)
    return replace(entry, version32=None) if random.random() < 0.5 else entry


def check_opened(report: Report, program: str, made: Realm) -> None:
    """Compares which tickets are opened by keytabs of some of the keys."""
    with folder_of({"k": keytab(*made.keys())}) as folder:
        caches = tickets(made, folder)
        entries = [Entry(tuple(each["principal"].partition("@")[0].encode().split(b"/")), REALM, 1, 0,
                         each["kvno"] % 256, each["etype"], bytes.fromhex(each["key_hex"]), each["kvno"])
                   for each in as_json(program, folder, "-kK", "all")["entries"]]
        opened = []
        for random in map(Random, range(SEEDS)):
            image = keytab(*(written(random, it) for it in random.sample(entries, random.randrange(len(entries) + 1))))
            write(f"{folder}/t", image)
            ours = run(program, ("ktmatch", "--json", "t", *(cache for cache, _ in caches)), folder).out.splitlines()
            for (cache, name), line in zip(caches, ours, strict=True):
                env = made.surroundings() | {"KRB5CCNAME": f"FILE:{cache}"}
                theirs = run("kvno", ("-k", "t", name), folder, env=env)
                one, = json.loads(line)["tickets"]
                opened.append((theirs.status == 0, one["match"] == "opens", f"{line}: {theirs.err}, {image.hex()}"))
    report.check(WHAT, [why for is_theirs, is_ours, why in opened if is_theirs != is_ours][:3])
    counts = [sum(is_theirs is each for is_theirs, _, _ in opened) for each in (False, True)]
    report.check(f"{WHAT}: cases", [] if min(counts) >= 200 and len(entries) == 2 * len(caches) else [f"{counts}"])


EACH = 15  # how many runs of each command there are
WITHIN = 0.5  # within how many seconds they begin
# Services whose tickets are removed, and those whose tickets are added.
GOING, COMING = (tuple(f"svc/{letter}{number}" for number in range(EACH)) for letter in "rs")


def runs_of(program: str) -> list[Run]:
    """Returns the runs of a storm. Ours may be refused, but only because of what MIT's do meanwhile."""
    runs = []
    for number, (going, coming) in enumerate(zip(GOING, COMING, strict=True)):
        runs += [
            Run(going, (program, "ccremove", "-p", f"{going}@CACHE.TEST", "c"), removes=True),
            Run(f"a{number}", (program, "ccedit", "c"), f"config a{number} - v\n"),
            Run(coming, ("kvno", coming), is_mits=True),
        ]
    return runs


def storm(program: str, made: Realm, seed: int) -> list[str]:
    """Returns the faults of a storm."""
    runs = runs_of(program)
    with folder_of({"k": keytab(*made.keys())}) as folder:
        made.call(*USER, folder=folder)
        made.call("kvno", *GOING, folder=folder)
        for each in runs:
            each.start(folder, made.surroundings())
        rage(runs, Random(seed), WITHIN)
        names = names_of("-c", files_in(folder)["c"])
        found = ["the cache is not whole"] * (names is None)
        found += [f"{each.name}: {each.output!r}" for each in runs if each.is_mits and each.started.returncode]
        found += [fault for each in runs for fault in each.faults(names or (), True)]
        found += differences_of(program, folder, "-f", "-C")
        got = run(program, ("ccremove", "-p", "krbtgt/CACHE.TEST@CACHE.TEST", "c"), folder)
        left = sorted(files_in(folder))
        found += [] if (got.status, left) == (0, ["c", "k"]) else [f"then {got}, and {left}"]
        made.call(*USER, folder=folder)
        made.call("kvno", *GOING, *COMING, folder=folder)
    return found


def check_rounds(report: Report, program: str, seeds: range) -> None:
    """Runs the storms of some seeds, if MIT's programs are installed."""
    def check_storms(report: Report, program: str, made: Realm) -> None:
        for seed in seeds:
            report.check(f"ccedit and ccremove beside kvno, round {seed}", storm(program, made, seed)[:3])

    in_realm("changes of a cache beside MIT's kvno", check_storms, more=(*GOING, *COMING))(report, program)


TOPICS = (Rounds(check_rounds, usual=3, share=1_000, name="tickets_at_once"),)
check = every(in_realm("changes of caches beside MIT's programs", check_removed, check_version_3),
              in_realm(WHAT, check_opened, more=("svc/H", ONCE), tools=("kadmin.local",)))
