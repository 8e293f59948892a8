"""Storms: many programs that change one file at the same time; in some, half of them are killed. What each reports as
saved is there afterwards, and readers meanwhile see a whole file."""

import os
import signal
import subprocess
import tempfile
import threading
import time
from collections.abc import Callable, Collection
from contextlib import suppress
from dataclasses import dataclass, field, replace
from functools import partial
from pathlib import Path
from random import Random

from computed.batches import Rounds
from makers.images import TICKET, Entry, Name, cache, keytab
from peers.beside_mit import SURROUNDINGS, are_there, as_json
from runs.commands import COMMANDS
from runs.harness import SECONDS, TOP, Report, folder_of, piped
from runs.undisturbed import IN_PLACE, PROGRAM
from system.saving import tree, write
from words.phrases import AFTERMATHS

LEAST_WAIT = 9  # a run that is refused has waited for another for this many seconds, or failed for another reason
LOST = AFTERMATHS["lost change"].encode()  # reported by a run that saved, and lost another program's change; status 1
WAITS = ("sh", "-c", 'read -r line; exec "$0" "$@"')  # a run that reads no input starts when its shell has read a line

MANY = 60  # how many runs there are at once
NAMED = {"entries": "principal", "tickets": "server", "config": "key"}  # parts of JSON, each with the member of a name
PATHS = ("k", "./k", "link")  # the names by which the runs call the file
LEFT = {"k", "link"}  # what is in the folder at the end
ADDS = ("sh", os.path.join(TOP, "examples", "edit-keytab.sh"))  # a program that adds by `hold`


@dataclass
class Run:
    """A run of a storm that adds or removes a name. It waits for its input, so that all begin together."""

    name: str
    line: tuple[str, ...]
    text: str = ""
    removes: bool = False
    is_mits: bool = False
    is_killed: bool = False
    seconds: float = 0
    output: bytes = b""
    started: subprocess.Popen[bytes] = field(init=False)

    def start(self, folder: str, env: dict[str, str]) -> None:
        """Starts it; it then waits."""
        line = self.line if self.text else (*WAITS, *self.line)
        self.started = piped(line[0], line[1:], folder, env=env, stderr=subprocess.STDOUT)

    def begin(self) -> None:
        """Gives it all of its input."""
        self.seconds = -time.monotonic()
        self.started.stdin.write(self.text.encode() or b"\n")
        self.started.stdin.close()
        self.started.stdin = None

    def end(self) -> None:
        """Waits for its end."""
        self.output = self.started.communicate(timeout=SECONDS)[0]
        self.seconds += time.monotonic()

    def saves(self) -> bool:
        """Whether it reports that it saved. MIT's ktutil ends with status 0 even if it failed."""
        has_failed = self.is_mits and b" while " in self.output
        return LOST in self.output or self.started.returncode == 0 and not has_failed

    def faults(self, names: Collection[str], beside_mit: bool) -> list[str]:
        """Returns its faults, by the names in the file after all runs: it saved, was killed, or refused with reason."""
        # MIT's may write into a file that has lost its name, and is not judged.
        if self.is_mits:
            return []
        is_done = (self.name in names) != self.removes
        found = [f"{self.name} is lost"] if self.saves() and not is_done else []
        if is_done and not (self.saves() or self.is_killed):
            found.append(f"{self.name} was refused, and is done")
        status = self.started.returncode
        was_killed, has_waited = self.is_killed and status == -signal.SIGKILL, self.seconds > LEAST_WAIT and status == 3
        if not (status == 0 or was_killed or has_waited or beside_mit and status in (1, 3)):
            found.append(f"{self.name}: status {status}, {self.output}")
        return found


def rage(runs: list[Run], random: Random, within: float) -> None:
    """Lets waiting runs begin within that many seconds, kills some soon afterwards, and waits for their ends."""
    deeds = []
    for each in runs:
        at = random.random() * within
        deeds.append((at, each.begin))
        if each.is_killed:
            deeds.append((at + random.random() * random.choice((0.05, 0.05, 0.6)), each.started.kill))
    started = time.monotonic()
    for at, do in sorted(deeds, key=lambda deed: deed[0]):
        time.sleep(max(0, started + at - time.monotonic()))
        do()
    for each in runs:
        each.end()


def removes(command: str) -> bool:
    """Whether a command removes what is there at first. Others add."""
    return command.endswith("remove")


def listed(option: str, image: bytes) -> dict[str, list[dict[str, str]]]:
    """Returns what the program lists of a keytab or a cache as JSON, or nothing if the image is neither."""
    with folder_of({"f": image}) as folder:
        return as_json(PROGRAM[0], folder, option, "f")


def names_of(option: str, image: bytes) -> list[str] | None:
    """Returns the names in a keytab, or the servers and the keys of values in a cache, or None if it is not whole."""
    found = listed(option, image)
    if not found or found["fault"]:
        return None
    return [each[member].split("@")[0] for part, member in NAMED.items() for each in found.get(part, ())]


@dataclass(frozen=True)
class Kind:
    """A kind of storm: the commands of ours in turn, and how it differs from one over a plain file."""

    commands: tuple[str, ...]
    over_none: bool = False
    kills: bool = False
    with_mit: bool = False  # half of the programs are MIT's ktutil, and they begin within a second
    # Half of the runs save in place: none of those that are killed, since they may leave a part of a save.
    in_place: bool = False

    @property
    def option(self) -> str:
        """The option of `klist` for the file, which is a cache or a keytab."""
        return "-c" if self.commands[0].startswith("cc") else "-k"

    def image(self) -> bytes:
        """Returns the initial file, which has what is removed."""
        names = [*(b"h%d" % number for number in range(MANY)), b"last"] if any(map(removes, self.commands)) else []
        if self.option == "-c":
            return cache(*(replace(TICKET, server=Name((name,))) for name in names))
        return keytab(*(Entry((name,)) for name in names))

    def is_bad(self, image: bytes) -> bool:
        """Whether an image may not be seen meanwhile. What MIT's write, or a save in place, may be half written."""
        found = listed(self.option, image)
        return not found or bool(found["fault"]) and not (self.with_mit or self.in_place)


# The commands that add or remove a name of a keytab, of a cache, and several in turn.
OF_KEYTABS, OF_CACHES = ([(name,) for name, command in COMMANDS.items() if command.turns[0] and name[:2] == front]
                         for front in ("kt", "cc"))
MIXED, BOTH = tuple(name for (name,) in OF_KEYTABS if name != "ktutil"), ("ccedit", "ccremove", "ccremove", "ccedit")
ADDING = [names for names in OF_KEYTABS if not removes(*names)]

# The kinds of one command and of several, with kills or without; those over none; and those beside ktutil.
KINDS = (*(Kind(names, kills=kills) for names in (*OF_KEYTABS, *OF_CACHES, MIXED, BOTH) for kills in (False, True)),
         *(Kind(names, over_none=True, kills=kills) for names in ADDING for kills in (False, True)),
         *(Kind(names, with_mit=True) for names in (*ADDING, MIXED)))

# The kinds in which other programs add by `hold`: these are the runs that are killed.
HOLDS = (Kind(("ktedit", "hold", "ktremove", "hold")), Kind(("ktedit", "hold"), kills=True))
PLACES = (*(Kind(names, in_place=True) for names in (("ktedit",), ("ktutil",), MIXED, BOTH)),
          *(Kind(names, in_place=True, kills=True) for names in (("ktedit",), BOTH)))


def run_of(program: str, kind: Kind, number: int, random: Random, sources: str) -> Run:
    """Returns the run of that number: it adds or removes an entry, which a keytab in the folder `sources` has."""
    is_odd = number % 2 == 1
    is_mits, is_killed = kind.with_mit and is_odd, kind.kills and is_odd
    command = kind.commands[number % len(kind.commands)]
    name = f"{'m' if is_mits else 'h' if removes(command) else 'a'}{number}"
    path, source = random.choice(PATHS), os.path.join(sources, name)
    write(source, keytab(Entry((name.encode(),))))
    line, text = ("ktutil",), f"rkt {source}\nwkt k\n"
    if command == "hold":
        line, text = (*ADDS, path, "sh", "-c", f"cat; tail -c +3 {source}"), ""
    elif not is_mits:
        turn, text = (each.replace("NAME", name).replace("PATH", path).replace("SOURCE", source)
                      for each in COMMANDS[command].turns)
        first, *rest = turn.split()
        options = [IN_PLACE] * (kind.in_place and not is_killed and random.random() < 0.5)
        line = (program, first, *options, *rest)
    return Run(name, line, text, removes(command), is_mits, is_killed)


def seen_while(path: str, rages: Callable[[], None]) -> set[bytes]:
    """Returns what the file is while the programs run to their ends: it is read repeatedly."""
    seen: set[bytes] = set()
    is_over = threading.Event()

    def look() -> None:
        while not is_over.wait(0.0002):
            with suppress(FileNotFoundError):
                seen.add(Path(path).read_bytes())

    looks = threading.Thread(target=look, daemon=True)
    looks.start()
    rages()
    is_over.set()
    looks.join()
    return seen


def faults_of(kind: Kind, runs: list[Run], left: dict[str, object], seen: set[bytes]) -> list[str]:
    """Returns the faults of what was seen meanwhile, and of the end: each saved change is there, none twice."""
    names = names_of(kind.option, left.get("k", b""))
    found = [f"the file is not whole at the end: {left.get('k')}"] * (names is None)
    names = names or []
    found += [fault for each in runs for fault in each.faults(names, kind.with_mit)]
    found += [f"{names} are there"] * (len(names) != len({*names}))
    found += [f"{sorted(left)} are left"] * (not kind.kills and left.keys() != LEFT)
    return found + [f"{image[:40]}, {len(image)} bytes, was seen" for image in seen if kind.is_bad(image)]


def storm(program: str, kind: Kind, seed: int) -> list[str]:
    """Returns the faults of a storm: programs that each add or remove an entry of the file `k`, at the same time."""
    random, files = Random(seed), {} if kind.over_none else {"k": kind.image()}
    if kind.kills:
        files["k.krbfile"] = b"left"
    with folder_of(files) as folder, tempfile.TemporaryDirectory() as sources:
        os.symlink("k", os.path.join(folder, "link"))
        os.symlink(program, os.path.join(sources, "krbfile"))
        env = {**SURROUNDINGS, "PATH": sources + os.pathsep + SURROUNDINGS["PATH"], "TMPDIR": sources}
        runs = [run_of(program, kind, number, random, sources) for number in range(MANY)]
        for each in runs:
            each.start(folder, env)
        seen = seen_while(os.path.join(folder, "k"), lambda: rage(runs, random, kind.with_mit))
        return faults_of(kind, runs, tree(folder), seen)


def check_kinds(kinds: tuple[Kind, ...], report: Report, program: str, seeds: range) -> None:
    """Runs the storms of each of those kinds from some seeds."""
    has_mit = are_there(report, "changes beside MIT's ktutil")
    for kind in kinds:
        if has_mit or not kind.with_mit:
            for seed in seeds:
                report.check(f"{kind}, round {seed}", storm(program, kind, seed)[:3])


# Storms of each command; of hold; and those in which some runs save in place and others replace the file.
TOPICS = tuple(Rounds(partial(check_kinds, kinds), usual=usual, share=2_000, name=f"{what}_at_once")
               for what, kinds, usual in (("changes", KINDS, 2), ("holds", HOLDS, 1), ("places", PLACES, 1)))
