"""The compiler's own command, for the crates of the repository. Libraries in `crates/*/out/rlib` that `rt ci` left have
no stamp, so that `rt` would prove them again. What is built of a crate may be older than its sources, and another clone
may have built the same."""

import os
import re
import shutil
import subprocess
from collections.abc import Collection, Iterable
from dataclasses import dataclass
from functools import cache
from pathlib import Path

from proving.edited import PARTS, TOP

MEMORY = 3_500_000  # the most memory that a check takes, in KB

# The source of a crate: a function whose proof reads theorems.
SOURCE = """//! Theorems.

ghost use Rattle.std.specs.Prelude.{{◌≡◌}};

#[tactic(auto, using({lemmas}))]
pub fn computes() -> u8
    ensures {{ result ≡ 1 }}
{{
    1
}}
"""

# How a check names an open goal: in a function that returns a value, and in one that does not.
OPEN_GOAL = re.compile(r"note: \S+: it is not proved that .*?\(`([\w-]+)`\)")
NOT_FOUND = re.compile(r"; `search` did not prove (.*)")
VERDICT = re.compile(r"^fn \w+::(\S+): (.*)", re.M)
# A function that is proved by hand has no open goals: its proof is refused.
BY_HAND = re.compile(r"\./proofs/(\S+)/(?:Proof|Answers)\.antt:\S+ error: ")
BAD_LEMMA = re.compile(r"\./proofs/(\w+)\.antt:\S+ error: `([\w-]+)`")
# A goal's name has its branch in it; the clause's name, of both groups, does not. A loop's goals keep their names.
GOAL = re.compile(r"^(returns|.*?-requires)(?:-.*?)??(-clause-[\w-]+)?$")
ENDED = re.compile(r"^only=\d+ proved=\d+$", re.M)
REJECTED = re.compile(r"^(?:error\b.*|(?:\./)?src/\S+: error.*)", re.M)


@dataclass(frozen=True)
class Answer:
    """The output of a check: the proved functions, the open clauses of others and of lemmas, and why it ended early."""

    proved: set[str]
    clauses: dict[str, list[str]]
    rejected: str | None


def at_once(jobs: int) -> int:
    """Returns how many checks run at once: at most `jobs`, and as many as fit in memory."""
    free = int(re.search(r"MemAvailable:\s+(\d+)", Path("/proc/meminfo").read_text("ascii"))[1])
    return max(1, min(jobs, free // MEMORY))


@cache
def kit() -> str:
    """Returns the folder of the toolchain."""
    output = subprocess.run(["rt", "doc"], stdout=subprocess.PIPE, text=True, check=True).stdout
    return os.path.dirname(output.strip())


@cache
def crates(top: str = TOP) -> dict[str, tuple[str, list[str]]]:
    """Returns the kind of each crate, empty or `staticlib`, and the libraries that it uses."""
    rows = re.findall(r"^(\w+) ?(\w*):([^#\n]*)", Path(top, "crates.txt").read_text("utf-8"), re.M)
    return {name: (kind, uses.split()) for name, kind, uses in rows}


def library(crate: str) -> str:
    """Returns the folder of a library, of the repository or of the toolchain."""
    if crate in crates():
        return os.path.join(TOP, "crates", crate, "out", "rlib", f"{crate}.rlib")
    return os.path.join(kit(), "rlibs", f"{crate}.rlib")


def below(crate: str) -> set[str]:
    """Returns the repository's libraries that a crate uses, directly or indirectly."""
    used = [it for it in crates()[crate][1] if it in crates()]
    return {*used, *(lower for it in used for lower in below(it))}


def is_whole(path: str) -> bool:
    """Whether a program, or all of a library, is there: `rt ci` may write it file by file, this one last."""
    return os.path.isfile(path) or os.path.isfile(os.path.join(path, "toolchain", "mir.json"))


def is_proved(crate: str) -> bool:
    """Whether a crate and the libraries that it uses were proved; of a program, or one for C, those that it uses."""
    has_library = not crates()[crate][0] and root_of(crate) == "src/lib.rt"
    return all(is_whole(library(it)) for it in [crate] * has_library + [*below(crate)])


def root_of(crate: str) -> str:
    """Returns the root file of a crate, relative to its folder."""
    is_program = os.path.exists(os.path.join(TOP, "crates", crate, "src", "main.rt"))
    return "src/main.rt" if is_program else "src/lib.rt"


def libraries(crate: str, as_sources: Collection[str]) -> list[str]:
    """Returns the options that name the libraries of a crate: some as sources, the others as they were proved."""
    uses = {it: ["std", *crates()[it][1]] for it in [crate, *sorted(as_sources)]}
    named = dict.fromkeys(each for those in uses.values() for each in those if each not in as_sources)
    proved = ["std", *sorted(below(crate).difference(as_sources))]
    folders = dict.fromkeys(os.path.dirname(library(it)) for it in proved)
    return [*(word for it in named for word in ("--extern", f"{it}={library(it)}")),
            *(word for it in folders for word in ("-L", f"dependency={it}")),
            *(word for it in uses if it != crate for word in (
                "--lib", f"{it}:{','.join(uses[it])}={os.path.join(TOP, 'crates', it, 'src', 'lib.rt')}"))]


def command(verb: str, crate: str, jobs: int, name: str = "", as_sources: Collection[str] = ()) -> list[str]:
    """Returns the command that checks or builds a crate, in its folder or in a copy of it, or another of that name."""
    kind, _ = crates()[crate]
    words = [os.path.join(kit(), "bin", "rattle"), verb, "--crate-name", name or crate, root_of(crate)]
    words += libraries(crate, as_sources)
    words += ["--antt-project", os.path.join(kit(), "rattle", "logic", "antt-project.json")]
    words += ["--logic-built", os.path.join(kit(), "logic_built")]
    words += ["--links", f"{name or crate}=", "--jobs", str(jobs)]
    return [*words, "--crate-type", kind] if kind else words


def clauses_of(output: str) -> dict[str, list[str]]:
    """Returns the open clauses of functions, which come before or in a verdict, and the refused lemmas of modules."""
    found, before, by_hand = {}, [], set()
    for line in output.splitlines():
        if lemma := BAD_LEMMA.match(line):
            found.setdefault(lemma[1], []).append(lemma[2])
        goal, verdict, refused = OPEN_GOAL.match(line), VERDICT.match(line), BY_HAND.match(line)
        if refused:
            by_hand.add(refused[1].replace("/", "::"))
        elif goal:
            before.append(goal[1])
        elif verdict:
            listed = NOT_FOUND.search(verdict[2])
            goals = before + (re.findall(r"`([\w-]+)`", listed[1]) if listed else [])
            if verdict[2] != "proved":
                proof = ["proof"] if verdict[1] in by_hand else []
                found[verdict[1]] = proof + sorted({GOAL.sub(r"\1\2", it) for it in goals})
            before = []
    return found


def check_functions(crate: str, folder: str, only: Iterable[str], kept: str) -> Answer:
    """Checks functions of the crate in a folder. Stores what is proved in `kept`, for later checks of the crate."""
    words = [*command("check", crate, 1), "--incremental", kept, *(f"--only={function}" for function in only)]
    done = subprocess.run(words, cwd=folder, stdin=subprocess.DEVNULL, stdout=subprocess.PIPE,
                          stderr=subprocess.STDOUT, text=True, errors="replace", check=False)
    rejected = REJECTED.search(done.stdout)
    if not rejected and not ENDED.search(done.stdout):
        rejected = re.search(r".*\Z", done.stdout.rstrip())
    proved = {function for function, verdict in VERDICT.findall(done.stdout) if verdict == "proved"}
    return Answer(proved, clauses_of(done.stdout), rejected[0] if rejected else None)


def folder_of(crate: str, top: str = TOP) -> str:
    """Returns the folder of a crate, of this clone or another."""
    return os.path.join(top, "crates", crate)


def made(path: str | Path) -> float:
    """Returns when a file or folder was made, or 0 if there is none."""
    return os.path.getmtime(path) if os.path.exists(path) else 0


def sources_of(crate: str, top: str = TOP) -> list[Path]:
    """Returns the files that a check of a crate reads."""
    return [path for part in PARTS for path in Path(folder_of(crate, top), part).rglob("*") if path.is_file()]


def changed(crate: str, top: str = TOP) -> float:
    """Returns when a source of a crate was last changed."""
    return max(map(made, [Path(top, "crates.txt"), *sources_of(crate, top)]))


def in_clone(path: str, top: str) -> str:
    """Returns the path in another clone of a file of this one, or of a library of the toolchain."""
    return os.path.join(top, os.path.relpath(path, TOP)) if path.startswith(TOP + os.sep) else path


def is_made(crate: str, path: str, top: str = TOP) -> bool:
    """Whether what was built of a crate is newer than all that it was built of."""
    lower = below(crate)
    return made(path) > 0 and all(made(in_clone(library(it), top)) for it in lower) and (
        made(path) >= max(changed(it, top) for it in [crate, *lower]))


def not_made_below(crate: str) -> set[str]:
    """Returns the libraries below a crate that are older than their sources, or not there."""
    return {it for it in below(crate) if not is_made(it, library(it))}


def is_same(crate: str, top: str) -> bool:
    """Whether another clone has the same sources of a crate, and the same row of crates.txt."""
    texts = [{path.relative_to(each): path.read_bytes() for path in sources_of(crate, each)} for each in (TOP, top)]
    return crates()[crate] == crates(top).get(crate) and texts[0] == texts[1]


def built_of(crate: str) -> list[str]:
    """Returns where the library, the program with its object file, or the archive of a crate is."""
    path = os.path.join(folder_of(crate), "out", crate)
    return [library(crate), path, f"{path}.o", os.path.join(folder_of(crate), "out", f"lib{crate}.a")]


def copy_built(there: str, path: str) -> None:
    """Copies a library or a file that was built, as made now."""
    new = f"{path}.new"
    shutil.rmtree(new, ignore_errors=True)
    os.makedirs(os.path.dirname(path), exist_ok=True)
    (shutil.copytree if os.path.isdir(there) else shutil.copy)(there, new)
    os.utime(new)
    shutil.rmtree(path, ignore_errors=True)
    os.rename(new, path)


def take(top: str) -> tuple[list[str], list[str]]:
    """Copies what another clone built of the same sources. Returns the crates of it, and those that differ there."""
    found, other = [], {it for it in crates() if not is_same(it, top)}
    for crate in sorted(crates(), key=lambda it: len(below(it))):
        if other.isdisjoint({crate, *below(crate)}):
            pairs = [(in_clone(path, top), path) for path in built_of(crate) if not is_made(crate, path)]
            those = [pair for pair in pairs if is_whole(pair[0]) and is_made(crate, pair[0], top)]
            for pair in those:
                copy_built(*pair)
            found += [crate] if those else []
        else:
            other.add(crate)
    return found, sorted(other)
