"""Reads the edits of `crates/NAME/wrong`, and applies one to a copy of its crate.

An edit has lines `file: PATH`, and after each any number of pairs `old: TEXT`, which occurs once, and `new: TEXT`.
`refused: FUNCTION CLAUSE` names a function to check, by its path below the crate, and its clause that is then not
proved, as `wrong CRATE NAME` prints it: an `ensures`, a `requires` of a call in it, or the `proof` of one that is
proved by hand. `only: FUNCTION` names what is checked in place of these. An edit of a definition makes the function
use a lemma of the crate's proofs, and `refused: MODULE LEMMA` names those that are refused then.
"""

import os
import re
import shutil
from dataclasses import dataclass
from pathlib import Path

from runs.harness import TOP

PARTS = ("src", "specs", "proofs")  # what a check reads of a crate
FUNCTION = re.compile(r"[\w:]+")  # lines `only:` and `refused:` name these, and clauses
CLAUSE = re.compile(r"([\w:]+) ((?:returns|[\w-]+-requires)(?:-clause-[\w-]+)?|proof)|([A-Z]\w*) ([\w-]+)")


class BadEdit(Exception):
    """The reason why an edit cannot be tried."""


@dataclass(frozen=True)
class Pair:
    """A text in a file, and its replacement."""

    path: str
    old: str
    new: str


@dataclass(frozen=True)
class Edit:
    """A wrong body, the functions to check, and the clauses that refuse it."""

    crate: str
    name: str
    pairs: tuple[Pair, ...]
    only: tuple[str, ...]
    refused: tuple[tuple[str, str], ...]

    @property
    def is_of_a_definition(self) -> bool:
        """Whether it changes what contracts say, and not a body."""
        return any(pair.path.startswith("specs/") for pair in self.pairs)

    def __str__(self) -> str:
        return f"{self.crate}/{self.name}"


def pairs_of(lines: list[tuple[str, str]]) -> tuple[Pair, ...]:
    """Returns the pairs in lines, each a word and a text."""
    found, last = [], {"file": "", "old": ""}
    for word, text in lines:
        if word == "new":
            if not all(last.values()):
                raise BadEdit("a `new:` line has no `file:` or `old:` line")
            found.append(Pair(last["file"], last["old"], text))
            last["old"] = ""
        elif word in last:
            last[word] = text
    return tuple(found)


def read(path: Path) -> Edit:
    """Returns the edit in a file."""
    split = [line.partition(":") for line in path.read_text("utf-8").split("\n")]
    lines = [(word, text.removeprefix(" ")) for word, _, text in split]
    refused = [CLAUSE.fullmatch(text) for word, text in lines if word == "refused"]
    if not refused or None in refused:
        raise BadEdit("it needs lines `refused: FUNCTION CLAUSE`")
    only = [text for word, text in lines if word == "only"] or [it[1] for it in refused]
    if not all(it and FUNCTION.fullmatch(it) for it in only):
        raise BadEdit("it needs lines `only: FUNCTION`")
    return Edit(path.parts[-3], path.stem, pairs_of(lines), tuple(only),
                tuple((it[1] or it[3], it[2] or it[4]) for it in refused))


def copy_crate(crate: str, folder: str) -> None:
    """Copies to a folder what a check reads of a crate."""
    for part in PARTS:
        source = os.path.join(TOP, "crates", crate, part)
        if os.path.isdir(source):
            shutil.copytree(source, os.path.join(folder, part))


def changed(pairs: tuple[Pair, ...], folder: str) -> dict[Path, str]:
    """Returns the files of the crate in a folder that an edit changes, as it makes them."""
    texts: dict[Path, str] = {}
    for pair in pairs:
        path = Path(folder, pair.path)
        text = texts[path] if path in texts else path.read_text("utf-8")
        if text.count(pair.old) != 1:
            raise BadEdit(f"{pair.path} has {text.count(pair.old)} times, not once: {pair.old}")
        texts[path] = text.replace(pair.old, pair.new)
    return texts


def apply(pairs: tuple[Pair, ...], folder: str) -> None:
    """Applies an edit to the copy of its crate in a folder."""
    for path, text in changed(pairs, folder).items():
        path.write_text(text, "utf-8")
