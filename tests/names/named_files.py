"""Which file a word names, with a type or without, or the variable of its kind, in a table, and what each command does
over a file of any name: the same as over another name, or it says why there is no such file, or of neither kind."""

import json
import os
from collections.abc import Iterator
from dataclasses import dataclass, replace
from enum import Enum
from functools import cache
from itertools import product

from caches.cache_listings import HEADING
from keytabs.checks import unchecked
from keytabs.edits import TWO_LISTED, lines
from makers.images import TWO, keytab
from runs.commands import CHANGES, MAKES, READS, SAVING, VALID, file_of
from runs.harness import Line, Report, check_rows, files_in, folder_of, run, shown
from runs.undisturbed import PROGRAM, Undisturbed
from words.explaining import FINDS_NONE, Explained, Output, copy, for_owner, no_keytab, unchanged
from words.phrases import (BEGINS_AS_NO_CACHE, BEGINS_AS_NO_KEYTAB, CAUSES, COLLECTION, LEAVE_OUT, NAMED, NOT_READ,
                           SHOWN_AS_NEITHER, code, unknown)


class Kind(Enum):
    """A kind of file, by the variable that names the default."""

    KEYTAB = "KRB5_KTNAME"
    CACHE = "KRB5CCNAME"


@dataclass(frozen=True)
class FileName:
    """A name as it is loaded. `other` is why it is not read if its type is another, `source` that of a default."""

    text: str
    other: str = ""
    source: str = ""

    def missing(self) -> tuple[str, ...]:
        """Returns the message where it is not there, and the lines that explain it."""
        return (f"{self.text}: no such file", *filter(None, (self.other, self.source)))


# Words for the file of that very name. A type has two letters or more, and nothing but letters, before the first colon.
OWN = ("./FILE:k", "C:k", "1:k", 'ключ "\\:k', "", "./KCM:k", "f:FILE:k", ":k", ":FILE:k", "k1:k", "X509:k", "a b:k",
       " FILE:k", "FILE :k", "%{uid}", "-FILE:k", "FI_LE:k", "é:k", "FILE", "KCM", "FILE;k", "k:FILE:k", "c:k")
# Words whose type is taken off, once: that of files, one that keytabs alone have, and one that caches alone have.
OF_FILES = {"FILE:k": "k", "FILE:FILE:k": "FILE:k", "FILE:": "", "FILE:./k": "./k", "FILE:KCM:k": "KCM:k",
            "FILE::k": ":k", "FILE: k": " k", "FILE:C:k": "C:k", "FILE:WRFILE:k": "WRFILE:k", "FILE:DIR::k": "DIR::k"}
OF_KEYTABS = {"WRFILE:k": "k", "WRFILE:FILE:k": "FILE:k", "WRFILE:WRFILE:k": "WRFILE:k"}
OF_CACHES = {"DIR::k": "k", "DIR::FILE:k": "FILE:k", "DIR::DIR::k": "DIR::k", "DIR:::k": ":k", "DIR::": ""}
OWN_TYPES = {Kind.KEYTAB: OF_KEYTABS, Kind.CACHE: OF_CACHES}
# Words of other types: nothing of them is read.
OTHERS = ("KCM:", "KCM:k", "file:k", "KEYRING:persistent:0", "MEMORY:k", "DIR:k", "DIR:", "Dir::k", "File:k", "FILe:k",
          "FILEX:k", "XFILE:k", "ab:k", "KCM:FILE:k", "wrfile:k", "WRFile:k")
ALL = (*OWN, *OF_FILES, *OF_KEYTABS, *OF_CACHES, *OTHERS)


def named(word: str, *kinds: Kind) -> FileName:
    """Returns the file that a word names, which may be of those kinds."""
    read = OF_FILES | {name: it for kind in kinds for name, it in OWN_TYPES[kind].items()}
    if word in read or word not in (*OF_KEYTABS, *OF_CACHES, *OTHERS):
        return FileName(read.get(word, word))
    its_type = word.partition(":")[0] + ":"
    is_collection = Kind.CACHE in kinds and its_type == "DIR:"
    return FileName(word, COLLECTION if is_collection else NOT_READ.replace("TYPE", its_type))


NEITHER = b"x\0"  # a file that is neither a keytab nor a cache
NEITHERS = {(Kind.KEYTAB,): ("keytab", *BEGINS_AS_NO_KEYTAB), (Kind.CACHE,): ("cache", *BEGINS_AS_NO_CACHE),
            (*Kind,): ("cache", *SHOWN_AS_NEITHER)}

IMAGES = {Kind.KEYTAB: TWO, Kind.CACHE: VALID}  # a file of each kind; its ticket is always valid
NAME = "<name>"  # the name whose place others take
BESIDE = "from"  # that of the file beside it


class Command:
    """A run, and the file whose place one of any name takes."""

    def __init__(self, run: Undisturbed, file: str) -> None:
        self.run, self.file = run, file
        self.kind = Kind.CACHE if file == "c" else Kind.KEYTAB
        self.kinds = (*Kind,) if run.words[0] == "show" else (self.kind,)  # those that it may be of
        self.beside = {BESIDE: image for name, image in run.files.items() if name != file}

    def words(self, name: str | None) -> Line:
        """Returns its words for a name, or for none."""
        keytab = ("-k",) * (name is None and self.run.words == ("show", "k"))
        those = {self.file: (*keytab, "--", *(() if name is None else (name,))),
                 **{each: (BESIDE,) for each in self.run.files if each != self.file}}
        return tuple(part for word in self.run.words for part in those.get(word, (word,)))

    @cache
    def usual(self, is_there: bool) -> tuple[bytes, dict[str, bytes]]:
        """Runs it over NAME, which is there or not, and returns its output and the files afterwards."""
        with folder_of(self.beside | ({NAME: self.run.files[self.file]} if is_there else {})) as folder:
            for_owner(folder)
            return run(PROGRAM[0], self.words(NAME), folder, self.run.stdin).out, files_in(folder)

    def ended(self, name: FileName, place: bytes | None) -> tuple[int, Output]:
        """Returns the status over what is under a name, and the message, if any. Some commands make a missing file."""
        own, (kind, number, why) = name.text, NEITHERS[self.kinds]
        ends = {NEITHER: (1, (f"{own}: not a {kind} ({number})", why))}
        if name.other or place is None and NAME not in self.usual(False)[1]:
            ends[place] = 1, name.missing()
        elif own == "":
            ends[place] = 3, (": cannot write", CAUSES["ENOENT"])
        status, *lines = ends.get(place, (0,))
        return status, () if "-s" in self.run.words else tuple(lines)

    def row(self, name: FileName, place: bytes | None, word: str | None, files: dict[str, bytes],
            env: dict[str, str | bytes]) -> Explained:
        """Returns a run by a word, or by none, over what is under the name that is read, beside other files."""
        path, words = os.path.normpath(name.text), self.words(word)
        status, lines = self.ended(name, place)
        files = {**self.beside, **files, **({} if place is None else {path: place})}
        out, after = b"" if "-l" not in words or "--json" in words else HEADING, files
        if status == 0:
            usual, left = self.usual(place is not None)
            spelled = json.dumps(name.text, ensure_ascii=False)[1:-1] if "--json" in words else name.text
            out = usual.replace(NAME.encode(), spelled.encode())
            after = files | {path if each == NAME else each: data for each, data in left.items()}
        elif "--json" in words and words[0] in ("ktcheck", "ktmatch"):
            out = unchecked(name.text, lines[0][0], status)
        elif words[0] == "hold":
            out = f"failed {status} {10 + NEITHERS[self.kinds][1] if place == NEITHER else 'ENOENT'}\n".encode()
        title = f"{shown(words)} with {env}, {'none' if place is None else place[:9]}"
        return Explained(title, words, lines, files, self.run.stdin, status, out, after, {"env": env}, for_owner)


# Runs over the file that they read, change or copy, and over ktmatch's keytab, but not of ktutil.
COMMANDS = (*(Command(each, file_of(each)) for each in READS if each.words[0] not in SAVING),
            *(Command(each, file_of(each)) for each in CHANGES if each.words[0] != "ktutil"),
            *(Command(each, name) for each in MAKES for name in each.files),
            *(Command(each, "k") for each in READS if each.words == ("ktmatch", "k", "c")))
DEFAULTS = tuple(each for each in COMMANDS if each.run.words[0] in ("klist", "show", "ktmatch", "ktcheck")
                 and each.file == file_of(each.run))
KLIST, KLIST_CACHE = (next(each for each in COMMANDS if each.kind is kind) for kind in Kind)

# Words that every command is tried with, and its variable; the listings are tried with all.
SOME = ("FILE:FILE:k", "WRFILE:k", "./FILE:k", "C:k", 'ключ "\\:k', "KCM:k", "DIR::k", "DIR:k", "FILE:", "")
# What no run looks at, but for the variable of its kind where the file is left out.
IGNORED = {"KRB5_CLIENT_KTNAME": b"\xff", **{kind.value: b"\xff" for kind in Kind}}


def decoys(word: str, name: str) -> dict[str, bytes]:
    """Returns files of neither kind under the names that are read if too much or too little is taken off."""
    rest = word.partition(":")[2]
    names = {word, rest, rest.partition(":")[2]} - {name, name.removeprefix("./"), ""}
    return {each: NEITHER for each in names if "/" not in each}


def rows() -> Iterator[Explained]:
    """Yields each command over words, where the file is there and where it is not, and over what is no such file."""
    for command, variable in (*product(COMMANDS, [False]), *product(DEFAULTS, [True])):
        words = ALL if command in (KLIST, KLIST_CACHE) and not variable else SOME[:-1] if variable else SOME
        places = [(word, place) for word in words for place in (command.run.files[command.file], None)]
        for word, place in (*places, ("k", NEITHER)):
            name = named(word, *command.kinds)
            if variable:
                name = replace(name, source=NAMED.replace("VARIABLE", command.kind.value))
            # What is under a name of another type is never read; under that of a type alone nothing is.
            if (place is None) == (name.text == "") or place is None and not name.other:
                yield command.row(name, place, None if variable else word, decoys(word, name.text),
                                  IGNORED | ({command.kind.value: word} if variable else {}))


def unwritten(word: str, phrase: str) -> Explained:
    """Returns a line of ktutil that writes to a name with a type: nothing is read or made, whatever is there."""
    files = {word: NEITHER, word.partition(":")[2] or "k": NEITHER, "j": TWO}
    why = phrase.replace("TYPE", word.partition(":")[0] + ":")
    return unchanged("ktutil", (f"{word}: cannot write", f"line 2: {why}"), files=files,
                     stdin=f"rkt j\nwkt {word}\n".encode(), status=3)


# What comes before the name: the script, and the keytab that is copied from, with what is selected in it.
OTHER = ("KCM:t: no such file", NOT_READ.replace("TYPE", "KCM:"))
ORDER = [
    *(unchanged(line, ("line 1: fault 1", unknown("frob")), stdin=b"frob\n") for line in (
        "ktedit KCM:k", "ccedit KCM:c")),
    *(copy(options, source, None, lines, to="KCM:t") for options, source, lines in (
        ("", None, ("k: no such file", "")), ("", NEITHER, no_keytab(BEGINS_AS_NO_KEYTAB)),
        ("", TWO[:-1], ("k: refused 1", code(1))), ("-p c@R", TWO, FINDS_NONE), ("-n", TWO, OTHER),
        # Nothing would be saved, and it is asked for all the same.
        ("", keytab(), OTHER))),
]

# ktutil writes to no name that begins with a type. Faults of the line's words come first.
WRITES = [
    *(unwritten(word, LEAVE_OUT) for word in ("FILE:", "WRFILE:k", "FILE:FILE:k")),
    *(unwritten(word, NOT_READ) for word in ("KCM:", "KCM:k", "file:k", "wrfile:k")),
    *(lines(f"wkt {word}", ["rkt j", f"wkt {word}"], [], files={"j": TWO}, after={word.removeprefix("./"): TWO})
      for word in ("C:k", "./FILE:k", ":k")),
    lines("wkt of a type goes on", ["rkt j", "wkt FILE:k", "write_kt KCM:k", "l", "wkt FILE:k FILE:k", "wkt k"],
          TWO_LISTED, "FILE:k: cannot write", "KCM:k: cannot write", "line 5: fault 2", files={"j": TWO},
          after={"k": TWO}, status=3),
]

CASES = [*ORDER, *WRITES]


def check(report: Report, program: str) -> None:
    """Runs each command over each name."""
    check_rows(report, program, rows())
