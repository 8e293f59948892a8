"""Theorems and modules of antt, as `rt fmt` has them; and runs as terms of crates/samples/proofs/Runs.antt."""

import datetime
import re
from dataclasses import dataclass
from functools import cache
from getopt import GetoptError, gnu_getopt
from pathlib import Path

from runs.harness import EXPLAIN, TOP, Case

# Names that a module may import, by the module that they come from.
IMPORTS = {source: names.split() for source, names in {
    "Rattle.std.specs.Prelude":
        "◌≡◌ ℕ List [] ◌∷◌ ◌++◌ ◌==◌ ◌||◌ codes map filter Option None Some true false not if◌then◌else◌ pos negsuc",
    "Rattle.std.proofs.Common": "refl", "Rattle.krb_ccache.specs.Config": "is_config",
    "Rattle.krb_ccache.specs.Credential": "TypedData", "Rattle.krb_ccache.specs.Header": "offset_in",
    "Rattle.krb_ccache.specs.Store": "PlacedCredential placed_credentials",
    "Rattle.krb_ccache.specs.SetConfig": "setting_events",
    "Rattle.krb_ccache.specs.Ticket": "ticket_encryption",
    "Rattle.krb_ccache.specs.declared.ticket.TicketEncryption": "TicketEncryption",
    "Rattle.krb_text.specs.Calendar": "day_number day_text next_day time_text_of",
    "Rattle.samples.proofs.Given": "hex cache cache_left",
    "Rattle.samples.proofs.Runs": "words given those klist klist_overview klist_silent show ktfind ktmatch ktcheck "
                                  "ktdiff ktedit ccedit ktremove ccremove ktcopy ktutil hold",
    "Rattle.samples.proofs.Unfolded": "on_literals",
}.items()}
TIME = re.compile(rb"(\d{4}-\d\d-\d\dT\d\d:\d\d:\d\dZ)")
SYMBOL = re.compile(r"◌?[^\s(){};,.]+")
ESCAPES = {10: "\\n", 34: '\\"', 92: "\\\\"}
EPOCH = datetime.datetime(1970, 1, 1)


def bytes_of_digits(data: bytes) -> str:
    """Returns bytes as hexadecimal digits."""
    return f'hex (codes "{data.hex()}")'


def text(data: bytes) -> str:
    """Returns bytes as text if they are ASCII that prints, otherwise as hexadecimal digits."""
    if all(it == 10 or 32 <= it < 127 for it in data):
        return 'codes "' + "".join(ESCAPES.get(it, chr(it)) for it in data) + '"'
    return bytes_of_digits(data)


def listed(items: list[str]) -> str:
    """Returns a list."""
    return "".join(f"{item} ∷ " for item in items) + "[]"


def identifier(word: str) -> str:
    """Returns a word as a name."""
    return re.sub(r"[^A-Za-z0-9]+", "-", word).strip("-")


def file_of(name: str) -> str:
    """Returns the name that the bytes of a file have in a theorem."""
    return f"file-{identifier(name)}"


def seconds(moment: bytes) -> int:
    """Returns the seconds from 1970 to a time."""
    return int((datetime.datetime.fromisoformat(moment.decode().rstrip("Z")) - EPOCH).total_seconds())


def theorem(comment: str, name: str, left: str, right: str, proof: str = "refl") -> str:
    """Returns a theorem that two sides are equal."""
    return f"-- {comment}\n{name} : {left}\n    ≡ {right}\nunfolding on_literals\n{name} = {proof}\n"


def proof_of(printed: bytes, front: str, rest: str) -> str:
    """Returns the proof of what is printed, with what is before and after it, by the theorem of each time."""
    parts = [f"time-{seconds(it)} i" if at % 2 else text(it) for at, it in enumerate(TIME.split(printed))]
    return f"λ i. {front}{' ++ ('.join(parts)}{')' * (len(parts) - 1)}{rest}" if len(parts) > 1 else "refl"


def day_theorem(number: int, is_next: bool) -> str:
    """Returns the theorem of the date of a day, perhaps from that of the day before."""
    day = EPOCH + datetime.timedelta(number)
    proof = f"day-{number} i = next_day (day-{number - 1} i)" if is_next else f"day-{number} = refl"
    date = f"record {{ year = {day.year}; month = {day.month}; day = {day.day} }}"
    return f"day-{number} : day_number {number} ≡ {date}\nunfolding day_number\n{proof}\n"


def time_theorem(moment: bytes) -> str:
    """Returns the theorem of a time, from that of its day."""
    number = seconds(moment)
    return (f"pub time-{number} : time_text_of {number} ≡ {text(moment)}\n"
            f"time-{number} i = day_text (day-{number // 86400} i) {number % 86400}\n")


def time_theorems(moments: set[bytes]) -> list[str]:
    """Returns the theorems of days and times."""
    days = sorted({seconds(it) // 86400 for it in moments})
    return [day_theorem(it, it - 1 in days) for it in days] + [time_theorem(it) for it in sorted(moments)]


@dataclass(frozen=True)
class Module:
    """A module: its name, its comment, and its theorems and definitions."""

    name: str
    comment: str
    items: tuple[str, ...]
    crate: str = "corpus_samples"

    def uses(self) -> dict[str, list[str]]:
        """Returns the names that it imports, by the modules that these come from."""
        words = set(SYMBOL.findall(re.sub(r'"(?:[^"\\]|\\.)*"|^--.*$', "", "\n".join(self.items), flags=re.M)))
        words |= {f"◌{it}◌" for it in words} | ({"if◌then◌else◌"} if "if" in words else set())
        found = {source: [it for it in those if it in words] for source, those in IMPORTS.items()}
        for name, front in (("Times", "time-"), ("Files", "file-")):
            if name != self.name:
                found[f"Rattle.{self.crate}.proofs.{name}"] = sorted(it for it in words if it.startswith(front))
        return {source: those for source, those in found.items() if those}

    def written(self) -> str:
        """Returns its text."""
        imports = "".join(f"use {source}.{{{', '.join(those)}}}\n" for source, those in self.uses().items())
        return f"-- {self.comment}\n{imports}\n" + "\n".join(self.items)


# A word of a command, as its help has it: its kind, its name, and its letter, or the constant that is one.
WORD = re.compile(r"Word::(\w+)\(\s*\"([\w-]+)\"(?:,\s*'(\w)')?|(?:^ *|, )([A-Z]\w+)(?=,|$)", re.M)
CONSTANT = re.compile(r"^pub const (\w+): Word = (.*?);$", re.M | re.S)
COMMAND = re.compile(r'^pub const \w+: CommandWords = .*?^    name: "(\w+)".*?^    words: &\[(.*?)\],$', re.M | re.S)

# What a definition is given before the files, if that is not only whether messages are explained.
GIVEN = {**dict.fromkeys(("ktcheck", "show"), ("explains", "mode", "clock")),
         **dict.fromkeys(("ktremove", "ccremove", "ktutil", "klist_overview", "klist_silent"), ("explains", "clock"))}
READING = ("ktedit", "ccedit", "ktutil", "hold")
OTHERS = {"list": "klist_overview", "silent": "klist_silent"}
TIMED = {"show", "list", "silent", "age", "older", "expired"}  # the command and the options that ask for the time
ADDING = (b"add_entry", b"addent")  # the lines of ktutil that do
BAD_LINE = 2  # the status of a line with a mistake, which asks for nothing


class NotComputed(Exception):
    """The reason why a run is none that the definitions compute."""


@dataclass(frozen=True)
class Spelling:
    """How a line is spelled: its options by their long names, with letter and whether they have a value; operands."""

    options: dict[str, tuple[str, bool]]
    operands: tuple[str, ...]
    is_repeated: bool  # whether the last operand is for all that follow

    @property
    def words(self) -> set[str]:
        """All ways to spell its options."""
        return {*(f"--{name}" for name in self.options), *(f"-{each}" for each, _ in self.options.values() if each)}


@cache
def spellings() -> dict[str, Spelling]:
    """Returns how lines are spelled, by command: help is made of the same words."""
    text = "\n".join(path.read_text("utf-8") for path in sorted(Path(TOP, "crates").glob("krb_*/src/**/*.rt")))
    constants = {name: WORD.search(value).groups() for name, value in CONSTANT.findall(text)}
    found = {}
    for command, listed_words in COMMAND.findall(text):
        words = [constants[each[3]] if each[3] else each for each in WORD.findall(listed_words)]
        operands = [(kind, name) for kind, name, *_ in words if "Operand" in kind]
        options = {name: (letter or "", "Valued" in kind) for kind, name, letter, _ in words if "Operand" not in kind}
        found[command] = Spelling(options, tuple(name for _, name in operands), "Operands" in "".join(
            kind for kind, _ in operands))
    return found


def pairs(items: list[tuple[str, str]]) -> str:
    """Returns a list of names, each with its value."""
    return listed([f"({text(name.encode())}, {value})" for name, value in items])


class Words:
    """The words of a command line: its flags, the values of its options and operands, by name, and its long names."""

    def __init__(self, case: Case) -> None:
        words = [word.decode("latin-1") if isinstance(word, bytes) else word for word in case.words]
        end = words.index("--") if "--" in words else len(words)
        self.explains = EXPLAIN in words[:end]
        if words[:end].count(EXPLAIN) > 1 or any(
                isinstance(word, bytes) and word.decode(errors="ignore").encode() != word for word in case.words):
            raise NotComputed("a word that is no text, or --explain twice")
        self.command, *rest = [word for at, word in enumerate(words) if word != EXPLAIN or at > end] or [""]
        if self.command not in spellings():
            raise NotComputed("help or the version, or no command")
        self.spelling = spellings()[self.command]
        options, operands = self.parts_of(rest)
        takes = {name for name, (_, takes) in self.spelling.options.items() if takes}
        self.flags = [name for name, _ in options if name not in takes]
        names = self.spelling.operands
        self.values = [each for each in options if each[0] in takes]
        self.values += [(names[min(nth, len(names) - 1)], it) for nth, it in enumerate(operands)]
        before = rest[:rest.index("--")] if "--" in rest else rest
        self.long = [word.partition("=")[0] for word in before if word.startswith("--")]
        named = operands[:1] if self.command == "ktfind" else operands
        # The definitions have a file for each name, and do not know paths.
        if any("/" in it for it in named) or b" ./" in case.stdin:
            raise NotComputed("a path")

    def parts_of(self, words: list[str]) -> tuple[list[tuple[str, str]], list[str]]:
        """Returns the options of a line, by their long names, each with its value, and its operands."""
        options, names = self.spelling.options, self.spelling.operands
        letters = {f"-{letter}": name for name, (letter, _) in options.items() if letter}
        try:
            found, operands = gnu_getopt(words, "".join(f"{word[1]}{':' * options[name][1]}" for word, name in
                                                        letters.items()),
                                         [name + "=" * takes for name, (_, takes) in options.items()])
        except GetoptError as error:
            raise NotComputed("help, or an option that the command has not, or its value") from error
        long = {word.partition("=")[0] for word in words if word.startswith("--")} - {"--"}
        if any(word.startswith("--") and word not in long for word, _ in found):
            raise NotComputed("a short form of an option")
        if any(value.startswith("-") for _, value in found):
            raise NotComputed("an option in place of a value")
        if len(operands) < len(names) or len(operands) > len(names) and not self.spelling.is_repeated:
            raise NotComputed("a default name, or a mistake in the number of operands")
        return [(letters.get(word, word[2:]), value) for word, value in found], operands

    def spelled(self) -> set[str]:
        """Returns the options that it has, after its command."""
        return {f"{self.command} --{name}" for name in (*self.flags, *(name for name, _ in self.values))
                if name in self.spelling.options}


def term_of(case: Case) -> str:
    """Returns what the definitions give for a run."""
    words = Words(case)
    is_timed = TIMED & {words.command, *words.flags, *(name for name, _ in words.values)} or (
        words.command == "ktutil" and any(word in case.stdin for word in ADDING))
    if case.clock is None and is_timed and case.wanted.status != BAD_LINE:
        raise NotComputed("the system's clock")
    command = next((it for flag, it in OTHERS.items() if flag in words.flags), words.command)
    files = pairs([(name, bytes_of_digits(image)) for name, image in case.files.items()])
    parts = {"explains": str(words.explains).lower(), "mode": str(case.mode), "clock": str(case.clock or 0)}
    given = [command, *(parts[it] for it in GIVEN.get(command, ("explains",))), f"(given ({files}))"]
    given += [f"({bytes_of_digits(case.stdin)})"] * (command in READING)
    flags = listed([text(it.encode()) for it in words.flags])
    values = pairs([(name, text(value.encode())) for name, value in words.values])
    long = listed([text(it.encode()) for it in words.long])
    return " ".join([*given, f"(words ({flags}) ({values}) ({long}))"])


def row_of(name: str, case: Case) -> str:
    """Returns the theorem that a run ends as a case has it."""
    after = case.files if case.files_after is None else case.files_after
    names, wanted = sorted({*case.files, *after}), case.wanted
    left = f"those ({listed([text(it.encode()) for it in names])}) ({term_of(case)})"
    images = listed([f"Some ({bytes_of_digits(after[it])})" if it in after else "None" for it in names])
    ending = f"{text(wanted.err)}, {wanted.status}, {images})"
    proof = proof_of(wanted.out, "(", f", {ending}")
    return f"pub {name} : {left}\n    ≡ ({text(wanted.out)}, {ending}\nunfolding on_literals\n{name} = {proof}\n"
