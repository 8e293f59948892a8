"""The definitions of `crates/*/specs`, and which of them a text names. And the cases of the cards: for each its
function, and what a command line of that kind fixes."""

import re
from dataclasses import dataclass, field
from functools import cache
from pathlib import Path

CRATES = Path(__file__).resolve().parents[2] / "crates"
IMPORT = re.compile(r"^\s*(?:\w+ )*use Rattle\.([\w.]+?)(?:\.\{([^}]*)\})?(?: as (\w+))?;?$", re.M)
HEAD = re.compile(r"^ *(?:(?:abbrev|unfoldable)(?: pub)?|(?:pub )?(?:record|data)) ([^\s:({]+)", re.M)
NAME = re.compile(r"(?<![\w.'])(?:(\w+)\.)?([A-Za-z_][\w'-]*)")  # a name, after the one before its dot, if any
# What is no use of a definition: comments, texts, the names of fields, and those of parameters.
UNUSED = re.compile(r'--.*|"[^"\n]*"|^ *pub [\w\']+ :|(?<=[{;])\s*[\w\']+ =(?!=)', re.M)
BOUND = re.compile(r"[({]([\w' ]+) :|λ ([\w' ]+)\.|^ *[\w'-]+ ([^=:{\n]+) =(?: |$)|"
                   r"\blet ([\w']+) |^ *([\w']+) ←", re.M)
FROM_OUTSIDE = re.compile(r"\(((?:MIT|RFC|X\.|IANA)[^()]*)\)\.$")
OWN = "krbfile's own"
Place = tuple[str, str]  # a definition: its file, as `CRATE/specs/FILE`, and its name


@dataclass(frozen=True)
class Definition:
    """A definition: where it begins in its file, its comment, its text, and the heads of the modules around it."""

    at: int
    comment: str
    text: str
    around: tuple[str, ...]
    block: int  # how many modules begin before it

    @property
    def kind(self) -> str:
        """Returns whether it is a relation or a type, or nothing if it computes."""
        if re.match(r" *(?:pub )?(?:record|data) ", self.text):
            return "relation" if self.around or re.match(r".* \(\w[^:]*: (?!Type)", self.text) else "type"
        kind = re.split(r"\n *[\w'-]+ [^:\n]*=", self.text.partition(" : ")[2])[0].strip()
        return "" if not kind.endswith("Type 0") else "relation" if "→" in kind or self.around else "type"


@dataclass(eq=False)
class Sources:
    """The definitions of a repository, by what each file imports, and their sources from outside."""

    definitions: dict[Place, Definition] = field(default_factory=dict)
    imported: dict[str, dict[str, Place]] = field(default_factory=dict)
    files: dict[str, dict[str, str]] = field(default_factory=dict)
    outside: dict[str, str] = field(default_factory=dict)

    def add(self, path: Path) -> tuple[str, str]:
        """Adds a file, and returns its name and its text."""
        own, text = path.relative_to(CRATES).with_suffix("").as_posix(), path.read_text("utf-8")
        names, self.files[own] = names_of(text)
        source = FROM_OUTSIDE.search(text.partition("\n")[0])
        self.outside[own] = source[1] if source else OWN
        found = definitions_of(text) if path.suffix == ".antt" else {}
        self.imported[own] = names | {name: (own, name) for name in found}
        self.definitions |= {(own, name): each for name, each in found.items()}
        return own, text

    def named_in(self, text: str, own: str) -> list[Place]:
        """Returns the definitions that a text of a file names, in order."""
        text = UNUSED.sub("", text)
        bound = {word for words in BOUND.findall(text) for word in re.findall(r"[\w'-]+", " ".join(words))}
        named = (self.meant(front, name, own) for front, name in NAME.findall(text) if (front or name) not in bound)
        return list(dict.fromkeys(place for place in named if place in self.definitions))

    def meant(self, front: str, name: str, own: str) -> Place:
        """Returns what a name is in a file, after the one before its dot, if any."""
        if front in self.files[own]:
            return self.files[own][front], name
        place = self.imported[own].get(front or name, ("", ""))
        return self.imported.get(place[0], {}).get(place[1], place)  # a file may pass on what it imports

    def constructors_in(self, text: str, own: str) -> list[tuple[str, str]]:
        """Returns the constructors of the code's types that a text of a file names, each after its type."""
        found = (self.meant(front, name, own) for front, name in NAME.findall(text))
        return [(file.split("/")[-2], name) for file, name in found if file.endswith("/TheVariants")]


def names_of(text: str) -> tuple[dict[str, Place], dict[str, str]]:
    """Returns the definitions and the files that a file imports, by the names that they have there."""
    meant, files = {}, {}
    for dotted, listed, alias in IMPORT.findall(text):
        path = dotted.replace(".", "/")
        if alias:
            files[alias] = path
        for item in filter(None, (item.strip() for item in listed.split(","))):
            name, _, other = item.partition(" as ")
            meant[other or name] = (path, name)
    return meant, files


def definitions_of(text: str) -> dict[str, Definition]:
    """Returns the definitions of a file."""
    found, heads = {}, list(HEAD.finditer(text))
    for head, end in zip(heads, [*(head.start() for head in heads[1:]), len(text)]):
        before = text[:head.start()]
        comment = re.search(r"((?: *--(?! ----).*\n)*)\Z", before)[1]
        body = re.split(r"\n *(?:\n|module )", text[head.start():end])[0]
        found[head[1]] = Definition(head.start(), " ".join(re.findall(r"-- *(.*)", comment)),
                                    re.sub(r"(?:\n *(?:--.*)?)*\Z", "", body), around(before, head[0]),
                                    len(re.findall(r"^ *module ", before, re.M)))
    return found


def around(before: str, head: str) -> tuple[str, ...]:
    """Returns the first lines of the modules around what stands after that text and begins so."""
    found = []
    for line in [*re.findall(r"^ *module .*", before, re.M), head]:
        found = [each for each in found if indent(each) < indent(line)] + [line]
    return tuple(found[:-1])


def indent(line: str) -> int:
    """Returns how many spaces a line begins with."""
    return len(line) - len(line.lstrip(" "))


def all_sources() -> Sources:
    """Returns the definitions of all specs."""
    sources = Sources()
    for path in sorted(CRATES.glob("*/specs/*.antt")):
        sources.add(path)
    return sources


# What is not opened: the words of a terminal.
CLOSED = {(f"krb_driver/specs/{file}", name) for file, name in (
    ("EndingWords", "ending_words"), ("EndingWords", "found_fault_words"), ("Mistakes", "mistake_words"),
    ("Runs", "near_words"), ("NotOpened", "not_opened_phrase"), ("ErrorRows", "refusal_phrase"),
    ("Beginnings", "begins_as"), ("FirstWords", "safe_word"))}
# The crates and files of streams, the order of messages, statuses and saves.
FRAME = ("krb_driver/", "krb_files/", "krb_editors/specs/Removing", "krb_editors/specs/MissingFiles")
LISTS_KEYTAB, LISTS_CACHE = {"ListKind": "Keytab"}, {"ListKind": "Cache"}
TOKEN = re.compile(r'"[^"\n]*"|[()\[\]{},;]|\b(?:if|else)\b')


@dataclass(frozen=True)
class Case:
    """A case: its function, constructors and flags; and the command and options of the lines that are its samples."""

    function: str
    only: dict[str, str]
    flags: dict[str, bool]
    command: str
    has: str = ""
    lacks: str = ""


CARDS = {
    "klist -k": Case("run_klist", LISTS_KEYTAB, {"json": False}, "klist", "keytab", "json"),
    "klist -c": Case("run_klist", LISTS_CACHE, {"json": False}, "klist", "", "json keytab list silent"),
    "klist --json": Case("run_klist", {}, {"json": True}, "klist", "json", "list"),
    "klist -s": Case("run_ticket_check", {}, {}, "klist", "silent"),
    "klist -l": Case("run_overview", {}, {}, "klist", "list"),
    "show": Case("run_show", {}, {}, "show"),
    "ktfind": Case("run_ktfind", {}, {}, "ktfind"),
    "ktcheck": Case("run_ktcheck", {}, {"json": False}, "ktcheck", "", "json"),
    "ktcheck --json": Case("run_ktcheck", {}, {"json": True}, "ktcheck", "json"),
    "ktmatch": Case("run_ktmatch", {}, {}, "ktmatch"),
    "ktremove": Case("run_ktremove", {"SelectedKvno": "Any Exactly"}, {}, "ktremove", "", "kvno=old keep"),
    "ktremove -k old": Case("run_ktremove", {"SelectedKvno": "Beyond"}, {"only_same": False}, "ktremove", "kvno=old",
                            "same"),
    "ktcopy": Case("run_ktcopy", {"SelectedKvno": "Any Exactly Newest"}, {}, "ktcopy"),
    "ktdiff": Case("run_ktdiff", {"SelectedKvno": "Any"}, {}, "ktdiff"),
    "ktedit": Case("run_ktedit", {}, {}, "ktedit"),
    "ktutil": Case("run_ktutil", {}, {}, "ktutil"),
    "ccedit": Case("run_ccedit", {}, {}, "ccedit"),
    "ccremove": Case("run_ccremove", {}, {}, "ccremove"),
    "hold": Case("run_hold", {}, {}, "hold"),
}


def chosen(text: str, flag: str, value: bool) -> str:
    """Returns a text with what a flag selects in place of what asks for the flag alone."""
    while at := re.search(rf"\bif (?:\w+\.)?{flag} then ", text):
        depth, opened, parts, start = 0, 0, [], at.end()
        for token in TOKEN.finditer(text, at.end()):
            depth += (token[0] in "([{") - (token[0] in ")]}")
            opened += (token[0] == "if") - (token[0] == "else")
            if depth < 0 or not depth and (token[0] in ",;" or not parts and opened < 0):
                parts.append(text[start:token.start()].strip())
                start = token.end()
                if token[0] != "else":
                    break
        else:
            token, parts = None, [*parts, text[start:].strip()]
        text = text[:at.start()] + parts[0 if value else 1] + (text[token.start():] if token else "")
    return text


@dataclass(eq=False)
class View:
    """The definitions as a case has them, and what was met of what it fixes."""

    sources: Sources
    case: Case | None = None
    met: set[str] = field(default_factory=set)

    @cache
    def text(self, place: Place) -> str:
        """Returns the text of a definition: the equations of the case, with what its flags select."""
        text = self.sources.definitions[place].text
        if self.case is None:
            return text
        front, *equations = re.split(rf"^(?= *{re.escape(place[1])} (?!:))", text, flags=re.M)
        text = front + "".join(it for it in equations if self.is_met(it, place[0]))
        for flag, value in self.case.flags.items():
            before, text = text, chosen(text, flag, value)
            self.met |= {flag} if text != before else set()
        return text.rstrip("\n")

    def is_met(self, equation: str, own: str) -> bool:
        """Returns whether an equation is one of a case: its pattern has no other constructor of a fixed type."""
        named = self.sources.constructors_in(re.split(r" =(?: |$)", equation, maxsplit=1, flags=re.M)[0], own)
        fixed = [(kind, name) for kind, name in named if kind in self.case.only]
        self.met |= {f"{kind}.{name}" for kind, name in fixed}
        return all(name in self.case.only[kind].split() for kind, name in fixed)

    @cache
    def below(self, place: Place) -> list[Place]:
        """Returns the definitions that a definition names, in order. Those of its own file come before it."""
        own, at = place[0], self.sources.definitions[place].at
        return [] if place in CLOSED else [each for each in self.sources.named_in(self.text(place), own)
                                           if each[0] != own or self.sources.definitions[each].at < at]

    def ordered(self, first: list[Place]) -> list[Place]:
        """Returns the definitions below those, each before those that it names, and otherwise as they are named."""
        after: dict[Place, None] = {}

        def follow(places: list[Place]) -> None:
            # What a file gives is after what is done with it.
            for place in sorted(reversed(places), key=lambda it: not it[0].startswith(FRAME)):
                if place not in after:
                    follow(self.below(place))
                    after[place] = None

        follow(first)
        return list(reversed(after))

    def unmet(self) -> list[str]:
        """Returns what the table fixes and no definition asks for."""
        fixed = {f"{kind}.{name}" for kind, names in self.case.only.items() for name in names.split()}
        return sorted((fixed | {*self.case.flags}) - self.met)


def run_functions() -> dict[str, str]:
    """Returns the functions that run commands, each with its crate."""
    text = (CRATES / "krb_commands" / "src" / "response.rt").read_text("utf-8")
    uses = re.findall(r"^use (krb_\w+)::([^;]*);", text, re.M)
    return {function: crate for crate, names in uses for function in re.findall(r"\brun_\w+", names)}


class Contract:
    """The contract of a function in a view: its words, its clause and the plan in it, and the definitions below."""

    def __init__(self, view: View, crate: str, function: str) -> None:
        head = r"((?:^/// [^\n]*\n)*)(?:^#[^\n]*\n)*^pub fn %s\b.*?\((.*?)\)[^{]*?\n +ensures \{ (.*?) \}\s*^\{"
        shape = re.compile(head % function, re.M | re.S)
        files = map(view.sources.add, CRATES.glob(f"{crate}/src/**/*.rt"))
        self.file, found = next((own, found) for own, text in files if (found := shape.search(text)))
        self.view, self.words = view, " ".join(re.findall("^/// (.*)", found[1], re.M))
        names = [name for name in re.findall(r"^ +(\w+):", found[2], re.M) if name != "alloc"]
        self.call = f"{function}({', '.join(names)}) -> result"
        self.clause = re.sub(r"(?<=\w) F\.Files\b", "", " ".join(found[3].split()))
        self.named = view.sources.named_in(found[3], self.file)
        plans = [it for it in view.ordered(self.named) if re.search(r"(?:^|_)plan(?:_|$)", it[1])]
        self.plan = plans[:1]
        self.order = view.ordered([*dict.fromkeys(self.plan + self.named)])
