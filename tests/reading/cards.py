"""The cards, as lines of text, with samples of definitions: equations that the prover proves, and runs that tests
compare with the definitions. Each case has one, of few lines and columns. What a contract says does not change with the
constants of the code: no definition names one, and clauses only sizes."""

import re
import textwrap
from collections import Counter
from contextlib import suppress
from functools import cache

from computed.terms import NotComputed, Words, term_of
from pages.documents import paths, read
from reading.cases import CARDS, CLOSED, CRATES, FRAME, OWN, Contract, Place, Sources, View, all_sources, run_functions
from runs.harness import TOP, Case, Report, files_in, folder_of, run
from topics import modules

LINES, COLUMNS, BRIEF = 550, 100, 70  # the most lines and columns of a card, and the lines that comments have of these
BY_COMMENTS = "By their comments:"
PRINTED = re.compile(r"[:→] (?:List ℕ|Page|Effect|CommandPlan)\n")  # the end of the type of what is printed
PARAMETER = re.compile(r"\(([\w' ]+) : ((?:[^()]|\((?:[^()]|\([^()]*\))*\))*)\)")
# What says nothing to a reader: parameters that are types, the files' trait, and words of the prover.
SILENT = re.compile(r"\{[^{}]* : Type 0\} (?:→ )?| ?\{\w+ = [^{}]*\}| \{0\}|\(trait : Ghosts \w+\) ?|\bpub |"
                    r"(?<=[\w)}]) trait\b(?!\.)| F R W E\b| : Type 0\b")
LEGEND = """\
How to read. `f x y` applies f to x and y, `λ x. e` is a function of x; `f (A x) = e` is for what A
makes. `≡` is equality, `×` and, `⊎` or, `(x : T) ×` there is an x; `ℕ` numbers, `nat_lt` less than;
`[]`, `x ∷ xs`, `xs ++ ys` lists, so bytes; `codes "t"` the bytes of a text; `x.0`, `x.1` the parts
of a pair; `None`, `Some x` nothing or x; `Ok x`, `Err e` x or why not; `x ← e` takes x out of `Some
x`, and else all is `None`. `.old`, `.new`: a variable before and after; `.now`, `.entry`: what it
holds. A plan `holds` a file, `opens` it and goes on with what that gave, then `Ends` with what it
prints (`Displays`), saves and prints (`Saves`) or reports (`Fails`). What a definition names is
below it; `cells.x` is krb_cells' x. In brackets: where it is from. `e.g.`: a value, or a run of the
tests and a line that it prints by the definition. Words of --explain alone are not opened.
"""

THEOREM = re.compile(r"^(?:pub )?[\w'-]+ : (.*(?:\n .*)*)(?=\nunfolding |\n[\w'-]+ )", re.M)
FILES = ("Cited", "Given", "NamesAndTimes", "Stores", "Ends")
QUOTED = re.compile(r'codes "((?:[^"\\]|\\.)*)"')
LONGEST = 92  # the characters of a sample


def equations(sources: Sources) -> dict[Place, str]:
    """Returns for each definition the first equation of it that is short."""
    found: dict[Place, str] = {}
    for own, text in (sources.add(CRATES / "samples" / "proofs" / f"{name}.antt") for name in FILES):
        for statement in THEOREM.findall(text):
            sides = re.split(r"\)\s*× \(", " ".join(statement.split()))
            for side in (it.strip("()") if len(sides) > 1 else it for it in sides):
                bare = side.rpartition("→ ")[2].replace(" ≡ ", " = ")
                shown, named = re.sub(r'\(("[^"]*")\)', r"\1", QUOTED.sub(r'"\1"', bare)), sources.named_in(bare, own)
                if named and side.count("≡") == 1 and len(shown) <= LONGEST:
                    found.setdefault(named[0], shown)
    return found


@cache
def rows() -> list[tuple[Words, Case]]:
    """Returns the runs of the tests that are compared with the definitions, those in THEOREMS first."""
    found = []
    tables = [getattr(module, name, ()) for name in ("THEOREMS", "CASES") for module in modules().values()]
    for row in (row for table in tables for row in table if isinstance(row, Case) and row.wanted.status != 2):
        with suppress(NotComputed):
            term_of(row)
            found.append((Words(row), row))
    return found


def has(words: Words, option: str) -> bool:
    """Returns whether a command line has an option, perhaps with a value."""
    name, _, value = option.partition("=")
    return name in words.flags or any(one == name and value in ("", it) for one, it in words.values)


class Runs:
    """The lines that the tests' runs of a case print, each after the words of its run."""

    def __init__(self, name: str) -> None:
        case = CARDS[name]
        self.lines = [(" ".join(map(str, row.words)), line) for words, row in rows() if words.command == case.command
                      and all(has(words, it) for it in case.has.split())
                      and not any(has(words, it) for it in case.lacks.split())
                      for line in (row.wanted.out + row.wanted.err).decode("utf-8", "replace").splitlines()]

    def of(self, definition: str) -> str:
        """Returns a run that prints a text of a definition, and the line that it prints so, or a part of it."""
        for text in sorted((it.split("\\n")[0] for it in QUOTED.findall(definition)), key=len, reverse=True):
            found = [it for it in self.lines if len(text.strip()) > 2 and text in it[1] and it[1].isprintable()]
            for words, line in sorted(found, key=lambda it: len("".join(it)))[:1]:
                room = LONGEST - len(words) - 4
                part = line if len(line) <= room else f"..{line[line.index(text):][:room - 4]}.."
                return f'{words}: "{part}"'
        return ""


@cache
def wrapped(line: str) -> list[str]:
    """Returns a line of a definition as lines of a card; what is in quotes stays whole."""
    whole = re.sub(r'"[^"\n]*"', lambda it: it[0].replace(" ", "\0"), line)
    again = re.match(r" *(?:-- )?", line)[0]
    again += "" if again.strip() else "    "
    parts = textwrap.wrap(whole, COLUMNS, subsequent_indent=again, break_long_words=False, break_on_hyphens=False)
    return [part.replace("\0", " ") for part in parts] or [""]


def text_of(view: View, place: Place) -> str:
    """Returns the text of a definition: of what computes the equations, and all parameters of a relation."""
    each, text = view.sources.definitions[place], view.text(place)
    shared = [it for it in PARAMETER.findall(each.around[-1] if each.around else "") if it[0] != "trait"]
    record = re.match(r" *(?:pub )?(?:record|data) \S+", text)
    front = record[0] + "".join(f" ({names} : {kind})" for names, kind in shared) if record else ""
    text = text[record.end():] if record else re.search(rf"^ *{re.escape(place[1])} (?!:).*", text, re.M | re.S)[0]
    # In a module its parameters are left out.
    for (own, name), it in view.sources.definitions.items() if shared else ():
        if name in text and (own, it.block) == (place[0], each.block):
            text = re.sub(rf"(?<![\w.'-]){name}(?![\w'-])", " ".join((name, *(names for names, _ in shared))), text)
    for alias, (file, name) in view.sources.imported[place[0]].items():
        if alias in text and alias != name and (file, name) in view.sources.definitions:
            text = re.sub(rf"(?<![\w.]){alias}\b", f"{file.partition('/')[0].removeprefix('krb_')}.{name}", text)
    text = textwrap.dedent(re.sub(r": F(?=\)|$)", ": Files", SILENT.sub("", front + text), flags=re.M))
    fields = "; ".join(text.split("\n  ")).replace(" where; ", " where ")
    return fields if each.kind == "type" and len(wrapped(fields)) <= 1 + bool("record" in front) else text


class Card:
    """A card: the equations of definitions, and runs of its case, if it has one."""

    def __init__(self, view: View, equations: dict[Place, str], runs: Runs | None) -> None:
        self.view, self.equations, self.runs = view, equations, runs

    def said(self, place: Place) -> str:
        """Returns what is said of a definition: its kind, its comment or else its name, and where it is from."""
        each, outside = self.view.sources.definitions[place], self.view.sources.outside[place[0]]
        is_frame = not self.runs or each.kind == "relation" or place[0].startswith(FRAME)
        source = "" if is_frame and outside == OWN else f" [{outside}]"
        return f"{each.kind}{': ' * bool(each.kind)}{each.comment or place[1]}{source}"

    def sample(self, place: Place) -> str:
        """Returns the sample of a definition, if it has one: of itself, or if it is printed of what it names."""
        definitions, level = self.view.sources.definitions, [place]
        if place in self.equations or definitions[place].kind or not self.runs:
            return self.equations.get(place, "")
        for _ in range(3 if PRINTED.search(definitions[place].text) else 1):
            found = filter(None, (self.runs.of(definitions[it].text) for it in level if it not in CLOSED))
            if run := next(found, ""):
                return run
            level = [below for it in level for below in self.view.below(it) if not below[0].startswith(FRAME)]
        return ""

    @cache
    def full(self, place: Place) -> list[str]:
        """Returns the lines of a definition in full."""
        lines = [f"-- {self.said(place)}", *(f"-- e.g. {it}" for it in [self.sample(place)] if it)]
        lines += [] if place in CLOSED else text_of(self.view, place).splitlines()
        return [part for line in lines for part in wrapped(line)]

    @cache
    def brief(self, place: Place) -> list[str]:
        """Returns the lines of a definition by its comment."""
        return wrapped(f"{place[1]}: {self.said(place)}")

    def body(self, room: int, parts: dict[str, list[Place]]) -> list[str]:
        """Returns the lines of definitions, in parts with titles, with as much in full as there is room for."""
        order, full, brief, count = [it for part in parts.values() for it in part], set(), set(), 2 * len(parts)
        most = room if sum(len(self.full(it)) for it in order) + count <= room else room - BRIEF
        for those, shape, limit in ((full, self.full, most), (brief, self.brief, room - 6)):
            for place in (it for it in order if it not in full):
                if count + len(shape(place)) <= limit:
                    those.add(place)
                    count += len(shape(place))
        lines = []
        for title, part in parts.items():
            lines += ["", f"---- {title}", *(line for it in part if it in full for line in self.full(it))]
        lines += ["", BY_COMMENTS] * bool(brief) + [line for it in order if it in brief for line in self.brief(it)]
        left = Counter(it[0].partition("/")[0] for it in order if it not in full | brief)
        listed = ", ".join(f"{crate} {number}" for crate, number in sorted(left.items()))
        return lines + (wrapped(f"{left.total()} more are below these: {listed}") if left else [])


def parted(contract: Contract, frame: set[Place]) -> dict[str, list[Place]]:
    """Returns what is on a card, without the frame, by titles: the plan and all that computes, and then the rest."""
    def is_last(place: Place) -> bool:
        each = contract.view.sources.definitions[place]
        return place[0].startswith(FRAME) or each.kind == "relation" and "Ghosts" in " ".join((each.text, *each.around))

    rule = contract.plan + [it for it in contract.order if it not in contract.plan and not is_last(it)]
    last = [it for it in contract.order if it not in rule]
    return {"Rule and format": [it for it in rule if it not in frame],
            "What is read, printed, reported and saved": [it for it in last if it not in frame]}


def card_of(name: str, contract: Contract, frame: set[Place], equations: dict[Place, str]) -> list[str]:
    """Returns the lines of the card of a case."""
    parts, case = parted(contract, frame), CARDS[name]
    fixed = [f"{kind} is {names.replace(' ', ' or ')}" for kind, names in case.only.items()]
    fixed += [f"{flag} is {str(value).lower()}" for flag, value in case.flags.items()]
    count = len(frame & {*contract.order})
    lines = [f"{name}: the contract of {case.function}, in crates/{contract.file}.rt", "",
             *textwrap.wrap(contract.words, COLUMNS), "",
             f"For any files, input and outputs, {contract.call} ensures", *wrapped(f"    {contract.clause}"),
             *[f"In this case {', and '.join(fixed)}."] * bool(fixed), "", *LEGEND.splitlines(), "",
             f"The frame, which nearly all commands share, is on its own card: {count} definitions."]
    return lines + Card(contract.view, equations, Runs(name)).body(LINES - len(lines), parts)


def card_of_frame(view: View, contracts: list[Contract], frame: set[Place], equations: dict[Place, str]) -> list[str]:
    """Returns the lines of the frame's card."""
    order = [it for it in view.ordered([*dict.fromkeys(it for each in contracts for it in each.named)]) if it in frame]
    last = [it for it in order if not it[0].startswith(FRAME)]
    parts = {"What is read, printed, reported and saved": [it for it in order if it not in last], "Format": last}
    lines = [f"The frame: {len(frame)} definitions that nearly all commands share. The other cards say how to read."]
    return lines + Card(view, equations, None).body(LINES - len(lines), parts)


MAKER = f"{TOP}/tests/definitions"
MOST = 12  # what so many of the functions have is the frame


def all_cards() -> dict[str, list[str]]:
    """Returns the lines of the cards, by their files: one of each case, and that of the frame."""
    sources, crates = all_sources(), run_functions()
    every = View(sources)
    functions = [Contract(every, crate, function) for function, crate in crates.items()]
    having = Counter(place for contract in functions for place in contract.order)
    frame = {place for place, count in having.items() if count >= MOST}
    cases = {name: Contract(View(sources, case), crates[case.function], case.function) for name, case in CARDS.items()}
    if unmet := [f"{name}: no definition asks for {it}" for name, each in cases.items() for it in each.view.unmet()]:
        raise SystemExit("\n".join(unmet))
    values = equations(sources)
    cards = {file_of(name): card_of(name, each, frame, values) for name, each in cases.items()}
    return {**cards, "frame": card_of_frame(every, functions, frame, values)}


SIZES = {"FULL", "BATCH"}  # the constants that clauses may name: what is gathered before a write, and quoted at once
CONSTANT = re.compile(r"^ *(?:pub(?:\(\w+\))? )?(?:const|static) (\w\w+):.* =", re.MULTILINE)
CLAUSE = re.compile(r"^ +(?:requires|ensures)\b.*?\}$", re.MULTILINE | re.DOTALL)

COMPLETE = {"klist-k", "ktremove", "ktremove-k-old"}  # the cards that have all definitions in full


def file_of(name: str) -> str:
    """Returns the name that the card of a case has as a file."""
    return re.sub("[ -]+", "-", name)


def faults(name: str, card: str) -> list[str]:
    """Returns the lines that are too many or too long, and how a card is not complete that is to be."""
    lines = card.splitlines()
    left = BY_COMMENTS in lines or " more are below these: " in card
    return (["not complete"] * (left and name in COMPLETE) + [f"{len(lines)} lines"] * (len(lines) > LINES)
            + [line for line in lines if len(line) > COLUMNS])


def constants_named() -> set[str]:
    """Returns the files of definitions that name constants of the code, and the constants that clauses name."""
    texts = {path: read(path) for path in paths("crates/*/specs/**/*.antt", "crates/*/src/**/*.rt")}
    clauses = "".join(clause for text in texts.values() for clause in CLAUSE.findall(text))
    constants = {name for text in texts.values() for name in CONSTANT.findall(text)}
    return {path for path, text in texts.items() if "TheConstants" in text} | constants & {*re.findall(r"\w+", clauses)}


def not_computed() -> list[str]:
    """Returns what computes on cards that are complete, but not below any theorem or run of crates/samples."""
    sources = all_sources()
    texts = map(sources.add, sorted(CRATES.glob("samples/proofs/*.antt")))
    named = [it for own, text in texts for it in sources.named_in(re.sub("^use .*", "", text, flags=re.M), own)]
    found = {*View(sources).ordered([*dict.fromkeys(named)])}
    crates, cases = run_functions(), [case for name, case in CARDS.items() if file_of(name) in COMPLETE]
    order = {it for case in cases for it in Contract(View(sources, case), crates[case.function], case.function).order}
    return sorted(name for file, name in order - found if not file.startswith(FRAME)
                  and not sources.definitions[file, name].kind)


def check(report: Report, program: str) -> None:
    """Makes the cards. The program is not run."""
    report.check("the constants of the code that contracts name", sorted(constants_named() ^ SIZES))
    with folder_of({}) as folder:
        made = run(MAKER, (folder,), folder)
        cards = {name: text.decode() for name, text in files_in(folder).items()}
    wrong = {*map(file_of, CARDS)} ^ {*cards} - {"frame"}
    report.check("what is computed", not_computed())
    report.check("the cards", [f"{made}"] * (made.status != 0) + sorted(wrong))
    for name, card in cards.items():
        report.check(f"the card of {name}", faults(name, card))
