"""The phrases of the definitions and of Python's module are those of the pages. The manual page has the commands and
options that help lists, mandoc and groff find nothing wrong with the manual pages, and docs/pages has their Markdown."""

import os
import re
import shutil
from collections.abc import Iterator

from computed.terms import spellings
from pages.documents import read, sources
from runs.commands import COMMANDS
from runs.harness import TOP, Outcome, Report, run
from words import phrases
from words.command_lines import helped, offered
from words.mistakes import MISTAKES, NEAR

PAGES = ("docs/krbfile.1", "docs/krbfile.5", "docs/krbfile.3")

# What reads the manual pages: the first two find nothing wrong, and the last prints what make pages wrote.
OF_PAGES = {"mandoc": "mandoc -Tlint -Wwarning", "groff": "groff -mandoc -Tutf8 -ww -z",
            "Markdown": "mandoc -Tmarkdown -Ios=krbfile"}


def usage_of(block: str) -> str:
    """Returns the usage line that a part of the synopsis spells, without blanks."""
    kind, found = "", ""
    for line in block.splitlines():
        for word in re.sub(r"\bAr$", "Ar file ...", line[1:]).split():
            if word in ("Fl", "Ar", "Cm", "No"):
                kind = word
            elif kind == "Fl" and word not in ("Oo", "Oc", "Op", "|"):
                found += f"-{word}" if word[0] == "-" else "][".join(f"-{each}" for each in word)
            else:
                found += {"Oo": "[", "Op": "[", "Oc": "]"}.get(word, word.upper() if kind == "Ar" else word)
        found += "]" * line.count("Op ")
    return found.replace("...", "..").replace("..]", "]..")


def of_manual(program: str) -> Iterator[tuple[str, set[object]]]:
    """Yields what the manual page has no list for, its commands and options, each with what it lacks."""
    page, synopsis = phrases.PAGE, phrases.part(phrases.PAGE, "\n.Sh SYNOPSIS\n", "\n.Sh ")
    others = {phrases.LARGE, phrases.CLOCK, phrases.NOT_WHOLE, phrases.GIVEN_DAMAGED, phrases.TO_A_PROGRAM,
              phrases.COLLECTION}
    yield "other phrases", others.difference(re.split(";?\n", page))
    yield "commands", {*re.findall(r"^\.Cm (\w+)$", synopsis, re.MULTILINE)} ^ {*COMMANDS}
    usages = [line for each in COMMANDS for line in re.split(r"\s+krbfile ", re.search(
        r"krbfile (.*?)\n\n", helped(program, each), re.DOTALL)[1])]
    yield "usage lines", {usage_of(each) for each in f"\n{synopsis}".split("\n.Nm\n") if each.startswith(".Cm")} ^ {
        "".join(each.split()).replace("..]", "]..") for each in usages}
    found = {*re.findall(r"^\.It Ic (\w+).*\n(.*):$", phrases.part(page, "\n.Sh KTCHECK\n", "\n.Sh "), re.MULTILINE)}
    shown = re.findall(r"^  ([a-z]+) +(.*)$", helped(program, "ktcheck").partition("\nStatuses:")[0], re.MULTILINE)
    yield "findings", found ^ {*phrases.FINDINGS.items()} | found ^ {*shown}
    options = {option for command in ("", *COMMANDS) for option in offered(program, command)[1]}
    yield "the options of computed runs", {f"{command} {each}" for command in COMMANDS for each in (
        offered(program, command)[1] - {"-h", "--help"}) ^ spellings()[command].words}
    yield "options", {each for each in options if not re.search(rf"\bFl {each[1:]}\b", page)}


def of_mistakes() -> Iterator[tuple[str, set[object]]]:
    """Yields the mistakes that no line has, and the lines with another mistake."""
    patterns = {each: re.sub("WORD|OPTION|VARIABLE", "(?s:.*)", re.escape(each)) for each in phrases.MISTAKES}
    patterns["no FILE"] = "no (?:FILE|KEYTAB|FROM|TO|KVNO|ETYPE|NAME)"
    lines = [*MISTAKES, *(phrase for phrase, _ in NEAR), "no command", "an argument is not UTF-8",
             "KRB5CCNAME is not UTF-8"]
    kinds = {line: {each for each, pattern in patterns.items() if re.fullmatch(pattern, line)} for line in lines}
    yield "each mistake has a line", {*patterns}.difference(*kinds.values())
    yield "the lines have no other mistake", {line for line, found in kinds.items() if not found}


def of_sources() -> Iterator[tuple[str, set[object]]]:
    """Yields the phrases of the definitions and of Python's module that are not on the page, or the other way round."""
    displayed = (f"clash: {phrases.CLASH}", phrases.TO_REPLACE, phrases.NO_ENTRY)
    yield "the clashes", {each for each in displayed if each not in phrases.PAGE}
    in_code = r'^\w+_phrase .*= (?:\w+ \w+ \()?codes "(.*?)"\)?$'
    defined = {*re.findall(in_code, sources("crates/*/specs/*.antt"), re.MULTILINE)}
    files = {"no such file", "file too large", "cannot read", "cannot write", "out of memory"}
    in_library = {*phrases.LIBRARY_CODES.values(), phrases.TOO_LONG, phrases.LIBRARY_IN_THE_WAY, "error "}
    numbered = {*phrases.CODES.values(), *phrases.FAULTS.values(), *phrases.LINES.values(),
                *(phrase for _, phrase in (*phrases.NOT_KEYTABS, *phrases.NOT_CACHES)), *phrases.OTHER_FILES}
    known = {*phrases.CAUSES.values(), *phrases.AFTERMATHS.values()}
    own = known - {"NAME.krbfile is in the way", "error NUMBER"}
    yield "the phrases of the definitions", defined ^ (files | in_library | numbered | own | {*phrases.NAMES.values()})
    found = re.findall(r'(?:errno\.\w+: |NAME_OF_SAVES = )"(.*?)"', sources("python/krbfile/*.py"))
    yield "the causes of Python's module", {*found} - known if found else {"none"}


def check(report: Report, program: str) -> None:
    """Reads the pages, the definitions, the module and help; mandoc and groff read the manual pages."""
    for name, wrong in (*of_manual(program), *of_mistakes(), *of_sources()):
        report.check(name, sorted(map(str, wrong)))
    for name, command in OF_PAGES.items():
        reader, *options = command.split()
        if shutil.which(reader) is None:
            report.skip(f"the manual pages: {name}", f"{reader} is not there")
            continue
        for page in PAGES:
            out = read(f"docs/pages/{os.path.basename(page)}.md") if name == "Markdown" else ""
            report.compare(f"{name}: {page}", Outcome(0, out.encode()), run(reader, (*options, page), TOP))
