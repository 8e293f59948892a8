"""What the documents name exists: the files of their links, headings, files and tests, and what is between backticks.
Each piece of code on a page is in the sources. The map has each crate in its place. The worked examples are each shown
somewhere: if what shows one goes, or gets another name, another place is named here. The page of each crate,
`crates/NAME/CALLING.md`, has the calls of the sources, and a row, with clauses and tests, for each that is refused."""

import glob
import os
import re
from pathlib import Path

from runs.harness import TOP, Report
from topics import breaks, of_change, parts

MAP = os.path.join("docs", "DESIGN.md")
PROVED = "crates/library_tests/src/tests/readme.rt"  # the proved code of the pages that lead to no source

PAGE = "CONTRIBUTING.md"
RECIPE = re.compile(r"^### ([^,\n]*).*\n((?s:.*?))(?=^##)", re.MULTILINE)
FILES = re.compile(r"`((?:crates|docs|examples|python|tests)/[^` ]+|[A-Z]+\.md)`")  # a file or some, from the top

# Where the examples of recipes are looked for, and how they are named.
SOURCES = ("*.md", "docs/*.*", "examples/*", "python/*/*.py", "crates/*/CALLING.md", "crates/*/src/**/*.rt",
           "crates/*/specs/*.antt", "crates/samples/proofs/*.antt", "tests/*/*.py")
EXAMPLES = {"A command": r"(?i)ktdiff", "An option": r'--age\b|"age\b', "A column of show": r"\bSESSION\b",
            "A mistake in a command line": r"(?i)\bonly_with\b", "An encryption type": "camellia256"}

# Files, and a text that each row, theorem, test or clause alone has there, with what it shows if the text does not say.
SHOWN = """
crates/krbfile/stdout: KVNO Principal (a keytab)
tests/words/command_lines.py: klist -k{letters} k (its columns)
tests/words/mistakes.py: {option} does not go with -k; {option} is for keytabs
tests/keytabs/listings.py: OBJECTS[:3] (the offset of a cache); no entries; the smallest entry; "times", keytab;
 a fault at (of each kind, after an entry); versions of 8 and of 32 bits; a count of 0 in version 1; f"no keytab;
 case("version 1",; version 1 in the other order
tests/keytabs/removals.py: looked up: (the newest, one of a type, one of a version, what is not there)
tests/keytabs/edits.py: into a hole and at the end (the first hole with room, not the best, as large as it was);
 at an end mark before; a version of more than 8 bits; into version 1; version 1 becomes 2 (under a walk);
 a damaged keytab (a walk up to the fault, changes, a rewrite); a name with spaces and odd bytes (into no file);
 nothing to save makes no file; no records to remove; places of walks (each number); a walk goes on over changes;
 a walk goes on", (in the next run); the same entry again, behind a walk; walks over changes (what comes at their
 cursor, behind it, at the end); walks over a rewrite; too long a component, too long a key; the file is full (until
 an entry goes); add 3 17 0 00 (too short a key);
 after too long a name nothing is saved; messages in the order of the lines (of a damaged keytab too);
 lines("no folder"; delent 3
tests/caches/cache_listings.py: f"columns; known times (a renewal before flags); "the greatest count",; the first type
tests/caches/cache_edits.py: a byte too little room, and the old value stays; version 3 becomes 4 (and is added to)
tests/clients/python_module.py: ("keytabs" (too small for version 2, removals by name); ("caches" (a value, the removed
 mark, a limit, version 3, cursors over a rewrite); cut and damaged images
tests/c/refused_memory.c: set_config(void) (all stays)
tests/system/clock.py: the clock with (an entry of ktutil, listed and saved)
tests/system/failing_streams.py: OF_EACH = (reads, writes); OF_SAVE = ; OF_INPUT = ; {most} bytes at a time
tests/system/refused_memory.py: memory refused {way} (a script prints and saves nothing)
tests/corpus/cases.jsonl: "id": "a-walk-over-nothing"
crates/samples/proofs/NamesAndTimes.antt: parts : ; quoted : ; default-realm : ; name-faults :
crates/samples/proofs/Stores.antt: full : ; no-growth : ; walks : ; value : ; walked : ; new-cache :
crates/library_tests/src/tests/keytabs.rt: fn the_first_hole (and a new keytab of version 1)
crates/library_tests/src/tests/caches.rt: fn calls_that_take_memory (a new cache with an offset)
crates/library_tests/src/tests/files.rt: fn no_end_and_no_room
crates/krb_walk/src/session/events.rt: (RanSome P.rules (what has a reply stays where memory runs out)
crates/krb_ktutil/src/ktutil/state.rt: ensures spared (a key is awaited still)
"""
PLACES = {path: re.split("; *", " ".join(those.split())) for path, those in re.findall(
    r"^(\S+): (.*(?:\n .*)*)", SHOWN, re.MULTILINE)}


def read(path: str) -> str:
    """Returns a file of the repository."""
    return Path(TOP, path).read_text("utf-8")


def literals(path: str) -> list[str]:
    """Returns the literal displays of a manual page."""
    return re.findall(r"^\.Bd -literal.*\n((?s:.*?))^\.Ed$", read(path), re.MULTILINE)


def paths(*patterns: str) -> list[str]:
    """Returns the files of those patterns."""
    return [path for pattern in patterns for path in sorted(glob.glob(pattern, root_dir=TOP, recursive=True))]


def sources(*patterns: str) -> str:
    """Returns the text of those files."""
    return "".join(map(read, paths(*patterns)))


def check_map(report: Report) -> None:
    """Checks that the first crates are the rows of the map, that it names all, and that the program uses each."""
    uses = re.compile(r"^(\w+)(?: staticlib)?:(.*)$", re.MULTILINE)
    below = {crate: those.split() for crate, those in uses.findall(read("crates.txt"))}
    own = [crate for crate, _ in uses.findall(read("crates.txt").split("\n\n")[0])]
    rows = re.findall(r"^\| `(krb\w+)` \|", read(MAP), re.MULTILINE)
    report.check("the rows of the map", [] if rows == own else [f"{rows}, not {own}"])
    named = {*below, *(each for those in below.values() for each in those)}
    report.check("the crates and libraries of the map", sorted(it for it in named if f"`{it}`" not in read(MAP)))
    report.check("the libraries that a crate has and does not use", [
        f"{crate} {each}" for crate in own for each in {*below[crate]} - {*below}
        if f"{each}::" not in sources(f"crates/{crate}/src/**/*.rt")])


def faults_of_links(path: str, page: str) -> list[str]:
    """Returns the links that lead to no file, or to no heading of the page."""
    headings = {re.sub(r"[^\w -]", "", heading).lower().replace(" ", "-")
                for heading in re.findall(r"^#+ (.*)$", page, re.MULTILINE)}
    links = [link for link in re.findall(r"\]\(([\w./]+)\)", page)
             if not os.path.exists(os.path.join(TOP, os.path.dirname(path), link))]
    return links + sorted({*re.findall(r"\]\(#([\w-]+)\)", page)} - headings)


def faults_of_code(path: str, page: str) -> list[str]:
    """Returns the pieces of code that are not in the last source that a link before them leads to."""
    wrong, parts = [], re.split(r"```rust\n(.*?)```", page, flags=re.DOTALL)
    for at in range(1, len(parts), 2):
        links = re.findall(r"\]\(([\w./]+\.rt)\)", "".join(parts[:at:2]))
        source = os.path.join(os.path.dirname(path), links[-1]) if links else PROVED
        piece, whole = (re.sub(r"(?m)^ +", "", text) for text in (parts[at], read(source)))
        wrong += [] if f"\n{piece}" in whole else [f"{parts[at].splitlines()[0]} .. is not in {source}"]
    return wrong


def check_list(report: Report) -> None:
    """Checks that the list of a crate's functions without a clause has each and no other. Those of a trait have its."""
    page = read("docs/TRUST.md")
    crate, rows = re.findall(r"functions of (\w+) have no clause.*?\n\n(.*?)\n\n", page, re.DOTALL)[0]
    named = {*re.findall(r"`(\w+)`", rows)}
    own = re.sub(r"(?ms)^impl\b[^{\n]* for .*?^}", "", sources(f"crates/{crate}/src/**/*.rt"))
    heads = re.findall(r"(?ms)^ *(?:pub(?:\(\w+\))? )?fn (\w+)(.*?[{;])$", own)
    without = {name for name, head in heads if "ensures" not in head}
    report.check(f"the functions of {crate} without a clause", sorted(named ^ without))


def check_topics(report: Report) -> None:
    """Checks that each topic names what it is the first to notice, and that each source and page is named."""
    report.check("the topics with no row in breaks.txt", [topic for topic, names in breaks().items() if not names[1:]])
    report.check("the paths in breaks.txt that do not exist",
                 sorted({name for names in breaks().values() for name in names if not parts(name)}))
    files = paths("crates/*/src/**/*.rt", "*.md", "*/README.md", "docs/*", "crates/*/CALLING.md")
    report.check("the sources and pages that no topic names", [path for path in files if not of_change(path)])


def expanded(path: str) -> list[str]:
    """Returns the files that a path with braces names."""
    front, brace, rest = path.partition("{")
    inner, _, end = rest.partition("}")
    return [front + each + end for each in inner.split(",")] if brace else [path]


def check_recipes(report: Report) -> None:
    """Checks that the files of the recipes exist, and that those of each are all that have its example."""
    recipes = {name: {each for path in FILES.findall(text) for each in expanded(path)}
               for name, text in RECIPE.findall(read(PAGE))}
    for name, files in recipes.items():
        report.check(f"the files of {name}", sorted(it for it in files if not os.path.isfile(os.path.join(TOP, it))))
    for name, example in EXAMPLES.items():
        found = {it for it in paths(*SOURCES) if re.search(example, read(it))} - {PAGE, "tests/pages/documents.py"}
        report.check(f"what has the example of {name}", sorted(found - recipes.get(name, set())))


def check_examples(report: Report) -> None:
    """Looks for each worked example in its file."""
    for path, texts in PLACES.items():
        report.check(f"examples in {path}", [it for it in texts if read(path).count(it.partition(" (")[0]) != 1])


ON_PAGE_OF = {"krb_files": ["krb_disk"]}  # crates whose calls are on the page of another

# An item that may contain functions, or a function up to its body.
ITEM = re.compile(r"^(?:pub )?(?:unsafe )?(?:impl(?:<(?:[^<>]|<[^<>]*>)*>)?|(trait)) (\w+)(.*)|"
                  r"^( *)(pub )?(?:const )?fn (\w+)((?s:.*?)(?:;|\s *\{\}?))$", re.MULTILINE)

Calls = dict[str, str]  # the contract of each public call by its name


def calls_in(text: str, names: set[str], is_open: bool) -> Calls:
    """Returns the calls of a file by the names that its crate re-exports; in an open module each function is one."""
    found, owner, trait = {}, "", ""
    for is_trait, item, rest, indent, is_pub, name, contract in ITEM.findall(text):
        if item:
            owner, trait = "" if " for " in rest and not is_trait else item, is_trait
        elif not indent and is_pub and (is_open or name in names):
            found[name] = contract
        elif indent and owner in names and (is_pub or trait):
            found[f"{owner}::{name}"] = contract
    return found


def calls_of(crate: str) -> Calls:
    """Returns the public calls that belong on the page of a crate, including those that it re-exports of others."""
    found: Calls = {}
    for exporter in (crate, *ON_PAGE_OF.get(crate, ())):
        uses = re.findall(r"pub use (\w+)[\w:]*::(?:\{([^}]*)\}|(\w+));", read(f"crates/{exporter}/src/lib.rt"))
        names = {part.strip() for _, group, name in uses for part in (group or name).split(",")}
        for part in {exporter, *(first for first, _, _ in uses)}:
            for path in paths(f"crates/{part}/src/**/*.rt"):
                found |= calls_in(read(path), names, "/src/laws/" in path)
    return found


def signature(name: str, contract: str) -> str:
    """Returns a function on one line, named with its type, without its clauses."""
    head = re.split(r"\n\s*(?:requires|ensures|where|//|\{)|\s*\{|;", contract)[0]
    return f"fn {name}" + re.sub(r"\s+", " ", head).replace("( ", "(").replace(", )", ")").strip()


def quoted(cell: str) -> list[str]:
    """Returns the texts between backticks."""
    return re.findall(r"`([^`]+)`", cell)


def faults_of_rows(calls: Calls, tables: str) -> list[str]:
    """Returns the faults of a page's tables. Each call that may be refused has one row, of two, three or six cells. A
    long row's last cell but one, and a short one's third, name clauses; a long row's last cell names tests: functions,
    each after its file below `crates`, or files of the repository."""
    rows = [[cell.strip() for cell in line[1:-1].split("|")] for line in tables.splitlines() if line.startswith("| `")]
    named = [name for row in rows for name in quoted(row[0])]
    refused = [name for name, contract in calls.items()
               if re.search(r"-> (?:Option|Result)<", contract) or name.startswith("run_")]
    wrong = [f"{name} has {named.count(name)} rows" for name in sorted({*named, *refused}) if named.count(name) != 1]
    wrong += [f"{name} is no call" for name in named if name not in calls]
    for row in rows:
        tests = quoted(row[5]) if len(row) == 6 else []
        wrong += [f"{row[0]} has {len(row)} cells"] if len(row) not in (2, 3, 6) or len(row) == 6 and not tests else []
        wrong += [f"{name} has no clause {clause}" for name in quoted(row[0])
                  for clause in quoted(row[4] if len(row) == 6 else "".join(row[2:]))
                  if f"ensures {clause} {{" not in calls.get(name, "")]
        wrong += [f"no test {test}" for test in tests if not is_test(*test.partition(": "))]
    return wrong


def is_test(path: str, colon: str, name: str) -> bool:
    """Whether a test exists."""
    if colon:
        return f"fn {name}(" in read(os.path.join("crates", path.replace("/", "/src/", 1)))
    return os.path.isfile(os.path.join(TOP, path))


def check_calls(report: Report) -> None:
    """Compares the pages of crates with the sources."""
    for path in paths("crates/*/CALLING.md"):
        page, calls = read(path), calls_of(path.split("/")[1])
        known = {signature(name, contract) for name, contract in calls.items()}
        lists = "".join(re.findall(r"```text\n(.*?)```", page, re.DOTALL)).splitlines()
        report.check(f"the calls of {path}", [line for line in lists if line not in known])
        report.check(f"the tables of {path}", faults_of_rows(calls, page.partition("\n## Calls\n")[2]))


def check(report: Report, program: str) -> None:
    """Reads the documents and the sources. The program is not run."""
    for each in (check_map, check_topics, check_list, check_recipes, check_examples, check_calls):
        each(report)
    pages = paths("*.md", "*/README.md", "docs/*.md", "crates/*/CALLING.md")
    for path in pages:
        report.check(f"the links of {path}", faults_of_links(path, read(path)))
        report.check(f"the code of {path}", faults_of_code(path, read(path)))
    files, texts = paths("**/*"), ("crates.txt", "crates/*/src/**/*.rt", "crates/*/specs/**/*.antt")
    known = {*re.findall(r"\w+", " ".join(files) + sources(*texts))}
    # The pages that speak of sources and tests. What is in capitals, or the start or end of a name, is a placeholder.
    for path in (MAP, "docs/TRUST.md", *(each for each in pages if each.endswith("CALLING.md"))):
        text = re.sub(r"```.*?```", "", read(path), flags=re.DOTALL)
        words = {word for name in re.findall(r"`([^`\n]+)`", text) for word in re.findall(r"\b[^\W_]\w*[^\W_]\b", name)}
        wrong = {word for word in words - known if not word.isupper()}
        wrong |= {*re.findall(r"\b\w+\.(?:py|rt|c|h|antt|edit)\b", text)} - {*map(os.path.basename, files)}
        report.check(f"the names of {path}", sorted(wrong))
