"""The C library: its headers and manual page name its exports, their parameters and its statuses; C programs over it,
with refused memory, and a search for keys left in memory."""

import json
import os
import re
import shutil
import subprocess
from collections import Counter

from keytabs.checks import EACH
from keytabs.edits import KEY
from makers.images import TWO, USUAL, keytab
from makers.samples import SAMPLES
from names.matches import JUDGED
from pages.documents import read, sources
from pages.readme import no_library
from runs.harness import SECONDS, TOP, Outcome, Report, every, folder_of, printed, run
from runs.system_calls import Preloaded
from runs.undisturbed import frame, preload_library, undisturbed

LIBRARY = os.path.join(TOP, "lib", "libkrbfile.a")
SHARED = os.path.join(TOP, "lib", "libkrbfile.so.1")
SOURCES = os.path.join(TOP, "tests", "c")
STRICT = ("-std=c11", "-D_POSIX_C_SOURCE=200809L", "-Wall", "-Wextra", "-Werror", "-g", "-O1")
SANITIZED = ("-fsanitize=address,undefined", "-fno-sanitize-recover=all")
WRAPS = ("-Wl,--wrap=malloc,--wrap=realloc",)

EXPORT = re.compile(r'pub extern "C" fn (krbf_\w+)\(([^)]*)\)(?: -> (\w+))?', re.S)
SYNOPSIS = re.compile(r"^\.Ft (\w+)\n\.Fn (krbf_\w+)(.*)$", re.M)
PROTOTYPE = re.compile(r"^(uint32_t|void) (krbf_\w+)\(([^)]*)\);", re.S | re.M)

# The C form of an export's parameter. An allocator takes no bytes.
IN_C = {
    "Global": [], "usize": ["size_t"], "i32": ["int32_t"], "&mut [KrbfFinding]": ["krbf_finding *", "size_t"],
    **{f"u{bits}": [f"uint{bits}_t"] for bits in (16, 32)},
    "&[u8]": ["const bytes *", "size_t"], "&mut [u8]": ["bytes *", "size_t"], "&mut [u32]": ["uint32_t *", "size_t"],
    "&mut u32": ["uint32_t *"], "&mut i32": ["int32_t *"], "&mut usize": ["size_t *"],
    "&KrbfNumbers": ["const krbf_numbers *"], "&KrbfNameTypes": ["const krbf_name_types *"],
    "&mut KrbfNameTypes": ["krbf_name_types *"],
    **{f"&mut Krbf{name}": [f"krbf_{name.lower()} *"]
       for name in ("Bytes", "Entry", "Ticket", "Keytab", "Ccache", "Encryption")},
}

# The sources of refusals, with what a status adds to their numbers.
REFUSALS = {"krb_keytab/src/open.rt": 10, "krb_ccache/src/open.rt": 10, "krb_wire/src/name_fault.rt": 20,
            "krb_walk/src/refusal.rt": 30}
STATUSES = {"DONE": 0, "NO_MEMORY": 1, "END": 2, "BAD_DEFAULT_PRINCIPAL": 15,  # statuses that have other names there
            "BAD_KEY": 42, "ENCTYPE_NOT_FOUND": 43}
FINDINGS = {"weak": 1, "size": 2, "same": 4, "clash": 8, "old": 16, "nostrong": 32, "hidden": 64}  # the bits of words
OPENED = {"opens": 0, "etype": 43, "kvno": 40}  # the statuses of the words of ktmatch
Signature = tuple[str, tuple[str, ...]]  # a call's return type, and the kinds of its parameters


def parts(text: str) -> list[str]:
    """Returns the parts between commas."""
    return [" ".join(part.split()) for part in text.split(",") if part.strip()]


def exports() -> dict[str, Signature]:
    """Returns the exports of the sources, by name."""
    found = {}
    for name, words, answer in EXPORT.findall(sources("crates/krb_c/src/**/*.rt")):
        kinds = [kind for word in parts(words) for kind in IN_C[word.split(": ", 1)[1]]]
        found[name] = {"u32": "uint32_t", "": "void"}[answer], tuple(kinds)
    return found


def kind_of(parameter: str) -> str:
    """Returns the kind of a parameter in the header. Bytes and text are the same to an export."""
    kind = re.sub(r"\w+$", "", parameter).strip()
    return re.sub(r"(uint8_t|char) \*", "bytes *", kind)


def prototypes(*headers: str) -> dict[str, Signature]:
    """Returns the calls of the headers, by name."""
    return {name: (answer, tuple(kind_of(part) for part in parts(words)))
            for answer, name, words in PROTOTYPE.findall(sources(*headers))}


def statuses() -> dict[str, int]:
    """Returns the statuses of the sources, by the names that the header gives them."""
    found = dict(STATUSES)
    for path, front in REFUSALS.items():
        for name, number in re.findall(r"::(\w+) => (\d+),", read(f"crates/{path}")):
            found.setdefault(re.sub(r"(?<=.)([A-Z])", r"_\1", name).upper(), front + int(number))
    return found


def check_header(report: Report, _program: str) -> None:
    """Compares the names, parameters and statuses of the header and of the manual page with the sources."""
    numbers = {name: int(number) for name, number in re.findall(r"^ +KRBF_(\w+) = (\d+)", read("c/krbfile.h"), re.M)}
    due = statuses() | {name.upper(): bit for name, bit in FINDINGS.items()}
    others = [f"{name} is not {number}" for name, number in numbers.items() if due.get(name) != number]
    report.check("the statuses and findings of krbfile.h", others)
    declared, there, of_all = prototypes("c/krbfile.h"), exports(), prototypes("c/*.h")
    shown = {name: (answer, tuple(kind_of(word) for word in re.findall(r'"([^"]*)"', words)))
             for answer, name, words in SYNOPSIS.findall(read("docs/krbfile.3"))}
    wrong = sorted(name for name in of_all.keys() | shown if of_all.get(name) != shown.get(name))
    report.check("the synopsis of krbfile(3)", wrong)
    for name in sorted(declared.keys() | there.keys()):
        got, due = declared.get(name), there.get(name)
        report.check(f"krbfile.h: {name}", [] if got == due else [f"{got}, not {due}"])


def lack() -> str:
    """Returns that the library or a C compiler is not there, or nothing."""
    return no_library() or ("" if shutil.which("cc") else "there is no C compiler")


def build(folder: str, name: str, *words: str, sources: str = SOURCES) -> str:
    """Builds a C program of the tests with the library, and returns its path."""
    path = os.path.join(folder, name)
    subprocess.run(["cc", *STRICT, *words, f"-I{TOP}/c", "-o", path, os.path.join(sources, f"{name}.c"), LIBRARY],
                   check=True, timeout=SECONDS)
    return path


def symbols(path: str, *words: str) -> set[str]:
    """Returns the symbols that a library exports."""
    listed = run("nm", ("-g", "--defined-only", *words, path), TOP).out.decode()
    fields = (line.split() for line in listed.splitlines())
    return {line[-1].split("@")[0] for line in fields if len(line) == 3 and line[1] != "A"}


def check_symbols(report: Report, _program: str) -> None:
    """Checks that both libraries export the calls of the headers only, and that the shared one has its name."""
    wanted = set(prototypes("c/*.h"))
    for path, words in ((LIBRARY, ()), (SHARED, ("-D",))):
        report.check(f"symbols of {os.path.basename(path)}", sorted(wanted ^ symbols(path, *words)))
    dynamic = subprocess.run(["readelf", "-d", SHARED], check=True, capture_output=True, text=True)
    faults = [] if "soname: [libkrbfile.so.1]" in dynamic.stdout else ["it has no such soname"]
    faults += ["it has text relocations"] if "TEXTREL" in dynamic.stdout else []
    report.check("the shared library's name", faults)


# Runs of the program that move keys, which are the bytes 0 to 15 as in all images of these tests.
PROGRAM_RUNS = (
    undisturbed("klist -ktKe k", k=TWO), undisturbed("ccedit c", b"start\nconfig k - v\nstep 0\nrewrite\n", c=USUAL),
    undisturbed("hold -k k", frame(TWO), k=TWO),
    undisturbed("ktutil", f"rkt k\naddent -key -p c@R -k 3 -e 17\n{KEY}\nl -k\nwkt j\n".encode(), k=TWO),
)


def check_given(report: Report, folder: str) -> None:
    """Passes calls no bytes, and bytes inside their own store, and refuses each of their allocations in turn."""
    for name, words in (("own_bytes", SANITIZED), ("refused_memory", WRAPS)):
        report.compare(f"C: {name}.c", Outcome(0), run(build(folder, name, *words), (), folder))
    if shutil.which("valgrind") is None:
        report.skip("own_bytes.c under valgrind", "valgrind is not there")
        return
    words = ("-q", "--error-exitcode=97", "--leak-check=full", build(folder, "own_bytes"))
    report.compare("C: own_bytes.c under valgrind", Outcome(0), run("valgrind", words, folder))


def bits_of(program: str, image: bytes) -> list[list[int]]:
    """Returns the places of entries and the bits of what `ktcheck` finds about them; of a name, at its first entry."""
    with folder_of({"k": image}) as folder:
        listed = json.loads(run(program, ("klist", "-k", "--json", "k"), folder).out)["entries"]
        found = json.loads(run(program, ("ktcheck", "--json", "k"), folder).out)["findings"]
    first = {each["principal"]: each["place"] for each in reversed(listed) if "principal" in each}
    bits: Counter[int] = Counter()
    for each in found:
        if each["finding"] in FINDINGS:
            bits[each.get("place") or first[each["principal"]]] += FINDINGS[each["finding"]]
    return sorted(map(list, bits.items()))


def check_judged(report: Report, program: str, folder: str) -> None:
    """Compares what is found about entries, and which tickets are opened, with rows and with `ktcheck`."""
    built = build(folder, "judged")
    report.compare("C: what is found", printed("11 33", "57 16", "102 20", "147 90"), run(built, (), folder, EACH))
    for image, rows in [(SAMPLES["mixed.keytab"], {}), *JUDGED]:
        asked = [("host/a@R", str(kvno or 0), str(etype)) for kvno, etype in rows] + [("c@R", "3", "17")]
        due = [[OPENED[word], int(rest[1]) if word == "opens" else 0] for word, *rest in map(str.split, rows.values())]
        lines = run(built, [word for row in asked for word in row], folder, image).out.split(b"\n")[:-1]
        got = [[*map(int, line.split())] for line in lines]
        wanted = [*bits_of(program, image), *due, [39, 0]]
        report.check(f"C: tickets of {list(rows)}", [] if got == wanted else [f"{got}, not {wanted}"])


def check_keys(report: Report, program: str, folder: str) -> None:
    """Checks that no freed block holds a key, in C and in the program."""
    runs = [(build(folder, "refused_memory", *WRAPS), undisturbed(""))]
    if report.is_proved:
        runs += [(program, one) for one in PROGRAM_RUNS]
    else:
        report.skip("keys", "the program is not proved: its memory does not come from the C library")
    for named, one in runs:
        got = Preloaded(named, preload_library()).run(one, KEYS=1)
        faults = [f"{got.outcome}"] * (got.outcome.status != 0)
        report.check(f"keys are cleared: {os.path.basename(named)}, {one.name}",
                     faults + ["no block that was given back is seen"] * (got.freed == 0))


def check_programs(report: Report, program: str) -> None:
    """Makes the checks by the programs of tests/c, which are built in one folder."""
    with folder_of({}) as folder:
        check_given(report, folder)
        check_judged(report, program, folder)
        check_keys(report, program, folder)


check = every(check_header, every(check_symbols, check_programs, of="the C library", lack=lack))
