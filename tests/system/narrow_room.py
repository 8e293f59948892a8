"""The greatest files and inputs, on a small stack, and in little memory; selections in little time. Caches are here,
keytabs in greatest. In little memory a run may report that it is out of memory: then a prefix of its text may be
printed, and each file is as before or as after the whole run."""

import resource
import subprocess
from collections.abc import Iterator
from dataclasses import replace

from keytabs import copies, greatest
from keytabs.file_names import LIMIT, sized
from keytabs.greatest import LEAST_RECORD, STARRED, at_each, matching, repeated, with_room
from makers.images import TICKET, U, Credential, Entry, Name, cache, config, keytab, number, ticket_of
from runs.commands import COMMANDS
from runs.harness import SECONDS, Case, Outcome, Report, faults_of, limit, message, over, run_case
from runs.undisturbed import undisturbed
from system.saving import last_line
from words.phrases import MATCHES
from system.failing_streams import NO_MEMORY

STACK = 256 * 1024
SPACE = 64 * 1024 * 1024
TIME = 2  # the time of a processor for what is selected
MANY = 40  # how many of the greatest files a run checks
ROOM = 256 * 1024 * 1024  # the memory for it, which is less than that of the files
HOLD_SPENT = last_line("ENOMEM", 4)  # the last line of a hold without memory
PARTLY = ("ktutil", *(name for name, command in COMMANDS.items() if command.prints_early))  # may print, or save, a part

# The smallest ticket: empty names, and no byte that is not a length, a time or a flag.
LEAST = Credential(Name((), b"", 0), Name((), b"", 0), 0, None, b"", 0, 0, 0, flags=0, ticket=b"")
SIZE = len(LEAST.spelled())
CACHE_ROOM = LIMIT - len(cache())  # how much room a cache has
PLACES = range(22, 22 + CACHE_ROOM // SIZE * SIZE, SIZE)  # the places of the most tickets
MARK = 0x7F_4D_41_52  # in the place of numbers
VALUE = b"v" * (CACHE_ROOM - len(config(b"k", b"").spelled()))  # the longest value under `k`


def least() -> bytes:
    """Returns the cache of the most tickets."""
    return cache(repeated(LEAST.spelled(), CACHE_ROOM))


def long_cache(size: int) -> bytes:
    """Returns a cache of that size, with one long ticket."""
    return cache(replace(TICKET, ticket=bytes(size - len(cache(replace(TICKET, ticket=b""))))))


def listings() -> list[Case]:
    """Returns listings of the greatest cache, of one that is too large, and of some of 16,000,000 bytes."""
    count = 4_000_000
    client = Name((), count=count).spelled() + bytes(4 * count)
    return [
        with_room("the greatest cache", "klist c", c=long_cache(LIMIT)),
        over("a cache that is too large", "klist c", long_cache(LIMIT + 1), message(1, "c: file too large")),
        *(with_room(name, "klist -C c", c=cache(cells)) for name, cells in (
            ("4,000,000 components", client + TICKET.spelled()[len(U.spelled()):]),
            ("a value of 16,000,000 bytes", config(b"k", b"\xff" * 16_000_000).spelled()),
            ("225,000 credentials of 67 bytes", LEAST.spelled() * 225_000),
            ("as many that were removed", LEAST.removed().spelled() * 225_000))),
    ]


def reads() -> list[Case]:
    """Returns removals, where all tickets have expired or none is for a service, and listings as JSON."""
    every_second = cache(repeated(LEAST.spelled() + LEAST.removed().spelled(), CACHE_ROOM))
    return [
        with_room("all of the most tickets go", "ccremove --expired c", c=least()),
        with_room("every second of the most goes", "ccremove -p @ c", c=every_second),
        with_room("a ticket of a long name goes", "ccremove --expired c",
                  c=cache(replace(LEAST, server=Name((b"x" * 253,) * 65_000)))),
        with_room("the most tickets", "klist --json c", c=least()),
        with_room("the longest value", "klist --json c", c=cache(config(b"k", VALUE))),
    ]


def numbered(form: bytes, count: int) -> bytes:
    """Returns as many copies of a text, each with another number in place of MARK."""
    parts = form.split(number(MARK, 4))
    return b"".join(number(2**30 + at, 4).join(parts) for at in range(count))


def matches() -> list[Case]:
    """Returns what is said of tickets by entries of as many versions, of all types, and of as many other names."""
    short, long = Name((b"",), b""), Name((b"x" * 200 + number(MARK, 4),), b"")
    versions = numbered(LEAST_RECORD[:-4] + number(MARK, 4), 600_000)
    types = b"".join(LEAST_RECORD[:19] + number(at % 2**16, 2) + LEAST_RECORD[21:] for at in range(600_000))
    names = numbered(keytab(Entry((*long.components, b"b")))[2:], 60_000)
    *others, explained = (
        with_room(kind, f"ktmatch {options}k c", status=status, k=keytab(entries), c=cache(numbered(replace(
            LEAST, server=name, ticket=ticket_of(name, *numbers).ticket).spelled(), count)))
        for kind, options, status, entries, name, numbers, count in (
            ("versions", "", 0, versions, short, (0, MARK), 130_000),
            ("types", "--json ", 1, types, short, (MARK, 0), 130_000),
            ("names", "--explain ", 1, names, long, (17, 3), 25_000)))
    words = f"krbfile: name: {MATCHES['name']}\n".encode()
    return [*others, replace(explained, wanted=replace(explained.wanted, err=words))]


def selections() -> list[Case]:
    """Returns removals by patterns of a ticket of a long name, which none or one fits."""
    long = [Name((b"a" * (8_000_000 - 1) + end,), b"") for end in (b"a", b"b")]
    removed = "removed 22 " + long[1].components[0].decode() + "@"
    return [over("stars", f"ccremove -n {matching(STARRED)} c", cache(replace(LEAST, server=server)), wanted)
            for server, wanted in zip(long, (message(1, "c: refused 9"), [removed]))]


def edits() -> list[Case]:
    """Returns short scripts over the most tickets, long values, and the longest scripts."""
    script = b"start\nstep 0\ncut %d\nconfig k - v\nrewrite\nstep 0\n" % PLACES[-1]
    beside = cache(config(b"k", VALUE[len(config(b"k", b"").spelled()):]))
    return [
        with_room("a walk, a removal and a rewrite", "ccedit c", script, 1, c=least()),
        with_room("the longest value", "ccedit c", b"config k - " + VALUE, c=cache()),
        with_room("a value in place of a long one", "ccedit c", b"config k - ", c=beside),
        with_room("each of the most goes", "ccedit c", at_each(b"cut %d\n", PLACES), c=least()),
        with_room("the most steps", "ccedit c", b"start\n" + repeated(b"step 0\n", LIMIT - 6), c=least()),
        with_room("the most comments", "ccedit c", repeated(b"#\n"), c=least()),
    ]


def is_early(case: Case, got: Outcome, after: dict[str, bytes]) -> bool:
    """Whether a run ended out of memory, after a part of what it does."""
    if got.status != NO_MEMORY.status or not got.err.endswith(NO_MEMORY.err):
        return False
    last = case.files_after or case.files
    files_are_whole = all(after.get(name) in (case.files.get(name), last.get(name)) for name in {*after, *last})
    output = got.err.removesuffix(NO_MEMORY.err)
    out = got.out.removesuffix(HOLD_SPENT)
    is_front = case.wanted.out.startswith(out) and case.wanted.err.startswith(output)
    has_done_nothing = not out and after == case.files
    return files_are_whole and is_front and (has_done_nothing or case.words[0] in PARTLY or "--json" in case.words)


def faults_in(program: str, case: Case, kind: int, most: int) -> list[str]:
    """Returns the faults of a run of a case that may have at most that much of a resource."""
    try:
        got, after = run_case(program, case, preexec_fn=limit(kind, most))
    except subprocess.TimeoutExpired:
        return [f"no end in {SECONDS} seconds"]
    return [] if kind == resource.RLIMIT_AS and is_early(case, got, after) else faults_of(case, got, after)


def of_many() -> Iterator[Case]:
    """Yields runs over many files. Each gives its memory back: they take no more than one."""
    for line, between in (("ktcheck", b""), ("klist -k", b"\n"), ("klist -k --json", b""), ("ktremove -n -e 17", b""),
                          ("ktcheck --json", b"")):
        two = undisturbed(f"{line} k k", k=sized(LIMIT))
        wanted = Outcome(two.wanted.status, between.join([two.wanted.out] * (MANY // 2)))
        yield Case(f"{line} over {MANY} of the greatest files, in 256 MB of memory",
                   (*line.split(), *["k"] * MANY), wanted, two.files)


def check(report: Report, program: str) -> None:
    for case, most in (*((each, ROOM) for each in of_many()), (greatest.lines(), 12 * LIMIT),
                       (copies.of_long_name(), SPACE)):
        report.check(case.name, faults_of(case, *run_case(program, case, preexec_fn=limit(resource.RLIMIT_AS, most))))
    for case in (*greatest.selections(), *selections()):
        report.check(f"{case.name}, in {TIME} seconds",
                     faults_of(case, *run_case(program, case, preexec_fn=limit(resource.RLIMIT_CPU, TIME))))
    those = [*greatest.reads(), *greatest.edits(), *greatest.talks(), *listings(), *reads(), *matches(), *edits()]
    for case in those:
        report.check(f"{case.name}, on a stack of 256 KB", faults_in(program, case, resource.RLIMIT_STACK, STACK))
    for case in (*those, *copies.of_many()):
        report.check(f"{case.name}, in 64 MB of memory", faults_in(program, case, resource.RLIMIT_AS, SPACE))
