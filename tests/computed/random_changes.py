"""Random runs that change files: scripts, inputs of ktutil, removals and copies, some of them in turn over one file."""

import re
from collections.abc import Callable, Iterator, Sequence
from functools import partial
from random import Random

from caches.cache_edits import FAULTS as CACHE_FAULTS
from computed.batches import Topic
from computed.random_listings import CACHE_NAMES, NOW, SERVERS, SEVERAL, options, random_ticket
from keytabs.edits import FAULTS, KTUTIL_FAULTS, NO_KEYS
from keytabs.listings import ETYPES, KEY_SIZES
from makers.images import BIG, LITTLE, TWO, hole, keytab, name_text
from makers.random_files import (KEYS, PRINCIPALS, Choices, damaged, filled_cache, random_bytes, random_credential,
                                 random_keytab, random_value, with_damage)
from runs.undisturbed import Undisturbed, undisturbed

# Few names, versions, types and keys, so that many entries agree; MIT's programs do not see those with empty parts.
REMOVED = Choices(names=(*[(b"a", b"R")] * 6, (b"a", b"b", b"R"), (b"a/b", b"R"), (b"", b"R"), (b"R",)),
                  versions=(0, 1, 127, 128, 240, 241, 255, 256, 2**32 - 1), enctypes=(0, 17, 18, 23),
                  timestamps=(0, 1, 2, NOW, 2**32 - 1))
FEW = Choices(names=((b"a", b"R"), (b"", b"R"), (b"R",)), versions=(1, 1, 1, 257), enctypes=(17, 17, 18),
              timestamps=(0, 1, 2), keys=(b"x", b"x", b"y", b"yy"))
AGES = (0, 1, 1_000, NOW, 2**32 - 1)
PATTERNS = [b"*@R", b"@R", b"a*@*", b"*a/b@R", b"*/*@R", rb"\a*\/b@*R", b"*st/a@*", b"E*@X-*", b"*d@X-GSSPROXY:"]

# The lines of scripts and of ktutil, by how frequent they are.
LINES = {"start": 3, "resume": 3, "step": 12, "add": 6, "cut": 5, "rewrite": 1, "#": 1, "": 1}
CACHE_LINES = {"start": 3, "resume": 3, "step": 12, "config": 6, "cut": 4, "rewrite": 1, "#": 1, "": 1}
KTUTIL_LINES = {"l": 3, "list": 1, "rkt": 5, "read_kt": 2, "wkt": 4, "write_kt": 1, "addent": 4, "add_entry": 1,
                "delent": 2, "delete_entry": 1, "clear": 1, "q": 1, "": 1, " \t": 1}
FILES = [*["a", "b", "c"] * 5, "d", "FILE:a", "WRFILE:b", "KCM:a", "file:b", "a1:c", "a\\\\"]


def chosen(random: Random, weights: dict[str, int]) -> str:
    """Returns one of them, chosen by its weight."""
    return random.choices(list(weights), weights.values())[0]


def faulty(random: Random, faults: dict[str, int]) -> bytes:
    """Returns a line with a fault, each fault as often as another."""
    number = random.choice(sorted(set(faults.values())))
    return random.choice([line for line, fault in faults.items() if fault == number]).encode()


def in_turn(run: Callable[[bytes | None], Undisturbed], image: bytes | None, file: str) -> Iterator[Undisturbed]:
    """Yields a run over a file, and the same over what it left."""
    for _ in range(2):
        made = run(image)
        yield made
        image = made.files_after.get(file)


def random_number(random: Random, numbers: Sequence[int] = (0, 1, 3, 255, 256, 300, NOW, 2**32 - 1)) -> bytes:
    """Returns one of those numbers, sometimes with leading zeros."""
    return (b"%010d" if random.random() < 0.1 else b"%d") % random.choice(numbers)


def random_name(random: Random) -> bytes:
    """Returns the text of a name."""
    parts = [random_bytes(random, 12) for _ in range(random.choice([1, 1, 2, 3]))]
    return name_text((*parts, random_bytes(random, 4)))


def random_etype_and_key(random: Random) -> tuple[str, str]:
    """Returns an enctype by number or name, and a key for it, in hexadecimal."""
    found = random.choice([*KEY_SIZES, 0, 1, 999, 65_535])
    key = random.randbytes(KEY_SIZES.get(found, random.randrange(40))).hex() or "-"
    name = random.choice((ETYPES[found][1] if found in ETYPES else str(found)).split())
    return random.choice((str(found), name, name.upper())), key.upper() if random.random() < 0.2 else key


def script_line(random: Random, kind: str, places: list[int], walks: int) -> bytes:
    """Returns a line of a script over a file that has records at these places."""
    words = [kind.encode()]
    if kind == "add":
        etype, key = random_etype_and_key(random)
        words += [random_number(random), etype.encode(), random_number(random), key.encode(), random_name(random)]
    elif kind == "config":
        words += [random.choice(KEYS), random.choice(PRINCIPALS), random_value(random)]
    elif kind in ("cut", "resume"):
        words.append(random_number(random, [*places * 4, 0, 1, 3, random.randrange(400), 2**32 - 1]))
    elif kind == "step":
        words.append(random_number(random, range(walks + 1 if random.random() < 0.1 else max(walks, 1))))
    return b" ".join(words)


def script_over(random: Random, run: Callable[[bytes], Undisturbed], kinds: dict[str, int], places: list[int],
                faults: dict[str, int]) -> bytes:
    """Returns a script, whose second half knows the places that the first half prints."""
    lines: list[bytes] = []
    for _ in range(2):
        for _ in range(random.randrange(12)):
            lines.append(script_line(random, chosen(random, kinds), places, lines.count(b"start")))
        printed = run(b"\n".join(lines)).wanted.out
        places = places + [int(it) for it in re.findall(rb"(?:placed|at|next) (\d+)", printed)]
    if random.random() < 0.3:
        lines.insert(random.randrange(len(lines) + 1), faulty(random, faults))
    return b"\n".join(lines) + random.choice([b"", b"\n", b"\n\n"])


def places_in(line: str, **files: bytes | None) -> list[int]:
    """Returns the places of the records in a listing as JSON."""
    return [int(it) for it in re.findall(rb'"place":(\d+)', undisturbed(line, **files).wanted.out)]


def keytab_script(random: Random) -> Iterator[Undisturbed]:
    """Yields a script over a keytab, which is sometimes missing, and another over what it left."""
    image, v1_big = random_keytab(random)
    image = damaged(random, image, image) if random.random() < 0.2 else image
    image, big = None if random.random() < 0.1 else image, " --v1-big" * v1_big
    for _ in range(2):
        run = partial(undisturbed, f"ktedit{big} k", k=image)
        made = run(script_over(random, run, LINES, places_in(f"klist -k --json{big} k", k=image), FAULTS))
        yield made
        image = made.files_after.get("k")


def cache_script(random: Random) -> Iterator[Undisturbed]:
    """Yields a script over a cache."""
    image = with_damage(random, filled_cache(random, random.choice([3, 4, 4, 4]), [random_credential], 5), 0.35)
    run = partial(undisturbed, "ccedit c", c=image)
    yield run(script_over(random, run, CACHE_LINES, places_in("klist --json c", c=image), CACHE_FAULTS))


def ktutil_line(random: Random) -> bytes:
    """Returns a line of ktutil, with the key after one that adds an entry."""
    kind = chosen(random, KTUTIL_LINES)
    if kind in ("l", "list"):
        return " ".join([kind, *options(random, "-t", "-k", "-e")]).encode()
    if "kt" in kind:
        return f"{kind} {random.choice(FILES)}".encode()
    if kind.startswith("del"):
        return f"{kind} {random.choice([0, 1, 1, 1, 1, 2, 2, 9])}".encode()
    if not kind.startswith("add"):
        return kind.encode()
    etype, key = random_etype_and_key(random)
    words = [[b"-key"], [b"-p", random_name(random).replace(b" ", b"\\ ")], [b"-k", random_number(random)],
             [b"-e", etype.encode()]]
    random.shuffle(words)
    key = random.choice(NO_KEYS) if random.random() < 0.1 else key
    return b" ".join([kind.encode(), *sum(words, [])]) + b"\n" + key.encode()


def ktutil_input(random: Random) -> Iterator[Undisturbed]:
    """Yields an input of ktutil over some files."""
    made = {name: random_keytab(random) for name in "abc"}
    lines = [faulty(random, KTUTIL_FAULTS) if random.random() < 0.15 else ktutil_line(random)
             for _ in range(random.randrange(20))]
    big = " --v1-big" * any(is_big for _, is_big in made.values())
    yield undisturbed(f"ktutil{big}", b"\n".join(lines) + random.choice([b"", b"\n"]), clock=NOW,
                      **{name: image for name, (image, _) in made.items()})


def selectors(random: Random, names: list[bytes], chance: float) -> list[str | bytes]:
    """Returns selectors of entries, each with that chance."""
    found: list[str | bytes] = []
    for letter, choices in (("-p", names), ("-e", ["0", "17", "18", "23", "weak"]), ("--match", PATTERNS)):
        for each in random.choices(choices, k=random.choice([1, 1, 2]) if random.random() < chance else 0):
            found += [letter, each]
    return found


def removal(random: Random) -> Iterator[Undisturbed]:
    """Yields removals from a keytab of a few parts."""
    image, is_big = REMOVED.random_keytab(random)
    words = selectors(random, [name_text(name) for name in REMOVED.names], 0.3)
    if not words or random.random() < 0.5:
        words += random.choice([["-k", "old"], ["-k", str(random.choice(REMOVED.versions))], ["--same"],
                                ["--keep", random.choice("1223")], ["--keep", "2", "--same"]])
    if {"old", "--keep"} & {*words} and random.random() < 0.5:
        words += ["--age", str(random.choice(AGES))]
    words += options(random, "-n", "--none-ok") + ("--v1-big",) * is_big
    names = random.choice(SEVERAL)
    yield from in_turn(lambda it: undisturbed(("ktremove", *words, *names), clock=NOW, k=it, j=TWO), image, "k")


def ticket_removal(random: Random) -> Iterator[Undisturbed]:
    """Yields removals from a cache, by at least one selector."""
    image = with_damage(random, filled_cache(random, random.choice([3, *[4] * 9]), [random_ticket] * 3, 6), 0.1)
    words = [word for server in random.choices(SERVERS, k=random.choice([0, 1, 1, 2]))
             for word in ("-p", name_text((*server.components, server.realm)))]
    words += [f"--match={each.decode()}" for each in random.choices(PATTERNS, k=random.choice([0, 0, 1, 2]))]
    words += ["--all-services"] * (random.random() < 0.4)
    words += [*["--expired"] * (not words or random.random() < 0.3), *options(random, "-n", "--none-ok")]
    names = random.choice(CACHE_NAMES)
    yield from in_turn(lambda it: undisturbed(("ccremove", *words, *names), clock=NOW, c=it), image, "c")


def few_entries(random: Random, v1_big: bool) -> bytes:
    """Returns a keytab of a few entries, some of the same name, and of holes that some of them fit."""
    version = random.choice([1, 2, 2])
    order = BIG if version == 2 or v1_big else LITTLE
    parts = [FEW.random_part(random, version, order) for _ in range(random.choice([0, 1, 2, 3, 8]))]
    parts += [hole(bytes(random.randrange(1, 70)), order) for _ in range(random.choice([0, 0, 1, 3]))]
    random.shuffle(parts)
    image = keytab(*parts, version=version)
    return damaged(random, image, image) if random.random() < 0.06 else image


def copy(random: Random) -> Iterator[Undisturbed]:
    """Yields a copy, the same over what it left, a copy back, and comparisons before and after it."""
    v1_big = random.random() < 0.3
    source, target = (random.choice([None, b"", b"\5\3"]) if random.random() < 0.12 else few_entries(random, v1_big)
                      for _ in range(2))
    asked = [*("--v1-big",) * v1_big, *selectors(random, [name_text(name) for name in FEW.names], 0.1)]
    words = [*options(random, "--replace", "-n"), *asked]
    if random.random() < 0.2:
        words += ["-k", random.choice(["new", "new", "1", "257"])]
    if "--match" not in words and (words.count("-p") == 1 or "-p" not in words and random.random() < 0.15):
        old, new = (name_text(random.choice(FEW.names)) for _ in range(2))
        words += [*("-p", old) * ("-p" not in words), *random.choice([("--as", new), ()])]
        words += ["--as-kvno", random.choice(["0", "1", "257", "300"])] * ("-k" in words)
    runs = [*in_turn(lambda it: undisturbed(("ktcopy", *words, "k", "t"), k=source, t=it), target, "t")]
    yield from runs
    left = runs[-1].files_after.get("t")
    yield undisturbed(("ktcopy", *words, "t", "k"), k=source, t=left)
    yield undisturbed(("ktdiff", *asked, "k", "t"), k=source, t=target)
    yield undisturbed(("ktdiff", *asked, "t", "k"), k=source, t=left)


TOPICS = (
    Topic("random scripts", keytab_script, 60), Topic("random scripts over caches", cache_script, 70),
    Topic("random inputs of ktutil", ktutil_input, 80), Topic("random removals", removal, 50),
    Topic("random removals of tickets", ticket_removal, 70), Topic("random copies", copy, 60),
)
