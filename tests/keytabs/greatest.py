"""Files, scripts and inputs of 16,777,216 bytes, made of small parts and of large ones, and runs over them as they end
where there is room."""

from collections.abc import Iterable
from dataclasses import replace

from keytabs.file_names import LIMIT, sized
from makers.images import HOST, Entry, hole, keytab, number, record
from runs.harness import Case, Outcome, message, over, words_of
from runs.undisturbed import frame, run_alone

LEAST = Entry((b"",), b"", 1, 0, 0, 0, b"", 0)  # the smallest with a component: 23 bytes with its 32-bit version
LEAST_RECORD = record(LEAST.spelled())
LEAST_ADD = b"add 0 0 0 - @\n"
SIZE = len(LEAST_RECORD)  # 27
COUNT = (LIMIT - 2) // SIZE  # how many of them fit in a file
PLACES = range(2, 2 + SIZE * COUNT, SIZE)


def with_room(name: str, line: str, given: bytes = b"", status: int = 0, **files: bytes) -> Case:
    """Returns a run as it ends where there is room: with that status, and no message."""
    case = Case(f"{line}: {name}", words_of(line), Outcome(status), files, stdin=given)
    got, after = run_alone(case)
    return replace(case, wanted=Outcome(status, got.out), files_after=after)


def filled(front: bytes) -> bytes:
    """Returns a keytab that is filled up to the limit with a hole."""
    rest = LIMIT - len(front) - 4
    return front + hole(bytes(rest)) if rest > 0 else front


def repeated(piece: bytes, most: int = LIMIT) -> bytes:
    """Returns as many whole copies of a text as there is room for."""
    return piece * (most // len(piece))


def at_each(form: bytes, places: range = PLACES) -> bytes:
    """Returns a line for each of the places."""
    return b"".join(form % place for place in places)


def least() -> bytes:
    """Returns the keytab of the most entries that are spelled as they are written."""
    return keytab(LEAST_RECORD * COUNT)


def reads() -> list[Case]:
    """Returns listings, also as JSON, a check and a look-up."""
    keys = keytab(*[Entry(key=bytes(65_535), version32=None)] * 255)
    # The components of the last one, all quoted in texts, fill a file.
    many = keytab(Entry((b"/" * 253,) * 65_535, key=b"", version32=None))
    return [
        *(with_room("the most entries", line, k=filled(least())) for line in ("klist -k k", "klist -k --json k")),
        with_room("the longest keys", "klist -kK k", k=filled(keys)),
        with_room("65,535 components", "klist -k --json k", k=filled(many)),
        with_room("the most entries", "ktcheck k", status=1, k=filled(least())),
        with_room("the last of the most", "ktfind k 0 0 host/a@R", k=filled(keytab(LEAST_RECORD * (COUNT - 2), HOST))),
    ]


def most_of_one_name() -> Case:
    """Returns a removal from the most entries, all old but the newest. It takes more memory."""
    newer = record(Entry((b"",), b"", 1, 0, 1, 0, b"", 1).spelled())
    return over("the most entries of one name", "ktremove -k old k", least()[:-SIZE] + newer,
                Outcome(0, at_each(b"removed %d kvno 0 etype 0 @\n", PLACES[:-1])),
                keytab(hole(bytes(SIZE - 4)) * (COUNT - 1), newer))


def many_long_names() -> Case:
    """Returns a removal from many names with a long prefix, none of them old. This too takes more memory."""
    return over("as many names with a long prefix", "ktremove -k old k", keytab(
        *(Entry((b"x" * 200, b"%05d" % number), version32=None) for number in range(60_000))), [])


# Components of patterns: of many stars, and of parts that are almost there at each byte of many.
STARRED = ("*a" * 30_000 + "*b", "a*" * 30_000 + "b", "*" * 60_000 + "b", f"*{'a' * 30_000}b*{'a' * 30_000}*",
           f"*{'a' * 60_000}b*", f"*b{'a' * 60_000}*", "*ab" * 20_000, f"{'a' * 40_000}*b*")


def matching(parts: Iterable[str]) -> str:
    """Returns words that ask for names of one component, or of more that are joined."""
    return " ".join(f"--match {part}@*" for part in parts)


def selections() -> list[Case]:
    """Returns removals by patterns, which only the last name fits, of versions and of doubles."""
    found = "removed {} kvno {} etype {} {}".format
    long, many = keytab(record(Entry((b"a" * 65_500,), b"").spelled()) * 254), keytab(record(
        Entry((b"",) * 65_000, b"").spelled()) * 125)
    kvnos = b"".join(record(replace(LEAST, version32=1_000 + at).spelled()) for at in range(256)) * (COUNT // 256)
    front, back = record(replace(LEAST, key=b"mark").spelled()).split(b"mark")
    return [over(name, f"ktremove -n {words} k", image, wanted) for name, words, image, wanted in (
        *((name, matching(patterns), image + record(Entry(last, b"").spelled()), [
            found(len(image), 3, 17, b"/".join(last).decode() + "@")]) for name, patterns, image, last in (
                ("stars", STARRED, long, (b"a" * 65_499 + b"b",)),
                ("components", ["*/" * 64_999 + end for end in "bcdefghi"], many, (b"",) * 64_999 + (b"b",)))),
        ("stars, short names", matching(STARRED),
         keytab(record(replace(LEAST, components=(b"a",)).spelled()) * 550_000), message(1, "k: refused 9")),
        ("versions", "--keep 255", keytab(kvnos), [found(it, 1_000, 0, "@") for it in PLACES[:-255:256]]),
        ("doubles", "--same", least(), [found(place, 0, 0, "@") for place in PLACES[1:]]),
        ("no doubles", "--same", keytab(*(front + number(at, 4) + back for at in range(500_000))), []))]


def lines() -> Case:
    """Returns a table of the most names."""
    front, name, back = record(replace(LEAST, components=(), realm=b"name", version32=None).spelled()).partition(b"name")
    count = (LIMIT - 2) // len(front + name + back)
    return with_room("a line for each of the most names", "show k",
                     k=keytab(*(front + number(each, 4) + back for each in range(count))))


def edits() -> list[Case]:
    """Returns short scripts that change keytabs, and the longest of small lines, some over the most entries."""
    script = b"start\nstep 0\ncut %d\n%b%brewrite\nstep 0\n" % (PLACES[-1], LEAST_ADD, LEAST_ADD)
    long_name = b"add 3 17 0 %b %b@R\n" % (HOST.key.hex().encode(), b"/".join([b"x" * 253] * 65_534))
    cuts = at_each(b"cut %d\n")
    return [
        with_room("a short script over the most entries", "ktedit k", script, 1, k=least()),
        with_room("the most holes", "ktedit k", b"start\nstep 0\nrewrite\n" + LEAST_ADD,
                  k=keytab(repeated(hole(b"x"), LIMIT - 2))),
        with_room("one entry as long as a script may be", "ktedit k", long_name),
        with_room("the most walks", "ktedit k", repeated(b"start\n"), 1, k=keytab()),
        with_room("the most additions", "ktedit k", repeated(LEAST_ADD), 1),
        with_room("each of the most entries goes and comes again", "ktedit k",
                  cuts + repeated(LEAST_ADD, min(COUNT * len(LEAST_ADD), LIMIT - len(cuts))), k=least()),
        with_room("the most steps", "ktedit k", b"start\n" + repeated(b"step 0\n", LIMIT - 6), k=least()),
        with_room("another as great in place of the greatest file", "hold -k k", frame(least()), k=sized(LIMIT)),
    ]


def talks() -> list[Case]:
    """Returns runs of ktutil over the longest inputs, and over the greatest files that it reads and writes."""
    return [
        with_room("the greatest file is copied", "ktutil", b"rkt k\nl\nwkt n\nrkt n\nclear\nl\n", k=least()),
        with_room("the most lines", "ktutil", repeated(b"\n")),
        with_room("the most new entries", "ktutil", repeated(b"addent -key -p @ -k 0 -e 0\n00\n", LIMIT - 2) + b"l\n"),
    ]
