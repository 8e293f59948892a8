"""Random runs that read: listings, views, look-ups, checks and questions, over random and damaged files."""

from collections.abc import Iterator
from dataclasses import replace
from random import Random

from computed.batches import Topic
from keytabs.listings import KNOWN_TIMES
from makers.images import CONFIG_FIRST, CONFIG_REALM, TWO, Credential, Name, cache, name_text, ticket_of
from makers.random_files import (CACHES, KEYTABS, Choices, damaged, mutated, random_cache, random_credential,
                                 random_header, random_image, with_damage)
from runs.undisturbed import Undisturbed, undisturbed
from words.phrases import FINDINGS

# Few names, versions, types and keys, so that many entries agree.
FOUND = Choices(names=(*[(b"a", b"R")] * 5, (b"a", b"b", b"R"), (b"a/b", b"R"), (b"", b"\n", b"@"), (b"\n", b"@"),
                       (b"-A", b"R")), versions=(0, 1, 255, 256, 257, 2**32 - 1), enctypes=(0, 17, 18, 273))
CHECKED = Choices(names=((b"a", b"R"), (b"a", b"b", b"R"), (b"", b"R"), (b"R",), (b"\xff ", b"R"),
                         ("é\t".encode(), b"R")),
                  versions=(1, 240), enctypes=(3, 17, 23), timestamps=(0, 1, 2**32 - 1),
                  keys=(b"", b"x", b"x", b"y", bytes(16)))
MATCHED = Choices(names=(*[(b"a", b"R")] * 6, (b"A", b"R"), (b"a", b"S"), (b"krbtgt", b"R"), (b"R",)),
                  versions=(0, 1, 1, 1, 44, 255, 257, 300, 2**32 - 1), enctypes=(17, 17, 17, 18, 2**16 - 1),
                  timestamps=(0, 1, 2))
TICKET_KVNOS = (None, 0, 1, 1, 1, 44, 255, 257, 300, 513, 2**32 - 1, -212)
WANTED = ("a@R", r"\a@R", "a/b@R", "@R", r"a\/b@R", r"é\t@R", "c@R")

SERVERS = [*[Name((b"krbtgt", b"R"))] * 3, *[Name((b"host", b"a"), b"")] * 3, Name((b"host", b"a")),
           Name((b"host", b"a"), name_type=3), Name((b"host/a",)), Name(()), Name((b"",)), Name((b"a\n@",), b"R@S"),
           Name((CONFIG_FIRST, b"k"), CONFIG_REALM), Name((CONFIG_FIRST,), CONFIG_REALM),
           *[Name((b"Encrypted",), b"X-GSSPROXY:")] * 2]

# The names of keytabs and of caches that are listed: mostly one, some of several that are missing or of another type.
SEVERAL = [("k",), ("k",), ("k", "j"), ("no", "k", "k"), ("KCM:k", "j", "FILE:k")]
CACHE_NAMES = [("c",), ("c",), ("c", "DIR::c"), ("DIR:c", "c", "no", "c")]

NOW = 1_700_000_000  # the time of the clock
TIMES = [*KNOWN_TIMES, NOW - 1, NOW + 1, NOW + 19_220]  # before it, at it and after it
WHILES = (None, 0, 1, 1_000, 2**32 - 1)


def options(random: Random, *words: str) -> tuple[str, ...]:
    """Returns some of those words."""
    return tuple(word for word in words if random.random() < 0.4)


def keytab_listing(random: Random) -> Iterator[Undisturbed]:
    """Yields a listing of a keytab, and the same as JSON."""
    image = mutated(random, KEYTABS) if random.random() < 0.5 else random_image(random)
    words = ("-k", *options(random, "-t", "-e", "-K", "--v1-big"))
    for json in ((), ("--json",)):
        yield undisturbed(("klist", *words, *json, *random.choice(SEVERAL)), k=image, j=TWO)


def cache_listing(random: Random) -> Iterator[Undisturbed]:
    """Yields a listing of a cache, and the same as JSON."""
    image = mutated(random, CACHES) if random.random() < 0.4 else with_damage(random, random_cache(random), 0.5)
    if random.random() < 0.08:
        image = random.choice([image[: random.randrange(5)], b"\x05" + random.randbytes(30)])
    words = options(random, "-c", "-e", "-f", "-C")
    for json in ((), ("--json",)):
        yield undisturbed(("klist", *words, *json, *random.choice(CACHE_NAMES)), c=image)


def overview(random: Random) -> Iterator[Undisturbed]:
    """Yields an overview of up to four caches, and the same as JSON."""
    files = {name: with_damage(random, cache_of_tickets(random), 0.1) for name in "cd"}
    words = random.choices([*"cdcdn", "FILE:c", "DIR::d", "DIR:d", "KCM:0"], k=random.choice((1, 2, 4)))
    for json in ((), ("--json",)):
        yield undisturbed(("klist", "-l", *options(random, "-c"), *json, *words), clock=NOW, **files)


def look_up(random: Random) -> Iterator[Undisturbed]:
    """Yields a look-up in a keytab, which is mostly read in its own byte order."""
    image, is_big = FOUND.random_keytab(random)
    big = ("--v1-big",) if is_big != (random.random() < 0.1) else ()
    kvno, etype = (random.choice([0] * 6 + [*those]) for those in (FOUND.versions, FOUND.enctypes))
    name = name_text(random.choice(FOUND.names))
    yield undisturbed(("ktfind", *big, "k", str(kvno), str(etype), "--", name), k=image)


def random_place(random: Random) -> bytes | None:
    """Returns what is under a name: mostly a keytab of a few parts."""
    kind = random.random()
    if kind < 0.1:
        return random.choice((None, b"", b"\x05", b"\x05\x04"))
    image = TWO if kind < 0.2 else CHECKED.random_keytab(random)[0]
    return damaged(random, image, image) if random.random() < 0.1 else image


def checked(random: Random) -> Iterator[Undisturbed]:
    """Yields a check of up to six files."""
    files = {name: random_place(random) for name in "kjid"}
    words = random.choices([*"kjid", "FILE:k", "WRFILE:j", "KCM:k"], k=random.choice((1, 1, 2, 3, 6)))
    allowed = [f"--allow={word}" for word in random.choices([*FINDINGS], k=random.choice((0, 0, 1, 5)))]
    wanted = [f"--want={name}" for name in random.choices(WANTED, k=random.choice((0, 0, 1, 3)))]
    wanted += ["--only"] * (random.random() < (0.5 if wanted else 0.02))
    older = f"--older={random.choice((0, 1, NOW - 1, NOW, 2**32 - 1))}"
    others = options(random, "-H", "--json", "-q", "--v1-big", older)
    yield undisturbed(("ktcheck", *allowed, *wanted, *others, *words), clock=NOW, **files)


def random_ticket(random: Random) -> Credential:
    """Returns a ticket for one of the servers."""
    ticket = replace(random_credential(random), server=random.choice(SERVERS), endtime=random.choice(TIMES))
    return ticket.removed() if random.random() < 0.2 else ticket


def cache_of_tickets(random: Random) -> bytes:
    """Returns a cache of a few tickets."""
    tickets = (random_ticket(random) for _ in range(random.randrange(9)))
    return cache(*tickets, default=Name(realm=random.choice((b"R", b"R", b"S"))), fields=random_header(random),
                 version=random.choice((3, 4)))


def view(random: Random) -> Iterator[Undisturbed]:
    """Yields a view of up to four files of either kind."""
    files = {name: random_place(random) for name in "kj"}
    files |= {name: with_damage(random, cache_of_tickets(random), 0.1) for name in "cd"}
    words = random.choices([*"kjcdn", "FILE:c", "WRFILE:k", "DIR::d", "DIR:d"], k=random.choice((1, 2, 4)))
    yield undisturbed(("show", *options(random, "--v1-big"), *words), clock=NOW, **files)


def matched_ticket(random: Random) -> Credential:
    """Returns a ticket for one of few services, sometimes for another to the cache, or damaged."""
    names = [Name(tuple(parts), realm) for *parts, realm in MATCHED.names]
    own, other = random.choice(names), random.choice([*names, *SERVERS])
    made = ticket_of(own, random.choice((17, 17, 17, 18, -1)), random.choice(TICKET_KVNOS),
                     is_skey=int(random.random() < 0.1), server=own if random.random() < 0.75 else other)
    return replace(made, ticket=damaged(random, made.ticket, b"tkt")) if random.random() < 0.1 else made


def match(random: Random) -> Iterator[Undisturbed]:
    """Yields what is said of the tickets of up to three caches, and the same as JSON."""
    image, is_big = MATCHED.random_keytab(random)
    files = {name: with_damage(random, cache(*(matched_ticket(random) for _ in range(random.randrange(7)))), 0.1)
             for name in "cd"}
    asked = [b"-p" + name_text(name) for name in random.choices(MATCHED.names, k=random.choice((0, 0, 1, 2)))]
    asked += [b"--match=" + it for it in random.choices((b"*@*", b"a@*", b"*/R@R", b"@R"), k=random.choice((0, 0, 1)))]
    words = (*options(random, "-q", "-H"), *("--v1-big",) * is_big, *asked, "k",
             *random.choices([*"ccccddkn", "DIR::d"], k=random.choice((1, 1, 2, 3))))
    for json in ((), ("--json",)):
        yield undisturbed(("ktmatch", *json, *words), k=image, **files)


def question(random: Random) -> Iterator[Undisturbed]:
    """Yields a question whether a cache has a valid ticket, or one that is valid for a while."""
    made = cache_of_tickets(random)
    seconds = random.choice(WHILES)
    words = () if seconds is None else ("--for", str(seconds))
    yield undisturbed(("klist", "-s", *words, "c"), clock=NOW, c=with_damage(random, made, 0.1))


TOPICS = (
    Topic("random keytabs", keytab_listing, 100), Topic("random caches", cache_listing, 60),
    Topic("random overviews", overview, 40), Topic("random look-ups", look_up, 80), Topic("random views", view, 40),
    Topic("random checks", checked, 80), Topic("random matches", match, 80),
    Topic("random questions for tickets", question, 40),
)
