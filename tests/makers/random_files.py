"""Random keytabs: any images, those to be changed, and those of few names, so that many entries share one. Random
caches: with any credentials, and with values under a few names. And damaged files: changed in bits, bytes, numbers or
length, or by bytes of another file."""

from collections.abc import Callable
from dataclasses import dataclass, replace
from random import Random

from keytabs.listings import NAMES
from makers.images import (BIG, CONFIG_FIRST, CONFIG_REALM, END, FLAGS, LITTLE, Credential, Entry, Name, cache, config,
                           encrypted, header_field, hole, integer, keytab, number, offset, own_server, record, ticket)
from peers import corpus

KEYTABS = [image for _, image in corpus.files("keytab")]  # keytabs of other programs
# Lengths that run past the end, end the file, or are cut off.
LENGTHS = [END, b"\0", b"\0\0\0\1", b"\x7f\xff\xff\xff", b"\x80\0\0\0", b"\xff\xff\xff\xff"]


def random_bytes(random: Random, most: int) -> bytes:
    """Returns bytes. Names quote many of them."""
    return bytes(random.choices(b"/@\\\n\t\b\0abcxyz\xff\xc3\xa9 ", k=random.randrange(most + 1)))


def renumbered(random: Random, image: bytes) -> bytes:
    """Returns the file with a small number, maybe a count or a length, a little off, or far too great."""
    width, order = random.choice([2, 4, 4]), random.choice([BIG, BIG, LITTLE])
    high = slice(0, width // 2) if order == BIG else slice(width // 2, width)
    places = [at for at in range(len(image) - width + 1) if not any(image[at:at + width][high])]
    if not places:
        return image
    at = random.choice(places)
    old, rest, sign = int.from_bytes(image[at:at + width], order), len(image) - at - width, 2 ** (8 * width - 1)
    new = random.choice([old - 4, old - 1, old + 1, old + 4, -old, rest - 1, rest, rest + 1, -rest, -rest - 1, 0, 1, 2,
                         -1, sign, sign - 1, 2**16, 2**16 - 1])
    return image[:at] + number(new % (2 * sign), width, order) + image[at + width:]


def recut(random: Random, image: bytes, other: bytes) -> bytes:
    """Returns the file with bits or bytes changed, removed, repeated, overwritten, cut off, or put in."""
    at, begin, place = (random.randrange(bound) for bound in (len(image), len(other), len(image) + 1))
    to = min(len(image), at + random.choice([1, 1, 2, 4, 20, 100]))
    byte = random.choice([*b"\0\1\x7f\x80\xff", random.randrange(256), *[image[at] ^ 1 << random.randrange(8)] * 6])
    most = min(len(image), 4) if random.random() < 0.5 else len(image)
    more = random.choice([bytes, random.randbytes])(random.choice([1, 2, 3, 4, 8, 30]))
    return random.choice([
        *[image[:at] + bytes([byte]) + image[at + 1:]] * 5, image[:at] + image[to:], image[:to] + image[at:],
        image[:at] + other[begin:begin + to - at] + image[to:], *[image[:at] + other[begin:]] * 2,
        *[image[:random.randrange(most)]] * 3, image[:place] + more + image[place:],
    ])


def damaged(random: Random, image: bytes, other: bytes) -> bytes:
    """Returns the file with up to three changes, mostly one."""
    for _ in range(random.choice([1, 1, 1, 2, 3])):
        if image:
            image = renumbered(random, image) if random.random() < 0.3 else recut(random, image, other)
    return image


def mutated(random: Random, samples: list[bytes]) -> bytes:
    """Returns one of those files, with changes, or sometimes without."""
    image = random.choice(samples)
    return image if random.random() < 0.02 else damaged(random, image, random.choice(samples))


def random_part(random: Random, version: int, order: str, is_sound: bool) -> bytes:
    """Returns a record of any fields, perhaps with bytes after its entry, or a hole that may have room for an entry.
    If it need not be sound, it may count its components wrongly, be cut off, or be an odd length."""
    kind = random.random()
    if kind < 0.3:
        is_odd = kind < 0.1 and not is_sound
        return random.choice(LENGTHS) if is_odd else hole(random.randbytes(random.randrange(1, 130)), order)
    entry = Entry(
        components=tuple(random_bytes(random, 5) for _ in range(random.choice([0, 1, 2, 2, 3]))),
        realm=random_bytes(random, 4), name_type=random.randrange(2**32), timestamp=random.randrange(2**32),
        version8=random.randrange(2**8), enctype=random.randrange(2**16), key=random_bytes(random, 20),
        version32=random.choice([None, 0, random.randrange(300), random.randrange(2**32)]),
        count=random.randrange(5) if random.random() < 0.1 and not is_sound else None,
    ).spelled(version, order) + bytes(random.choice([0, 0, 1, 4, 30]))
    return record(entry if is_sound or random.random() < 0.95 else entry[:random.randrange(1, len(entry))], order)


def random_image(random: Random) -> bytes:
    """Returns a keytab of up to five parts, sometimes of no known version, damaged a third of the time."""
    version = random.choice([1, 1, 2, 2, 2, 3])
    order = random.choice([BIG, LITTLE]) if version == 1 else BIG
    image = keytab(*(random_part(random, version, order, False) for _ in range(random.randrange(6))), version=version)
    return damaged(random, image, image) if random.random() < 0.35 else image


def random_keytab(random: Random, most: int = 7) -> tuple[bytes, bool]:
    """Returns a keytab of at most that many parts, and whether it is read as big-endian. Some are damaged or none."""
    v1_big = random.random() < 0.3
    kind = random.random()
    if kind < 0.1:
        return random_image(random), v1_big
    if kind < 0.2:
        return mutated(random, KEYTABS), v1_big
    version = random.choice([1, 2, 2, 2])
    order = BIG if version == 2 or v1_big else LITTLE
    parts = [random_part(random, version, order, True) for _ in range(random.randrange(most + 1))]
    if random.random() < 0.2:
        parts += [END, random_bytes(random, 120)]
    return keytab(*parts, version=version), v1_big


@dataclass(frozen=True)
class Choices:
    """What the fields of entries are chosen from. A name is its components followed by a realm."""

    names: tuple[tuple[bytes, ...], ...]
    versions: tuple[int, ...]
    enctypes: tuple[int, ...]
    timestamps: tuple[int, ...] = (Entry.timestamp,)
    keys: tuple[bytes, ...] = (b"", b"\0", b"\0\0")

    def random_part(self, random: Random, version: int, order: str) -> bytes:
        """Returns a record, a hole, or sometimes an odd part."""
        *components, realm = random.choice(self.names)
        kvno = random.choice(self.versions)
        wide = kvno > 255 or random.random() < 0.5
        data = Entry(tuple(components), realm, random.randrange(3), random.choice(self.timestamps), kvno % 256,
                     random.choice(self.enctypes), random.choice(self.keys), kvno if wide else None,
                     ).spelled(version, order)
        kind = random.random()
        if kind < 0.86:
            return record(data + bytes(random.randrange(4)) * wide, order)
        if kind < 0.98:
            return hole(data, order)
        return random.choice([END, b"\0", record(b"\0", order), b"\x7f\xff\xff\xff"])

    def random_keytab(self, random: Random) -> tuple[bytes, bool]:
        """Returns a keytab of a few parts, and whether it is big-endian if it is of version 1."""
        version, is_big = random.choice([1, 2, 2]), random.random() < 0.5
        order = BIG if version == 2 or is_big else LITTLE
        parts = [self.random_part(random, version, order) for _ in range(random.randrange(12))]
        return keytab(*parts, version=version), is_big


CACHES = [image for _, image in corpus.files("ccache")]  # caches of other programs
KEYS = [b"k", b"l", b"pa_type", b"\\x00", b"\x00", b"-"]  # few, so that many values replace others
PRINCIPALS = [b"-", b"-", b"krbtgt/R@R", b"a@R", b"\\a@R", b"\xff@"]  # few, likewise
ETYPES = (17, 18, 19, 20, 23, 25, 26, 16, 0, -1, 65_535, 65_536, -2**31, 2**31 - 1)  # of tickets in DER
KVNOS = (None, None, 0, 1, 2, 127, 128, 255, 2**31 - 1, 2**31, 2**32 - 1, -1, -2**31)  # of tickets in DER

OWN_SERVERS = [Name((b"host", b"a"))] * 3 + [Name(()), Name((b"a\n@", b""), b"")]  # those that tickets name themselves


def random_number(random: Random, bits: int) -> int:
    """Returns a number of that many bits, often the least or the greatest."""
    return random.choice([0, 2**bits - 1, random.randrange(2**bits), random.randrange(30)])


def random_name(random: Random, may_be_config: bool = True) -> Name:
    """Returns a name, sometimes of a configuration entry, or close to one, if it may be."""
    parts = [random_bytes(random, 6) for _ in range(random.choice([0, 1, 1, 2, 2, 3]))]
    realm = random_bytes(random, 4)
    if may_be_config and random.random() < 0.4:
        realm = random.choice([CONFIG_REALM] * 8 + [CONFIG_REALM[:-1], b"X-RMED-CONF:"])
        first = random.choice([CONFIG_FIRST] * 8 + [CONFIG_FIRST + b"x"])
        parts = [first, *(random.randbytes(random.randrange(5)) for _ in range(random.choice([1, 1, 2, 2, 2, 0, 3])))]
    return Name(tuple(parts), realm, random_number(random, 32))


def random_list(random: Random) -> tuple[tuple[int, bytes], ...]:
    """Returns addresses, or elements of authorization data; mostly none."""
    return tuple((random.randrange(2**16), random_bytes(random, 9)) for _ in range(random.choice([0, 0, 0, 1, 2, 5])))


def random_times(random: Random) -> dict[str, int]:
    """Returns the four times, some 0; the removed mark and pairs close to it are frequent."""
    times = [random.choice([0, 1_700_000_000, random_number(random, 32)]) for _ in range(4)]
    if random.random() < 0.3:
        times[0] = random.choice([2**32 - 1] * 4 + [0, 2**32 - 2])
        times[2] = random.choice([0] * 4 + [1])
    return dict(zip(("authtime", "starttime", "endtime", "renew_till"), times, strict=True))


def random_ticket(random: Random) -> bytes:
    """Returns a ticket in DER, sometimes damaged."""
    kvno = random.choice(KVNOS)
    server, name_type = random.choice([*OWN_SERVERS, random_name(random)]), random.choice((*ETYPES, 2**31, -2**31 - 1))
    made = ticket(encrypted(integer(random.choice(ETYPES)), None if kvno is None else integer(kvno),
                            bytes(random.choice([0, 20, 60, 110, 300]))), own_server(server, integer(name_type)))
    return damaged(random, made, made) if random.random() < 0.5 else made


def random_credential(random: Random) -> Credential:
    """Returns a credential with any fields."""
    one_flag = random.choice([*FLAGS.values(), 2 ** random.randrange(32)])
    return Credential(
        client=random_name(random), server=random_name(random),
        enctype=random.choice([*NAMES, random_number(random, 16)]),
        second_enctype=random.choice([None, random_number(random, 16)]),
        key=random_bytes(random, 20), is_skey=random.choice([0, 1, 255]),
        flags=random.choice([0, 2**32 - 1, one_flag, random.randrange(2**32)]),
        addresses=random_list(random), authdata=random_list(random),
        ticket=random.choice([random_ticket(random), random.randbytes(random.choice([0, 1, 3, 20, 300]))]),
        second_ticket=random_bytes(random, 12), **random_times(random),
    )


def random_header(random: Random) -> bytes:
    """Returns the fields of a header, rarely with bytes that are not a field."""
    fields = random.choices([offset(5, -10), offset(-300, 2**31 - 1), header_field(1, random_bytes(random, 9)),
                             header_field(random.randrange(2**16), random_bytes(random, 20))],
                            k=random.choice([0, 1, 1, 2, 4]))
    return b"".join(fields) + (random_bytes(random, 5) if random.random() < 0.05 else b"")


def random_cache(random: Random) -> bytes:
    """Returns a cache of up to five credentials."""
    version = random.choice([3, 4, 4])
    those = [random_credential(random) for _ in range(random.randrange(6))]
    if random.random() < 0.05:
        off = number(random_number(random, 32), 4)
        those.append(replace(random_credential(random), client=Name(count=int.from_bytes(off))))
    return cache(*those, default=random_name(random), fields=random_header(random), version=version)


def random_value(random: Random) -> bytes:
    """Returns a value: any bytes of a line."""
    return random.randbytes(random.choice([0, 1, 2, 30])).replace(b"\n", b" ")


def random_setting(random: Random, default: Name) -> Credential:
    """Returns a configuration entry, sometimes of another client, removed, or with more fields."""
    client = replace(default, name_type=random.choice([default.name_type, 1, 7]))
    client = random_name(random) if random.random() < 0.1 else client
    principal = random.choice(PRINCIPALS)
    made = config(random.choice(KEYS), random_value(random), None if principal == b"-" else principal, client)
    if random.random() < 0.2:
        made = replace(random_credential(random), client=client, server=made.server)
    return made.removed() if random.random() < 0.2 else made


def filled_cache(random: Random, version: int, makers: list[Callable[[Random], Credential]], most: int) -> bytes:
    """Returns a sound cache of fewer than that many tickets, with values under a few names."""
    default = random_name(random, False)
    makers = [*makers, lambda random: random_setting(random, default)]
    cells = [random.choice(makers)(random) for _ in range(random.randrange(most))]
    return cache(*cells, default=default, fields=random_header(random), version=version)


def with_damage(random: Random, image: bytes, chance: float) -> bytes:
    """Returns the cache, damaged with that probability, or sometimes a damaged sample."""
    if random.random() < 0.1:
        return mutated(random, CACHES)
    return damaged(random, image, random_cache(random)) if random.random() < chance else image
