"""The keytabs and caches of the benchmark, of versions 2 and 4. None is longer than 16,777,216 bytes, the most that
krbfile reads."""

from collections.abc import Iterator

from makers.images import Credential, Entry, Name, cache, keytab, offset

QUOTED = b"/@\\\n\t\b\0"  # the bytes that are quoted in a printed name
SHORT = Entry((b"host", b"a"), b"R", version8=1, version32=1, key=bytes(16))


def key(number: int, length: int) -> bytes:
    """Returns bytes that differ from entry to entry."""
    return (number * 0x9E3779B97F4A7C15 % 2**64).to_bytes(8, "big") * (length // 8)


def host(server: int) -> tuple[bytes, ...]:
    """Returns the components of a server's name."""
    return b"host", b"server%05d.ad.test" % server


def service(number: int) -> Entry:
    """Returns the entry of that number: each server has two, enctype 17 with 16 key bytes and 18 with 32."""
    enctype, length = ((17, 16), (18, 32))[number % 2]
    version = number // 2 % 300 + 1
    return Entry(host(number // 2), b"AD.TEST", version8=version % 256, enctype=enctype, key=key(number, length),
                 version32=version)


def services(entries: int, first: int = 0) -> bytes:
    """Returns that many entries of services."""
    return keytab(*map(service, range(first, first + entries)))


def damaged() -> Iterator[bytes]:
    """Returns a keytab cut at each byte, and with each byte replaced."""
    whole = keytab(service(0), 4, service(1))
    for at in range(len(whole)):
        yield whole[:at]
        yield from (whole[:at] + byte + whole[at + 1:] for byte in (b"\0", b"\xff"))


def holes(count: int) -> bytes:
    """Returns COUNT holes of one byte, with an entry before each tenth of them and one at the end."""
    return keytab(*[SHORT, *[1] * (count // 10)] * 10, SHORT)


def quoted(entries: int) -> bytes:
    """Returns entries whose name has 30,000 bytes. Each is printed as two."""
    name = (QUOTED * (30_000 // len(QUOTED) + 1))[:30_000]
    return keytab(*[Entry((name,), b"R", version8=1, version32=1, key=bytes(16))] * entries)


def holed(entries: int, roomy: int) -> bytes:
    """Returns services with a hole after each ten. From ROOMY on one of ten holes has room for an added entry."""
    parts = []
    for number in range(entries):
        parts.append(service(number))
        if number % 10 == 9:
            parts.append(100 if number >= roomy and number % 100 == 99 else 60)
    return keytab(*parts)


def ticket(number: int) -> Credential:
    """Returns a renewable ticket for a server, with a key of enctype 18."""
    start = 1_700_000_000 + number
    return Credential(Name((b"user",), b"AD.TEST"), Name(host(number), b"AD.TEST"), 18, key=key(number, 32),
                      authtime=start, starttime=start, endtime=start + 36_000, renew_till=start + 604_800,
                      flags=0x40A5_0000, ticket=key(number, 144))


def tickets(count: int) -> bytes:
    """Returns tickets for that many servers."""
    return cache(*map(ticket, range(count)), default=Name((b"user",), b"AD.TEST"), fields=offset(0, 0))
