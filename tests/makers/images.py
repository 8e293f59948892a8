"""Images of keytabs and of credential caches, made from the fields of the formats.

A keytab has records, each a signed length and bytes: a negative length is a hole, and 0 ends the file. Numbers are
big-endian, but in version 1 as its writer has them. A cache has a header in version 4, the default principal, and
credentials, which nothing counts or frames. Tickets in DER (RFC 4120 5.3) are last.
"""
from __future__ import annotations

from collections.abc import Callable
from dataclasses import dataclass, replace

BIG = "big"
LITTLE = "little"
END = bytes(4)  # the length that ends the file
SPECIAL = {47: b"\\/", 64: b"\\@", 92: b"\\\\", 10: b"\\n", 9: b"\\t", 8: b"\\b", 0: b"\\0"}  # in the text of a name


def name_text(name: tuple[bytes, ...]) -> bytes:
    """Returns the text of a name, which is its components followed by its realm."""
    *components, realm = (b"".join(SPECIAL.get(byte, bytes([byte])) for byte in part) for part in name)
    return b"/".join(components) + b"@" + realm


@dataclass(frozen=True)
class Entry:
    """The fields of an entry, without a 32-bit version if that is None."""

    components: tuple[bytes, ...] = (b"host", b"a")
    realm: bytes = b"R"
    name_type: int = 1
    timestamp: int = 1_700_000_000
    version8: int = 3
    enctype: int = 17
    key: bytes = bytes(range(16))
    version32: int | None = 3
    count: int | None = None  # the count of components that is written, if not the true one

    def spelled(self, version: int = 2, order: str = BIG) -> bytes:
        """Returns the entry's bytes. Version 1 counts the realm as a component, and has no name type."""
        count = len(self.components) + (version == 1) if self.count is None else self.count
        name_type = number(self.name_type, 4, order) if version == 2 else b""
        version32 = b"" if self.version32 is None else number(self.version32, 4, order)
        name = (counted(part, order) for part in (self.realm, *self.components))
        numbers = number(self.timestamp, 4, order), number(self.version8, 1, order), number(self.enctype, 2, order)
        return b"".join((number(count, 2, order), *name, name_type, *numbers, counted(self.key, order), version32))


HOST = Entry()  # host/a@R, 47 bytes in version 2, with the key 00 to 0f
B = Entry(components=(b"b",), key=bytes(range(16, 32)))  # b@R, 41 bytes, with the key 10 to 1f


def number(value: int, width: int, order: str = BIG) -> bytes:
    """Returns an unsigned number in that many bytes."""
    return value.to_bytes(width, order)


def counted(data: bytes, order: str = BIG) -> bytes:
    """Returns a 16-bit length, and the bytes."""
    return number(len(data), 2, order) + data


def record(data: bytes, order: str = BIG) -> bytes:
    """Returns a record of those bytes, with its length."""
    return len(data).to_bytes(4, order, signed=True) + data


def hole(data: bytes, order: str = BIG) -> bytes:
    """Returns a hole of those bytes, with its length, which is negative."""
    return (-len(data)).to_bytes(4, order, signed=True) + data


def keytab(*parts: Entry | int | bytes, version: int = 2, order: str = BIG) -> bytes:
    """Returns a keytab of entries, of holes of zeros given by their sizes, and of other bytes."""
    def spelled(part: Entry | int | bytes) -> bytes:
        if isinstance(part, Entry):
            return record(part.spelled(version, order), order)
        return hole(bytes(part), order) if isinstance(part, int) else part

    return bytes([5, version]) + b"".join(map(spelled, parts))


def old(*parts: Entry | int | bytes, order: str = LITTLE) -> bytes:
    """Returns a keytab of version 1."""
    return keytab(*parts, version=1, order=order)


TWO = keytab(HOST, B)  # the keytab of most cases: 98 bytes, with an entry at 2 and one at 53

CONFIG_REALM = b"X-CACHECONF:"  # the realm of the server of a configuration entry
CONFIG_FIRST = b"krb5_ccache_conf_data"  # the first component of that server
REMOVED = {"authtime": 2**32 - 1, "endtime": 0}  # the two times that mark a credential as removed

# The letters of a ticket's flags, in the order in which they are printed.
FLAGS = {
    b"F": 0x40000000, b"f": 0x20000000, b"P": 0x10000000, b"p": 0x08000000, b"D": 0x04000000, b"d": 0x02000000,
    b"i": 0x01000000, b"R": 0x00800000, b"I": 0x00400000, b"H": 0x00100000, b"A": 0x00200000, b"T": 0x00080000,
    b"O": 0x00040000, b"a": 0x00008000,
}

Typed = tuple[int, bytes]  # an address, or an element of the authorization data: its type and its bytes


@dataclass(frozen=True)
class Name:
    """A principal. Its count of components is the true one if `count` is None."""

    components: tuple[bytes, ...] = (b"u",)
    realm: bytes = b"R"
    name_type: int = 1
    count: int | None = None

    def spelled(self) -> bytes:
        """Returns the name's bytes."""
        count = len(self.components) if self.count is None else self.count
        parts = [number(self.name_type, 4), number(count, 4)]
        return b"".join([*parts, *map(counted32, (self.realm, *self.components))])


U = Name()
KRBTGT = Name((b"krbtgt", b"R"), name_type=2)


@dataclass(frozen=True)
class Credential:
    """The fields of a credential. Version 3 writes the enctype twice; None means the same again."""

    client: Name = U
    server: Name = KRBTGT
    enctype: int = 17
    second_enctype: int | None = None
    key: bytes = bytes(range(16))
    authtime: int = 1_700_000_000
    starttime: int = 0
    endtime: int = 1_700_036_000
    renew_till: int = 0
    is_skey: int = 0
    flags: int = 0x40E0_0000
    addresses: tuple[Typed, ...] = ()
    authdata: tuple[Typed, ...] = ()
    ticket: bytes = b"tkt"
    second_ticket: bytes = b""

    def spelled(self, version: int = 4) -> bytes:
        """Returns the credential's bytes."""
        again = number(self.enctype if self.second_enctype is None else self.second_enctype, 2) * (version == 3)
        times = (number(each, 4) for each in (self.authtime, self.starttime, self.endtime, self.renew_till))
        return b"".join((
            self.client.spelled(), self.server.spelled(), number(self.enctype, 2), again, counted32(self.key), *times,
            number(self.is_skey, 1), number(self.flags, 4), typed_list(self.addresses), typed_list(self.authdata),
            counted32(self.ticket), counted32(self.second_ticket)))

    def removed(self) -> Credential:
        """Returns the same with the removed mark."""
        return replace(self, **REMOVED)


def counted32(data: bytes) -> bytes:
    """Returns a 32-bit length, and the bytes."""
    return number(len(data), 4) + data


def typed_list(those: tuple[Typed, ...]) -> bytes:
    """Returns a 32-bit count, and each item as its 16-bit type and its data."""
    return number(len(those), 4) + b"".join(number(kind, 2) + counted32(data) for kind, data in those)


def config(key: bytes, value: bytes, principal: bytes | None = None, client: Name = U) -> Credential:
    """Returns a configuration entry: all unused fields are zero."""
    after = (key,) if principal is None else (key, principal)
    server = Name((CONFIG_FIRST, *after), CONFIG_REALM)
    return Credential(client, server, 0, key=b"", authtime=0, endtime=0, flags=0, ticket=value)


def header_field(tag: int, value: bytes) -> bytes:
    """Returns a field of a header."""
    return number(tag, 2) + counted(value)


def offset(seconds: int, micros: int) -> bytes:
    """Returns the header's field with the KDC's time offset."""
    return header_field(1, b"".join(value.to_bytes(4, "big", signed=True) for value in (seconds, micros)))


def cache(*cells: Credential | bytes, default: Name = U, fields: bytes = b"", version: int = 4) -> bytes:
    """Returns a cache of credentials and of other bytes. Version 3 has no header."""
    header = counted(fields) if version == 4 else b""
    spelled = (cell.spelled(version) if isinstance(cell, Credential) else cell for cell in cells)
    return bytes([5, version]) + header + default.spelled() + b"".join(spelled)


OFFSET = offset(5, -10)  # the field of a header that a rewrite keeps
FIELDS = header_field(9, b"\xab\xcd") + OFFSET  # the fields of a header: one of an unknown tag, and the offset
TICKET = Credential()
PA_TYPE = config(b"pa_type", b"2", b"krbtgt/R@R")  # a configuration entry
USUAL = cache(TICKET, PA_TYPE, TICKET.removed(), fields=FIELDS)  # of most cases, 392 bytes; they are at 40, 148 and 284
VERSION_3 = cache(replace(TICKET, second_enctype=23), version=3)  # its ticket, at 20, has two enctypes that differ


def config_ticket(*after: bytes, **changed) -> Credential:
    """Returns the ticket with the server of a configuration entry: its first component, and those after it."""
    return replace(TICKET, server=Name((CONFIG_FIRST, *after), CONFIG_REALM), **changed)


def element(tag: int, content: bytes, is_longer: bool = False) -> bytes:
    """Returns an element, with its length in its shortest form, or in the next that is longer."""
    size = len(content)
    if size < 128 and not is_longer:
        return bytes([tag, size]) + content
    digits = size.to_bytes((size.bit_length() + 7) // 8 + (is_longer and size > 127), "big")
    return bytes([tag, 128 + len(digits)]) + digits + content


def integer(number: int) -> bytes:
    """Returns the content of an INTEGER."""
    return number.to_bytes((number if number >= 0 else ~number).bit_length() // 8 + 1, "big", signed=True)


def encrypted(etype: bytes, kvno: bytes | None = None, cipher: bytes = b"cipher") -> bytes:
    """Returns the fields of an EncryptedData. The first are INTEGERs with these contents."""
    numbers = (element(0xA0 + at, element(2, it)) for at, it in enumerate((etype, kvno)) if it is not None)
    return b"".join((*numbers, element(0xA2, element(4, cipher))))


# The first fields of a ticket: its version, its realm and its service.
TICKET_VERSION = bytes.fromhex("a003020105")
TICKET_FIELDS = TICKET_VERSION + bytes.fromhex("a1031b0152 a2163014 a003020102 a10d300b 1b066b7262746774 1b0152")


def own_server(name: Name, name_type: bytes | None = None) -> bytes:
    """Returns the first fields of a ticket for that server, whose name type may be an INTEGER with another content."""
    content = integer(name.name_type) if name_type is None else name_type
    strings = b"".join(element(0x1B, component) for component in name.components)
    sname = element(0xA0, element(2, content)) + element(0xA1, element(0x30, strings))
    return TICKET_VERSION + element(0xA1, element(0x1B, name.realm)) + element(0xA2, element(0x30, sname))


def ticket(data: bytes, fields: bytes = TICKET_FIELDS, at: int = -1,
           odd: Callable[[int, bytes], bytes] = element) -> bytes:
    """Returns a ticket of those fields. Of the four elements around them number `at` from within is by `odd`."""
    for level, (tag, front) in enumerate(((0x30, b""), (0xA3, b""), (0x30, fields), (0x61, b""))):
        data = (odd if level == at else element)(tag, front + data)
    return data


def ticket_of(service: Name, etype: int = 17, kvno: int | None = 3, /, **more) -> Credential:
    """Returns a credential with a ticket for a service, by its own bytes too, under a key of that type and version."""
    own = ticket(encrypted(integer(etype), None if kvno is None else integer(kvno)), own_server(service))
    return replace(TICKET, **{"server": service, "ticket": own, **more})
