"""Credential caches."""
from __future__ import annotations

from ctypes import byref, c_int32, c_uint32
from dataclasses import dataclass, field
from datetime import datetime, timedelta

from krbfile.files import AnyPath, file_name, make
from krbfile.library import (NUMBERS, EncryptionRecord, Name, NameTypes, Numbers, Parts, TicketRecord, etype_of, found,
                             in_utc, joined, named, number, parted, sized, text)
from krbfile.store import Store, loaded


@dataclass(frozen=True)
class Ticket:
    """A ticket or a configuration entry, and its place. Times are seconds since 1970; `addresses` and `authdata` are
    pairs of a type and bytes; names have types too. `ticket_enctype`, `ticket_kvno` and `ticket_server` are what
    `ticket` itself says, if it can be read."""

    place: int
    client: str
    server: str
    enctype: int
    key: bytes = field(repr=False)
    authtime: int
    starttime: int
    endtime: int
    renew_till: int
    flags: int
    is_skey: bool
    is_config: bool
    ticket: bytes = field(repr=False)
    second_ticket: bytes = field(repr=False)
    addresses: Parts = ()
    authdata: Parts = field(default=(), repr=False)
    client_type: int = 1
    server_type: int = 1
    ticket_enctype: int | None = field(default=None, compare=False)
    ticket_kvno: int | None = field(default=None, compare=False)
    ticket_server: str | None = field(default=None, compare=False)

    @property
    def authtime_utc(self) -> datetime | None:
        """The authtime as a time in UTC, or None for 0."""
        return in_utc(self.authtime)

    @property
    def starttime_utc(self) -> datetime | None:
        """The starttime as a time in UTC, or None for 0."""
        return in_utc(self.starttime)

    @property
    def endtime_utc(self) -> datetime | None:
        """The endtime as a time in UTC, or None for 0."""
        return in_utc(self.endtime)

    @property
    def renew_till_utc(self) -> datetime | None:
        """The time until which it can be renewed, in UTC, or None for 0."""
        return in_utc(self.renew_till)


class Cache(Store[Ticket]):
    """A credential cache. Iterating over it yields its tickets and configuration entries."""

    _kind, _record = "cc", TicketRecord
    _others = dict.fromkeys((b"\5\1", b"\5\2"), "a keytab, or a cache of version 1 or 2 (not read)")

    @classmethod
    def create(cls, principal: Name, limit: int = 0) -> Cache:
        """Returns an empty cache with a default principal."""
        return cls._made("create", *named(principal), number(c_uint32, limit))

    @classmethod
    def open(cls, image: bytes, *, limit: int = 0) -> Cache:
        """Returns the cache of an image."""
        return cls._made("open", *sized(image), number(c_uint32, limit))

    @classmethod
    def load(cls, path: AnyPath | None = None, *, limit: int = 0) -> Cache:
        """Returns the cache of a file, by default the default cache."""
        return loaded(cls, lambda image: cls.open(image, limit=limit), path, limit)

    def save(self, path: AnyPath) -> None:
        """Saves the cache to a new file, which only its owner may read. Raises `FileExistsError` if there is one."""
        make(file_name(path, self._kind), self.image)

    @property
    def principal(self) -> str:
        """The default principal."""
        return text(self._name("principal"))

    @property
    def offset(self) -> timedelta | None:
        """The clock offset that the header has, or None."""
        seconds, micros = c_int32(), c_int32()
        has_one = found(self._do, "offset", byref(seconds), byref(micros))
        return timedelta(seconds=seconds.value, microseconds=micros.value) if has_one else None

    def _read(self, ticket: TicketRecord) -> Ticket:
        place = c_uint32(ticket.place)
        numbers = {name: getattr(ticket, name) for name in NUMBERS if name != "is_skey"}
        own, own_server = EncryptionRecord(), found(self._name, "ticket_server", place)
        types = NameTypes()
        self._do("name_types", place, byref(types))
        is_read = found(self._do, "ticket_encryption", place, byref(own))
        return Ticket(
            place=ticket.place, client=text(self._name("client", place)), server=text(self._name("server", place)),
            key=ticket.key.read(), ticket=ticket.ticket.read(), second_ticket=ticket.second_ticket.read(),
            is_skey=bool(ticket.is_skey), is_config=bool(ticket.is_config), **numbers,
            addresses=parted(self._bytes("addresses", place)), authdata=parted(self._bytes("authdata", place)),
            client_type=types.client, server_type=types.server,
            ticket_enctype=own.enctype if is_read else None, ticket_kvno=own.kvno if own.has_kvno else None,
            ticket_server=None if own_server is None else text(own_server),
        )

    def _first(self) -> c_uint32:
        cursor = c_uint32()
        self._do("first", byref(cursor))
        return cursor

    def find(self, server: Name) -> Ticket:
        """Returns the first ticket for a server."""
        return self._found(server)

    def store(self, ticket: Ticket) -> int:
        """Stores a ticket, ignoring its `place`, and returns the place where it is stored. So one of another
        cache is copied:

            ticket = Cache.load("alice.ccache").find("krbtgt/EXAMPLE.ORG@EXAMPLE.ORG")
            with edit_cache("krb5cc_0") as cache:
                cache.store(ticket)
        """
        others = (number(c_uint32, getattr(ticket, name)).value for name in NUMBERS if name != "enctype")
        numbers = Numbers(etype_of(ticket.enctype).value, *others)
        place = c_uint32()
        names = (*named(ticket.client), *named(ticket.server))
        parts = (*sized(ticket.key), *sized(ticket.ticket), *sized(ticket.second_ticket))
        lists = (*joined(ticket.addresses), *joined(ticket.authdata))
        types = NameTypes(number(c_uint32, ticket.client_type), number(c_uint32, ticket.server_type))
        self._change("store_with", *names, *parts, *lists, byref(numbers), byref(types), byref(place))
        return place.value

    def config(self, key: Name, principal: Name = b"") -> bytes | None:
        """Returns the value of a key, for a principal or the whole cache, or None if not set."""
        return found(self._bytes, "config", *named(key), *named(principal))

    def set_config(self, key: Name, value: bytes, principal: Name = b"") -> int:
        """Sets a value and returns the place of its entry."""
        place = c_uint32()
        self._change("set_config", *named(key), *named(principal), *sized(value), byref(place))
        return place.value
