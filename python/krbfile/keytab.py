"""Keytabs."""
from __future__ import annotations

import re
import time
from collections.abc import Iterator
from ctypes import byref, c_int32, c_size_t, c_uint32
from dataclasses import dataclass, field, fields
from datetime import datetime

from krbfile.cache import Ticket
from krbfile.files import AnyPath
from krbfile.library import Enctype, EntryRecord, Name, etype_of, found, in_utc, named, number, sized, text
from krbfile.store import Store, loaded


@dataclass(frozen=True)
class Entry:
    """An entry of a keytab: its place, and its principal whole and in parts."""

    place: int
    principal: str
    realm: str
    components: tuple[str, ...]
    name_type: int
    timestamp: int
    kvno: int
    enctype: int
    key: bytes = field(repr=False)

    @property
    def timestamp_utc(self) -> datetime | None:
        """The timestamp as a time in UTC, or None for 0."""
        return in_utc(self.timestamp)


@dataclass(frozen=True)
class Finding:
    """What `krbfile ktcheck` finds of the entry at a place."""

    place: int
    weak: bool
    size: bool
    same: bool
    clash: bool
    old: bool
    nostrong: bool
    hidden: bool


# A component in the text of a name: a slash follows it, or an @ if it is the last.
_COMPONENT = re.compile(rb"([^\\/@]*(?:\\.[^\\/@]*)*)([/@])", re.DOTALL)
_ESCAPED = re.compile(rb"\\(.)", re.DOTALL)
_CONTROLS = {b"0": b"\0", b"b": b"\b", b"n": b"\n", b"t": b"\t"}


def _components(name: bytes) -> Iterator[str]:
    """Yields the components of a name's text, in one pass."""
    for component in _COMPONENT.finditer(name):
        yield text(_ESCAPED.sub(lambda found: _CONTROLS.get(found[1], found[1]), component[1]))
        if component[2] == b"@":
            return


class Keytab(Store[Entry]):
    """A keytab. Iterating over it yields its entries."""

    _kind, _record = "kt", EntryRecord
    _others = dict.fromkeys((b"\5\3", b"\5\4"), "it begins as a credential cache")

    @classmethod
    def create(cls, limit: int = 0) -> Keytab:
        """Returns an empty keytab, whose image has at most `limit` bytes (0: 16 MiB)."""
        return cls._made("create", number(c_uint32, limit))

    @classmethod
    def open(cls, image: bytes, *, v1_big: bool = False, limit: int = 0) -> Keytab:
        """Returns the keytab of an image."""
        return cls._made("open", *sized(image), number(c_uint32, v1_big), number(c_uint32, limit))

    @classmethod
    def load(cls, path: AnyPath | None = None, *, v1_big: bool = False, limit: int = 0) -> Keytab:
        """Returns the keytab of a file, by default the default keytab."""
        return loaded(cls, lambda image: cls.open(image, v1_big=v1_big, limit=limit), path, limit)

    def _read(self, entry: EntryRecord) -> Entry:
        name = self._name("name", c_uint32(entry.place))
        return Entry(
            place=entry.place, principal=text(name), realm=text(entry.realm.read()), name_type=entry.name_type,
            components=tuple(_components(name)) if entry.components else (), timestamp=entry.timestamp,
            kvno=entry.kvno, enctype=entry.enctype, key=entry.key.read(),
        )

    def _first(self) -> c_uint32:
        return c_uint32(2)

    def find(self, principal: Name, kvno: int = 0, enctype: Enctype = 0) -> Entry:
        """Returns the entry of a principal; version 0 means the highest, enctype 0 any."""
        return self._found(principal, number(c_uint32, kvno), etype_of(enctype))

    def add(self, principal: Name, kvno: int, enctype: Enctype, key: bytes, timestamp: int | None = None) -> int:
        """Adds an entry, by default of the current time, and returns its place."""
        place, when = c_uint32(), int(time.time()) if timestamp is None else timestamp
        numbers = (number(c_uint32, when), number(c_uint32, kvno), etype_of(enctype))
        self._change("add", *named(principal), *numbers, *sized(key), byref(place))
        return place.value

    def opens(self, ticket: Ticket) -> Entry | None:
        """Returns the entry that opens a ticket, as `krbfile ktmatch` says, or None. The key is not tried."""
        if ticket.is_skey or ticket.is_config or ticket.ticket_enctype is None:
            return None
        name = ticket.server if ticket.ticket_server is None else ticket.ticket_server
        numbers = number(c_uint32, ticket.ticket_kvno or 0), number(c_int32, ticket.ticket_enctype)
        return found(self._shown, "opens", *named(name), *numbers)

    def findings(self) -> list[Finding]:
        """Returns what `krbfile ktcheck` finds of entries, in file order."""
        with self._lock:
            room, length = (c_uint32 * 2 * len(self))(), c_size_t()
            self._do("findings", room, c_size_t(len(room)), byref(length))
        # The bits are in the order of the fields after the place, from the lowest.
        order = range(len(fields(Finding)) - 1)
        return [Finding(place, *(bool(bits >> at & 1) for at in order)) for place, bits in room[:length.value]]

    def _those(self, finding: str) -> list[Entry]:
        """Returns the entries that have a finding."""
        with self._lock:
            places = [it.place for it in self.findings() if getattr(it, finding)]
            return [self._shown("entry", c_uint32(place)) for place in places]

    def old(self) -> list[Entry]:
        """Returns the entries of old versions."""
        return self._those("old")

    def weak(self) -> list[Entry]:
        """Returns the entries of weak encryption types."""
        return self._those("weak")
