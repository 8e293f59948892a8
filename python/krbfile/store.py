"""What keytabs and caches share: a handle, the image of the file, and closing it."""
from __future__ import annotations

import ctypes
import os
from collections.abc import Callable, Iterator, Sequence
from contextlib import suppress
from ctypes import byref, c_size_t, c_uint32, c_void_p
from threading import RLock
from typing import Any, Generic, TypeVar

from krbfile.files import USUAL_LIMIT, AnyPath, file_name, load
from krbfile.library import BAD_VERSION, END, Bytes, KrbfileError, Name, NotFound, check, export, named, number, text

Kept = TypeVar("Kept", bound="Store[Any]")
Seen = TypeVar("Seen")  # an entry or a ticket


def loaded(kind: type[Kept], opened: Callable[[bytes], Kept], path: AnyPath | None, limit: int) -> Kept:
    """Returns the keytab or the cache of a file. If it is none, its name is in the text of the error."""
    name = file_name(path, kind._kind)
    image = load(name, number(c_uint32, limit).value or USUAL_LIMIT)
    try:
        return opened(image)
    except KrbfileError as error:
        words = kind._others.get(image[:2]) if error.status == BAD_VERSION else None
        raise KrbfileError(error.status, f"{os.fsdecode(name)}: {words or error}") from None


class Store(Generic[Seen]):
    """A keytab or a cache. The lock is held from a call until the bytes that it returned are copied."""

    # The kind in the names of calls, what they fill, and what files of another kind begin with, in words.
    _kind: str
    _record: type[ctypes.Structure]
    _others: dict[bytes, str]
    _handle: c_void_p
    _lock: RLock
    _is_changed: bool

    def __new__(cls: type[Kept]) -> Kept:
        self = super().__new__(cls)
        self._handle, self._lock, self._is_changed = c_void_p(), RLock(), False
        return self

    @classmethod
    def _made(cls: type[Kept], name: str, *words: Any) -> Kept:
        """Returns what a call makes."""
        made = cls()
        check(export(f"krbf_{cls._kind}_{name}")(*words, byref(made._handle)))
        return made

    def __reduce__(self) -> Any:
        raise TypeError(f"a {type(self).__name__} is neither copied nor pickled; its image can be")

    def _do(self, name: str, *words: Any) -> bool:
        """Makes a call on the handle, and returns that it is done."""
        with self._lock:
            if not self._handle:
                raise ValueError("it is closed")
            return check(export(f"krbf_{self._kind}_{name}")(byref(self._handle), *words))

    def _change(self, name: str, *words: Any) -> None:
        """Makes a call that changes the image."""
        with self._lock:
            self._do(name, *words)
            self._is_changed = True

    def _shown(self, name: str, *words: Any) -> Seen:
        """Makes a call that fills a record, and returns a copy of that."""
        record = self._record()
        with self._lock:
            self._do(name, *words, byref(record))
            return self._read(record)

    def _found(self, name: Name, *words: Any) -> Seen:
        """Returns a copy of the record of that name."""
        try:
            return self._shown("find", *named(name), *words)
        except NotFound as error:
            raise NotFound(error.status, f"{text(named(name)[0].value or b'')}: {error}") from None

    def _read(self, record: Any) -> Seen:
        """Returns a copy of a record that a call filled."""
        raise NotImplementedError

    def _first(self) -> c_uint32:
        """Returns the cursor of a walk that begins."""
        raise NotImplementedError

    def _bytes(self, name: str, *words: Any) -> bytes:
        """Returns a copy of the bytes that a call returns."""
        found = Bytes()
        with self._lock:
            self._do(name, *words, byref(found))
            return found.read()

    def _name(self, name: str, *words: Any) -> bytes:
        """Returns the bytes of a name that a call writes into a buffer, which grows until the name fits."""
        size, length = 256, c_size_t()
        while True:
            room = ctypes.create_string_buffer(size)
            self._do(name, *words, room, c_size_t(size), byref(length))
            if length.value <= size:
                return room.raw[:length.value]
            size = length.value

    def _walk(self, cursor: c_uint32) -> Iterator[Seen]:
        """Yields the record of each step of a cursor, up to the end."""
        while True:
            try:
                found = self._shown("next", byref(cursor))
            except KrbfileError as error:
                if error.status == END:
                    return
                raise
            yield found

    def __iter__(self) -> Iterator[Seen]:
        return self._walk(self._first())

    def __len__(self) -> int:
        """Returns how many an iteration yields. A fault is no error here."""
        count = 0
        with self._lock, suppress(KrbfileError):
            cursor, record = self._first(), self._record()
            while True:
                self._do("next", byref(cursor), byref(record))
                count += 1
        return count

    def close(self) -> None:
        """Clears and frees the memory. May be called twice."""
        with self._lock:
            export(f"krbf_{self._kind}_close")(byref(self._handle))

    def __enter__(self: Kept) -> Kept:
        return self

    def __exit__(self, *_raised: object) -> None:
        self.close()

    def __del__(self) -> None:
        # One that was never made whole has no handle.
        if getattr(self, "_handle", None):
            self.close()

    @property
    def image(self) -> bytes:
        """The bytes of the file."""
        return self._bytes("image")

    @property
    def fault(self) -> tuple[int, int] | None:
        """The kind and the place of the fault, or None."""
        kind, place = c_uint32(), c_uint32()
        self._do("fault", byref(kind), byref(place))
        return (kind.value, place.value) if kind else None

    def remove_at(self, place: int) -> None:
        """Removes the record at a place."""
        self._change("remove_at", number(c_uint32, place))

    def rewrite(self, cursors: Sequence[int] = ()) -> list[int]:
        """Rewrites all records without what was removed; returns the cursors carried along."""
        numbers = [number(c_uint32, cursor) for cursor in cursors]
        carried = (c_uint32 * len(numbers))(*numbers)
        self._change("rewrite", carried, c_size_t(len(carried)))
        return list(carried)
