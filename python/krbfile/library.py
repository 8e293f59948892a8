"""The C library: what its calls take and return."""
from __future__ import annotations

import ctypes
import os
from collections.abc import Callable, Sequence
from ctypes import byref, c_char_p, c_int32, c_size_t, c_uint16, c_uint32, c_void_p
from datetime import datetime, timezone
from operator import index
from struct import pack, unpack_from
from typing import Any, NamedTuple, TypeVar, Union

import krbfile
from krbfile.origin import MODULE, beside

DONE, END, BAD_VERSION = 0, 2, 12
NOT_THERE = (39, 40, 43)  # no such name, no such version, and no such encryption type

Name = Union[bytes, str]
Enctype = Union[int, str]  # an encryption type, by its number or its name
Parts = Sequence[tuple[int, bytes]]  # addresses or authorization data, each with its type
Number = TypeVar("Number", bound="ctypes._SimpleCData[int]")
Found = TypeVar("Found")

LIBRARY = "libkrbfile.so.1"
OWN = os.path.join(MODULE, LIBRARY)  # the library of a wheel

# A call keeps the interpreter's lock: releasing it would take longer than most calls.
try:
    exports = ctypes.PyDLL(OWN if os.path.exists(OWN) else beside("lib", LIBRARY) or LIBRARY)
except OSError as error:
    raise OSError(f"{error}; install libkrbfile, or set LD_LIBRARY_PATH to its folder") from None


def export(name: str) -> Any:
    """Returns a call of the library, which may be older than the module."""
    try:
        return getattr(exports, name)
    except AttributeError:
        why = f"{exports._name} has no {name}: install libkrbfile {krbfile.__version__}, or a later one"
        raise NotImplementedError(why) from None


class KrbfileError(Exception):
    """A call of the library was refused: `status` is its number in krbfile.h."""

    def __init__(self, status: int, words: str = "") -> None:
        phrase = Bytes()
        exports.krbf_phrase(status, byref(phrase))
        super().__init__(status, words or phrase.read().decode() or f"status {status}")
        self.status = status

    def __str__(self) -> str:
        return str(self.args[1])


class NotFound(KrbfileError, LookupError):
    """There is no such entry or ticket."""


class Bytes(ctypes.Structure):
    _fields_ = [("at", c_void_p), ("len", c_size_t)]

    def read(self) -> bytes:
        """Returns a copy of the bytes."""
        return ctypes.string_at(self.at, self.len) if self.len else b""


# Encryption types by the names that the program reads; of each the one that it prints is first.
Etype = NamedTuple("Etype", [("number", int), ("key_length", int)])
ETYPES = {name: Etype(which, key_length) for which, key_length, names in (
    (16, 24, "des3-cbc-sha1 des3 des3-hmac-sha1 des3-cbc-sha1-kd"),
    (17, 16, "aes128-cts-hmac-sha1-96 aes128 aes128-cts aes128-sha1"),
    (18, 32, "aes256-cts-hmac-sha1-96 aes256 aes256-cts aes256-sha1"),
    (19, 16, "aes128-cts-hmac-sha256-128 aes128-sha2"),
    (20, 32, "aes256-cts-hmac-sha384-192 aes256-sha2"),
    (23, 16, "arcfour-hmac rc4 rc4-hmac arcfour-hmac-md5"),
    (25, 16, "camellia128-cts-cmac camellia128 camellia128-cts"),
    (26, 32, "camellia256-cts-cmac camellia256 camellia256-cts"),
) for name in names.split()}


class EntryRecord(ctypes.Structure):
    _fields_ = [
        *((name, c_uint32) for name in ("place", "kvno", "timestamp", "name_type", "enctype")),
        ("components", c_size_t), ("realm", Bytes), ("key", Bytes),
    ]


NUMBERS = ("enctype", "authtime", "starttime", "endtime", "renew_till", "flags", "is_skey")


class Numbers(ctypes.Structure):
    _fields_ = [(name, c_uint32) for name in NUMBERS]


class NameTypes(ctypes.Structure):
    _fields_ = [("client", c_uint32), ("server", c_uint32)]


class TicketRecord(ctypes.Structure):
    _fields_ = [
        *((name, c_uint32) for name in ("place", *NUMBERS, "is_config")),
        ("key", Bytes), ("ticket", Bytes), ("second_ticket", Bytes),
    ]


class EncryptionRecord(ctypes.Structure):
    _fields_ = [("enctype", c_int32), ("kvno", c_uint32), ("has_kvno", c_uint32)]


def check(status: int) -> bool:
    """Returns that the status is `KRBF_DONE`, or raises `KrbfileError`."""
    if status != DONE:
        raise (NotFound if status in NOT_THERE else KrbfileError)(status)
    return True


def found(call: Callable[..., Found], *words: Any) -> Found | None:
    """Returns what a call returns, or None if there is none."""
    try:
        return call(*words)
    except NotFound:
        return None


def in_utc(seconds: int) -> datetime | None:
    """Returns seconds since 1970 as a time in UTC, or None for 0."""
    return datetime.fromtimestamp(seconds, timezone.utc) if seconds else None


def number(kind: type[Number], value: int) -> Number:
    """Returns a number as a C parameter, or raises `OverflowError` if it does not fit."""
    value = index(value)
    made = kind(value)
    if made.value != value:
        raise OverflowError(f"{value} does not fit {8 * ctypes.sizeof(kind)} bits")
    return made


def etype_of(given: Enctype) -> c_uint16:
    """Returns an encryption type as a C parameter."""
    if isinstance(given, str):
        if given.lower() not in ETYPES:
            raise ValueError(f"{given!r} is no encryption type")
        given = ETYPES[given.lower()].number
    return number(c_uint16, given)


def sized(data: bytes) -> tuple[c_char_p, c_size_t]:
    """Returns bytes as a pointer and a length."""
    # A subclass may have other ideas of its length, or of what `bytes` makes of it.
    data = data if type(data) is bytes else memoryview(data).tobytes()
    return c_char_p(data), c_size_t(len(data))


def text(name: bytes) -> str:
    """Returns the text of a name's bytes."""
    return name.decode("utf-8", "surrogateescape")


def named(name: Name) -> tuple[c_char_p, c_size_t]:
    """Returns a name, given as bytes or text, as a pointer and a length."""
    return sized(name.encode("utf-8", "surrogateescape") if isinstance(name, str) else name)


def parted(data: bytes) -> Parts:
    """Returns addresses or authorization data, given the bytes that the library has for them."""
    parts, at = [], 0
    while at < len(data):
        kind, length = unpack_from(">HL", data, at)
        at += 6 + length
        parts.append((kind, data[at - length:at]))
    return tuple(parts)


def joined(parts: Parts) -> tuple[c_char_p, c_size_t]:
    """Returns addresses or authorization data as a pointer and a length."""
    pairs = [(number(c_uint16, kind), memoryview(data).tobytes()) for kind, data in parts]
    return sized(b"".join(pack(">HL", kind.value, len(data)) + data for kind, data in pairs))
