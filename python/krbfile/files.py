"""Names of files, as the program reads them; reads files, and makes new ones."""
from __future__ import annotations

import errno
import os
import re
import tempfile
from contextlib import suppress
from typing import Union

AnyPath = Union[str, bytes, "os.PathLike[str]", "os.PathLike[bytes]"]
FileName = Union[str, bytes]

TYPES = {"kt": (b"FILE:", b"WRFILE:"), "cc": (b"FILE:", b"DIR::")}  # types taken off names of keytabs and of caches
TYPED = re.compile(rb"[A-Za-z]{2,}:")  # how a name of any type begins
USUAL_LIMIT = 1 << 24  # the most bytes of a file, unless another limit is given

# Causes in the words of the program.
PHRASES = {
    errno.EPERM: "permission denied", errno.EACCES: "permission denied", errno.EROFS: "read-only file system",
    errno.ENOENT: "no such directory", errno.ENOTDIR: "not a directory", errno.EISDIR: "is a directory",
    errno.ELOOP: "too many links", errno.ENAMETOOLONG: "the name is too long", errno.EINTR: "interrupted",
    errno.ENOSPC: "no space left", errno.EDQUOT: "quota exceeded", errno.EIO: "input/output error",
    errno.EFBIG: "file too large for the file system",
}

NAME_OF_SAVES = "a name that ends in .krbfile is kept for saves"


def default_name(kind: str) -> str:
    """Returns the name in the environment, or else the usual one. krb5.conf is not read."""
    if kind == "kt":
        return os.environ.get("KRB5_KTNAME") or "/etc/krb5.keytab"
    return os.environ.get("KRB5CCNAME") or f"/tmp/krb5cc_{os.getuid()}"


def file_name(path: AnyPath | None, kind: str) -> FileName:
    """Returns a name without its type, by default the default name. One of another type is refused as missing."""
    given = os.fspath(default_name(kind) if path is None else path)
    name = os.fsencode(given)
    for prefix in TYPES[kind]:
        if name.startswith(prefix):
            return given[len(prefix):]
    if found := TYPED.match(name):
        why = f"only files are read, and this is {found[0].decode()}"
        if kind == "cc" and found[0] == b"DIR:":
            why = "a collection; give one of its caches, DIR::FILE"
        raise FileNotFoundError(errno.ENOENT, f"no such file: {why}", given)
    return given


def operand(name: FileName) -> str:
    """Returns a name as a word that the program reads neither as an option nor with a type."""
    word = os.fsdecode(name)
    return f"./{word}" if word.startswith("-") or TYPED.match(os.fsencode(name)) else word


def failed(what: str, error: OSError, name: FileName) -> OSError:
    """Returns the error again, in words: what could not be done to the file of that name, and why."""
    return OSError(error.errno, f"{what}: {PHRASES.get(error.errno or 0, f'error {error.errno}')}", name)


def within(image: bytes, name: FileName, limit: int) -> bytes:
    """Returns the bytes of a file. Refuses more of them than the limit."""
    if len(image) > limit:
        raise OSError(errno.EFBIG, f"file too large: it has more than {limit:,} bytes", name)
    return image


def load(name: FileName, limit: int) -> bytes:
    """Returns the bytes of a file."""
    try:
        with open(name, "rb") as file:
            image = file.read(limit + 1)
    except FileNotFoundError:
        raise FileNotFoundError(errno.ENOENT, "no such file", name) from None
    except OSError as error:
        raise failed("cannot read", error, name) from error
    return within(image, name, limit)


def make(name: FileName, data: bytes) -> None:
    """Makes a file that only its owner may read, whole or not at all, also after a crash. Never replaces one."""
    path = os.fsencode(name)
    folder = os.path.dirname(path) or b"."
    if path.endswith(b".krbfile"):
        raise OSError(errno.EINVAL, f"cannot write: {NAME_OF_SAVES}", name)
    try:
        with tempfile.NamedTemporaryFile(prefix=b".krbfile-", dir=folder) as file:
            file.write(data)
            file.flush()
            os.fsync(file.fileno())
            os.link(file.name, path)
    except FileExistsError:
        raise FileExistsError(errno.EEXIST, "cannot write: the file exists", name) from None
    except OSError as error:
        raise failed("cannot write", error, name) from error
    with suppress(OSError):
        number = os.open(folder, os.O_RDONLY)
        try:
            os.fsync(number)
        finally:
            os.close(number)
