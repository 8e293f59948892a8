"""Changes files through the program, which holds a file, sends its image, and saves the one that it receives."""
from __future__ import annotations

import errno
import os
import re
import shutil
import socket
import subprocess
import tempfile
from collections.abc import Iterator
from contextlib import AbstractContextManager, contextmanager, suppress
from ctypes import c_uint32
from typing import Any
from weakref import WeakSet

import krbfile
from krbfile.cache import Cache
from krbfile.files import USUAL_LIMIT, AnyPath, FileName, file_name, operand, within
from krbfile.keytab import Keytab
from krbfile.library import KrbfileError, number
from krbfile.origin import beside

BESIDE = beside("bin", "krbfile")  # the program of the archive, or the repository, that this module is a part of

# The program's last line, if nothing was saved: its status, and a number of krbfile.h or the name of a cause.
FAILED = re.compile(r"failed (\d+) (?:(\d+)|(E[A-Z]+))")


class LostChange(OSError):
    """The file was saved, but a change that another program made at the same time is lost."""


class UnknownSave(OSError):
    """It is not known whether the file was saved: the program ended in between, or another wrote at the same time."""


def program() -> AnyPath:
    """Returns the path of the program."""
    found = krbfile.PROGRAM or os.environ.get("KRBFILE") or BESIDE or shutil.which("krbfile")
    if not found:
        why = "the program is not on PATH: install it, or set KRBFILE or krbfile.PROGRAM to its path"
        raise FileNotFoundError(errno.ENOENT, why, "krbfile")
    return found


class Hold:
    """A file that the program holds until its input ends. In a forked child this is a copy that does nothing."""

    def __init__(self, name: FileName, *options: str) -> None:
        self.name, self.words = name, [program(), "--explain", "hold", *options, operand(name)]
        self.maker = os.getpid()
        self.process: subprocess.Popen[bytes] | None = None
        # A file takes messages of any length, where a pipe that nobody reads could stop the program.
        self.messages = tempfile.TemporaryFile(buffering=0)
        # Once they are dropped they close themselves, whatever was interrupted.
        self.ours, self.theirs = socket.socketpair()
        for end in (self.ours, self.theirs):
            end.settimeout(None)
        self.output = open(self.ours.fileno(), "rb", closefd=False)
        _holds.add(self)

    def begin(self) -> bytes:
        """Starts the program, and returns the image of the file."""
        # In a session of its own Ctrl-C does not reach it.
        end = self.theirs.fileno()
        self.process = subprocess.Popen(self.words, stdin=end, stdout=end, stderr=self.messages, start_new_session=True)
        self.theirs.close()
        length = self._line()
        if not length.isdigit():
            raise self._fault(length)
        image = self.output.read(int(length))
        if len(image) < int(length):
            raise self._fault("")
        return image

    def save(self, image: bytes) -> None:
        """Has the program save an image."""
        if self.maker != os.getpid():
            raise OSError(errno.EIO, "nothing was saved: a forked child does not hold the file", self.name)
        is_sent = False
        # If it has ended, its last line says why.
        with suppress(ConnectionError):
            self.ours.sendall(b"%d\n%b" % (len(image), image), socket.MSG_NOSIGNAL)
            is_sent = True
        self.ours.shutdown(socket.SHUT_WR)
        if (line := self._line()) not in ("saved", "left"):
            raise self._fault(line, is_sent)

    def _line(self) -> str:
        """Returns the next line of the program without its end, or nothing if there is none."""
        # It may have ended before it had read all.
        with suppress(ConnectionResetError):
            line = self.output.readline()
            return line[:-1].decode("ascii", "replace") if line.endswith(b"\n") else ""
        return ""

    def _fault(self, line: str, is_sent: bool = False) -> Exception:
        """Returns the exception for the program's last line, or for none, in the words of its messages."""
        self.messages.seek(0)
        lines = self.messages.read().decode("utf-8", "surrogateescape").splitlines()
        front = "{}: ".format(operand(self.name).replace("\n", "\\x0a"))
        words = [each.removeprefix("krbfile: ").removeprefix(front) for each in lines]
        text, name = ": ".join(words or [f"krbfile: {line}"]), os.fsdecode(self.name)
        if line == "lost":
            return LostChange(errno.ESTALE, text, self.name)
        if line == "damaged":
            return UnknownSave(errno.EIO, text, self.name)
        if found := FAILED.fullmatch(line):
            status, code, cause = found.groups()
            if status == "4":
                return MemoryError(text)
            if code:
                return KrbfileError(int(code), f"{name}: {words[-1]}" if words else "")
            return OSError(getattr(errno, cause, errno.EIO), text, self.name)
        unknown = f"it is not known whether {name} was saved: krbfile ended without saying so, as any before 2.0 does"
        kind, why = (UnknownSave, unknown) if is_sent else (OSError, "krbfile ended too early; nothing was saved")
        return kind(errno.EIO, ": ".join([*words, why]), self.name)

    def leave(self) -> None:
        """Ends the hold, and waits for the program. If nothing was saved, the file is as it was."""
        if self.maker == os.getpid() and self.ours.fileno() >= 0:
            # This ends the input also if another process has a copy of the socket. Nobody waits for a last line.
            self.ours.shutdown(socket.SHUT_RDWR)
            if self.process:
                self.process.wait()
        self.forget()

    def forget(self) -> None:
        """Closes what this process has of it."""
        _holds.discard(self)
        for each in (self.ours.close, self.theirs.close, self.messages.close):
            each()


_holds: WeakSet[Hold] = WeakSet()  # the holds that something else still has; a forked child closes its copies
os.register_at_fork(after_in_child=lambda: [*map(Hold.forget, [*_holds])])


@contextmanager
def edited(kind: Any, path: AnyPath | None, options: list[str], limit: int, **more: bool) -> Iterator[Any]:
    """Holds a file, opens its image, and saves it if it was changed."""
    name = file_name(path, kind._kind)
    limit = min(number(c_uint32, limit).value or USUAL_LIMIT, USUAL_LIMIT)
    hold = Hold(name, *options)
    try:
        try:
            with kind.open(within(hold.begin(), name, limit), limit=limit, **more) as store:
                yield store
                if store._is_changed:
                    hold.save(store.image)
        finally:
            hold.leave()
    finally:
        # A signal's handler may have raised an exception in the other call.
        hold.leave()


def edit_keytab(path: AnyPath | None = None, *, in_place: bool = False, v1_big: bool = False,
                limit: int = 0) -> AbstractContextManager[Keytab]:
    """Holds a file, by default the default keytab, loads its keytab, or an empty one if it is missing, and saves it if
    the block changed it. `in_place` writes to the file itself, as the program's `--in-place` does.

    Nothing is saved if the block raises an exception, or by a forked child, which gets an `OSError` if the keytab is
    changed. The keytab is closed at the end. If the process is killed, the hold ends, or, where a child that Python did
    not fork lives on, when that child ends.
    """
    options = ["-k", *["--v1-big"] * bool(v1_big), *["--in-place"] * bool(in_place)]
    return edited(Keytab, path, options, limit, v1_big=v1_big)


def edit_cache(path: AnyPath | None = None, *, in_place: bool = False, limit: int = 0) -> AbstractContextManager[Cache]:
    """Holds a file, by default the default cache, loads its cache, and saves it as `edit_keytab` does."""
    return edited(Cache, path, ["--in-place"] * bool(in_place), limit)
