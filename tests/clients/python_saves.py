"""Changes of files by Python's module, which the program saves: what is saved, and what each end does if the other
dies."""

import os
import signal
import subprocess
import sys
import time
from collections.abc import Callable, Iterator
from contextlib import contextmanager, suppress
from functools import partial
from pathlib import Path

from clients.python_module import check_scripts
from makers.images import B, BIG, HOST, PA_TYPE, TICKET, TWO, cache, keytab, old
from pages.readme import no_library, surroundings
from runs.harness import SECONDS, Report, every, folder_of
from system.saving import NEW, OLD, edit, tree_faults

# What is saved: also in place, of the other byte order, under strange names and default ones, and by threads.
SAVES = """
image, cache, big = map(bytes.fromhex, image.decode().split())
for name, data in (("k", image), ("c", cache), ("big", big)):
    Path(name).write_bytes(data)
os.chmod("k", 0o640)
os.link("k", "other")
before = os.stat("other")
with edit_keytab("k") as keytab:
    keytab.remove_at(2)
    print(Keytab.load("k").image == image)
print(Path("k").read_bytes().hex(), oct(os.stat("k").st_mode), os.stat("k").st_nlink)
with edit_keytab(b"other", in_place=True) as keytab:
    keytab.remove_at(2)
print(Path("other").read_bytes() == Path("k").read_bytes(), os.path.samestat(before, os.stat("other")))
with edit_keytab("big", v1_big=True) as keytab:
    print(keytab.rewrite([2]), Path("big").read_bytes() == big)

def add(path, number=0):
    with edit_keytab(path) as keytab:
        keytab.add(f"a{number}@R", 1, 17, bytes(16))

os.environ.update(KRB5_KTNAME="WRFILE:-default", KRB5CCNAME="FILE:c")
add("FILE:FILE:odd\\nname")
add(None)
with edit_cache() as cache:
    cache.remove_at(cache.find("krbtgt/R@R").place)
    cache.rewrite()
print(Path("c").read_bytes().hex(), sorted(os.listdir()))
at_once([lambda number=number: add("many", number) for number in range(5)])
print(sorted(entry.principal for entry in Keytab.load("many")))
"""

BLOCKS = """
Path("k").write_bytes(image)

def state():
    own = os.stat("k")
    return own.st_ino, own.st_mode, own.st_mtime_ns, Path("k").read_bytes()

def stop(keytab, error):
    keytab.remove_at(2)
    raise error

for block in (list, *(lambda it, error=error: stop(it, error) for error in (
                  KeyError(1), KeyboardInterrupt(), SystemExit(3))), lambda it: it.close(),
              lambda _: edit_keytab("other").__enter__().add("a@R", 1, 17, bytes(16))):
    before = state()
    try:
        with edit_keytab("k") as keytab:
            block(keytab)
        keytab.image
    except BaseException as error:
        print(repr(error), state() == before, sorted(os.listdir()))
"""

# A block that adds an entry and waits for a line, perhaps beside a forked child or one unknown to Python.
BLOCK = """
from ctypes import PyDLL
from krbfile import edit_keytab
import os, signal, sys, time

def live():
    os.closerange(0, 3)
    while os.path.exists("k"): time.sleep(0.01)

worker = 0
# Whoever started the tests may ignore it.
signal.signal(signal.SIGINT, signal.default_int_handler)
try:
    with edit_keytab("k") as keytab:
        keytab.add("host/a@R", 3, 17, bytes(range(16)), 1700000000)
        %s
        print(worker, flush=True)
        sys.stdin.readline()
    print("saved")
except BaseException as error:
    print(type(error).__name__, error)
"""
CHILD = "if os.fork() == 0: sys.stdin = sys.stdout = open(os.devnull, 'r+')"
STRANGER = CHILD.replace("os.fork()", "(worker := PyDLL(None).fork())") + "\n        else: os.waitpid(worker, 0)"
WORKER = "worker = os.fork() or live()"
UNKNOWN = "worker = PyDLL(None).fork() or live()"

MOMENT = 0.5  # how many seconds a run has that is to wait
LONG = 30.0  # and one that is to end
CLOSED = "ValueError('it is closed')"
SCRIPTS = (
    ("saves", SAVES, " ".join(each.hex() for each in (TWO, cache(TICKET, PA_TYPE), old(HOST, order=BIG))).encode(), [
        "True", f"{keytab(47, B).hex()} 0o100640 1", "True True", "[2] True",
        f"{cache(PA_TYPE).hex()} ['-default', 'FILE:odd\\nname', 'big', 'c', 'k', 'other']",
        "['a0@R', 'a1@R', 'a2@R', 'a3@R', 'a4@R']",
    ]),
    ("blocks that save nothing", BLOCKS, TWO, [f"{error} True ['k']" for error in (
        CLOSED, "KeyError(1)", "KeyboardInterrupt()", "SystemExit(3)", CLOSED, CLOSED)]),
)


@contextmanager
def in_block(program: str, folder: str, does: str) -> Iterator[tuple[subprocess.Popen[bytes], int]]:
    """Yields a Python that is in the block, in a process group of its own, and the number of its worker."""
    env = surroundings("/bin") | {"KRBFILE": program}
    with subprocess.Popen([sys.executable, "-c", BLOCK % does], cwd=folder, env=env, bufsize=0, stdin=subprocess.PIPE,
                          stdout=subprocess.PIPE, stderr=subprocess.STDOUT, start_new_session=True) as started:
        worker = int(started.stdout.readline())
        try:
            yield started, worker
        finally:
            started.kill()


def kill_program(started: subprocess.Popen[bytes]) -> None:
    """Kills the program that a Python has started, and waits until it has closed all."""
    (child,) = Path(f"/proc/{started.pid}/task/{started.pid}/children").read_text().split()
    os.kill(int(child), signal.SIGKILL)
    while ") Z " not in Path(f"/proc/{child}/stat").read_text():
        time.sleep(0.01)


def is_held(folder: str, seconds: float) -> bool:
    """Whether the file is still held after that many seconds."""
    until = time.monotonic() + seconds
    while os.path.exists(os.path.join(folder, "k.krbfile")) and time.monotonic() < until:
        time.sleep(0.01)
    return os.path.exists(os.path.join(folder, "k.krbfile"))


# What is done to a Python in the block before it gets the line, what it forked, what it prints, and the file then.
End = tuple[str, Callable[[subprocess.Popen[bytes]], object], str, bytes, bytes]
ENDS: tuple[End, ...] = (
    ("the program is killed", kill_program, "",
     b"OSError [Errno 5] krbfile ended too early; nothing was saved: 'k'\n", OLD),
    ("Ctrl-C", lambda it: os.killpg(it.pid, signal.SIGINT), "", b"KeyboardInterrupt \n", OLD),
    ("Python is killed", lambda it: it.kill(), "", b"", OLD),
    ("a child leaves it", lambda _: None, CHILD, b"saved\n", NEW),
    ("an unknown child leaves it", lambda _: None, STRANGER, b"saved\n", NEW),
    ("a worker lives on", lambda _: None, WORKER, b"saved\n", NEW),
    ("a worker lives on, Python is killed", lambda it: it.kill(), WORKER, b"", OLD),
    ("an unknown worker lives on", lambda _: None, UNKNOWN, b"saved\n", NEW),
)


def check_end(end: End, report: Report, program: str) -> None:
    """Checks an end of a block: the file is as it was or saved, and the program's next run leaves nothing else."""
    what, deed, does, printed, image = end
    with folder_of({"k": OLD}) as folder:
        with in_block(program, folder, does) as (started, _):
            deed(started)
            with suppress(BrokenPipeError):
                started.stdin.write(b"\n")
            started.wait(SECONDS)
            got = started.stdout.read()
            faults = [] if got.endswith(printed) else [f"{got}, not {printed}"]
            left = {"k.krbfile": b""} if deed is kill_program and is_held(folder, 0) else {}
            faults += ["it is held"] * (not left and is_held(folder, LONG)) + tree_faults({"k": image, **left}, folder)
        faults += ["the next run fails"] * edit(program, folder).status
        faults += tree_faults({"k": keytab(*[HOST] * (1 + (image == NEW)))}, folder)
    report.check(f"in a block: {what}", faults)


def check_lasts(report: Report, program: str) -> None:
    """Checks that the hold of a Python that was killed lasts until a worker has ended that keeps copies."""
    with folder_of({"k": OLD}) as folder, in_block(program, folder, UNKNOWN) as (started, worker):
        started.kill()
        faults = [] if is_held(folder, MOMENT) else ["the hold has ended"]
        os.kill(worker, signal.SIGKILL)
        faults += ["it is held"] * is_held(folder, LONG)
        report.check("the hold of an unknown worker", faults + tree_faults({"k": OLD}, folder))


check = every(partial(check_scripts, SCRIPTS), *(partial(check_end, end) for end in ENDS), check_lasts,
              of="changes by Python's module", lack=no_library)
