"""How a block of Python's module ends: by the last line of a stand-in for the program, whoever reaps that; by an
exception at each line of the module in turn, as a signal's handler may raise one; and in a child that goes on."""

from functools import partial

from clients.python_module import Script, check_scripts
from pages.readme import no_library
from runs.harness import every
from words.phrases import AFTERMATHS, CAUSES, GIVEN_DAMAGED

# What a stand-in does first, and its messages and its last line then; and what the block raises.
LOST, MIXED, DENIED = AFTERMATHS["lost change"], AFTERMATHS["mixed"], CAUSES["EACCES"]
FRAME = r"printf '2\n\5\2'; while read -r part; do :; done"
UNSAVED = f"krbfile: k: cannot write\nkrbfile: {DENIED}\n"
ROWS: tuple[tuple[str, str, str, object], ...] = (
    (FRAME, "", "saved\n", None), (FRAME, "krbfile: k: odd\n", "left\n", None),
    (FRAME, f"krbfile: k: {LOST}\n", "lost\n", f"LostChange ESTALE 'k' {LOST}"),
    (FRAME, f"krbfile: k: {MIXED}\n", "damaged\n", f"UnknownSave EIO 'k' {MIXED}"),
    *((first, UNSAVED, "failed 3 EACCES\n", f"PermissionError EACCES 'k' cannot write: {DENIED}")
      for first in (FRAME, "")),
    (FRAME, "", "failed 3 ENOSPC\n", "OSError ENOSPC 'k' krbfile: failed 3 ENOSPC"),
    (FRAME, "krbfile: out of memory\n", "failed 4 ENOMEM\n", "MemoryError: out of memory"),
    (FRAME, f"krbfile: input: refused 1\nkrbfile: {GIVEN_DAMAGED}\n", "failed 1 31\n",
     f"KrbfileError 31 k: {GIVEN_DAMAGED}"),
    *((FRAME, "", line, "UnknownSave EIO 'k' it is not known whether k was saved: krbfile ended without saying so, as "
       "any before 2.0 does") for line in ("", "saved", "failed 1\n", "2\n")),
    *((f"printf '{first}'", "krbfile: odd\n", "", "OSError EIO 'k' odd: krbfile ended too early; nothing was saved")
      for first in ("", "2", r"2\n", r"3\n\5\2")),
)
ENDS = f"""
import signal
Path("p").write_text('#!/bin/sh\\neval "$FIRST"\\nprintf "$SAID" >&2\\nprintf "$LINE"\\n')
os.chmod("p", 0o755)
krbfile.PROGRAM = "./p"

def block():
    with edit_keytab("k") as keytab:
        keytab.rewrite()

def reap(*_):
    try:
        while os.waitpid(-1, os.WNOHANG)[0]:
            pass
    except ChildProcessError:
        time.sleep(1e-4)

def keep_on():
    while True:
        reap()

for handler in (signal.SIG_DFL, signal.SIG_IGN, reap, None):
    signal.signal(signal.SIGCHLD, handler or signal.SIG_DFL)
    if handler is None:
        Thread(target=keep_on, daemon=True).start()
    for first, said, line, wanted in {ROWS!r}:
        os.environ.update(FIRST=first, SAID=said, LINE=line)
        if (found := raised_by(block)) != wanted:
            print(handler, found, wanted)
"""

# A stand-in that holds the file until it says that it has ended, and saves a word if it is given anything.
LINES = r"""
Path("p").write_text('''#!/bin/sh
trap "" PIPE
echo begun >> begun
printf '2\\n\\5\\2'
if read -r part; then
    while read -r part; do :; done
    echo saved > k
fi
echo ended >> ended
echo saved
''')
os.chmod("p", 0o755)
krbfile.PROGRAM = "./p"

class Stop(TimeoutError):
    pass

class Late(krbfile.editing.subprocess.Popen):
    def __init__(self, *words, **more):
        super().__init__(*words, **more)
        while not is_held():
            pass
        raise Stop(errno.EINTR, "stopped")

def trace(frame, event, _):
    global left
    code = frame.f_code
    if event == "line" and os.path.dirname(code.co_filename) == folder and code.co_name != "__del__":
        left -= 1
        if left < 0:
            raise Stop
    return trace

def block(changes=True):
    with edit_keytab("k") as keytab:
        changes and keytab.add("a@R", 3, 17, bytes(16), 0)

def is_held():
    return os.path.getsize("begun") != os.path.getsize("ended")

def stays_held():
    until = time.monotonic() + 10
    while is_held() and time.monotonic() < until:
        time.sleep(1e-3)
    return is_held()

folder = os.path.dirname(krbfile.__file__)
block()
files = os.listdir("/proc/self/fd")
for changes in (True, False):
    left, stops = -1, -1
    while left < 0:
        stops += 1
        Path("k").write_bytes(b"")
        left, raised = stops, None
        sys.settrace(trace)
        try:
            block(changes)
        except BaseException as error:
            sys.settrace(None)
            raised = type(error)
            if stays_held():
                print("it is held", stops)
        sys.settrace(None)
        if left < 0 and (raised is not Stop or Path("k").read_text() not in ("", "saved\n")):
            print(raised, stops)
    print(stops > 80, len(os.listdir("/proc/self/fd")) - len(files), raised_by(lambda: os.waitpid(-1, 0)))
krbfile.editing.subprocess.Popen = Late
print(raised_by(block), stays_held())
"""

CHILDREN = """
from ctypes import PyDLL

def block(fork):
    with edit_keytab("k") as keytab:
        if fork() > 0:
            os._exit(0)
        keytab.add("a@R", 1, 17, bytes(16))

for fork in (os.fork, PyDLL(None).fork):
    print(raised_by(lambda: block(fork)), os.path.exists("k"), flush=True)
"""

SCRIPTS: tuple[Script, ...] = (
    ("last lines", ENDS, b"", []),
    ("an exception at each line", LINES, b"", [
        *2 * ["True 0 ChildProcessError ECHILD None No child processes"], "Stop EINTR None stopped False"]),
    ("a child that goes on", CHILDREN, b"", 2 * [
        "OSError EIO 'k' nothing was saved: a forked child does not hold the file False"]),
)

check = every(partial(check_scripts, SCRIPTS), of="how blocks of Python's module end", lack=no_library)
