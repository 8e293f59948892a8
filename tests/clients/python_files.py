"""Files that Python's module reads, makes and does not hold, and their names: scripts, and what they print."""

import os

from makers.images import PA_TYPE, TICKET, TWO, cache
from peers.corpus import FOLDER, files
from words.phrases import BEGINS_AS_CACHE, BEGINS_AS_KEYTAB, CAUSES, LARGE, NOT_READ, SHORT

LOADS = """
Path("k").write_bytes(image)
Path("short").write_bytes(b"5")
Path("c").write_bytes(bytes([5, 4]))
os.mkdir("folder")
os.symlink("circle", "circle")
with open("large", "wb") as file:
    file.truncate(2**24 + 1)

for path in ("k", b"k", Path("k"), "./folder/../k", "FILE:k", b"WRFILE:k"):
    print(Keytab.load(path).image == image)
print(Keytab.load("k", limit=98).image == image, raised_by(lambda: Keytab.load("k", limit=97)), sep="; ")
print(raised_by(lambda: Cache.load("k", limit=97)))
for load, *paths in ((Keytab.load, "none", "", "FILE:", b"folder", "k/none", "circle", "large", "short", b"c",
                      "DIR::k"), (Cache.load, "none", "FILE:k", "KCM:0", b"WRFILE:k", "DIR:k", "C:k")):
    for path in paths:
        print(raised_by(lambda: load(path)))
print(sorted(os.listdir()))
"""

# How many files of other programs there are, and those where a walk is not what klist prints.
WALKS = f"FOLDER = {FOLDER!r}" + """
import json, subprocess
from datetime import timedelta

def printed(it):
    if isinstance(it, Entry):
        return {"place": it.place, "principal": it.principal, "kvno": it.kvno, "etype": it.enctype,
                "timestamp": it.timestamp, "key_hex": it.key.hex()}
    if it.is_config:
        return {"place": it.place, "value": it.ticket.decode()}
    names = ("place", "client", "server", "authtime", "starttime", "endtime", "renew_till", "is_skey")
    own = {"ticket_etype": it.ticket_enctype, "ticket_kvno": it.ticket_kvno, "ticket_server": it.ticket_server}
    return {**{name: getattr(it, name) for name in names}, "flags_value": it.flags, "etype": it.enctype,
            "ticket_length": len(it.ticket), "addresses": len(it.addresses), **own}

def is_listed(store, line):
    if isinstance(store, str) or not line:
        return isinstance(store, str) and not line
    listed, walked = json.loads(line), []
    rows = [row for name in ("entries", "config", "tickets") for row in listed.get(name, [])]
    is_cut = raised_by(lambda: walked.extend(map(printed, store))) is not None
    fault = listed["fault"] and (listed["fault"]["kind"], listed["fault"]["place"])
    offset = listed.get("offset") and timedelta(**listed["offset"])
    return (len(walked), len(store), store.fault, is_cut, getattr(store, "offset", None)) == (
        len(rows), len(rows), fault, fault is not None, offset) and all(
            mine.items() <= row.items() for mine, row in zip(walked, sorted(rows, key=lambda row: row["place"])))

for kind, folder, option in ((Keytab, "keytab", "-kK"), (Cache, "ccache", "-c")):
    paths, others = [it for it in Path(FOLDER, folder).iterdir() if it.suffix != ".txt"], []
    for path in paths:
        store = raised_by(lambda: kind.open(path.read_bytes()))
        line = subprocess.run((os.environ["KRBFILE"], "klist", option, "--json", path), capture_output=True).stdout
        others += [] if is_listed(store, line) else [path.name]
    print(len(paths), others)
"""

# The names of the environment, an empty one, and the usual ones. Only a cache's may have the type `DIR::`.
DEFAULTS = """
Path("c").write_bytes(image)
Path("k").write_bytes(bytes([5, 2]))
for name in ("c", "FILE:c", "DIR::c"):
    os.environ["KRB5CCNAME"] = name
    print(Cache.load().image == image)
for name in ("k", "WRFILE:k"):
    os.environ["KRB5_KTNAME"] = name
    print(len(Keytab.load().image))
os.environ["KRB5CCNAME"] = ""
del os.environ["KRB5_KTNAME"]
print(krbfile.files.file_name(None, "cc"), krbfile.files.file_name(None, "kt"))
"""

NEW = """
cache = Cache.create("u@R")
cache.save("FILE:new")
print(Path("new").read_bytes().hex(), oct(os.stat("new").st_mode), os.stat("new").st_nlink)
cache.set_config("k", b"v")
os.symlink("nothing", "link")

def fail(number):
    raise OSError(errno.ENOSPC, "")

for path in (b"new", "link", "no/new", "KCM:0", "", "k.krbfile", "other"):
    os.fsync = fail if path == "other" else os.fsync
    print(raised_by(lambda: cache.save(path)))
print(Path("new").read_bytes().hex(), sorted(os.listdir()))
"""

# Files that are not held, so that no block begins; and programs that hold nothing.
REFUSED = """
for name, data in (("k", image), ("cut", image[:60]), ("c", bytes([5, 4]))):
    Path(name).write_bytes(data)

def changed(edit, path, more):
    with edit(path, **more) as store:
        print("in a block", end=": ")

def refused(edit, path, **more):
    print(raised_by(lambda: changed(edit, path, more)).split(";")[0])

for path in ("no/k", "a.krbfile", "cut", "c", b"KCM:0"):
    refused(edit_keytab, path)
refused(edit_keytab, "none", in_place=True)
refused(edit_keytab, "k", limit=97)
refused(edit_cache, Path("none"))
for krbfile.PROGRAM in ("/bin/false", "./none"):
    refused(edit_keytab, "k")
krbfile.PROGRAM = None
del os.environ["KRBFILE"]
krbfile.editing.BESIDE, os.environ["PATH"] = None, "/"
refused(edit_keytab, "k")
print(sorted(os.listdir()))
"""

# Archives whose parts are used, and others with a part that is a link, missing, or another's to change.
ORIGINS = """
import runpy, shutil, subprocess
folders = ["top/docs", "top/bin", "top/lib", "top/python/krbfile"]
files = ["top/docs/krbfile.1", "top/bin/krbfile", "top/lib/libkrbfile.so.1"]
parts = ["top", "top/python", *folders, *files]

def archive():
    shutil.rmtree("top", ignore_errors=True)
    shutil.copytree(os.path.dirname(krbfile.__file__), folders[-1])
    for folder, file in zip(folders, files):
        os.mkdir(folder)
        shutil.copy(os.environ["LD_LIBRARY_PATH"] + "/libkrbfile.so.1", file)
    for part in parts:
        os.chmod(part, 0o755)

def is_used(change, part, *words):
    archive()
    change(part, *words)
    beside = runpy.run_path(str(next(Path("top").rglob("origin.py"))))["beside"]
    return beside(*(("lib", "libkrbfile.so.1") if "lib" in part else ("bin", "krbfile"))) is not None

def link(part):
    os.rename(part, part + "2")
    os.symlink(os.path.basename(part) + "2", part)

def share(part):
    os.chown(part, -1, 54_321)
    os.chmod(part, 0o775)

def used(**more):
    code = "import krbfile.editing as it; print(it.BESIDE, it.krbfile.library.exports._name)"
    env = {**os.environ, "PYTHONPATH": "top/python", **more}
    got = subprocess.run([sys.executable, "-c", code], env=env, capture_output=True, text=True)
    return (got.stdout or got.stderr).splitlines()[-1].replace(os.path.realpath("top"), "top")

safe = [(os.chmod, "top/bin", 0o755)]
others = [(os.chmod, part, 0o757) for part in parts] + [(link, part) for part in (*folders[:3], *files)]
others += [(os.remove, file) for file in files]
others += [(os.rename, old, old + "2") for old in ("top/python", "top/python/krbfile")]
if os.geteuid() == 0:
    safe += [(os.chmod, "top/bin", 0o775)]
    others += [(share, part) for part in parts]
    others += [(os.chown, part, 65_534, -1) for part in (*parts, "top/python/krbfile/origin.py")]
print([row for row in safe if not is_used(*row)], [row for row in others if is_used(*row)])
archive()
print(used())
os.chmod("top", 0o777)
print(used())
Path(files[-1]).write_bytes(b"")
print(used(LD_LIBRARY_PATH="top/lib"))
"""

NO_ENTRY, NO_FILE = "FileNotFoundError ENOENT", "no such file"
NEW_CACHE = cache().hex()


def not_read(kind: str) -> str:
    """Returns what is said of the name of a cache or keytab of another type."""
    return f"{NO_FILE}: {NOT_READ.replace('TYPE', kind)}"


SCRIPTS = (
    ("files that are read", LOADS, TWO, [
        *6 * ["True"], "True; OSError EFBIG 'k' file too large: it has more than 97 bytes",
        "OSError EFBIG 'k' file too large: it has more than 97 bytes",
        *(f"{NO_ENTRY} {name!r} {NO_FILE}" for name in ("none", "", "")),
        f"IsADirectoryError EISDIR b'folder' cannot read: {CAUSES['EISDIR']}",
        f"NotADirectoryError ENOTDIR 'k/none' cannot read: {CAUSES['ENOTDIR']}",
        f"OSError ELOOP 'circle' cannot read: {CAUSES['ELOOP']}", f"OSError EFBIG 'large' file too large: {LARGE}",
        f"KrbfileError 11 short: {SHORT[1]}", f"KrbfileError 12 c: {BEGINS_AS_CACHE[1]}",
        f"{NO_ENTRY} 'DIR::k' {not_read('DIR:')}", f"{NO_ENTRY} 'none' {NO_FILE}",
        f"KrbfileError 12 k: {BEGINS_AS_KEYTAB[1].replace(' (list it with -k)', '')}",
        f"{NO_ENTRY} 'KCM:0' {not_read('KCM:')}", f"{NO_ENTRY} b'WRFILE:k' {not_read('WRFILE:')}",
        f"{NO_ENTRY} 'DIR:k' {NO_FILE}: a collection; give one of its caches, DIR::FILE", f"{NO_ENTRY} 'C:k' {NO_FILE}",
        "['c', 'circle', 'folder', 'k', 'large', 'short']",
    ]),
    ("files of other programs", WALKS, b"", [f"{len(files(kind))} []" for kind in ("keytab", "ccache")]),
    ("default names", DEFAULTS, cache(TICKET, PA_TYPE), [
        *3 * ["True"], *2 * ["2"], f"/tmp/krb5cc_{os.getuid()} /etc/krb5.keytab",
    ]),
    ("new caches", NEW, b"", [
        f"{NEW_CACHE} 0o100600 1",
        *(f"FileExistsError EEXIST {name!r} cannot write: the file exists" for name in (b"new", "link")),
        f"{NO_ENTRY} 'no/new' cannot write: {CAUSES['ENOENT']}", f"{NO_ENTRY} 'KCM:0' {not_read('KCM:')}",
        f"{NO_ENTRY} '' cannot write: {CAUSES['ENOENT']}",
        f"OSError EINVAL 'k.krbfile' cannot write: {CAUSES['name of saves']}",
        f"OSError ENOSPC 'other' cannot write: {CAUSES['ENOSPC']}", f"{NEW_CACHE} ['link', 'new']",
    ]),
    ("files that are not held", REFUSED, TWO, [
        f"{NO_ENTRY} 'no/k' cannot write: {CAUSES['ENOENT']}",
        f"OSError EINVAL 'a.krbfile' cannot write: {CAUSES['name of saves']}",
        "KrbfileError 31 cut: the file is damaged", f"KrbfileError 12 c: {BEGINS_AS_CACHE[1]}",
        f"{NO_ENTRY} b'KCM:0' {not_read('KCM:')}", f"{NO_ENTRY} 'none' {NO_FILE}",
        "OSError EFBIG 'k' file too large: it has more than 97 bytes", f"{NO_ENTRY} 'none' {NO_FILE}",
        "OSError EIO 'k' krbfile ended too early", f"{NO_ENTRY} './none' No such file or directory",
        f"{NO_ENTRY} 'krbfile' the program is not on PATH: install it, or set KRBFILE or krbfile.PROGRAM to its path",
        "['c', 'cut', 'k']",
    ]),
    ("what is beside the module", ORIGINS, b"", [
        "[] []", "top/bin/krbfile top/lib/libkrbfile.so.1", "None libkrbfile.so.1",
        "OSError: top/lib/libkrbfile.so.1: file too short; install libkrbfile, or set LD_LIBRARY_PATH to its folder",
    ]),
)
