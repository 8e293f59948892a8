"""Python's module over the C library: each of its calls, with the expected results written by hand."""

import os
import sys
from collections.abc import Iterable
from functools import partial

from clients import python_files, python_records
from keytabs.listings import BY_NAME, KEY_SIZES
from keytabs.removals import AES256, FIVE
from makers.images import (HOST, OFFSET, TWO, USUAL, VERSION_3, B, Credential, Entry, Name, cache, config, keytab, old)
from pages.readme import no_library, surroundings
from runs.harness import TOP, Outcome, Report, every, folder_of, run, text
from words.phrases import BAD_KEY, LIBRARY_CODES, SHORT, code

Script = tuple[str, str, bytes, list[str]]  # a script's name, its text, its input, and the lines that it prints

# What each script begins with: what a call gives or raises, also once that is pickled; and threads.
FRONT = """
from dataclasses import replace
from krbfile import *
from pathlib import Path
from threading import Thread
import copy, errno, krbfile, os, pickle, sys, time

def raised_by(call):
    try:
        return call()
    except Exception as raised:
        error = pickle.loads(pickle.dumps(raised))
        kind = type(error).__name__
    if isinstance(error, KrbfileError):
        return f"{kind} {error.status} {error}"
    if isinstance(error, OSError):
        return f"{kind} {errno.errorcode[error.errno]} {error.filename!r} {error.strerror}"
    return f"{kind}: {error}"

def at_once(runs):
    threads = [Thread(target=run) for run in runs]
    [thread.start() for thread in threads]
    [thread.join() for thread in threads]

image = sys.stdin.buffer.read()
"""

KEYTABS = f"""
with Keytab.open(image) as keytab:
    print([(entry.place, entry.principal, entry.kvno, entry.enctype) for entry in keytab])
    host = keytab.find("host/a@R")
    print(host.realm, host.components, host.name_type, host.timestamp, host.key == bytes(range(16)))
    walk = iter(keytab)
    next(walk)
    keytab.remove_at(2)
    print(keytab.add(b"c@R", 7, 17, bytes(16), 5), [entry.principal for entry in walk])
    print(keytab.rewrite([2, 53]), keytab.fault)
    for call in (lambda: keytab.find("c"), lambda: keytab.find(b"d@R"), lambda: keytab.find("c@R", 8),
                 lambda: keytab.remove_at(3)):
        print(raised_by(call))
    after = keytab.image
keytab.close()
print(raised_by(lambda: keytab.image), raised_by(lambda: Keytab.open(b"5")), sep="; ")
print([raised_by(lambda: Keytab.open(it, limit=2)).split()[1] for it in (b"", bytes([5, 3]), bytes([4, 2]), image[:3])])
print(Keytab.open(image, v1_big=True, limit=98).image == image)
full, three = Keytab.open({old(HOST)}, limit=49), Keytab.open({keytab(HOST, AES256, FIVE)})
walk = iter(full)
print(next(walk).place, raised_by(lambda: full.rewrite([49])), [*walk], full.image == {old(HOST)})
for _ in range(3):
    print(raised_by(lambda: (place := three.find("host/a@R", 0, 17).place, three.remove_at(place))[0]))
print(len(Keytab.create().image), after.hex())
"""

CACHES = f"""
with Cache.open(image) as cache:
    first, second = cache
    print(cache.principal, first.server, first.client, second.is_config, first.place, second.place)
    print(first.enctype, first.authtime, first.starttime, first.endtime, first.renew_till, hex(first.flags))
    print(first.key == bytes(range(16)), first.ticket, first.second_ticket, first.is_skey)
    print(cache.config("pa_type", b"krbtgt/R@R"), cache.config(b"pa_type"))
    print(cache.find("krbtgt/R@R") == first)
    try:
        cache.find("none@R")
    except LookupError as error:
        print(error)
    print(cache.set_config("pa_type", b"3", "krbtgt/R@R"), cache.config("pa_type", "krbtgt/R@R"))
    other, removed = replace(first, second_ticket=b"2", is_skey=True), replace(first, authtime=2**32 - 1, endtime=0)
    place = cache.store(replace(other, server=b"host/a@R"))
    print(place, replace(cache.find(b"host/a@R"), place=40, server="krbtgt/R@R") == other)
    print(raised_by(lambda: cache.store(removed)))
    cache.remove_at(first.place)
    print(cache.rewrite([first.place, place]), cache.fault)
    print([ticket.server for ticket in cache if not ticket.is_config], cache.image.hex())
print(Cache.open(image).rewrite([40, 148, 284, 392]))
full = Cache.open(image, limit=392)
print(raised_by(lambda: full.set_config("pa_type", b"3", "krbtgt/R@R")), full.config("pa_type", "krbtgt/R@R"))
for old in map(Cache.open, ({VERSION_3}, {VERSION_3[:129]})):
    calls = (lambda: old.store(first), lambda: old.store(removed), lambda: old.remove_at(20), lambda: old.remove_at(3),
             lambda: old.set_config("pa_type", b"3", "krbtgt/R@R"))
    print(old.fault, *{{raised_by(call) for call in calls}}, len(old.image))
with Cache.create("a@R", limit=30) as made:
    print(raised_by(lambda: made.store(first)), made.image.hex())
"""

# What opens of images that are cut or damaged: how many in turn have the same fault, places and status.
CUT = """
from itertools import groupby

def seen(kind, image):
    store, places = raised_by(lambda: kind.open(image)), []
    end = raised_by(lambda: places.extend(it.place for it in store))
    return store[13:15] if isinstance(store, str) else [*places, end and (*store.fault, end[13:15])]

keytab, cache = image[:98], image[98:]
for kind, images in (
        (Keytab, [keytab[:end] for end in range(99)]), (Cache, [cache[:end] for end in range(393)]),
        (Keytab, [keytab[:2] + end.to_bytes(4, "big") + keytab[6:6 + end] for end in range(1, 48)]),
        (Keytab, [keytab[:at] + bytes([255] * 2) + keytab[at + 2:] for at in (6, 8, 31)]),
        (Cache, [cache[:129] + bytes([255] * 4) + cache[133:], bytes([5, 2]), bytes([5, 3]), bytes([5, 4, 0, 0])])):
    print(*(f"{len([*those])}: {same}" for same, those in groupby(seen(kind, it) for it in images)), sep=", ")
"""

# Values that do not fit or are of another type, and for each row of calls with one of them what these raise.
NUMBERS = ("keytab.remove_at(it)", "keytab.rewrite([2, it])", "keytab.find('a@R', it)", "add(kvno=it)",
           "add(timestamp=it)", "Keytab.create(it)", "Keytab.open(b'', limit=it)", "Keytab.open(b'', v1_big=it)",
           "Cache.create('a@R', it)", "Cache.open(b'', limit=it)", "cache.remove_at(it)",
           "Keytab.load('none', limit=it)", "Cache.load('none', limit=it)",
           *(f"store({name}=it)" for name in ("authtime", "starttime", "endtime", "renew_till", "flags", "is_skey")))
ENCTYPES = ("keytab.find('a@R', 0, it)", "add(enctype=it)", "store(enctype=it)")
KINDS = ("store(addresses=[(it, b'')])", "store(authdata=[(it, b'')])")
BYTES = ("Keytab.open(it)", "Cache.open(it)", "add(key=it)", "cache.set_config('k', it)",
         *(f"store({name}=it)" for name in ("key", "ticket", "second_ticket")),
         "store(addresses=[(2, it)])", "store(authdata=[(2, it)])")
TEXT = ("keytab.find(it)", "add(principal=it)", "Cache.create(it)", "cache.find(it)", "store(client=it)",
        "store(server=it)", "cache.config(it)", "cache.config('k', it)", "cache.set_config(it, b'')",
        "cache.set_config('k', b'', it)")
COPIES = ("copy.copy(it)", "copy.deepcopy(it)", "pickle.dumps(it)")
REFUSED = (
    ("2**32, 2**32 + 2, -1", NUMBERS, "OverflowError"), ("'2', 2.0", NUMBERS, "TypeError"),
    ("2**16, -1", ENCTYPES + KINDS, "OverflowError"), ("2.0, None", ENCTYPES + KINDS, "TypeError"),
    ("'none', '18'", ENCTYPES, "ValueError"), ("16, '00ff', [1, 2], None", BYTES, "TypeError"),
    ("3, [97], None", TEXT, "TypeError"), ("keytab, cache", COPIES, "TypeError"),
)
REFUSES = f"""
keytab, cache = Keytab.open(image), Cache.create("u@R")
ticket = Ticket(0, "u@R", "a@R", 17, b"", 0, 0, 0, 0, 0, False, False, b"", b"")

def add(principal="a@R", kvno=1, enctype=17, key=bytes(16), timestamp=0):
    keytab.add(principal, kvno, enctype, key, timestamp)

def store(**changed):
    cache.store(replace(ticket, **changed))

before, found = (keytab.image, cache.image), []
for those, calls, error in {REFUSED}:
    for it in eval(those):
        found += [(call, it) for call in calls if not str(raised_by(lambda: eval(call))).startswith(error + ":")]
print(found, (keytab.image, cache.image) == before)
add(kvno=2**32 - 1, enctype=2**16 - 1, key=bytearray(b"k"), timestamp=2**32 - 1)
found = keytab.find("a@R")
print(found.kvno == 2**32 - 1, found.enctype == 2**16 - 1, found.key, found.timestamp == 2**32 - 1)
"""

# Bytes that report another length, cursors that become more when counted, and stores that were never opened.
STRANGE = """
class Long(bytes):
    def __len__(self):
        return 60_000

class Growing(list):
    def __len__(self):
        self.append(2)
        return super().__len__()

keytab = Keytab.open(Long(image))
keytab.add(Long(b"c@R"), 1, 17, Long(bytes(16)))
print(len(keytab.find(Long(b"c@R")).key), len(keytab.image) - len(image), keytab.rewrite(Growing([53])))
krbfile.store.Store(), Keytab(), object.__new__(Keytab)
"""

# Two threads iterate over a keytab, and two read what another moves in memory.
THREADS = """
sys.setswitchinterval(1e-6)
keytab, changed = Keytab.open(image), Keytab.open(image)
entries, wrong = list(keytab), []

def walk():
    wrong.extend("a walk" for _ in range(300) if list(keytab) != entries)

def read():
    wrong.extend("a read" for _ in range(1000)
                 if changed.find("host/a@R") != entries[0] or not changed.image.startswith(image))

def change():
    for _ in range(1000):
        changed.remove_at(changed.add("c@R", 1, 99, bytes(4096)))
        changed.rewrite()

at_once((walk, walk, read, read, change))
print(wrong, changed.image == image)
"""

ETYPE_NAMES = """
keytab, cache = Keytab.create(), Cache.create("u@R")
before = int(time.time())
for name, etype in ETYPES.items():
    keytab.add("a@R", 1, name, bytes(etype.key_length))
    print(name, keytab.find("a@R", enctype=name.upper()).enctype, etype.key_length)
    for length in (etype.key_length - 1, etype.key_length + 1):
        print(raised_by(lambda: keytab.add("b@R", 1, etype.number, bytes(length))))
print(all(before <= entry.timestamp <= time.time() for entry in keytab))
cache.store(Ticket(0, "u@R", "a@R", "rc4-hmac", bytes(16), 0, 0, 0, 0, 0, False, False, b"", b""))
keytab.add("c@R", 1, 99, b"", 0)
print(cache.find("a@R").enctype, keytab.find("c@R").timestamp)
"""

# Names that are not UTF-8, as text and as bytes, in each call; and what is shown of what holds keys.
TEXTS = """
odd, key = b"a\\xff/\\xc3\\xa9@R\\xfe", b"secretsecretsecr"
keytab, cache = Keytab.create(), Cache.create(odd)
for name in (odd, os.fsdecode(odd)):
    keytab.add(name, 1, 17, key)
    entry = keytab.find(name)
    print(ascii(entry.principal), ascii(entry.realm), ascii(entry.components))
    print(os.fsencode(entry.principal) == odd, entry.key == key)
    cache.set_config("k", b"value", name)
    print(cache.config(b"k", name))
print(ascii(cache.principal), len(list(keytab)))
(setting,) = cache
cache.store(replace(setting, client=odd, server=odd, key=key, ticket=key, second_ticket=key))
ticket = cache.find(os.fsdecode(odd))
print(ascii(ticket.client), ticket.client == ticket.server, ticket.key == key)
print([what for what in (entry, ticket, keytab, cache) if "secret" in repr(what)])
"""

# The keytab and the cache that the first two scripts leave. HOST has 51 bytes, B 45: c@R takes the place of HOST.
KEYTAB_AFTER = keytab(Entry((b"c",), key=bytes(16), version8=7, version32=7, timestamp=5), B)
CACHE_AFTER = cache(config(b"pa_type", b"3", b"krbtgt/R@R"),
                    Credential(server=Name((b"host", b"a"), name_type=2), is_skey=1, second_ticket=b"2"), fields=OFFSET)

SCRIPTS: tuple[Script, ...] = (
    ("keytabs", KEYTABS, TWO, [
        "[(2, 'host/a@R', 3, 17), (53, 'b@R', 3, 17)]", "R ('host', 'a') 1 1700000000 True", "2 ['b@R']",
        "[2, 47] None", "KrbfileError 21 no realm", f"NotFound 39 d@R: {code(9)}", f"NotFound 40 c@R: {code(10)}",
        f"KrbfileError 35 {LIBRARY_CODES[5]}", f"ValueError: it is closed; KrbfileError 11 {SHORT[1]}",
        "['11', '12', '12', '13']", "True", f"2 KrbfileError 33 {LIBRARY_CODES[3]} [] True",
        "120", "2", f"NotFound 39 host/a@R: {code(9)}", f"2 {KEYTAB_AFTER.hex()}",
    ]),
    ("caches", CACHES, USUAL, [
        "u@R krbtgt/R@R u@R True 40 148", "17 1700000000 0 1700036000 0 0x40e00000", "True b'tkt' b'' False",
        "b'2' None", "True", f"none@R: {code(9)}", "392 b'3'", "528 True", f"KrbfileError 41 {LIBRARY_CODES[11]}",
        "[34, 170] None", f"['host/a@R'] {CACHE_AFTER.hex()}", "[34, 142, 278, 278]",
        f"KrbfileError 33 {LIBRARY_CODES[3]} b'2'", f"None KrbfileError 38 {LIBRARY_CODES[8]} 130",
        f"(4, 20) KrbfileError 38 {LIBRARY_CODES[8]} 129",
        f"KrbfileError 33 {LIBRARY_CODES[3]} {cache(default=Name((b'a',))).hex()}",
    ]),
    ("cut and damaged images", CUT, TWO + USUAL, [
        "2: 11, 1: [None], 3: [(1, 2, '31')], 47: [(2, 2, '31')], 1: [2, None], 3: [2, (1, 53, '31')], "
        "41: [2, (2, 53, '31')], 1: [2, 53, None]",
        "2: 11, 20: 14, 18: 15, 1: [None], 107: [(4, 40, '31')], 1: [40, None], 135: [40, (4, 148, '31')], "
        "1: [40, 148, None], 107: [40, 148, (4, 284, '31')], 1: [40, 148, None]",
        "42: [(3, 2, '31')], 5: [2, None]", "3: [(3, 2, '31')]", "1: [(4, 40, '31')], 1: 12, 2: 15",
    ]),
    ("names and keys", TEXTS, b"", [
        *2 * [r"'a\udcff/\xe9@R\udcfe' 'R\udcfe' ('a\udcff', '\xe9')", "True True", "b'value'"],
        r"'a\udcff/\xe9@R\udcfe' 2", r"'a\udcff/\xe9@R\udcfe' True True", "[]",
    ]),
    ("what it refuses", REFUSES, TWO, ["[] True", "True True b'k' True"]),
    ("strange arguments", STRANGE, TWO, ["16 45 [53]"]),
    ("encryption types", ETYPE_NAMES, b"", [
        *(line for name, number in BY_NAME.items() for length in (KEY_SIZES[number],) for line in (
            f"{name} {number} {length}", *2 * [f"KrbfileError 42 {BAD_KEY}"])),
        "True", "23 0",
    ]),
    ("threads", THREADS, TWO, ["[] True"]),
)


def check_scripts(scripts: Iterable[Script], report: Report, program: str) -> None:
    """Runs each script, each in a folder of its own."""
    for name, script, image, wanted in scripts:
        with folder_of({}) as folder:
            env = {**surroundings("/bin"), "KRBFILE": program}
            got = run(sys.executable, ("-c", FRONT + script), folder, image, env=env)
        report.compare(f"Python's module: {name}", Outcome(0, text(wanted)), got)


def check_types(report: Report, _program: str) -> None:
    """Has mypy check the module."""
    got = run("mypy", ("--strict", f"--cache-dir={os.devnull}", "python/krbfile"), TOP)
    report.check("its types", [f"{got}"] if got.status else [])


check = every(every(check_types, of="types of Python's module", needs=("mypy",)),
              every(partial(check_scripts, (*SCRIPTS, *python_files.SCRIPTS, *python_records.SCRIPTS)),
                    of="Python's module", lack=no_library))
