"""What Python's module shows of tickets beside their numbers, what it finds of entries, and which of these open tickets:
scripts, and what they print. Its examples and its version, and a library that is older."""

import re
from dataclasses import replace

from keytabs.checks import EACH
from makers.images import HOST, OFFSET, PA_TYPE, TICKET, TWO, U, Name, cache, keytab, ticket_of
from makers.samples import REALM, SAMPLES, alices
from names.matches import JUDGED, OWN, judged

# A ticket with all that one can have, one that cannot be read, and a setting; they are copied into another cache.
WHOLE = ticket_of(Name((b"host", b"a")), 18, 2**32 - 1, server=U, starttime=1, endtime=2**32 - 1, renew_till=2**31,
                  addresses=((2, bytes(4)), (65_535, b"")), authdata=((1, b"data"),), second_ticket=b"2")
PLAIN = replace(TICKET, authtime=0)
TICKETS = """
cache = Cache.open(image)
print(cache.offset, len(cache), Cache.create("u@R").offset, len(Cache.create("u@R")))
for it in cache:
    print(it.ticket_enctype, it.ticket_kvno, it.ticket_server, it.addresses, it.authdata)
    print(*map(str, (it.authtime_utc, it.starttime_utc, it.endtime_utc, it.renew_till_utc)), sep=", ")
new = Cache.create(cache.principal)
print([new.store(it) for it in cache], new.image.hex())
print([*new] == [replace(it, place=own.place) for it, own in zip(cache, new)], len({*new, *new}))
"""

# Which entries open tickets: of each keytab and cache, beside each other, the places of the entries.
OPENS = """
for line in image.decode().splitlines():
    keytab, cache = map(bytes.fromhex, line.split())
    with Keytab.open(keytab) as keytab, Cache.open(cache) as cache:
        print([entry and entry.place for entry in map(keytab.opens, cache)])
"""
ROWS = [(TWO, OWN), *((image, [judged(*numbers, verdict) for numbers, verdict in verdicts.items()])
                      for image, verdicts in JUDGED)]
PLACES = [[int(found[1]) if (found := re.match(r"opens .* at (\d+)", line)) else None for _, line in rows]
          for _, rows in ROWS]

# What is found of a damaged keytab with each finding, and of one of nothing; and times.
FINDINGS = """
keytab = Keytab.open(image)
for it in keytab.findings():
    print(it.place, *(name for name, value in vars(it).items() if value is True))
print([it.place for it in keytab.old()], [it.place for it in keytab.weak()], len(keytab), keytab.fault)
print(*(str(it.timestamp_utc) for it in keytab.old()[:1] + keytab.weak()))
print(Keytab.create().findings(), Keytab.create().old(), len(Keytab.create()))
keytab.close()
print(*(raised_by(call) for call in (lambda: len(keytab), keytab.findings, keytab.weak)), sep="; ")
"""

# The version is the program's. A library that has none of the calls is an older one.
VERSION = """
import ctypes, subprocess
print(subprocess.check_output((os.environ["KRBFILE"], "--version"), text=True).split()[1] == krbfile.__version__)
krbfile.library.exports = ctypes.PyDLL("libc.so.6")
print(raised_by(Keytab.create).replace(krbfile.__version__, "VERSION"))
"""

# The examples in help, over copies of samples, what they print, and what they change.
EXAMPLES = """
import inspect, re, textwrap
files = {name: bytes.fromhex(data) for name, data in map(str.split, image.decode().splitlines())}
os.environ.update(KRB5CCNAME="alice.ccache", KRB5_KTNAME="mixed.keytab")
names = [it for it in map(vars(krbfile).get, krbfile.__all__) if inspect.isclass(it) or inspect.isfunction(it)]
members = [getattr(it, name) for it in names for name in vars(it) if name[0] != "_"]
pages = {inspect.getdoc(it) or "" for it in (krbfile, *names, *members)}
for page in sorted(pages):
    for part in re.findall(r"(?:^    .*\\n?|\\n(?=\\n*    ))+", page, re.MULTILINE):
        for name, data in files.items():
            Path(name).write_bytes(data)
        exec(textwrap.dedent(part).replace("/etc/krb5.keytab", "mixed.keytab"))
        after = {name: Path(name).read_bytes() for name in files}
        print([(name, data.hex()) for name, data in after.items() if data != files[name]])
"""

OF_ALICE = alices(b"krbtgt", REALM, 1, 18, 1_709_239_400)  # a ticket that one of them copies

SCRIPTS = (
    ("all of tickets", TICKETS, cache(WHOLE, PLAIN, PA_TYPE, fields=OFFSET), [
        "0:00:04.999990 3 None 0",
        "18 4294967295 host/a@R ((2, b'\\x00\\x00\\x00\\x00'), (65535, b'')) ((1, b'data'),)",
        "2023-11-14 22:13:20+00:00, 1970-01-01 00:00:01+00:00, 2106-02-07 06:28:15+00:00, 2038-01-19 03:14:08+00:00",
        "None None None () ()", "None, None, 2023-11-15 08:13:20+00:00, None",
        "None None None () ()", "None, None, None, None",
        f"[22, 208, 316] {cache(WHOLE, PLAIN, PA_TYPE).hex()}", "True 3",
    ]),
    ("which entries open tickets", OPENS, "".join(
        f"{image.hex()} {cache(*(each for each, _ in rows)).hex()}\n" for image, rows in ROWS).encode(),
     [f"{places}" for places in PLACES]),
    ("findings", FINDINGS, EACH, [
        "11 weak nostrong", "57 old", "102 same old", "147 size clash old hidden", "[57, 102, 147] [11] 5 (1, 232)",
        "2023-11-14 22:13:20+00:00 None", "[] [] 0", "; ".join(3 * ["ValueError: it is closed"]),
    ]),
    ("versions", VERSION, b"", ["True", "NotImplementedError: libc.so.6 has no krbf_kt_create: install libkrbfile "
                                "VERSION, or a later one"]),
    ("the examples of help", EXAMPLES, "".join(f"{name} {data.hex()}\n" for name, data in SAMPLES.items()).encode(), [
        "['krbtgt/EXAMPLE.ORG@EXAMPLE.ORG', 'HTTP/www.example.org@EXAMPLE.ORG']",
        f"{[('mixed.keytab', keytab(HOST, 41).hex())]}",
        f"{[('krb5cc_0', (SAMPLES['krb5cc_0'] + OF_ALICE.spelled()).hex())]}",
    ]),
)
