"""Listings of keytabs by `klist -k`, with times, enctypes and keys. Each expected text is written by hand from the
layout. And texts in JSON: Python reads each as it is, and one that is no UTF-8 by its hexadecimal digits."""

import json
import re
from dataclasses import replace

from makers.images import END, HOST, LITTLE, TWO, USUAL, B, Entry, cache, config, hole, keytab, old, record
from runs.harness import Case, Outcome, Report, message, over
from runs.undisturbed import undisturbed
from words.phrases import FORMATS

# The enctypes that have names: the lengths of their keys, and the names; the first is printed.
ETYPES = {
    16: (24, "des3-cbc-sha1 des3 des3-hmac-sha1 des3-cbc-sha1-kd"),
    17: (16, "aes128-cts-hmac-sha1-96 aes128 aes128-cts aes128-sha1"),
    18: (32, "aes256-cts-hmac-sha1-96 aes256 aes256-cts aes256-sha1"),
    19: (16, "aes128-cts-hmac-sha256-128 aes128-sha2"),
    20: (32, "aes256-cts-hmac-sha384-192 aes256-sha2"),
    23: (16, "arcfour-hmac rc4 rc4-hmac arcfour-hmac-md5"),
    25: (16, "camellia128-cts-cmac camellia128 camellia128-cts"),
    26: (32, "camellia256-cts-cmac camellia256 camellia256-cts"),
}
KEY_SIZES = {number: size for number, (size, _) in ETYPES.items()}
NAMES = {number: names.split()[0].encode() for number, (_, names) in ETYPES.items()}
BY_NAME = {name: number for number, (_, names) in ETYPES.items() for name in names.split()}

TIME = b"2023-11-14T22:13:20Z "
ETYPE = b" (aes128-cts-hmac-sha1-96)"
HOST_KEY = b" (0x000102030405060708090a0b0c0d0e0f)"
B_KEY = b" (0x101112131415161718191a1b1c1d1e1f)"

# Times and their texts, among them the edges of a year, and of February in 2000 and 2100.
KNOWN_TIMES = {
    0: b"1970-01-01T00:00:00Z", 951_782_399: b"2000-02-28T23:59:59Z", 951_782_400: b"2000-02-29T00:00:00Z",
    951_868_799: b"2000-02-29T23:59:59Z", 951_868_800: b"2000-03-01T00:00:00Z", 1_700_000_000: b"2023-11-14T22:13:20Z",
    1_704_067_199: b"2023-12-31T23:59:59Z", 1_704_067_200: b"2024-01-01T00:00:00Z", 2**31 - 1: b"2038-01-19T03:14:07Z",
    2**31: b"2038-01-19T03:14:08Z", 4_107_542_399: b"2100-02-28T23:59:59Z", 4_107_542_400: b"2100-03-01T00:00:00Z",
    2**32 - 1: b"2106-02-07T06:28:15Z",
}

HOST_LINE = b"   3 host/a@R"
B_LINE = b"   3 b@R"


def listed(*lines: bytes, name: bytes = b"k", letters: str = "") -> bytes:
    """Returns the text of a listing with those columns: a line for each entry or fault. Times change the heading."""
    heads, rule = (b"Timestamp            ", b"-------------------- ") if "t" in letters else (b"", b"")
    first = (b"Keytab name: FILE:" + name, b"KVNO " + heads + b"Principal", b"---- " + rule + b"---------")
    return b"".join(line + b"\n" for line in (*first, *lines))


def case(name: str, image: bytes, *lines: bytes, letters: str = "") -> Case:
    """Returns a listing with those columns. A fault, which its last line reports, makes the status 1."""
    status = 1 if any(line.startswith(b"fault ") for line in lines) else 0
    return over(name, f"klist -k{letters} k", image, Outcome(status, listed(*lines, letters=letters)))


def sample(letters: str) -> bytes:
    """Returns a listing of TWO with those columns."""
    time = TIME if "t" in letters else b""
    etype = ETYPE if "e" in letters else b""
    host, b = (HOST_KEY, B_KEY) if "K" in letters else (b"", b"")
    names = ((b"host/a@R", host), (b"b@R", b))
    return listed(*(b"   3 " + time + name + etype + key for name, key in names), letters=letters)


LONG = Entry((b"",) * 40_000 + (b"x" * 65_535,), b"r" * 40_000, key=bytes(40_000))

# The objects in FORMATS; and a damaged keytab with a name that is no UTF-8 and a type without a name, and its object.
OBJECTS = [f"{line}\n".encode() for line in re.findall(r'^{"file".*', FORMATS, re.MULTILINE)]
ODD = keytab(Entry((b"\xff",), timestamp=0, version8=1, enctype=65_535, key=b"\n\xff", version32=None), b"\0")
ODD_OBJECT = b"""{"file":"k","kind":"keytab","version":2,"entries":[{"place":2,"principal_hex":"ff4052","kvno":1,\
"etype":65535,"etype_name":null,"timestamp":0,"key_hex":"0aff"}],"fault":{"kind":1,"place":29}}
"""

THEOREMS = [
    *(over("JSON", line, image, Outcome(0, wanted)) for line, image, wanted in zip(
        ("klist -k --json k", "klist --json c", "klist -l --json c"), (TWO, USUAL, USUAL), OBJECTS[:3], strict=True)),
    Case("JSON", ("ktcheck", "--json", "--want", "c@R", "k", "no"),
         Outcome(1, b"".join(OBJECTS[3:]), b"krbfile: no: no such file\n"), {"k": TWO}, mode=0o100_644),
    over("odd JSON", "klist -kK --json k", ODD, Outcome(1, ODD_OBJECT)),
]

# The lines of words list TWO, with each set of columns; those that are explained name what is no keytab.
CASES = [
    *THEOREMS,
    case("lengths and a count that would be negative as signed numbers", keytab(LONG),
         b"   3 " + b"/" * 40_000 + b"x" * 65_535 + b"@" + b"r" * 40_000),
    case("no entries", keytab()), case("the smallest entry", keytab(record(bytes(17))), b"   0 @"),
    case("a hole of any bytes", keytab(hole(b"\xff" * 47), B), B_LINE),
    case("an entry after an end mark", keytab(HOST, END, B), HOST_LINE),
    # Half a length, a record and a hole that are longer than what is left, and a record that begins with no entry.
    *(case(f"a fault at {rest[:4]}", keytab(HOST, rest), HOST_LINE, b"fault %d at 53" % kind) for kind, rest in (
        (1, b"\0\0"), (2, b"\x7f\xff\xff\xff"), (2, b"\x80\0\0\0"), (3, record(bytes(10)) + record(B.spelled())))),
    # A version of 32 bits counts if it has four bytes and is not 0.
    case("versions of 8 and of 32 bits", keytab(*(
        record(replace(HOST, version8=7, version32=None).spelled() + rest)
        for rest in (b"", b"\0\0\1", b"\0\0\0\0", b"\0\0\1\0"))), *[b"   7 host/a@R"] * 3, b" 256 host/a@R"),
    case("a count of 0 in version 1", old(record(bytes(17), LITTLE)), b"fault 3 at 2"),
    case("version 1", old(HOST), HOST_LINE),
    case("version 1 in the other order", old(HOST), b"fault 2 at 2", letters=" --v1-big"),
    *(over(f"no keytab: {image}", "klist -k k", image, message(1, f"k: not a keytab ({number})"))
      for image, number in ((b"\5", 1), (b"\4\2", 2), (b"\5\3", 2))),
    lambda: case("enctypes", keytab(*(Entry((b"a",), enctype=each, key=b"") for each in range(65_536))),
                 *(b"   3 a@R (%s)" % NAMES.get(each, b"etype %d" % each) for each in range(65_536)), letters="e"),
    case("times", keytab(*(Entry((b"a",), timestamp=second) for second in KNOWN_TIMES)),
         *(b"   3 " + text + b" a@R" for text in KNOWN_TIMES.values()), letters="t"),
]

# Bytes that are escaped or not; and no UTF-8: a byte, an overlong form, a surrogate, too great, and cut.
TEXTS = (b"", bytes(range(32)), b'"\\/\x7f', b"\xc2\x80\xc2\x9f\xc2\xa0\xc3\x80", "é€\U0001f600".encode())
NO_UTF_8 = tuple(map(bytes.fromhex, ("61ff", "c080", "eda080", "f4908080", "e282")))


def check(report: Report, _program: str) -> None:
    """Lists each as a key, as a principal and as a value."""
    image = cache(*(config(each, each, each) for each in (*TEXTS, *NO_UTF_8)))
    out = undisturbed("klist --json c", name="odd texts", c=image).wanted.out
    wanted = [[each.decode()] * 3 for each in TEXTS] + [[each.hex()] * 3 for each in NO_UTF_8]
    read = [[one.get(name, one.get(f"{name}_hex")) for name in ("key", "principal", "value")]
            for one in json.loads(out)["config"]]
    report.check("texts as JSON", [] if read == wanted else [f"{read}"])
