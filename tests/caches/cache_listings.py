"""Listings of caches by `klist`, some damaged. Each expected text is written by hand from the layout. And `klist -s`:
whether a cache has a ticket to go on with, which the status alone says."""

from dataclasses import replace
from functools import partial

from keytabs.file_names import LIMIT
from keytabs.listings import KNOWN_TIMES
from makers.images import (FLAGS, PA_TYPE, TICKET, TWO, USUAL, VERSION_3, Credential, Name, cache, config,
                           config_ticket, header_field, offset)
from runs.harness import Case, Outcome, message, over, words_of

TICKET_LINE = b"2023-11-14T22:13:20Z 2023-11-15T08:13:20Z krbtgt/R@R"

of_host = partial(replace, TICKET, server=Name((b"host", b"a")))


def listed(default: bytes, *lines: bytes, name: bytes = b"c") -> bytes:
    """Returns the text of a listing of that file: four first lines, and those of credentials or of a fault."""
    first = (b"Ticket cache: FILE:" + name, b"Default principal: " + default, b"",
             b"Valid starting       Expires              Service principal")
    return b"".join(line + b"\n" for line in (*first, *lines))


# The line that each column adds.
ADDED = {"f": b"    Flags: FRIA", "e": b"    Etype: aes128-cts-hmac-sha1-96", "C": b"config: pa_type(krbtgt/R@R) = 2"}
MANY = Name((), count=2**32 - 1)  # a name of the greatest count, which has its realm alone
HEADING = b"Principal name                 Cache name\n--------------                 ----------\n"  # of an overview


def line_of(name: str, is_over: bool = False, default: bytes = b"u@R") -> bytes:
    """Returns the line of a cache in an overview."""
    return default.ljust(30) + f" FILE:{name}{' (Expired)' * is_over}\n".encode()


def case(name: str, image: bytes, *lines: bytes, columns: str = "") -> Case:
    """Returns a listing of the file `c`. A fault, which its last line reports, makes the status 1."""
    status = 1 if any(line.startswith(b"fault ") for line in lines) else 0
    return over(name, f"klist {'-' if columns else ''}{columns} c", image, Outcome(status, listed(b"u@R", *lines)))


# Flags, and the letters of each: of each bit, of none, of all, and of those without a letter.
LETTERS = {**{bit: letter for letter, bit in FLAGS.items()}, 0: b"", 2**32 - 1: b"".join(FLAGS),
           ~sum(FLAGS.values()) % 2**32: b""}

TIMED = {second: text for second, text in KNOWN_TIMES.items() if second}  # a starttime or renewal time of 0 means none
BYTES = bytes(range(256))
ESCAPED = (b"".join(b"\\x%02x" % byte for byte in range(0x20)) + bytes(range(0x20, 0x5C)) + b"\\\\"
           + bytes(range(0x5D, 0x7F)) + b"".join(b"\\x%02x" % byte for byte in range(0x7F, 0x100)))

CASES = [
    *(case(f"columns {columns}", USUAL, TICKET_LINE, *(ADDED[it] for it in columns), columns=columns)
      for columns in ("", "f", "C", "feC")),
    case("a value", cache(config(b"k", b"a\\ \n~\x7f\xff")), b"config: k = a\\\\ \\x0a~\\x7f\\xff", columns="C"),
    case("the greatest count", cache(MANY.spelled()), b"fault 4 at 22"),
    # A header that is longer than the file, one that ends within a field, and no whole default principal.
    *(over(f"no cache: {image}", "klist c", image, message(1, f"c: not a cache ({number})")) for image, number in (
        (b"\5\4\0\1", 4), (b"\5\4\0\4\0\1\0\1\xff", 4), (cache(default=MANY), 5))),
    case("flags", cache(*(replace(TICKET, flags=flags) for flags in LETTERS)),
         *(line for letters in LETTERS.values() for line in (TICKET_LINE, b"    Flags: " + letters)), columns="f"),
    case("known times", cache(*(replace(TICKET, starttime=at, endtime=at, renew_till=at) for at in TIMED)),
         *(line for text in TIMED.values()
           for line in (text + b" " + text + b" krbtgt/R@R", b"    renew until " + text, ADDED["f"])), columns="f"),
    case("the first type of version 3", VERSION_3, TICKET_LINE, ADDED["e"], columns="e"),
    case("each byte of a value", cache(config(BYTES, BYTES, BYTES)),
         b"config: " + ESCAPED + b"(" + ESCAPED + b") = " + ESCAPED, columns="C"),
    case("a header of 300 fields", cache(TICKET, fields=b"".join(
        header_field(tag, b"x" * tag) for tag in range(300)) + offset(5, 0)), TICKET_LINE),
    lambda: case("the greatest count before a million zeros",
                 cache(TICKET.client.spelled() + b"\0\0\0\0" + b"\xff" * 4 + bytes(1_000_000)), b"fault 4 at 22"),
]

FUTURE = 2**32 - 1  # a time that does not come during a test; the usual ticket ended before
VALID, NONE = Outcome(0), Outcome(1)  # how runs end

# Ticket-granting tickets of the default principal's realm, R, one of them over, and a ticket for host/a@R.
OVER, TGT, VALID_HOST = TICKET, replace(TICKET, endtime=FUTURE), of_host(endtime=FUTURE)


def ask(name: str, image: bytes, wanted: Outcome, options: str = "-s") -> Case:
    """Returns a run over the cache `c`."""
    return Case(f"{name}: {options}", ("klist", *words_of(options), "c"), wanted, {"c": image})


def service(*components: bytes, realm: bytes = b"R", **more) -> Credential:
    """Returns a ticket for a server, not over yet."""
    return replace(TGT, server=Name(components, realm), **more)


# The tickets of a cache, and whether one is to go on with.
TICKETS: list[tuple[str, tuple[Credential | bytes, ...], Outcome]] = [
    ("none", (), NONE), ("a ticket-granting ticket", (TGT,), VALID), ("one that is over", (OVER,), NONE),
    ("another ticket alone", (VALID_HOST,), VALID),
    # One of the default principal's realm decides, wherever it is.
    ("one that is over, and another ticket", (OVER, VALID_HOST), NONE),
    ("another ticket, and one that is over", (VALID_HOST, OVER), NONE),
    # Only of its own realm, by its name: two components in that case, of any type, for any client.
    *((f"krbtgt of {'/'.join(parts)}@{realm}", (OVER, service(*map(str.encode, parts), realm=realm.encode())), NONE)
      for *parts, realm in (("krbtgt", "S", "R"), ("krbtgt", "R", "S"), ("krbtgt", "R"), ("krbtgt", "R", "", "R"),
                            ("KRBTGT", "R", "R"), ("krbtgt", "r", "R"), ("krbtgt/R", "R"), ("R",))),
    ("one of another realm alone", (service(b"krbtgt", b"S"),), VALID),
    ("one of another name type", (replace(OVER, server=Name((b"krbtgt", b"R"), name_type=99)), VALID_HOST), NONE),
    ("one of another client", (replace(TGT, client=Name((b"v",), b"S")),), VALID),
    # Its flags, its start and its kind of key say nothing.
    ("one that begins later, of no flags", (replace(TGT, starttime=FUTURE, flags=0, is_skey=1),), VALID),
    ("one that could be renewed", (replace(OVER, renew_till=FUTURE),), NONE),
    ("one that ends at 0", (replace(TGT, endtime=0), VALID_HOST), NONE),
    # Removed ones do not count, and configuration entries neither: those of two or three components.
    ("a removed one", (TGT.removed(),), NONE),
    ("configuration entries", (replace(PA_TYPE, endtime=FUTURE), config_ticket(b"k", endtime=FUTURE)), NONE),
    *((f"a name of a configuration entry and {len(after)} more", (config_ticket(*after, endtime=FUTURE),), wanted)
      for after, wanted in (((), VALID), ((b"k", b"p"), NONE), ((b"k", b"p", b"q"), VALID))),
    # What follows a fault is not read, what precedes it is.
    ("a damaged tail", (TGT, b"\0"), VALID), ("one that is over, and a damaged tail", (OVER, b"\0"), NONE),
    ("a fault before it", (b"\xff" * 9, TGT), NONE),
]

CASES += [
    *(ask(name, cache(*those), wanted) for name, those, wanted in TICKETS),
    *(ask("no cache", image, NONE) for image in (b"", TWO, cache(TGT, fields=b"\0\x01\0"), b"\x05\x04\0\0")),
    # Whether a ticket is left in so long. None is if the end of that is past the greatest time, or 32 bits.
    *(ask("for a while", cache(TGT), VALID, options) for options in ("-sc", "--for 0 -s", "-s --for=86400 -c")),
    *(ask("for too long", cache(TGT), NONE, options) for options in ("-s --for 4294967295", "--for=3000000000 -s")),
    ask("a ticket that ends too soon", cache(VALID_HOST, replace(OVER, endtime=2**31)), NONE, "-s --for 2147483648"),
    lambda: ask("the greatest file", cache(TGT, bytes(LIMIT - len(cache(TGT)))), VALID),
]
