"""The enctype, the kvno and the server that JSON has of a ticket by its own bytes. Rows are by hand, from X.690."""

from collections.abc import Callable
from dataclasses import replace

from makers.images import (TICKET, TICKET_FIELDS, TICKET_VERSION, Name, cache, element, encrypted, own_server,
                           ticket)
from peers.beside_mit import are_there, as_json, differing_types, ticket_types
from peers.corpus import files
from runs.harness import Report, folder_of

Encryption = tuple[int | None, str | None, int | None]  # JSON of a ticket: its enctype, the name of that, and its kvno
NAME = "aes256-cts-hmac-sha1-96"
USUAL: Encryption = (18, NAME, 2)
NOTHING: Encryption = (None, None, None)

# The contents of the two INTEGERs, and what JSON has then.
NUMBERS: dict[tuple[str, str | None], Encryption] = {
    ("12", "02"): USUAL, ("12", None): (18, NAME, None), ("00", "00"): (0, None, 0), ("7f", "7f"): (127, None, 127),
    ("0080", "0080"): (128, None, 128), ("fb", "ff"): (-5, None, 2**32 - 1), ("ff7f", "80"): (-129, None, 2**32 - 128),
    ("010012", "010000"): (65_554, None, 65_536), ("7fffffff", "7fffffff"): (2**31 - 1, None, 2**31 - 1),
    ("80000000", "80000000"): (-2**31, None, 2**31), ("12", "0080000000"): (18, NAME, 2**31),
    ("12", "00ffffffff"): (18, NAME, 2**32 - 1),
    # Beyond 32 bits, none, and not in the shortest form.
    **dict.fromkeys([("0080000000", "02"), ("ff7fffffff", "02"), ("12", "0100000000"), ("12", "ff7fffffff"),
                     ("12", "010000000000000002"), ("", "02"), ("12", ""), ("0012", "02"), ("fffb", "02"),
                     ("12", "0002"), ("12", "ff80")], NOTHING),
}

DATA, LONG = (encrypted(b"\x12", b"\2", bytes(size)) for size in (20, 70_000))

ODD: dict[str, Callable[[int, bytes], bytes]] = {
    "a longer length": lambda tag, content: element(tag, content, True),
    "an indefinite length": lambda tag, content: bytes([tag, 128]) + content + b"\0\0",
    "bytes after it": lambda tag, content: element(tag, content) + b"\0",
    "bytes at its end": lambda tag, content: element(tag, content + b"\0"),
    "its last byte cut off": lambda tag, content: element(tag, content)[:-1],
    "another tag": lambda tag, content: element(tag ^ 1, content),
}

ROWS: dict[str, tuple[bytes, Encryption]] = {
    **{f"INTEGERs {numbers}": (ticket(encrypted(*(it if it is None else bytes.fromhex(it) for it in numbers))), shown)
       for numbers, shown in NUMBERS.items()},
    **{f"{name}, element {at} of {len(data)}": (ticket(data, at=at, odd=odd), NOTHING)
       for name, odd in ODD.items() for data in (DATA, LONG) for at in range(4)},
    "a long one": (ticket(LONG), USUAL),
    "empty realm, sname and cipher": (ticket(DATA[:10] + b"\xa2\0", TICKET_VERSION + b"\xa1\0\xa2\0"), USUAL),
    "no realm": (ticket(DATA, TICKET_VERSION + TICKET_FIELDS[10:]), NOTHING),
    "version 4": (ticket(DATA, TICKET_FIELDS.replace(TICKET_VERSION, b"\xa0\3\2\1\4")), NOTHING),
    "the kvno twice": (ticket(DATA[:10] + DATA[5:]), NOTHING), "no cipher": (ticket(DATA[:10]), NOTHING),
    "nothing": (b"", NOTHING),
}


def of_a(*changes: tuple[str, str]) -> bytes:
    """Returns the fields of a ticket for a@R with some bytes replaced."""
    made = "a003020105 a1031b0152 a20e300c a003020101 a1053003 1b0161"
    for old, new in changes:
        made = made.replace(old, new)
    return bytes.fromhex(made)


# The first fields of tickets, and the server that JSON has then.
SERVERS: dict[str, tuple[bytes, str | None]] = {
    "krbtgt": (TICKET_FIELDS, "krbtgt/R@R"), "one component": (of_a(), "a@R"),
    "none": (own_server(Name(())), "@R"), "empty ones": (own_server(Name((b"", b""), b"")), "/@"),
    "not UTF-8": (own_server(Name((b"\xff",))), "ff4052"),
    "quoted": (own_server(Name((b"a/b", b"c@\n"), b"\\")), r"a\/b/c\@\n@\\"),
    "long ones": (own_server(Name((b"x" * 200, b"y" * 70_000))), "x" * 200 + "/" + "y" * 70_000 + "@R"),
    "many": (own_server(Name((b"a",) * 1_000)), "/".join("a" * 1_000) + "@R"),
    **{f"the type {it}": (own_server(Name((b"a",)), bytes.fromhex(it)), "a@R") for it in ("80000000", "7fffffff")},
    **{f"the type {it}": (own_server(Name((b"a",)), bytes.fromhex(it)), None)
       for it in ("0080000000", "ff7fffffff", "0001", "")},
    **{name: (of_a(*changes), None) for name, changes in {
        "a realm of another tag": [("1b0152", "0c0152")], "two realms": [("a1031b0152", "a1061b01521b0152")],
        "no string in the realm": [("a1031b0152", "a100")], "no type": [("a20e300c a003020101", "a2093007")],
        "no [1]": [("a20e300c", "a2073005"), ("a1053003 1b0161", "")],
        "bytes after [1]": [("a20e300c", "a210300e"), ("1b0161", "1b01610500")],
        "an element after the strings": [("a20e300c", "a210300e"), ("a1053003 1b0161", "a10730031b01613000")],
        "a byte after a string": [("a20e300c", "a20f300d"), ("a1053003 1b0161", "a10630041b016100")],
        "a component of another tag": [("1b0161", "0c0161")], "a string that is cut": [("1b0161", "1b0261")],
        "a longer length": [("a20e300c", "a20f300d"), ("a1053003 1b0161", "a10630041b810161")]}.items()},
}


def check(report: Report, program: str) -> None:
    """Compares what JSON has of each ticket, and the enctypes, also of the corpus, with those that MIT's shows."""
    is_mit = are_there(report, "enctypes of tickets beside MIT's klist", "klist")
    with folder_of({"c": cache(*(replace(TICKET, ticket=ticket(DATA, it)) for it, _ in SERVERS.values()))}) as folder:
        for (name, (_, server)), one in zip(SERVERS.items(), as_json(program, folder, "c")["tickets"], strict=True):
            got, label = (one["ticket_etype"], [*one.items()][-1]), "ticket_server" + "_hex" * (name == "not UTF-8")
            report.check(f"the server: {name}", [] if got == (18, (label, server)) else [f"{got}, not {server}"])
    with folder_of({"c": cache(*(replace(TICKET, ticket=data) for data, _ in ROWS.values()))}) as folder:
        for (name, (_, wanted)), one in zip(ROWS.items(), as_json(program, folder, "c")["tickets"], strict=True):
            got = tuple(one[f"ticket_{part}"] for part in ("etype", "etype_name", "kvno"))
            report.check(name, [] if got == wanted else [f"{got}, not {wanted}"])
        report.check("MIT's klist and ours", differing_types(program, folder) if is_mit else [])
    for name, image in (each for each in files("ccache") if is_mit and each[1][1] > 2):
        with folder_of({"c": image}) as folder:
            found = ticket_types(program, folder)
            report.check(name, [f"{ours}, not {theirs}" for ours, theirs in found if ours != theirs])
