"""`klist` over several files: an empty line between listings, JSON a line each, what is reported of others, and what
ends the run. And `klist -l`: two lines of heading, and a line for each cache, or JSON."""

from functools import partial

from caches import cache_listings
from caches.cache_listings import FUTURE, HEADING, OVER, TGT, TICKETS, TICKET_LINE, VALID_HOST, line_of, of_host
from keytabs.file_names import LIMIT
from keytabs.listings import B_LINE, HOST_LINE, listed
from makers.images import B, HOST, OFFSET, PA_TYPE, TWO, USUAL, Credential, Name, cache, keytab
from names.several_files import MISSING, OTHER, UNREAD, fault
from runs.harness import Line, words_of
from words.explaining import FAILED, FULL, Explained, no_keytab, over_files
from words.phrases import BAD_HEADER, BEGINS_AS_KEYTAB, CAUSES, COLLECTION, LARGE, LISTED_AS_KEYTAB

FILES = {"k": TWO, "j": keytab(B), "d": keytab(HOST, b"\0"), "n": keytab(), "c": USUAL, "e": cache(),
         "o": cache(fields=OFFSET), "a\nb": keytab(B), "FILE:k": keytab(HOST)}

K, D = listed(HOST_LINE, B_LINE), listed(HOST_LINE, b"fault 1 at 53", name=b"d")
j = partial(listed, B_LINE)
C, E = cache_listings.listed(b"u@R", TICKET_LINE), cache_listings.listed(b"u@R", name=b"e")
N_JSON = b'{"file":"n","kind":"keytab","version":2,"entries":[],"fault":null}\n'
E_JSON, O_JSON = (b'{"file":"%b","kind":"ccache","version":4,"default_principal":"u@R","offset":%b,"tickets":[],'
                  b'"config":[],"fault":null}\n' % each
                  for each in ((b"e", b"null"), (b"o", b'{"seconds":5,"microseconds":-10}')))


def list_all(line: str | Line, out: list[bytes], *output: tuple[str, str], **more) -> Explained:
    """Returns a listing of some of the files, with an empty line between them, and its messages."""
    return over_files("klist", line, b"\n".join(out), *output, **{"files": FILES, **more})


# Caches of an overview, and files that are none.
CACHES = {"t": cache(TGT), "o": cache(OVER), "e": cache(), "a\nb": cache(TGT), "k": TWO,
          "x": cache(TGT, fields=b"\0\x01\0")}
NONE = {
    "no": (MISSING, 1), "DIR:t": (("DIR:t: no such file", COLLECTION), 1), ".": (UNREAD, 3),
    "/dev/null": (("/dev/null: cannot read", CAUSES["no plain file"]), 3),
    "t/x": (("t/x: cannot read", CAUSES["ENOTDIR"]), 3), "k": (no_keytab(BEGINS_AS_KEYTAB, "k", "cache"), 1),
    "x": (no_keytab(BAD_HEADER, "x", "cache"), 1)}


def overview(line: str | Line, *lines: bytes, files: dict[str, bytes] = CACHES, front: bytes = HEADING,
             **more) -> Explained:
    """Returns a run over some files, its lines, and the messages about those that are no caches."""
    missing = [NONE[word] for word in words_of(line) if word in NONE]
    more = {"status": max([status for _, status in missing], default=0), **more}
    output = more.pop("output", [each for each, _ in missing])
    return over_files("klist", line, front + b"".join(lines), *output, files=files, **more)


# Default principals, and how they print.
PRINCIPALS = {b"x" * size + b"@R": Name((b"x" * size,)) for size in (0, 27, 28, 29, 300)} | {
    "é@R".encode(): Name(("é".encode(),)), rb"a\/b\n@R": Name((b"a/b\n",)), b"@": Name((), b"")}

# The tickets of a cache, and the members about them: how many, the last end, and whether that is over.
SUMMARIES: list[tuple[tuple[Credential | bytes, ...], str]] = [
    ((), '0,"endtime":null,"expired":true'), ((OVER,), '1,"endtime":1700036000,"expired":true'),
    ((OVER, TGT, OVER), f'3,"endtime":{FUTURE},"expired":false'),
    # Where there is a ticket-granting ticket of the own realm, only such ones count for the end.
    ((VALID_HOST, OVER), '2,"endtime":1700036000,"expired":true'),
    ((of_host(endtime=0),), '1,"endtime":0,"expired":true'),
    ((TGT.removed(), PA_TYPE), '0,"endtime":null,"expired":true'),
    ((TGT, b"\0", VALID_HOST), f'1,"endtime":{FUTURE},"expired":false'),
]


def summary(name: str, members: str, default: str = '"default_principal":"u@R"') -> bytes:
    """Returns the line of a cache as JSON."""
    return f'{{"file":"{name}","kind":"ccache",{default},"tickets":{members}}}\n'.encode()


THEOREMS = [
    # Each cache of cache_listings, and default principals of each length.
    overview(("-l", *(f"c{at}" for at in range(len(TICKETS)))),
             *(line_of(f"c{at}", wanted.status == 1) for at, (_, _, wanted) in enumerate(TICKETS)),
             files={f"c{at}": cache(*those) for at, (_, those, _) in enumerate(TICKETS)}),
    overview(("-l", *(f"c{at}" for at in range(len(PRINCIPALS)))),
             *(line_of(f"c{at}", True, text) for at, text in enumerate(PRINCIPALS)),
             files={f"c{at}": cache(default=name) for at, name in enumerate(PRINCIPALS.values())}),
]

CASES = [
    *THEOREMS,
    # Its name as it is loaded, once for each time that it is given, on one line.
    overview(("-lc", "FILE:t", "DIR::./e", "a\nb", "t"), line_of("t"), line_of("./e", True), line_of(r"a\x0ab"),
             line_of("t")),
    # What is no cache has a message and no line; the heading is there in any case.
    overview("-l no"), overview("-l t DIR:t o no k . x e /dev/null t/x", line_of("t"), line_of("o", True),
                                line_of("e", True)),
    overview(("-l", "--json", *(f"c{at}" for at in range(len(SUMMARIES)))),
             *(summary(f"c{at}", members) for at, (_, members) in enumerate(SUMMARIES)), front=b"",
             files={f"c{at}": cache(*those) for at, (those, _) in enumerate(SUMMARIES)}),
    overview(("-l", "--json", "FILE:é\n", "no", "c"), summary(r"é\n", SUMMARIES[0][1]),
             summary("c", SUMMARIES[0][1], '"default_principal_hex":"ff4052"'), front=b"",
             files={"é\n": cache(), "c": cache(default=Name((b"\xff",)))}),
    # The heading comes first, so no file is looked at where it cannot be printed.
    *(overview(line, front=b"", options=FULL, status=3, output=output) for line, output in (
        ("-l no", (FAILED,)), ("-l --json no t .", (NONE["no"][0], FAILED)))),
    # Listings come in order, each as often as it is given, with the name as it is loaded.
    list_all(("FILE:k", "./j", "-k", "--", "a\nb", "k", "FILE:FILE:k"),
             [K, j(name=b"./j"), j(name=b"a\nb"), K, listed(HOST_LINE, name=b"FILE:k")]),
    list_all("c DIR::e FILE:c", [C, E, C]), list_all("-kt n n", [listed(name=b"n", letters="t")] * 2),
    # A file that cannot be listed has its message and no empty line; the status is the greatest.
    list_all("-k . no d k d", [D, K, D], UNREAD, MISSING, *fault("d"), *fault("d"), status=3),
    list_all(("-k", "", "k", "FILE:", "no\nk"), [K], (": no such file", ""), (": no such file", ""),
             (r"no\x0ak: no such file", ""), status=1),
    list_all("-k c /dev/null KCM:k", [], no_keytab(LISTED_AS_KEYTAB, "c"),
             ("/dev/null: cannot read", CAUSES["no plain file"]), OTHER, status=3),
    list_all("k c DIR:c", [C], no_keytab(BEGINS_AS_KEYTAB, "k", "cache"), ("DIR:c: no such file", COLLECTION),
             status=1),
    partial(list_all, "-k l k", [K], ("l: file too large", LARGE), status=1, files={"k": TWO, "l": bytes(LIMIT + 1)}),
    list_all("-k --json n no n", [N_JSON + N_JSON], MISSING, status=1),
    list_all("--json e o e", [E_JSON + O_JSON + E_JSON]),
    # An output that takes nothing ends the run with the first file that would print something.
    list_all("-k no k x", [], MISSING, FAILED, status=3, options=FULL),
    list_all("--json no e no", [], MISSING, FAILED, status=3, options=FULL),
]
