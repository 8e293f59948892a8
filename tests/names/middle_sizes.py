"""No command is out of memory over files, scripts and lists of words that are larger than those of most rows, and
smaller than the greatest. What each prints and saves its contract says."""

from dataclasses import replace

from makers.images import B, TICKET, Entry, Name, cache, config, keytab, old, ticket_of
from runs.harness import Report, text
from runs.undisturbed import frame, undisturbed
from words.phrases import FINDINGS

NAMES = [b"%02d" % (at % 50) for at in range(5_000)]  # of entries and tickets; each name has a hundred versions
BY_NAME = " ".join(f"-p {name.decode()}@R" for name in NAMES[:50])
ASKED = " ".join((BY_NAME, *(f"-e {etype}" for etype in range(50))))
WANTED = " ".join((BY_NAME.replace("-p", "--want"), *(f"--allow {finding}" for finding in FINDINGS)))
OTHERS = " j" * 60  # a small file, again and again

# Keytabs of 230,002 bytes, each with another key, and a small one.
K, T = (keytab(*(Entry((name,), timestamp=0, version8=1 + at // 50, version32=1 + at // 50, key=key)
                 for at, name in enumerate(NAMES))) for key in (B.key, bytes(16)))
J, VALID = keytab(replace(B, timestamp=0)), replace(TICKET, endtime=2**32 - 1)
# A cache of 495,022 bytes and a small one; and one of tickets under the keys of K.
C, CACHE = cache(*(replace(VALID, server=Name((name,))) for name in NAMES)), cache(VALID)
OWN = cache(*(ticket_of(Name((name,)), 17, 1 + at // 50) for at, name in enumerate(NAMES)))
LONG = replace(VALID, ticket=bytes(200_000))
EDITS = text(f"cut {2 + 46 * at}\nadd {1 + at // 50} 17 0 {'00' * 16} {name.decode()}@R"
             for at, name in enumerate(NAMES))

RUNS = (
    undisturbed(f"klist -k k{OTHERS}", k=K, j=J),
    undisturbed(f"show k{OTHERS}", j=J, k=keytab(*(Entry((b"%04d" % at,)) for at in range(5_000)))),
    undisturbed(f"ktcheck --only {WANTED} k{OTHERS}", k=K, j=J),
    undisturbed(f"ktmatch {BY_NAME} k c{OTHERS}", k=K, c=OWN, j=CACHE),
    undisturbed("ktfind k 100 17 49@R", k=K), undisturbed(f"ktdiff {ASKED} k t", k=K, t=T),
    undisturbed(f"ktremove {ASKED} k{OTHERS}", k=K, j=J),
    undisturbed("ktremove -p @ k", k=old(*[Entry((), b"", key=b"", version32=None)] * 58_000)),
    undisturbed(f"ktcopy {ASKED} k t", k=K), undisturbed("ktcopy --replace k t", k=K, t=T),
    undisturbed("ktedit k", EDITS, k=K),
    undisturbed("ktutil", text(["rkt k", *["rkt j", "delent 5001"] * 600, "l", "wkt n"]), k=K, j=J),
    undisturbed("hold -k k", frame(T), k=K), undisturbed(f"klist -l c{OTHERS}", c=C, j=CACHE),
    undisturbed("klist -s c", c=C),
    undisturbed(f"ccremove {BY_NAME.replace('-p', '--match')} c{OTHERS}", c=C, j=CACHE),
    undisturbed("ccedit c", text([*["config k - new"] * 100, "rewrite"] * 11), c=cache(LONG, config(b"k", b"old"))),
)


def check(report: Report, _program: str) -> None:
    """Makes each run: it ends as it does over small files, and without a message."""
    for made in RUNS:
        got = made.wanted.status, made.wanted.err
        report.check(made.name[:40], [] if got == (int(made.words[0] == "ktdiff"), b"") else [f"{got}"])
