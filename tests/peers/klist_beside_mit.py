"""MIT's klist beside ours, which agree but for the differences named here: `klist -s` over one cache and at one time;
caches of other programs that ccedit and ccremove change, where MIT's shows what a run left and set; and `klist` and
`klist -k` without a file, of the names of named_files and by default."""

import os
import re
from collections.abc import Iterator, Mapping
from dataclasses import replace
from functools import lru_cache, partial
from random import Random

from caches.cache_listings import TICKETS
from makers.images import CONFIG_FIRST, CONFIG_REALM, TICKET, TWO, Name, cache, config_ticket, header_field
from makers.random_files import random_credential
from names.named_files import ALL, IMAGES, Kind, named
from peers.beside_mit import SURROUNDINGS, as_json, check_seeds, credentials, differences_of, lack, mit_klist
from peers.corpus import files
from runs.harness import Outcome, Report, every, folder_of, message, run
from runs.system_calls import Preloaded, preloaded
from runs.undisturbed import Undisturbed, undisturbed

END, LATER = TICKET.endtime, TICKET.endtime + 1_000  # the end of the usual ticket, and another

SERVERS = (Name((b"krbtgt", b"R")), Name((b"krbtgt", b"S")), Name((b"krbtgt", b"R"), b"S"), Name((b"host", b"a")),
           Name((CONFIG_FIRST, b"k"), CONFIG_REALM), Name((CONFIG_FIRST, b"k", b"p"), CONFIG_REALM))

# Caches where MIT's klist differs until their end: whether it finds a ticket to go on with, and ours does.
DIFFERENT: dict[str, tuple[bytes, bool, bool]] = {
    "version 2": (dict(files("ccache"))["kinit-v2"], True, False),
    "a header with a short offset": (cache(TICKET, fields=header_field(1, b"abc")), False, True),
    "a header with a long offset": (cache(TICKET, fields=header_field(1, bytes(9))), False, True),
    "a configuration entry of one component": (cache(config_ticket()), False, True),
    "one of four components": (cache(config_ticket(b"k", b"p", b"q")), False, True),
    "a length above that of the file": (cache(TICKET, bytes(8) + b"\0\1\0\0"), False, True),
}


def by_mit(under: Preloaded, folder: str, now: int) -> Outcome:
    """Returns the outcome of MIT's klist at a time."""
    return run("klist", ("-s", "c"), folder, env=SURROUNDINGS | {"LD_PRELOAD": under.library, "CLOCK": str(now)})


def faults_of(under: Preloaded, image: bytes, ahead: int = 0) -> list[str]:
    """Returns where the programs differ around each end of a ticket; ours may be asked some seconds ahead."""
    found = []
    asked = undisturbed(f"klist -s --for {ahead} c" if ahead else "klist -s c")
    with folder_of({"c": image}) as folder:
        ends = {END, *(one["endtime"] for one in as_json(under.program, folder, "c").get("tickets", ()))}
        for now in sorted(end + more for end in ends for more in (-1, 0, 1) if 0 < end + more < 2**32):
            theirs, ours = by_mit(under, folder, now), under.run_in(folder, asked, CLOCK=now - ahead).outcome
            if ours != theirs:
                found.append(f"at {now} ours is {ours}, MIT's {theirs}, the cache {image[:2000].hex()}")
    return found


def check_different(report: Report, under: Preloaded) -> None:
    """Checks each known difference, and that it ends with the ticket."""
    for name, (image, is_theirs, is_ours) in DIFFERENT.items():
        with folder_of({"c": image}) as folder:
            found = []
            for now, is_left in ((1_700_000_000, True), (2**32 - 1, False)):
                theirs, ours = by_mit(under, folder, now), under.run_in(folder, undisturbed("klist -s c"), CLOCK=now)
                wanted = [Outcome(0 if is_left and is_valid else 1) for is_valid in (is_theirs, is_ours)]
                found += [] if [theirs, ours.outcome] == wanted else [f"at {now} {theirs}, {ours}, not {wanted}"]
        report.check(f"MIT's klist -s is otherwise: {name}", found)


def check_same(report: Report, under: Preloaded) -> None:
    """Checks the files of other programs, and the tickets of cache_listings, in each version by turns."""
    made = [(name, cache(*those, version=3 + at % 2)) for at, (name, those, _) in enumerate(TICKETS)
            if not name.startswith("a name of a configuration entry")]
    cut = [(f"{name}, cut short", image[:-1]) for name, image in made]
    for name, image in (*files("ccache"), *made, *cut):
        if image not in (image for image, _, _ in DIFFERENT.values()):
            report.check(f"MIT's klist -s and ours: {name}", faults_of(under, image)[:1])
    report.check("MIT's klist -s and ours with --for", faults_of(under, cache(TICKET), 86_400))


def faults_of_random(under: Preloaded, random: Random) -> list[str]:
    """Returns where the programs differ of a random cache of a few tickets, sometimes cut short."""
    tickets = (replace(random_credential(random), server=random.choice(SERVERS), endtime=random.choice((END, LATER)))
               for _ in range(random.randrange(6)))
    image = cache(*(each.removed() if random.random() < 0.2 else each for each in tickets),
                  version=random.choice((3, 4)))
    return faults_of(under, image[:random.randrange(len(image))] if random.random() < 0.2 else image)


def check_valid(report: Report, program: str) -> None:
    """Asks both for valid tickets, at any time."""
    if under := preloaded(report, program, "valid tickets beside MIT's klist"):
        check_different(report, under)
        check_same(report, under)
        check_seeds(report, "MIT's klist -s and ours: random caches", partial(faults_of_random, under))


SETTING = b"config fast_avail krbtgt/R@R no\nconfig mine - 1\n"  # lines that set values in a cache
SET = ["config: fast_avail(krbtgt/R@R) = no\n", "config: mine = 1\n"]  # how MIT's klist shows these
NOW = 1_800_000_000  # a time at which some of the tickets have expired


@lru_cache(maxsize=None)
def shown_by_both(program: str, image: bytes) -> tuple[dict, list[str]]:
    """Returns what our klist says of a cache, and the credentials that MIT's shows."""
    with folder_of({"c": image}) as folder:
        return as_json(program, folder, "c"), credentials(mit_klist(folder, "-f", "-C", "c"), True)[1]


def edited(image: bytes, script: bytes, name: str) -> Undisturbed:
    """Returns a script over a cache."""
    return undisturbed("ccedit c", script, name=name, c=image)


def changes(image: bytes, said: dict) -> Iterator[tuple[Undisturbed, list[str]]]:
    """Yields changes of a cache, each with what it sets: removals at each place and by service, and values."""
    rewritten = edited(image, b"rewrite\n", "rewrite")
    yield rewritten, []
    yield edited(image, SETTING, "values"), SET
    yield edited(rewritten.files_after["c"], SETTING * 2, "values again"), SET
    for one in (*said.get("tickets", ()), *said.get("config", ())):
        yield edited(image, b"start\nstep 0\ncut %d\nstep 0\n" % one["place"], f"cut {one['place']}"), []
    yield undisturbed("ccremove --expired c", name="--expired", clock=NOW, c=image), []
    for service in sorted({one["server"] for one in said.get("tickets", ()) if "server" in one}):
        yield undisturbed(("ccremove", "-p", service, "c"), name=f"-p {service}", c=image), []


def faults_of_change(program: str, made: Undisturbed, those: list[str]) -> list[str]:
    """Returns what MIT's klist shows otherwise after a change that sets those values."""
    said, before = shown_by_both(program, made.files["c"])
    places = sorted(one["place"] for kind in ("tickets", "config") for one in said.get(kind, ()))
    words = (line.split() for line in made.wanted.out.splitlines())
    gone = [places.index(int(at)) for word, at, *_ in words if word in (b"gone", b"removed") and int(at) in places]
    is_saved = made.wanted.status == 0
    wanted = [one for at, one in enumerate(before) if at not in gone] + those * is_saved
    got = shown_by_both(program, made.files_after["c"])[1]
    with folder_of(made.files_after) as folder:
        found = differences_of(program, folder, "-f", "-C") if is_saved else []
    return found + ([] if got == wanted else [f"MIT's klist shows {got}, not {wanted}"])


def check_changed(report: Report, program: str) -> None:
    """Changes each cache."""
    for name, image in files("ccache"):
        for made, those in changes(image, shown_by_both(program, image)[0]):
            report.check(f"{name}, {made.name}", faults_of_change(program, made, those))


# The name of the file in what each prints: where there is none, and where it is listed.
MISSING = re.compile(rb"klist: .*(?:\(filename: (.*)\)|Key table file '(.*)' not found)|"
                     rb"krbfile: (.*): (?:no such file|cannot read)\n", re.DOTALL)
LISTED = re.compile(rb"(?:Ticket cache|Keytab name): FILE:(.*)\n")

# What MIT's reads of a configuration file, and ours does not.
CONFIGURATION = b"[libdefaults]\ndefault_ccache_name = FILE:c\ndefault_keytab_name = FILE:k\n"

# Values in which MIT's sees no type but that of files; ours sees a type only in two letters or more.
OF_FILES = {Kind.KEYTAB: re.compile(r"[^:]*$|[A-Za-z]:|FILE:|WRFILE:|/"),
            Kind.CACHE: re.compile(r"[^:]*$|[A-Za-z]:|FILE:")}

# What MIT's says of a type that it does not know, or has nothing of.
REFUSES = re.compile(rb"Unknown (?:credential cache|Key table) type|No KCM server found|No credentials cache found|"
                     rb"keyring|directory")


def klist(kind: Kind, folder: str, env: Mapping[str, str | bytes], program: str = "") -> Outcome:
    """Returns the end of MIT's klist, or of ours."""
    first, *rest = [*[program] * (program != ""), "klist", *["-k"] * (kind is Kind.KEYTAB)]
    return run(first, rest, folder, env=SURROUNDINGS | env)


def taken(got: Outcome) -> tuple[bytes | None, bool]:
    """Returns the file that a klist took, or None, and whether it listed it. MIT's prints a keytab's name first."""
    found = MISSING.match(got.err) or LISTED.match(got.out)
    return found[found.lastindex] if found else None, got.status == 0


def check_value(kind: Kind, word: str, report: Report, program: str) -> None:
    """Checks a value, with no file and with all that a program might take. MIT's may refuse its type."""
    names = {os.path.normpath(each) for each in (word, word.partition(":")[2], "k") if each}
    for files in ({}, {each: IMAGES[kind] for each in names if "/" not in each}):
        with folder_of(files) as folder:
            theirs, ours = (klist(kind, folder, {kind.value: word}, each) for each in ("", program))
        is_right = taken(ours) == taken(theirs) != (None, False)
        if not OF_FILES[kind].match(word):
            own = named(word, kind).text.encode()
            is_right = theirs.status == 1 and REFUSES.search(theirs.err) and taken(ours)[0] == own
        report.check(f"klist {kind.value}={word!r}, {len(files)} files",
                     [] if is_right else [f"MIT's: {theirs}, ours: {ours}"])


def check_defaults(report: Report, program: str) -> None:
    """Checks the defaults of this user: an empty value, a configuration file, no text, a keytab in memory."""
    with folder_of({"k": TWO, "c": IMAGES[Kind.CACHE], "\udcff": TWO, "conf": CONFIGURATION}) as folder:
        for kind, own, configured in ((Kind.KEYTAB, b"/etc/krb5.keytab", b"k"),
                                      (Kind.CACHE, b"/tmp/krb5cc_%d" % os.getuid(), b"c")):
            for env, to_mit in (({}, own), ({kind.value: ""}, b""), ({"KRB5_CONFIG": "conf"}, configured)):
                found = [taken(klist(kind, folder, env, each))[0] for each in ("", program)]
                report.check(f"klist with {env}, {kind.value}", [] if found == [to_mit, own] else [f"{found}"])
        for value, wanted in ((b"\xff", message(2, "bad command line")),
                              (b"MEMORY:k", message(1, "MEMORY:k: no such file"))):
            theirs, ours = (klist(Kind.KEYTAB, folder, {"KRB5_KTNAME": value}, each) for each in ("", program))
            found = [] if theirs.status == 0 and ours == wanted else [f"{theirs}, {ours}"]
            report.check(f"MIT's klist is otherwise: it lists the keytab {value}", found)


VALUES = {*ALL, " ", "-k", "k", "./k"} - {"", "MEMORY:k"}
check = every(check_valid, check_changed, *(partial(check_value, kind, word) for kind in Kind for word in VALUES),
              check_defaults, of="MIT's klist", lack=lambda: lack("klist"))
