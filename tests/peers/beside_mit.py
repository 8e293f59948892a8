"""MIT's klist and ktutil, and the form in which their listings and ours are compared: that of ours.

The text beside a file, `NAME.txt`, is what MIT's klist printed of it. How both differ is in docs/PEERS.md. Besides, the
titles, and the dashes below them, are our own, and the value of a configuration entry is not broken into lines: there a
byte that does not print is `\\x0a`, not `\\012`.
"""

import json
import os
import re
import select
import shutil
import subprocess
from collections.abc import Callable, Iterator
from datetime import datetime
from pathlib import Path
from random import Random

from peers.corpus import FOLDER
from runs.harness import SECONDS, Report, piped, run

CENTURY = re.compile(r"\b\d\d(?=\d\d-\d\d-\d\dT)")  # the century of a time, which MIT's programs leave out
DASHES = re.compile(r"^----[- ]*\n", re.MULTILINE)  # below the heading of a keytab's listing
CREDENTIAL = re.compile(r"^(?! )(?=.)", re.MULTILINE)  # where a credential begins
TICKET_TYPE = re.compile(r"Etype \(skey, tkt\): [^,]*, ([^\t]*?) *(?:\t|$)")  # its own enctype, below its first line
PROMPT = b"ktutil:  "  # the prompt of MIT's ktutil, which it prints into a pipe too
SEEDS = 60  # how many random cases there are of a kind

# The line of an entry by klist, or by ktutil without its slot.
ENTRY = re.compile(r" *(-?\d+) (\d\d/\d\d/\d\d \d\d:\d\d:\d\d) +(\S.*?) \((\S+)\)  ?\((0x[0-9a-f]*)\) *")
TICKET = re.compile(r"(\d\d/\d\d/\d\d \d\d:\d\d:\d\d)  (\d\d/\d\d/\d\d \d\d:\d\d:\d\d)  (.*)")
CONFIG = re.compile(r"config: (.*?) = (.*)")
DETAIL = re.compile(r"renew until (?P<renewable>.{17})|Flags: (?P<flags>\w*)|Etype \(skey, tkt\): (?P<etype>\S+), \S+")
OCTAL = re.compile(rb"\\([0-3][0-7]{2})")

KEYTAB_HEAD = "KVNO Timestamp            Principal\n---- -------------------- ---------\n"
CACHE_HEAD = "Valid starting       Expires              Service principal\n"
NAMELESS = {"des-cbc-crc": "etype 1", "des-cbc-md5": "etype 3"}

# Where MIT's programs are: those of the KDC may be outside a plain user's path.
PATHS = os.pathsep.join([os.environ.get("PATH", ""), "/usr/sbin", "/usr/local/sbin"])
# Their environment: they need no configuration except in a realm.
SURROUNDINGS = {name: value for name, value in os.environ.items() if not name.startswith("KRB5")}
SURROUNDINGS |= {"KRB5_CONFIG": os.devnull, "PATH": PATHS, "LC_ALL": "C", "TZ": "UTC"}


def instant(text: str) -> str:
    """Returns a time as krbfile writes it."""
    return datetime.strptime(text, "%m/%d/%y %H:%M:%S").strftime("%Y-%m-%dT%H:%M:%SZ")


def etype_name(text: str) -> str:
    """Returns the name of an encryption type as krbfile writes it."""
    name = text.removeprefix("DEPRECATED:")
    return NAMELESS.get(name, name)


def entry_line(line: str) -> str:
    """Returns the line of an entry of a keytab."""
    kvno, moment, name, etype, key = ENTRY.fullmatch(line).groups()
    return f"{int(kvno) % 2**32:4} {instant(moment)} {name} ({etype_name(etype)}) ({key})\n"


def keytab_listing(name: str) -> str:
    """Returns MIT's listing of a keytab with times, encryption types and keys."""
    title, _, _, *lines = Path(FOLDER, "keytab", f"{name}.txt").read_text("utf-8").splitlines()
    return f"{title}\n{KEYTAB_HEAD}" + "".join(map(entry_line, lines))


def escaped(value: str) -> str:
    """Returns the bytes of a configuration value, which MIT wrote with octal numbers, as krbfile writes them."""
    data = OCTAL.sub(lambda found: bytes([int(found[1], 8)]), value.encode())
    return "".join(chr(it) * (1 + (it == 92)) if 32 <= it < 127 else f"\\x{it:02x}" for it in data)


def ticket_lines(heading: re.Match, details: str) -> Iterator[str]:
    """Yields the lines of a ticket, from the line of its times and what is below that."""
    start, end, server = heading.groups()
    found = {part.lastgroup: part[part.lastgroup] for part in DETAIL.finditer(details)}
    yield f"{instant(start)} {instant(end)} {server}\n"
    if "renewable" in found:
        yield f"    renew until {instant(found['renewable'])}\n"
    yield f"    Flags: {found.get('flags', '')}\n"
    if "etype" in found:
        yield f"    Etype: {etype_name(found['etype'])}\n"


def parts_of(name: str) -> tuple[str, str]:
    """Returns what MIT's listing of a cache begins with, and that of its credentials."""
    heading, _, rest = Path(FOLDER, "ccache", f"{name}.txt").read_text("utf-8").partition("\n\n")
    return heading, rest.partition("\n")[2]


def shown_credentials(listed: str) -> Iterator[tuple[str, str]]:
    """Yields the first line of each credential, and what is below it."""
    for line in re.findall(".+", re.sub(r"\n {8}", "", listed).replace("\n\t", "\t")):
        first, _, details = line.partition("\t")
        yield first, details


def credential_lines(listed: str) -> Iterator[str]:
    """Yields the lines of credentials."""
    for first, details in shown_credentials(listed):
        if config := CONFIG.fullmatch(first):
            yield f"config: {config[1]} = {escaped(config[2])}\n"
        else:
            yield from ticket_lines(TICKET.fullmatch(first), details)


def cache_listing(name: str) -> str:
    """Returns MIT's listing of a cache with flags, encryption types and configuration entries."""
    heading, rest = parts_of(name)
    return f"{heading}\n\n{CACHE_HEAD}" + "".join(credential_lines(rest))


def mit_klist(folder: str, *words: str) -> bytes:
    """Returns the output of MIT's klist."""
    return run("klist", words, folder, env=SURROUNDINGS).out


def as_json(program: str, folder: str, *words: str) -> dict:
    """Returns what our klist says of a file, and nothing of one that it cannot list."""
    return json.loads(run(program, ("klist", "--json", *words), folder).out or "{}")


def credentials(listed: bytes, is_mits: bool) -> tuple[str, list[str]]:
    """Returns the heading of a cache's listing with flags, and the lines of each credential without centuries."""
    heading, _, rest = listed.decode("latin-1").partition("\n\n")
    lines = rest.partition("\n")[2]
    lines = "".join(credential_lines(lines.rstrip("\n"))) if is_mits else lines
    return heading, [one for one in CREDENTIAL.split(CENTURY.sub("", lines)) if one]


def differences_of(program: str, folder: str, *options: str) -> list[str]:
    """Returns what differs between the listings of the cache `c` by MIT's klist and ours."""
    ours = run(program, ("klist", *options, "c"), folder)
    wanted, got = credentials(mit_klist(folder, *options, "c"), True), credentials(ours.out, False)
    found = [] if got == wanted else [f"{got}, not {wanted}"]
    return found + ([] if (ours.status, ours.err) == (0, b"") else [f"ended with {ours}"])


def ticket_types(program: str, folder: str) -> list[tuple[str, str]]:
    """Returns the enctype of each ticket of the cache `c` by its own bytes: as our klist prints it, and as MIT's."""
    listed = mit_klist(folder, "-e", "c").decode("latin-1").partition("\n\n")[2].partition("\n")[2]
    found = (TICKET_TYPE.search(details) for _, details in shown_credentials(listed))
    ours = ("" if (etype := one["ticket_etype"]) is None else one["ticket_etype_name"] or f"etype {etype}"
            for one in as_json(program, folder, "c").get("tickets", ()))
    return [*zip(ours, (etype_name(it[1]) if it else "" for it in found), strict=True)]


def differing_types(program: str, folder: str) -> list[str]:
    """Returns the enctypes that MIT's klist shows otherwise than ours. It shows none where it cannot decode the realm,
    the service or the cipher, or the kvno is greater than 2^31 - 1."""
    pairs = ticket_types(program, folder)
    return [f"{ours}, not {theirs}" for ours, theirs in pairs if ours and theirs not in (ours, "")]


def entries_in(listed: bytes) -> list[str]:
    """Returns the lines after the heading of a keytab's listing."""
    return DASHES.split(listed.decode("latin-1"))[-1].splitlines()


def entries(program: str, folder: str, name: str) -> list[str]:
    """Returns the entries of a file, as our klist lists them."""
    return entries_in(run(program, ("klist", "-kteK", name), folder).out)


class Mit:
    """MIT's programs, in a folder, with more in their environment."""

    def __init__(self, folder: str, **env: str) -> None:
        self.folder, self.env = folder, SURROUNDINGS | env

    def klist(self, name: str) -> list[str]:
        """Returns the entries of a file, as klist lists them, in the form of ours."""
        return [as_ours(line) for line in entries_in(mit_klist(self.folder, "-k", "-t", "-K", "-e", name))]

    def ktutil(self, *requests: str) -> list[bytes]:
        """Returns what ktutil prints after each request. Each waits for a prompt: one that reads a line takes all."""
        with piped("ktutil", (), self.folder, env=self.env, bufsize=0, stderr=subprocess.STDOUT) as started:
            answers = [self.answer(started)]
            for request in requests:
                started.stdin.write(request.encode() + b"\n")
                answers.append(self.answer(started))
            started.communicate(b"quit\n", timeout=SECONDS)
        return answers[1:]

    def answer(self, started: subprocess.Popen[bytes]) -> bytes:
        """Returns what ktutil prints up to its prompt."""
        heard = b""
        while not heard.endswith(PROMPT):
            is_there = select.select([started.stdout], [], [], SECONDS)[0]
            piece = os.read(started.stdout.fileno(), 65_536) if is_there else b""
            if not piece:
                started.kill()
                raise EOFError(f"ktutil ended or hangs after {heard!r}")
            heard += piece
        return heard.removesuffix(PROMPT)

    def ktutil_list(self, name: str) -> list[str]:
        """Returns the entries of a file, as ktutil lists them, in the form of ours."""
        listed = self.ktutil(f"rkt {name}", "l -t -k -e")[1]
        return [as_ours(re.sub(r"^ *\d+ ", "", line)) for line in entries_in(listed)]


def as_ours(line: str) -> str:
    """Returns the line of an entry in the form of ours, or as it is."""
    return entry_line(line).removesuffix("\n") if ENTRY.fullmatch(line) else line


def lack(*tools: str) -> str:
    """Returns which of MIT's programs is missing, by default of klist and ktutil, or nothing."""
    tools = tools or ("klist", "ktutil")
    missing = [name for name in tools if shutil.which(name, path=PATHS) is None]
    if not missing and "klist" in tools and not mit_klist("/", "-V").startswith(b"Kerberos 5 version"):
        missing = ["MIT's klist"]
    return f"{missing[0]} is not there (Debian: krb5-user, krb5-kdc, krb5-admin-server)" if missing else ""


def are_there(report: Report, what: str, *tools: str) -> bool:
    """Whether MIT's programs are installed; if not, reports that part as left out."""
    if why := lack(*tools):
        report.skip(what, why)
    return not why


def check_seeds(report: Report, what: str, faults_of: Callable[[Random], list[str]]) -> None:
    """Checks random cases, the same in each run."""
    report.check(what, [fault for seed in range(SEEDS) for fault in faults_of(Random(seed))][:3])
