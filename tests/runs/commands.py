"""The commands: what each does to a file, and runs of it over small files and larger ones. Topics that try each command
read these tables, so that a new command is rows here."""

import re
from dataclasses import dataclass, replace
from functools import partial

from keytabs.edits import DAMAGED, KEY
from makers.images import (B, END, HOST, OFFSET, PA_TYPE, TICKET, TWO, USUAL, VERSION_3, Entry, Name, cache, config,
                           encrypted, header_field, hole, keytab, old, record, ticket, ticket_of)
from runs.harness import Case, text
from runs.undisturbed import Run, Undisturbed, frame, in_place, undisturbed

SCRIPT = b"add 3 17 1700000000 000102030405060708090a0b0c0d0e0f host/a@R\n"  # the script of most runs
OLD, NEW = keytab(), keytab(HOST)  # the file before and after it
CLASH = keytab(replace(B, key=b"other"))  # a keytab that clashes with TWO
WALK = b"start\nstep 0\n"
# A cache of a ticket that is always valid, whose own bytes have its realm, and of one that TWO has a key of.
VALID = cache(replace(TICKET, server=Name((b"krbtgt", b"R"), b""), ticket=ticket(encrypted(b"\x12")),
                      endtime=2**32 - 1), ticket_of(Name((b"host", b"a"))), PA_TYPE, fields=OFFSET)


@dataclass(frozen=True)
class Command:
    """A command, and its runs by what they do. None depends on the clock but for its year, though some ask for it."""

    # Runs that change their file, and that make it.
    changes: tuple[Undisturbed, ...] = ()
    makes: tuple[Undisturbed, ...] = ()
    # Runs that only read their file and take no lock, in either way if it can save in place.
    reads: tuple[Undisturbed, ...] = ()
    # Runs that lock their file, and then have nothing to save.
    leaves: tuple[Undisturbed, ...] = ()
    # A line that adds NAME to PATH at first, or removes it, and its input. SOURCE is a keytab that has the name.
    turns: tuple[str, str] = ("", "")
    prints_early: bool = False  # whether it prints a part of a text before it has all of it

    @property
    def reads_input(self) -> bool:
        """Whether it reads an input."""
        return any(run.stdin for run in self.changes)


def copies(*those: tuple[str, bytes, bytes, str]) -> tuple[Undisturbed, ...]:
    """Returns copies from `k` to `t`, each with its options, both keytabs, and what it does."""
    return tuple(undisturbed(f"ktcopy {options} k t", k=source, t=target, name=name)
                 for options, source, target, name in those)


COMMANDS = {
    "klist": Command(prints_early=True, reads=(
        *(undisturbed(f"klist {options} k", k=TWO) for options in ("-k", "-k --json", "-kK --json", "-ktKe")),
        *(undisturbed(f"klist {options} c", c=VALID) for options in (
            "-c", "--json", "-l", "-l --json", "-cefC", "-s")))),
    "show": Command(reads=(undisturbed("show k", k=TWO), undisturbed("show c", c=VALID))),
    "ktmatch": Command(reads=tuple(undisturbed(f"ktmatch {options}k c", k=TWO, c=VALID)
                                   for options in ("", "-H --json -p host/a@R "))),
    "ktfind": Command(prints_early=True, reads=(undisturbed("ktfind k 0 0 b@R", k=TWO),)),
    "ktcheck": Command(reads=tuple(undisturbed(f"ktcheck {options}k", k=TWO)
                                   for options in ("", "--json ", "-H --want b@R "))),
    "ktedit": Command(
        (undisturbed("ktedit k", SCRIPT, k=OLD, name="adds"),), (undisturbed("ktedit k", SCRIPT, name="adds"),),
        tuple(undisturbed("ktedit k", script, k=TWO, name=f"{script}")
              for script in (b"", b"# none\n", WALK, b"resume 2\n", b"start\nfrob\n")),
        (undisturbed("ktedit k", b"cut 3\n", k=TWO, name="is refused"),),
        ("ktedit PATH", f"add 1 17 1700000000 {KEY} NAME@R\n")),
    "ktremove": Command(
        (undisturbed("ktremove -p b@R k", k=TWO, name="removes"),), (),
        (undisturbed("ktremove -n -k 3 k", k=TWO, name="prints"),),
        (undisturbed("ktremove -p c@R k", k=TWO, name="finds none"),), ("ktremove -p NAME@R PATH", "")),
    "ktcopy": Command(
        copies(("", TWO, NEW, "adds")), (undisturbed("ktcopy k t", k=TWO, name="adds"),),
        copies(("-n", TWO, OLD, "prints"), ("-n", TWO, CLASH, "prints a clash"),
               ("", TWO[:-1], NEW, "has a damaged source"), ("", b"", NEW, "has no keytab as source"),
               ("-p c@R", TWO, NEW, "finds none"), ("-k old", TWO, NEW, "is at fault")),
        (*copies(("", TWO, TWO, "has all already"), ("", TWO, CLASH, "clashes"), ("", NEW, TWO, "has it already"),
                 ("", OLD, NEW, "has nothing to copy"), ("", OLD, b"", "has nothing for no bytes"),
                 ("", TWO, TWO[:-1], "has a damaged target")),
         undisturbed("ktcopy k k", k=TWO, name="copies a keytab into itself")),
        ("ktcopy SOURCE PATH", "")),
    "ktdiff": Command(reads=(undisturbed("ktdiff -e 17 k t", k=TWO, t=TWO),)),
    "ktutil": Command(
        (undisturbed("ktutil", b"rkt j\nwkt k\n", j=keytab(B), k=NEW, name="adds"),), (),
        (undisturbed("ktutil", b"rkt k\nl\ndelent 1\n", k=TWO, name="reads"),), (),
        ("ktutil", f"addent -key -p NAME@R -k 1 -e 17\n{KEY}\nwkt PATH\n")),
    "ccedit": Command(
        (undisturbed("ccedit c", b"cut 40\nconfig pa_type krbtgt/R@R 3\n", c=USUAL, name="sets"),), (),
        tuple(undisturbed("ccedit c", script, c=USUAL, name=name)
              for script, name in ((WALK, "walks"), (b"frob\n", "is at fault"))),
        (undisturbed("ccedit c", b"cut 3\n", c=USUAL, name="is refused"),), ("ccedit PATH", "config NAME - v\n")),
    "ccremove": Command(
        (undisturbed("ccremove -p krbtgt/R@R c", c=USUAL, name="removes"),), (),
        tuple(undisturbed(f"ccremove -n {options} c", c=USUAL, name=what)
              for options, what in (("--expired", "prints"), ("-p b@R", "prints none"))),
        (undisturbed("ccremove -p b@R c", c=USUAL, name="finds none"),), ("ccremove -p NAME@R PATH", "")),
    "hold": Command(
        (undisturbed("hold -k k", frame(keytab(60, HOST)), k=TWO, name="saves"),
         undisturbed("hold c", frame(VERSION_3), c=USUAL, name="saves")),
        (undisturbed("hold -k k", frame(NEW), name="saves"),), prints_early=True),
}

# All of them that change their file, that make it, that only read it, and that have nothing to save.
CHANGES, MAKES, READS, LEAVES = (tuple(run for command in COMMANDS.values() for run in getattr(command, kind))
                                 for kind in ("changes", "makes", "reads", "leaves"))
SAVING = tuple(name for name, command in COMMANDS.items() if command.changes)


def both_ways(*runs: Undisturbed) -> list[Undisturbed]:
    """Returns runs, and after each of a command that saves the same in place."""
    return [way for run in runs for way in (run, *[in_place(run)] * (run.words[0] in SAVING))]


def file_of(run: Run) -> str:
    """Returns the file that a run changes, or would, and that one reads which changes none."""
    return next((word for word in reversed(run.words) if word in ("k", "c", "t")), "k")


def renamed(run: Undisturbed, name: str) -> Case:
    """Returns the same run over a file of another name."""
    own = file_of(run)
    files, after = ({name if each == own else each: data for each, data in those.items()}
                    for those in (run.files, run.files_after))
    words = tuple(name if word == own else word for word in run.words)
    stdin = run.stdin.replace(f"wkt {own}\n".encode(), f"wkt {name}\n".encode())
    return Case(run.name, words, run.wanted, files, after, stdin)


NOW = 1_700_000_000  # the time of a run's start, which new entries get
at_now = partial(undisturbed, clock=NOW)

AES128 = "aes128-cts-hmac-sha1-96"
KEYS = {16: bytes(range(16)).hex(), 32: bytes(range(32)).hex()}


def mixed_keytab(count: int) -> bytes:
    """Returns a keytab of entries of many lengths, with a hole after every fifth."""
    parts = []
    for number in range(count):
        name = (b"x" * (number % 30), b"%d" % number)
        parts.append(record(Entry(name, timestamp=number, version32=number, version8=number % 256).spelled()))
        if number % 5 == 0:
            parts.append(hole(bytes(20 + number % 60)))
    return keytab(*parts)


def rotated_keytab(count: int) -> bytes:
    """Returns a keytab of many names, each with two versions of two enctypes."""
    return keytab(*(Entry((b"x" * (number % 30), b"%d" % number), version8=kvno, version32=kvno, enctype=enctype)
                    for kvno in (1, 2) for number in range(count) for enctype in (17, 18)))


def many_keytab(has_other_keys: bool = False) -> bytes:
    """Returns a keytab of 40 entries, all of one key, or each of another."""
    entries = [Entry((b"x" * (number % 30), b"%d" % number)) for number in range(40)]
    return keytab(*(replace(each, key=each.components[1]) if has_other_keys else each for each in entries))


def mixed_script(image: bytes, count: int) -> bytes:
    """Returns two walks over a keytab or a cache in which that many records are removed and added, and a rewrite."""
    is_keytab = image[1] < 3
    listed = undisturbed(f"klist {'-k' if is_keytab else '-c'} --json f", f=image).wanted.out
    places = sorted(map(int, re.findall(rb'"place":(\d+)', listed)))
    lines = ["start", "start"]
    for number in range(count):
        name = f"{'y' * (number % 50)}/{number}@R"
        more = ([f"add {number} {AES128} {number} {KEYS[16]} {name}"] if is_keytab else
                [f"config key{number} - {'v' * number}", f"config k{number % 3} a@R {number}"])
        lines += [f"step {number % 2}", f"cut {places[2 * number]}", f"step {number % 2}", *more]
    lines += ["rewrite", "step 0", "start", "step 2", "cut 3", "step 1", "resume 2", "step 9"]
    return text(lines)


def mixed_cache(count: int) -> bytes:
    """Returns a cache of tickets, configuration entries and removed ones."""
    parts = []
    for number in range(count):
        ticket = ticket_of(Name((b"x" * (number % 90), b"%d" % number)), 17 + number % 2, number,
                           enctype=number % 30, renew_till=number % 3, endtime=NOW + number % 3 - 1)
        parts += [ticket, config(b"key%d" % number, bytes(range(number % 256))), ticket.removed()]
    return cache(*parts, PA_TYPE, fields=header_field(9, b"xyz"))


def talk(count: int) -> Undisturbed:
    """Returns a run of ktutil over `a` of that many entries, `b` with an end mark and `d`, which is damaged."""
    lines = ["l", "rkt a", "l -t -k -e", "addent -key -p new/one@R -k 7 -e 18", KEYS[32], "wkt n", "frob", "rkt b",
             "delent 2", "wkt n", "rkt no", "l -t -k -e", "clear", "rkt d", "addent -key -p x@R -k 1 -e 17", "00",
             "rkt n", "wkt a", "wkt d", "l", "rkt a", "addent -p y@R -key -e 17 -k 300", KEYS[16], "wkt a", "l -e",
             "addent -key -p z@R -k 1 -e 1"]
    marked = old(Entry((b"m",)), Entry((b"n",))) + END + b"xyz"
    return at_now("ktutil", text(lines), a=mixed_keytab(count), b=marked, d=DAMAGED)


def usual_runs(size: str, image: bytes, tickets: bytes, rotated: bytes, counts: tuple[int, int, int],
               *copied: tuple[bytes, bytes]) -> list[Undisturbed]:
    """Returns runs of each command over files of a size, with scripts and a talk of that many lines, and copies."""
    return [
        *(at_now(line, k=image) for line in ("klist -ktKe k", "klist -kK --json k", "ktfind k 0 17 -- xxx/3@R")),
        *(at_now(line, c=tickets) for line in ("klist -cefC c", "klist --json c")),
        at_now("show k c no r", k=image, c=tickets, r=rotated), at_now("ktcheck k", k=rotated),
        *(at_now(line, k=image, c=tickets, d=VALID) for line in ("ktmatch k c", "ktmatch --json k d no c d")),
        *(at_now(f"ktcheck {options}k no r k", k=image, r=rotated)
          for options in ("", "--json --older 18500d --only --want c@R ")),
        at_now("ktedit k", mixed_script(image, counts[0]), name=f"a {size} script", k=image),
        at_now("ktremove -k old k", name=f"of {size} old versions", k=rotated),
        *(at_now(f"ktcopy {options} k t", name=f"{options} of {size} keytabs", k=source, t=target)
          for options, (source, target) in zip(("", "-k new"), copied)),
        *(at_now("ktdiff k t", name=f"of {size} keytabs", k=source, t=target) for source, target in copied),
        at_now("ccedit c", mixed_script(tickets, counts[1]), name=f"a {size} script", c=tickets),
        at_now("ccremove --expired c", name=f"of {size} expired ones", c=tickets),
        at_now("hold -k k", frame(rotated), name=f"a {size} keytab", k=image), talk(counts[2]),
    ]


def faulty_runs(image: bytes, tickets: bytes) -> list[Undisturbed]:
    """Returns help, lines that are refused, and runs over small files that are damaged, missing or of another kind."""
    return [
        *map(at_now, ("--help", "klist --help", "frob", "klist -k k --nosuch")),
        *(at_now(f"{command} k", k=DAMAGED) for command in ("klist -k", "ktcheck")),
        at_now("klist -c c", c=tickets[:-1]), at_now("klist -s c", c=VALID),
        *(at_now(line, k=image) for line in ("ktfind k 4 0 -- xxx/3@R", "ktcheck k")),
        at_now("ktcheck k no c d k", k=image, c=tickets, d=DAMAGED),
        at_now("ktedit k", b"add 3 1 0 - b@R\nadd 3 1 0 00 c@R\nstart\nstep 0\n", name="no file"),
        at_now("ktedit k", mixed_script(image, 4) + b"frob\n", name="a faulty script", k=image),
        at_now("ccedit c", b"start\nstep 0\nconfig k - v\ncut 3\n", name="a damaged cache", c=tickets[:-1]),
        at_now("ccedit c", b"config k a@R v\nconfig k a v\n", name="a faulty script", c=tickets),
        at_now("hold -k k", frame(image), name="no file"),
    ]


def small_edits(image: bytes, tickets: bytes, rotated: bytes) -> list[Undisturbed]:
    """Returns removals and copies of other kinds, changes in place, and a cache of version 3."""
    many, others = many_keytab(), many_keytab(has_other_keys=True)
    removes = at_now("ccremove -p krbtgt/R@R c", name="of a service", c=USUAL)
    return [
        in_place(at_now("ktedit k", mixed_script(image, 4), name="a small script", k=image)),
        in_place(at_now("hold c", frame(USUAL), name="a cache", c=tickets)),
        removes, in_place(removes), at_now("ccremove -p no@R c", name="of nothing", c=tickets),
        at_now("ccedit c", b"start\ncut 20\nconfig k - v\nrewrite\nstep 0\n", name="version 3", c=VERSION_3),
        at_now("ktremove -k old --age 0 k", name="of versions old for long", k=rotated),
        *(at_now(f"ktremove {options} k", name=name, k=image)
          for options, name in (("-p xxx/3@R -e 17 -e 23", "of a name"), ("-k 4000", "of nothing"))),
        at_now("ktremove --keep 1 --age 0 --match xx*/*@R k", name="but one version", k=rotated),
        at_now("ktremove --same k", name="of doubles", k=keytab(HOST, B, HOST)),
        at_now("ktcopy -p x/1@R -k new --as-kvno 300 k t", name="of another version", k=rotated),
        at_now("ktremove -e 17 k r", name="of two keytabs", k=image, r=rotated),
        at_now("ccremove -p krbtgt/R@R c d", name="of two caches", c=USUAL, d=VALID),
        at_now("ktdiff k t", name="of other keys", k=many, t=others), at_now("klist -k k no r k", k=image, r=rotated),
        at_now("klist -l c no d", c=VALID, d=cache()), at_now("ktcopy k t", name="into no bytes", k=TWO, t=b""),
        at_now("ktcopy -p /0@R -p x/1@R -k new k t", name="of new versions", k=rotated),
        *(at_now(f"ktcopy {options} k t", name=f"{options} {name}", k=many, t=target) for options, name, target in (
            ("--replace", "in place of others", others), ("", "that clashes", others),
            ("-n --replace", "that only prints", others), ("", "of what is there", many),
            ("-k 4000", "of nothing", many))),
    ]


def small_runs() -> list[Undisturbed]:
    """Returns runs of each command over small files."""
    image, tickets, rotated = mixed_keytab(12), mixed_cache(4), rotated_keytab(4)
    return [*usual_runs("small", image, tickets, rotated, (4, 3, 3), (image, mixed_keytab(5))),
            *faulty_runs(image, tickets), *small_edits(image, tickets, rotated)]


def large_runs() -> list[Undisturbed]:
    """Returns runs of each command over larger files."""
    target = mixed_keytab(300)
    return usual_runs("large", mixed_keytab(3_000), mixed_cache(300), rotated_keytab(300), (200, 100, 200),
                      (mixed_keytab(400), target), (rotated_keytab(100), target))
