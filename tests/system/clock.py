"""Clocks at any time or that fail: the time of a new entry of ktutil, which tickets have expired, and which entries
are old, or aged, for long enough. Over several files the clock is read once."""

from collections.abc import Iterator
from dataclasses import replace

from caches.cache_listings import HEADING, TICKETS, ask, line_of
from caches.overviews import summary
from keytabs.edits import ADDENT, KEY, TIMES
from keytabs.removals import FOUR, X, versioned
from makers.images import HOST, OFFSET, PA_TYPE, TICKET, USUAL, cache, keytab, offset
from runs.harness import BAD_LINE, Case, Outcome, Report, message, over, printed, text, with_mode, words_of
from runs.system_calls import preloaded
from words.phrases import CLOCK

Row = tuple[Case, dict[str, int]]  # a run, and the settings of its clock

UNREAD = ({"CLOCK": 2**32}, {"CLOCK": 2**64 - 1}, {"FAIL_CLOCK": 1})  # clocks that cannot be read as seconds of 32 bits

# Settings of the clock, the time that ktutil saves then, and how it is listed.
KNOWN = [
    ({"CLOCK": 1_700_000_000}, 1_700_000_000, "2023-11-14T22:13:20Z"),
    ({"CLOCK": 2**32 - 1}, 2**32 - 1, "2106-02-07T06:28:15Z"),
    *((setting, 0, "1970-01-01T00:00:00Z") for setting in UNREAD),
]

NO_CLOCK = message(3, "cannot read the clock")
EXPLAINED = Outcome(3, err=NO_CLOCK.err + f"krbfile: {CLOCK}\n".encode())

# Lines, and how they end then: before the file is read, and only if the clock is needed. `klist -s` says nothing.
AGE, EXPIRED, OLDER = "ktremove -k old --age 0", "ccremove --expired", "ktcheck --older 0"
ENDED = (
    (NO_CLOCK, (f"{AGE} k", "ktremove --keep 9 --age 0 k", f"{AGE} -n k", f"{AGE} no k", f"{AGE} KCM:k",
                f"{EXPIRED} c", f"{EXPIRED} -n c", f"{EXPIRED} no c", f"{EXPIRED} KCM:c",
                f"{EXPIRED} -p krbtgt/R@R c", "klist -l --json no c",
                f"{OLDER} k", f"{OLDER} -q --json no KCM:k", OLDER, "show no k c", "show -k")),
    (EXPLAINED, (f"--explain {AGE} k", f"--explain {EXPIRED} c", f"--explain {OLDER} k", "--explain show k")),
    (with_mode("old 2 kvno 3 etype 17 host/a@R", "entries 4 free 0 holes 0", is_wrong=False), ("ktcheck k",)),
    (replace(NO_CLOCK, out=HEADING), ("klist -l no c", "klist -l")),
    (Outcome(0, text([X])), ("ktremove -n -k old k", "ktremove -n --keep 1 k")),
    (BAD_LINE, (f"{AGE} --age 0 k", "klist -s c c", f"{OLDER} --older 0 k")),
    (Outcome(3), ("klist -s c", "klist -s --for 0 c", "klist -s no", "klist -s k", "klist -s KCM:c", "klist -s",
                  "--explain klist -s c")),
)

# A time and an age, and whether an old entry is removed then, whose newest version was made at 1,000,000.
AGED = ((1_000_000, 0, True), (999_999, 0, False), (1_000_007, 7, True), (1_000_006, 7, False), (1_000_007, 8, False),
        (5, 6, False), (1_000_000, 1_000_001, False), (2**32 - 1, 2**32 - 1 - 1_000_000, True),
        (2**32 - 1, 2**32 - 1_000_000, False), (2**32 - 1, 2**32 - 1, False), (1_000_000, "0d", True),
        *((1_604_800 - early, age, not early) for age in ("7d", "168h", "10080m", "604800s", "0000000007d")
          for early in (0, 1)),
        *((2**32 - 1, age, False) for age in ("49710d", "1193046h", "71582788m", "4294967295s")))

# A ticket's end, a time and another from then on, and whether it is still valid then.
ENDING = ((1_000_000, 999_999, 0, True), (1_000_000, 1_000_000, 0, False), (1_000_000, 1_000_001, 0, False),
          (1_000_000, 999_992, 7, True), (1_000_000, 999_993, 7, False), (2**31, 2**31 - 1, 0, True),
          (2**32 - 1, 2**32 - 2, 0, True), (2**32 - 1, 2**32 - 1, 0, False), (2**32 - 1, 1, 2**32 - 3, True),
          (2**32 - 1, 1, 2**32 - 2, False), (2**32 - 1, 2**32 - 1, 1, False), (1_000_000, 999_399, "10m", True),
          (1_000_000, 999_400, "10m", False))


def checked(name: str, line: str, seconds: int, is_aged: bool) -> Case:
    """Returns a check of a new entry of that time."""
    lines = ["aged 2 kvno 2 etype 17 a@R"] * is_aged + ["entries 1 free 0 holes 0"]
    return over(name, line, keytab(versioned(2, seconds)), with_mode(*lines, is_wrong=is_aged))


def aged() -> Iterator[Row]:
    """Yields removals of an old entry, which goes once the newest version is that old, and checks of that one."""
    old, new = versioned(1, 2**32 - 1), versioned(2, 1_000_000)
    for now, age, is_removed in AGED:
        yield over(f"{age} old at {now}", f"ktremove -k old --age {age} k", keytab(old, new),
                   ["removed 2 kvno 1 etype 17 a@R"] * is_removed,
                   keytab(41 if is_removed else old, new)), {"CLOCK": now}
        yield checked(f"{age} aged at {now}", f"ktcheck --older {age} k", 1_000_000, is_removed), {"CLOCK": now}
    yield checked("no time", f"{OLDER} k", 0, False), {"CLOCK": 5}
    yield over("no time", f"{AGE} k", keytab(old, versioned(2, 0)), []), {"CLOCK": 5}
    yield over("a clock below an age", "ktremove -k old --age 6 k", keytab(old, versioned(2, 0)), []), {"CLOCK": 5}


def valid() -> Iterator[Row]:
    """Yields questions about a ticket, and its removal: it is valid until it ends, whatever the KDC's offset."""
    for end, now, seconds, is_valid in ENDING:
        fields, gone = offset(1_000_000_000, 0), ["removed 34 krbtgt/R@R"]
        image = cache(replace(TICKET, endtime=end), fields=fields)
        rows = {f"klist -s --for {seconds} c": Outcome(1 - is_valid)}
        if seconds == 0:
            rows["klist -s c"] = Outcome(1 - is_valid)
            rows["klist -l c"] = Outcome(0, HEADING + line_of("c", not is_valid))
            members = f'1,"endtime":{end},"expired":{str(not is_valid).lower()}'
            rows["klist -l --json c"] = Outcome(0, summary("c", members))
            yield over(f"{EXPIRED}, {end} at {now}", f"{EXPIRED} c", image, [] if is_valid else gone,
                       image if is_valid else cache(fields=fields)), {"CLOCK": now}
        yield from ((over(f"{line}, {end} at {now}", line, image, wanted), {"CLOCK": now})
                    for line, wanted in rows.items())
    yield from ((ask(name, cache(*those), wanted), {"CLOCK": 1_800_000_000}) for name, those, wanted in TICKETS)


def unread() -> Iterator[Row]:
    """Yields runs whose clock cannot be read, and one that does not ask for it."""
    files = {"k": FOUR, "c": USUAL}
    for setting in UNREAD:
        for wanted, lines in ENDED:
            yield from ((Case(f"no clock by {setting}: {it}", words_of(it), wanted, files), setting) for it in lines)
        yield over(f"no clock is asked for, {setting}", "ccremove -p krbtgt/R@R c", USUAL, ["removed 40 krbtgt/R@R"],
                   cache(PA_TYPE, fields=OFFSET)), setting


def once() -> Iterator[Row]:
    """Yields runs over two files whose clock can be read once."""
    old, new = versioned(1, 0), versioned(2, 1_000_000)
    check = checked("", OLDER, 1_000_000, True).wanted.out.decode().splitlines()
    rows = ((AGE, keytab(old, new), keytab(41, new), ["removed 2 kvno 1 etype 17 a@R"]),
            (EXPIRED, cache(TICKET), cache(), ["removed 22 krbtgt/R@R"]), (OLDER, keytab(new), keytab(new), check),
            ("klist -l", cache(TICKET), cache(TICKET), []))
    for line, before, after, lines in rows:
        wanted = (printed(*(f"{name}: {each}" for name in "kj" for each in lines), status=int(line == OLDER)) if lines
                  else Outcome(0, HEADING + line_of("k", True) + line_of("j", True)))
        yield (Case(f"{line}, the clock can be read once", words_of(f"{line} k j"), wanted, {"k": before, "j": before},
                    {"k": after, "j": after}), {"CLOCK": 1_800_000_000, "FAIL_CLOCK": 2})


def known() -> Iterator[Row]:
    """Yields lines of ktutil that add an entry of the time of the clock, list it and save it."""
    for setting, seconds, time in KNOWN:
        yield over(f"the clock with {setting}", "ktutil", None, [*TIMES, f"   1    3 {time} host/a@R"],
                   keytab(replace(HOST, timestamp=seconds)), [ADDENT, KEY, "l -t", "wkt ktutil"]), setting


# Those at the second in which a ticket ends or an entry is as old as is asked, and at the second before.
THEOREMS = [replace(case, clock=setting["CLOCK"]) for case, setting in (*aged(), *valid())
           if setting["CLOCK"] in (999_999, 1_000_000, 1_000_006, 1_000_007)]


def check(report: Report, program: str) -> None:
    """Makes each run."""
    under = preloaded(report, program, "the clock")
    for case, setting in (*aged(), *valid(), *unread(), *once(), *known()) if under else ():
        under.check(report, case, **setting)
