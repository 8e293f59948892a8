"""Refuses each allocation of each command, once and from it on. A run reports that with status 4, after a prefix of its
text, or after some of its files, or of the lines of ktutil."""

import os
from dataclasses import replace

from makers.images import B, HOST, TICKET, TWO, cache, keytab
from runs.commands import COMMANDS, NOW, at_now, large_runs, rotated_keytab, small_runs
from runs.harness import EXPLAIN, Outcome, Report, differences, words_of
from runs.system_calls import Counted, Preloaded, preloaded
from system.failing_streams import NO_MEMORY, Ends

SOME = 45  # how many allocations of a run are refused over larger files
ALL = 5_000  # over small ones, more than there are: all
WAYS = {"once": {}, "from it on": {"REFUSE_LASTS": 1}}  # settings that refuse one, and those that refuse all from it on

# A check that explains what it finds, with hints.
EXPLAINED = at_now((EXPLAIN, "ktcheck", "a b", "r", "no"),
                   **{"a b": keytab(HOST, HOST, replace(B, enctype=23)), "r": rotated_keytab(4)})
OWN = f"/tmp/krb5cc_{os.getuid()}"  # the cache of a user whose environment names none

# Lines that leave out the file, with the environment, and the file that they are for.
DEFAULTS = (
    ("klist", {"KRB5CCNAME": "FILE:c"}, "c"), ("klist -s", {"KRB5CCNAME": "c"}, "c"),
    ("klist -k", {"KRB5_KTNAME": "k"}, "k"), ("ktcheck -q", {"KRB5_KTNAME": "KCM:k"}, "KCM:k"), ("klist", {}, OWN),
    ("klist -s", {}, OWN), ("ktmatch k", {"KRB5CCNAME": "c"}, "c"),
)


def spread(requests: int, most: int) -> list[int]:
    """Returns numbers of allocations: all, or the first, the last and some between."""
    if requests <= most:
        return [*range(1, requests + 1)]
    third = most // 3
    step = requests // third
    return sorted({*range(1, third + 1), *range(third, requests, step), *range(requests - third + 1, requests + 1)})


def faults_of(ends: Ends, nth: int, got: Counted, may_print: bool) -> list[str]:
    """Returns the faults of a run whose nth allocation was refused."""
    end = got.outcome, got.files
    last = Outcome(NO_MEMORY.status) if "-s" in ends.run.words else NO_MEMORY
    # The list of the locks of all programs, which a save reads, may take fewer requests than before.
    if got.failures == 0:
        return [] if got.requests < nth and end == ends.whole else [f"at {nth} nothing is refused"]
    # A program that is refused memory once may do without it.
    if got.failures == 1 and end == ends.whole or ends.stops(end, last, ends.stages, may_print):
        return []
    return [f"at {nth} {', '.join(differences(last, got.outcome)) or 'files that are not as they should be'}"]


def check_run(report: Report, under: Preloaded, ends: Ends, most: int = ALL, **env: str) -> None:
    """Refuses at most that many allocations of a run, in both ways."""
    command = COMMANDS.get(ends.command)
    may_print = (command is None or command.prints_early or "--json" in ends.run.words) and not env
    whole = under.run(ends.run, CLOCK=NOW, **env)
    if (whole.outcome, whole.files) != ends.whole or whole.requests == 0:
        report.check(ends.run.name, ["it is not whole where nothing is refused, or its requests are not seen"])
        return
    for way, settings in WAYS.items():
        faults = []
        for nth in spread(whole.requests, most):
            faults += faults_of(ends, nth, under.run(ends.run, CLOCK=NOW, REFUSE=nth, **settings, **env), may_print)
        report.check(f"memory refused {way}: {ends.run.name}", faults[:3])


def check_defaults(report: Report, under: Preloaded) -> None:
    """Refuses the allocations of lines whose file the environment names, or which is the default."""
    for line, env, file in DEFAULTS:
        named, name = at_now(f"{line} {file}", c=cache(TICKET), k=TWO), f"{line} with {env}"
        if file == OWN and os.path.lexists(OWN):
            report.skip(f"memory refused to {name}", f"{OWN} is there")
        else:
            ends = Ends(replace(named, name=name, words=words_of(line), plain=named.words))
            check_run(report, under, ends, **env)


def check(report: Report, program: str) -> None:
    if under := preloaded(report, program, "memory that is refused"):
        check_defaults(report, under)
        for run in (*small_runs(), EXPLAINED):
            check_run(report, under, Ends(run))
        for run in large_runs():
            check_run(report, under, Ends(run), SOME)
