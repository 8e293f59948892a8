"""`hold`: what it gives and takes, when it gives nothing, how it says that it ended, and its lock meanwhile."""

import os
import re
from dataclasses import replace
from functools import partial
from itertools import product

from keytabs.file_names import LIMIT, sized
from keytabs.listings import B_LINE, HOST_LINE, listed
from makers.images import B, BIG, HOST, TWO, USUAL, VERSION_3, Entry, keytab, old, record
from runs.harness import (EXPLAIN, SECONDS, Case, Outcome, Report, differences, every, folder_of, message, piped, run,
                          run_on_terminal, words_of)
from runs.undisturbed import IN_PLACE, frame
from system.failing_streams import NO_OUTPUT
from system.file_locks import is_locked
from system.saving import HOLD_SAVED, as_another, check_over, explained, last_line, link, tree_faults
from words.explaining import CUT_CACHE, Explained, case, failed, in_the_way, no_keytab, unchanged
from words.phrases import (BAD_DEFAULT, BAD_HEADER, BEGINS_AS_CACHE, BEGINS_AS_NO_CACHE, BEGINS_AS_NO_KEYTAB, CAUSES,
                           ERRORS, GIVEN_DAMAGED, HELD_AS_KEYTAB, LARGE, NOT_WHOLE, SHORT, TO_A_PROGRAM, code)

UNSEEN = keytab(Entry((b"h",), timestamp=0, enctype=1, key=b""), B)  # a keytab whose entries MIT's programs do not see
K, PLACED, C = "hold -k k", f"hold {IN_PLACE} -k k", "hold k"  # lines that hold a keytab, in place too, and a cache
NONE, EMPTY = keytab(), frame(keytab())  # a keytab without an entry, and its frame

# Inputs that are no whole frame: cut, longer than it says, and of a length that is spelled in another way.
CUT = (b"\n", b"2", b"2\n", b"2\n\5", b"98" + TWO, TWO)
LONGER = (b"2\n\5\2\n", b"0\n\0", EMPTY * 2, b"\n" + EMPTY)
ODD = (*(front + EMPTY for front in (b" ", b"+", b"-", b"0x", b"\0", b"0" * 10)),
       *(length + b"\n\5\2" for length in (b"2 ", b"2\r", b"2\0", b"2.0", b"4294967298", b"9999999999", b"9" * 20)))

# Why a hold failed, by what its message says. The number of a file or an input that does not open follows a 1.
WHYS = {"input is not whole": "EBADMSG", "input too large": "EFBIG", "file too large": "EFBIG",
        "no such file": "ENOENT", "refused 1": "31"}


def failed_by(said: str) -> bytes:
    """Returns the last line of a hold that ended with that message."""
    said = said.removeprefix("input: ").removeprefix("k: ")
    number = re.fullmatch(r"not a (?:keytab|cache) \((\d)\)", said)
    return last_line(f"1{number[1]}" if number else WHYS[said], 1)


def given(line: str, image: bytes | None, data: bytes, *output: tuple[str, str], after: bytes | None = None,
          name: str = "", **more) -> Explained:
    """Returns a hold that is given those bytes. What it prints is a frame, and how it ended."""
    left, last = (image, b"left\n") if after is None else (after, HOLD_SAVED)
    out = frame(NONE if image is None else image) + (failed_by(output[0][0]) if output else last)
    return case(f"{line}, {name or data[:24]}", line, image, *output, stdin=data, status=1 if output else 0,
                out=out, after={} if left is None else {"k": left}, **more)


def refused(line: str, said: tuple[str, str], **more) -> Explained:
    """Returns a hold that leaves its file as it is, or none, and prints no frame."""
    return unchanged(line, said, stdin=EMPTY, out=failed_by(said[0]), **more)


no_cache = partial(no_keytab, kind="cache")


def damaged(fault: int, place: int) -> tuple[str, str]:
    """Returns the message about a damaged input. Its words begin with the fault."""
    return "input: refused 1", f"input: fault {fault} at {place}\nkrbfile: {GIVEN_DAMAGED}"


NOT_A_FRAME = ("input is not whole", NOT_WHOLE)  # the message about other inputs
IN_THE_WAY = {"setting": in_the_way}
LEFT = {"k": TWO, "k.krbfile": b"left"}  # a keytab beside what a killed run left

THEOREMS = [
    given(K, None, b""), given(C, USUAL, b""), given(K, TWO, b"0000000002\n\5\2", after=NONE),
    given(K, TWO, frame(TWO)), given(C, VERSION_3, frame(USUAL), after=USUAL), refused(PLACED, ("k: no such file", "")),
    *(given(K, TWO, data, NOT_A_FRAME) for data in (b"98\n" + TWO[:-1], b"97\n" + TWO)),
    given(K, TWO, frame(TWO[:-1]), damaged(2, 53)),
]

CASES = [
    *THEOREMS, *(given(line, TWO, b"") for line in (K, PLACED)),
    *(given(line, TWO, EMPTY, after=NONE) for line in (K, PLACED, "hold -k FILE:k", "hold -k WRFILE:k")),
    given(K, None, EMPTY), given(K, None, frame(TWO), after=TWO),
    given(K, TWO, frame(old(HOST, B)), after=old(HOST, B)),
    given("hold -k --v1-big k", old(HOST, order=BIG), frame(old(order=BIG)), after=old(order=BIG)),
    # A cache of version 3 is as any, and nothing is said of entries that MIT's programs do not see.
    given(C, USUAL, frame(VERSION_3), after=VERSION_3),
    given(K, TWO, frame(UNSEEN), after=UNSEEN), given(C, USUAL, frame(USUAL)),
    *(given(K, TWO, data, NOT_A_FRAME) for data in (*CUT, *LONGER, *ODD)),
    given(K, None, b"2\n\5", NOT_A_FRAME), given(C, USUAL, USUAL, NOT_A_FRAME),
    *(given(K, TWO, frame(data), no_keytab(why, "input")) for data, why in (
        (b"", SHORT), (b"\5", SHORT), (b"\5\4", BEGINS_AS_CACHE), (b"\5\5", BEGINS_AS_NO_KEYTAB))),
    *(given(C, USUAL, frame(data), no_cache(why, "input")) for data, why in (
        (b"\5", SHORT), (b"\5\2", HELD_AS_KEYTAB), (b"\4\4", BEGINS_AS_NO_CACHE), (b"\5\4\0", BAD_HEADER),
        (b"\5\3", BAD_DEFAULT))),
    *(given(K, TWO, frame(data), damaged(fault, place)) for data, fault, place in (
        (b"\5\2\0\0", 1, 2), (keytab(B, record(bytes(3))), 3, 47))),
    given(C, USUAL, frame(CUT_CACHE), damaged(4, 392)),
    given("hold -k --v1-big k", old(order=BIG), frame(old(HOST)), damaged(2, 2)),
    partial(given, K, TWO, bytes(LIMIT + 12), ("input too large", LARGE), name="too many bytes"),
    partial(given, K, TWO, bytes(LIMIT + 11), NOT_A_FRAME, name="as many bytes as may be"),
    lambda: given(K, TWO, frame(sized(LIMIT + 1)), ("input too large", LARGE), name="too large"),
    lambda: given(K, TWO, b"00" + frame(sized(LIMIT)), after=sized(LIMIT), name="the largest"),
    *(refused(K, no_keytab(why), files={"k": image}) for image, why in ((b"\5", SHORT), (USUAL, BEGINS_AS_CACHE))),
    *(refused(C, no_cache(why), files={"k": image}) for image, why in ((b"", SHORT), (TWO, HELD_AS_KEYTAB))),
    refused(K, ("k: refused 1", code(1)), files={"k": TWO[:-1]}),
    lambda: refused(K, ("k: file too large", LARGE), files={"k": sized(LIMIT + 1)}),
    refused(C, ("k: refused 1", code(1, "hold")), files={"k": CUT_CACHE}),
    *(refused(line, ("k: no such file", "")) for line in (C, f"hold {IN_PLACE} k")),
    # It could not be saved: what is in the way is beside the file that a link leads to. What a load says comes first.
    case("hold of a link", "hold -k l", TWO, ("l: cannot write", CAUSES["in the way"].replace("NAME", "k")), status=3,
         out=last_line(ERRORS["in the way"]), stdin=EMPTY,
         setting=lambda folder: (in_the_way(folder), link("l", "k")(folder))),
    refused(K, ("k: refused 1", code(1)), files={"k": TWO[:-1]}, **IN_THE_WAY),
    refused(C, ("k: no such file", ""), **IN_THE_WAY),
    given(PLACED, TWO, EMPTY, after=NONE, name="in the way", **IN_THE_WAY),
    failed(("hold", "-k", "."), "read", "EISDIR", None, out=last_line(ERRORS["EISDIR"]), stdin=EMPTY),
]


def check_left(report: Report, program: str) -> None:
    """Checks that the file stays as it is if nothing is saved, and in place what a killed run left beside it."""
    for line, files in product((K, PLACED), ({"k": TWO}, LEFT)):
        for data, last, wanted in ((b"", b"left\n", Outcome(0)), (frame(TWO), b"left\n", Outcome(0)),
                                   (b"3\n\5\2", b"failed 1 EBADMSG\n", message(1, "input is not whole")),
                                   (EMPTY, b"saved\n", Outcome(0))):
            after = ({"k": NONE} if data == EMPTY else {}) | ({} if line == PLACED else {"k.krbfile": None})
            check_over(report, program, Case(f"{[*files]}: {line}, {data[:4]}", tuple(line.split()),
                                             replace(wanted, out=frame(TWO) + last), files, after, data))


def check_locked(report: Report, program: str) -> None:
    """Checks a folder, and a file, that the user may not write: no frame is printed."""
    if not (options := as_another(program)):
        report.skip("holds of files of others", "none but root may make them, or start the program")
        return
    for line in (K, PLACED):
        failed(words_of(line), "write", "EACCES", TWO, out=last_line(ERRORS["EACCES"]), stdin=EMPTY, after={"k": TWO},
               setting=lambda folder: [os.chmod(os.path.join(folder, name), 0o755) for name in (".", "k")],
               options=options).check(report, program)


def check_outputs(report: Report, program: str) -> None:
    """Checks outputs that take nothing: nothing is saved. One that ends after the frame changes nothing."""
    full = '"$0" "$@" >/dev/full; status=$?; cat; exit $status'
    for line in (K, PLACED):
        case = Case(f"{line} >/dev/full", ("-c", full, program, EXPLAIN, *line.split()),
                    replace(explained(NO_OUTPUT, CAUSES["ENOSPC"]), out=EMPTY), {"k": TWO}, stdin=EMPTY)
        check_over(report, "sh", case)
    for files in ({}, {"k": b"other"}, LEFT):
        with folder_of(files) as folder:
            got = run_on_terminal(program, (EXPLAIN, *K.split()), folder, EMPTY, "stdout")
            faults = differences(explained(NO_OUTPUT, TO_A_PROGRAM), got) + tree_faults(files, folder)
        report.check(f"a terminal, and {[*files]}", faults)
    for line, (data, after) in product((K, PLACED), ((b"", TWO), (EMPTY, NONE))):
        with folder_of({"k": TWO}) as folder, piped(program, line.split(), folder) as held:
            held.stdout.read(len(frame(TWO)))
            held.stdout.close()
            _, err = held.communicate(data, timeout=SECONDS)
            faults = differences(Outcome(0), Outcome(held.returncode, b"", err)) + tree_faults({"k": after}, folder)
        report.check(f"no output after the frame: {line}, {data}", faults)


def check_lasts(report: Report, program: str) -> None:
    """Checks that the file is locked until the input ends, and not any more then, and that listings go on."""
    for line in (K, PLACED):
        with folder_of({"k": TWO}) as folder, piped(program, line.split(), folder) as held:
            path = os.path.join(folder, "k")
            faults = [] if held.stdout.read(len(frame(TWO))) == frame(TWO) else ["no frame"]
            faults += [] if is_locked(path) else ["not locked"]
            faults += differences(Outcome(0, listed(HOST_LINE, B_LINE)), run(program, ("klist", "-k", "k"), folder))
            rest, _ = held.communicate(frame(keytab(B)), timeout=SECONDS)
            faults += [] if (held.returncode, rest) == (0, b"saved\n") else [f"status {held.returncode}, {rest!r}"]
            faults += tree_faults({"k": keytab(B)}, folder) + ["still locked"] * is_locked(path)
        report.check(f"a hold lasts: {line}", faults)


check = every(check_left, check_locked, check_outputs, check_lasts)
