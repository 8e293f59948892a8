"""Copies by `ktcopy` from the keytab `k` to `t`. A record of host/a@R takes 51 bytes with its length, one of b@R 45."""

from dataclasses import replace

from keytabs.file_names import LIMIT
from keytabs.greatest import LEAST, with_room
from keytabs.removals import AES256, DAMAGED, FIVE, FOUR, NOT_FOUND, line_of
from makers.images import B, HOST, TWO, Entry, keytab, old, record
from runs.harness import Case, Outcome, message, printed, words_of

X, Y = "kvno 3 etype 17 host/a@R", "kvno 3 etype 17 b@R"
OTHER, THIRD = replace(B, key=bytes(16)), replace(B, key=b"\xff" * 16)  # as that of b@R, with other keys
LONG = Entry((b"",) * 65_535)  # a name whose count of components version 1 cannot hold


def copy(name: str, options: str, source: bytes | None, target: bytes | None, wanted: Outcome | list[str],
         after: bytes | None = None) -> Case:
    """Returns a run over the keytabs, or over none. With no `after` the files stay as they are."""
    files = {file: image for file, image in (("k", source), ("t", target)) if image is not None}
    words = ("ktcopy", *words_of(options), "k", "t")
    return Case(f"{name}: {options}", words, wanted if isinstance(wanted, Outcome) else printed(*wanted), files,
                files if after is None else {**files, "t": after})


ROOM = LIMIT - 2 - 45 - 4  # what is left of the greatest keytab beside a record of b@R
UNSOUND = {b"xy": "not a keytab (2)", TWO[:-1]: "refused 1"}  # files that are no sound keytabs, each with its message


def full() -> bytes:
    """Returns a keytab of the greatest size, with no hole behind its second entry."""
    return keytab(OTHER, record(HOST.spelled().ljust(ROOM, b"\0")))


# A row of each rule; random copies show the rest.
CASES = [
    *(copy("selected", options, FOUR, None, [f"copied {line_of(AES256)}"], keytab(AES256)) for options in (
        r"-p \host/a@R -e aes256-cts-hmac-sha1-96", "-knew -phost/a@R -e18 -e 18")),
    # The newest version is that of all enctypes, in the keytab that is copied from alone.
    copy("newer of another enctype", "-k new -e 17", keytab(HOST, AES256), None, NOT_FOUND),
    copy("newer where it is copied to", "-k new", keytab(HOST), keytab(FIVE), [f"copied 53 {X}"], keytab(FIVE, HOST)),
    copy("nothing there, all selected", "", keytab(), None, []),
    # Other keys: without --replace nothing is saved, and a dry run alone reports the rest.
    copy("another key", "", TWO, keytab(OTHER), printed(f"clash 53 2 {Y}", status=1)),
    copy("another key", "-n", TWO, keytab(OTHER), printed(f"copied 47 {X}", f"clash 53 2 {Y}", status=1)),
    copy("two other keys", "--replace", keytab(B), keytab(OTHER, HOST, THIRD),
         [f"removed 2 {Y}", f"removed 98 {Y}", f"copied 2 {Y}"], keytab(B, HOST, 41)),
    # None takes the place of one that was asked for before it.
    *(copy("a twin", "-n --replace", keytab(B, OTHER), target, printed(*lines, f"clash 47 2 {Y}", status=1))
      for target, *lines in ((None, f"copied 2 {Y}"), (keytab(B),))),
    # What makes two entries the same: name, version and enctype, not time and name type.
    copy("its key behind another, of another time and name type", "", keytab(B),
         keytab(OTHER, replace(B, timestamp=9, name_type=3)), []),
    # The keytab that is copied from comes first, with what is selected in it; then the other.
    copy("nothing to copy from", "", None, TWO, message(1, "k: no such file")),
    *(copy("from what is not sound", "-n", image, b"xy", message(1, f"k: {what}")) for image, what in UNSOUND.items()),
    copy("nothing selected, no keytab to copy to", "-p c@R", TWO, b"xy", NOT_FOUND),
    *(copy("to what is not sound", options, source, image, message(1, f"t: {what}"))
      for image, what in UNSOUND.items() for source, options in ((TWO, "-n"), (keytab(), ""))),
    *(Case(f"{source} to {target}", ("ktcopy", source, target), wanted, {"k": TWO, "t": keytab(B)})
      for source, target, wanted in (("no", ".", message(1, "no: no such file")),
                                     ("k", "no/t", message(3, "no/t: cannot write")))),
    *(Case("one keytab for both", ("ktcopy", "--replace", "k", "./k"), wanted, {"k": image}) for image, wanted in (
        (keytab(B, OTHER, B), Outcome(0)), (TWO[:-1], DAMAGED))),
    # An addition that is refused, and one after a clash, which is not reported.
    copy("a name that is too long", "", keytab(HOST, LONG, B), old(), message(1, "t: refused 2")),
    copy("a clash, then a name that is too long", "-n", keytab(HOST, B, LONG, FIVE), old(OTHER),
         printed(f"copied 43 {X}", f"clash 53 2 {Y}", status=1)),
    lambda: copy("into a hole up to the limit", "", keytab(HOST), keytab(OTHER, ROOM), [f"copied 47 {X}"], full()),
    lambda: copy("no room for a longer key", "--replace", keytab(replace(B, key=bytes(17))), full(),
                 message(1, "t: refused 3")),
]

C = Entry((b"c",), key=B.key, name_type=5)  # an entry of another name, with another name type
NINE, RC4 = replace(B, version8=9, version32=9), replace(B, enctype=23)  # of another version and of a weak type


def diff(options: str, ours: bytes | None, others: bytes | None, *lines: str, err: str = "") -> Case:
    """Returns a comparison of keytabs, which prints these lines, or ends with a message."""
    files = {file: image for file, image in (("k", ours), ("t", others)) if image is not None}
    wanted = message(1, err) if err else printed(*lines, status=1 if lines else 0)
    return Case(f"compared: {options}", ("ktdiff", *words_of(options), "k", "t"), wanted, files)


# What only the first has and where both differ, in its order; then what only the second has.
THEOREMS = [diff("", keytab(C, OTHER, HOST, HOST), keytab(AES256, FIVE, B, AES256), "- 2 kvno 3 etype 17 c@R",
                f"! 47 120 {Y}", f"- 92 {X}", "+ 2 kvno 5 etype 18 host/a@R", "+ 69 kvno 5 etype 17 host/a@R")]

CASES += [
    *THEOREMS,
    # Under another name: what is asked for goes by the old one, what it meets by the new one.
    *(Case("an alias", ("ktcopy", "-p", "b@R", "--as", "c@R", "k", "k"), wanted, {"k": image},
           {"k": keytab(HOST, B, replace(C, name_type=1))}) for image, wanted in (
        (TWO, printed("copied 98 kvno 3 etype 17 c@R")), (keytab(HOST, B, replace(C, name_type=1)), Outcome(0)))),
    copy("its name type", "-k new -p b@R --as=c@R", keytab(replace(C, version32=9), replace(B, name_type=5)),
         keytab(OTHER), [f"copied {line_of(C, OTHER)}"], keytab(OTHER, C)),
    copy("a quoted name", r"-p b@R --as c\/\@@R", TWO, None, [r"copied 2 kvno 3 etype 17 c\/\@@R"],
         keytab(replace(B, components=(b"c/@",)))),
    copy("no entry of the old name", "-p c@R --as b@R", TWO, None, NOT_FOUND),
    copy("another key of the new name", "-p b@R --as c@R", TWO, keytab(B, replace(C, key=b"")),
         printed("clash 53 47 kvno 3 etype 17 c@R", status=1)),
    # Under another version, likewise.
    *(copy("another version", f"-p b@R -k 3 --as-kvno 9{more}", keytab(B, 9), target, wanted, *after)
      for more, target, wanted, *after in (
          ("", None, ["copied 2 kvno 9 etype 17 b@R"], keytab(NINE)), ("", keytab(NINE), []),
          ("", keytab(OTHER), ["copied 47 kvno 9 etype 17 b@R"], keytab(OTHER, NINE)),
          ("", keytab(replace(NINE, key=b"")), printed("clash 2 2 kvno 9 etype 17 b@R", status=1)),
          (" --replace", keytab(replace(NINE, key=bytes(16))),
           ["removed 2 kvno 9 etype 17 b@R", "copied 2 kvno 9 etype 17 b@R"], keytab(NINE)),
          (" --as c@R", None, ["copied 2 kvno 9 etype 17 c@R"], keytab(replace(NINE, components=(b"c",)))))),
    *(copy("a version of any size", f"-p host/a@R -k new --as-kvno {kvno}", FOUR, None,
           [f"copied {line_of(those[0])}", f"copied {line_of(those[1], those[0])}"], keytab(*those))
      for kvno, those in ((it, [replace(each, version8=it % 256, version32=it) for each in (AES256, FIVE)])
                          for it in (0, 255, 300, 2**32 - 1))),
    copy("no entry of the old version", "-p b@R -k 9 --as-kvno 3", TWO, None, NOT_FOUND),
    copy("weak types", "-e weak -e 18", keytab(B, RC4, HOST), None, ["copied 2 kvno 3 etype 23 b@R"], keytab(RC4)),
    diff("-e Weak", keytab(B, RC4), keytab(replace(RC4, enctype=3), HOST), "- 47 kvno 3 etype 23 b@R",
         "+ 2 kvno 3 etype 3 b@R"),
    # Which keys two keytabs do not share: not by order, times, name types and doubles.
    diff("", TWO, keytab(OTHER), f"- 2 {X}", f"! 53 2 {Y}"), diff("", keytab(OTHER), TWO, f"! 2 53 {Y}", f"+ 2 {X}"),
    diff("", keytab(OTHER, B), keytab(9, B), f"! 2 15 {Y}"), diff("", keytab(9, B), keytab(B, OTHER), f"! 15 2 {Y}"),
    *(diff(options, *images) for options, *images in (
        ("", TWO, TWO), ("", keytab(B, 9, HOST, B), keytab(HOST, replace(B, timestamp=9, name_type=3))),
        ("", keytab(B, OTHER), keytab(OTHER, B, OTHER)), ("", keytab(), keytab()), ("", old(HOST, B), TWO),
        ("--v1-big", TWO, old(B, HOST, order="big")))),
    diff("-p b@R -p c@R -e 17 -e 18", TWO, keytab(FIVE), f"- 53 {Y}"),
    diff("-e 18", TWO, FOUR, f"+ {line_of(AES256, HOST)}"), diff("-e 23", TWO, FOUR, err="k: refused 9"),
    # A comes first, with all that is wrong with it.
    diff("-p c@R", TWO, None, err="t: no such file"), diff("", None, b"xy", err="k: no such file"),
    *(diff("-e 23", *images, err=f"{file}: {what}") for image, what in UNSOUND.items()
      for file, images in (("k", (image, None)), ("k", (image, image)), ("t", (TWO, image)))),
]


def of_long_name() -> Case:
    """Returns a copy of entries that are alike under a long name: their names have one text."""
    name = f"{'n' * 60_000}@R"
    return Case("many entries under a long name", ("ktcopy", "-n", "-p", "host/a@R", "--as", name, "k", "t"),
                printed(f"copied 2 kvno 3 etype 17 {name}"), {"k": keytab(*[HOST] * 2_000)})


def of_many() -> list[Case]:
    """Returns copies in which many entries meet many, as they end with room: each pair would take too long."""
    names = keytab(*(Entry((b"x" * 200, b"%05d" % number)) for number in range(60_000)))
    many, one = keytab(*(replace(LEAST, key=b"%07d" % number) for number in range(400_000))), keytab(LEAST)
    return [
        with_room("many names that are there", "ktcopy k t", k=names, t=names),
        with_room("many keys of one name that are there", "ktcopy k t", k=many, t=many),
        with_room("many keys of one name that clash", "ktcopy k t", status=1, k=many, t=one),
        with_room("many keys of one name that one replaces", "ktcopy --replace k t", k=one, t=many),
    ]
