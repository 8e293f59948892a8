"""What numbers, findings, failed calls and bad command lines are explained by: the lists of the manual pages and of
FORMATS, and phrases that are in no list: in lower case, without a full stop, of at most 72 characters."""

import re
from functools import partial

from pages.documents import read

PAGE = read("docs/krbfile.1") + read("docs/krbfile.5")
FORMATS = read("docs/FORMATS.md")

Numbered = dict[tuple[int, str], str]  # phrases by number, and by the command whose phrase differs


def part(page: str, start: str, end: str) -> str:
    """Returns what is on a page between two texts."""
    return page.partition(start)[2].partition(end)[0]


def listed(heading: str) -> list[tuple[int, str, str]]:
    """Returns the numbers, commands and phrases of a list of the manual page."""
    rows = re.findall(r"^\.It \(?(\d+)\)?(?: Cm (.*))? Ta (.*)$", part(PAGE, f"\n{heading}\n", "\n.El\n"), re.MULTILINE)
    return [(int(number), command, phrase) for number, commands, phrase in rows for command in commands.split(" , ")]


def numbered(heading: str) -> Numbered:
    """Returns the phrases of a list of the manual page."""
    return {(number, command): phrase for number, command, phrase in listed(heading)}


def displayed(heading: str) -> list[str]:
    """Returns the lines of a display of the manual page."""
    return part(PAGE, f"\n{heading}\n", "\n.Ed\n").splitlines()[1:]


# After `refused`; the same in the library, where it differs from the first of a number; faults of files and of lines.
CODES = numbered("Codes that follow\n.Ql refused :")
LIBRARY_CODES = {int(number): phrase for number, phrase in re.findall(
    r"^\| (\d+) \|.*\| ([^|]+) \|$", part(FORMATS, "\n## Codes\n", "\n## "), re.MULTILINE)}
FAULTS = {number: phrase for number, _, phrase in listed("Faults of files:")}
LINES = numbered("Faults of lines:")

# Why a file is not a keytab, and why it is not a cache: each with its number.
SHORT, LISTED_AS_KEYTAB, BEGINS_AS_CACHE, BEGINS_AS_NO_KEYTAB = NOT_KEYTABS = [
    row[::2] for row in listed("Files that are no keytabs:")]
(_, BEGINS_AS_KEYTAB, HELD_AS_KEYTAB, MATCHED_AS_KEYTAB, SHOWN_AS_NEITHER, BEGINS_AS_NO_CACHE, BAD_HEADER,
 BAD_DEFAULT) = NOT_CACHES = [row[::2] for row in listed("Files that are no caches:")]

# What a file is instead, by its first bytes.
OTHER_FILES = displayed("In place of the last two of 2 a file that is known by its first bytes is named:")

TOO_LONG = "it is longer than the limit"  # an image, to the library; the program says `file too large`
BAD_KEY = "the key is not as long as its type's"  # what else the library alone says
NAMES = {1: "no realm", 2: "a backslash at the end", 3: "a second @", 4: "a / in the realm"}  # why a text is not a name

# Why a call failed: the system's errors by name, and what krbfile finds; and the names that hold has for them.
CAUSES, ERRORS = (dict(zip((
    "EACCES", "ENOENT", "no file", "ENOTDIR", "EISDIR", "no plain file", "ELOOP", "bad link", "no name", "ENOSPC",
    "EDQUOT", "EROFS", "EBUSY", "ENAMETOOLONG", "EFBIG", "EIO", "EINTR", "EPIPE", "in use", "changed", "other file",
    "name of saves", "in the way", "owner", "ENOLCK", "other"), column, strict=True)) for column in zip(*re.findall(
        r"^\.It (.*) Ta (E\w+)$", PAGE.replace("Ar NAME Ns ", "NAME").replace("Ar number", "NUMBER"), re.MULTILINE),
        strict=True))

NO_PASSWORDS = "keys are not made from passwords here"  # for a line of ktutil that asks for what it does not do
SEE_HELP = "see krbfile ktutil --help"  # for one that asks for its commands
LIBRARY_IN_THE_WAY = "the name of its new file is taken"  # the library's phrase for what is in the way

# What a save left behind.
AFTERMATHS = {"restored": "the old bytes are back", **dict(zip(
    ("damaged", "lost change", "mixed"), re.findall(r"^\.Ar NAME : No (.*)$", PAGE, re.MULTILINE), strict=True))}

# Findings of ktcheck and lines of ktmatch, as they are explained, and the hints for some findings, in order.
FINDINGS, MATCHES = ({word: re.search(rf"^\.It Ic {word}\b.*\n(.*):$", PAGE, re.MULTILINE)[1] for word in words}
                     for words in (
    ("weak", "hidden", "same", "clash", "old", "mode", "size", "aged", "missing", "empty", "nostrong", "unwanted"),
    ("user", "unread", "name", "kvno", "etype")))
HINTS = dict(zip(("old", "weak", "same"), displayed("has hints for them, in this order:"), strict=True))

CLASH = "TO has another key for this name, version and type"  # a clash of ktcopy
TO_REPLACE = "--replace takes FROM's key"  # what could be done
NO_ENTRY = "NAME has no entry"  # a keytab that `wkt` saved

NOT_READ = "only files are read, and this is TYPE"  # why a file of a name with a type is not there
COLLECTION = "a collection; give one of its caches, DIR::FILE"  # the same of the type `DIR:`
LEAVE_OUT = "leave out TYPE"  # why it is not written
NAMED = "VARIABLE names it"  # where a name that no word gives is from
DEFAULT = "the default name (krb5.conf is not read); give FILE"
TO_NAME = "to name a principal, give -p"

NOT_WHOLE = "it is not a length, a newline and just as many bytes"  # what `hold` was given
GIVEN_DAMAGED = "what was given is damaged"
TO_A_PROGRAM = "the image is for a program; give it a pipe"  # an output that it prints nothing to

LARGE = "it has more than 16,777,216 bytes"
CLOCK = "the clock is before 1970 or after 2106, or failed"

# What is wrong with a command line; what changes is in capitals.
MISTAKES = re.findall(r"`([^`]+)`", part(FORMATS, "Wrong is one of these:\n\n", "\n\n"))


def phrase_of(phrases: Numbered, number: int, command: str = "") -> str:
    """Returns the phrase of a number, as a command has it."""
    return phrases.get((number, command)) or phrases[number, ""]


# What a refusal means, and what is wrong with a line of a script, or of ktutil.
code, line_fault = partial(phrase_of, CODES), partial(phrase_of, LINES)


def unknown(word: str) -> str:
    """Returns what is wrong with a line of a script whose first word is shown."""
    return f'{line_fault(1)}: "{word}"'
