"""Cases over the files in `corpus`, which other programs wrote. `NAME.txt` beside a file is what MIT's klist prints.
Theorems say that each is listed so; here are the listings where MIT's klist says something else.

The folder has `cases.jsonl`, one case a line: an object with `id`, `dir` (the folder in it with the case's files),
`argv` (the program's arguments), `status`, `stdout`, `stderr`, and perhaps `stdin`, `copy` (a pair: a file of `dir`,
and its name where the program runs) and `result_file` (names, each with what it contains afterwards). An output is
{"text"} or {"hex"}; the contents of a file are that, or the name of a file of `dir` with the same bytes. A word of the
line or of the standard input that names a file of `dir` has that file copied to where the program runs.
"""

import json
import os
import re
from functools import cache
from pathlib import Path

from runs.harness import TOP, Case, Outcome, Report

FOLDER = os.path.join(TOP, "tests", "corpus")  # of the files and cases
CODES = {"-1765328203": "refused 9\n", "-1765328154": "refused 10\n"}  # MIT's error numbers, and what krbfile says
WRAPPED = "find-java-new-300-18-user@PEER.TEST"  # where MIT's library takes version 300 for 44, of the same 8 bits
ROW = re.compile(r"^\| `(\S+)` \| (.*?) \| .*? \|$", re.M)  # of a table in its README: a file, and who wrote it


def given(value: dict) -> bytes:
    """Returns the bytes of an output or a file."""
    return value["text"].encode() if "text" in value else bytes.fromhex(value["hex"])


def files(kind: str) -> list[tuple[str, bytes]]:
    """Returns the files of a kind, `keytab` or `ccache`, each with its name."""
    folder = os.path.join(FOLDER, kind)
    names = [name for name in sorted(os.listdir(folder)) if not name.endswith(".txt")]
    return [(name, Path(folder, name).read_bytes()) for name in names]


@cache
def writers() -> dict[str, str]:
    """Returns who wrote each file."""
    return dict(ROW.findall(Path(FOLDER, "README.md").read_text("utf-8")))


@cache
def cases(command: str = "") -> tuple[dict, ...]:
    """Returns the cases, or those of a command."""
    made = map(json.loads, Path(FOLDER, "cases.jsonl").read_bytes().splitlines())
    return tuple(case for case in made if command in ("", case["argv"][0]))


def case_of(fields: dict) -> Case:
    """Returns a case as it is run."""
    source = Path(FOLDER, fields["dir"])
    stdin = fields.get("stdin") or ""
    name, to = fields.get("copy") or ("", "")
    copied = {to: name} if to else {}
    copied |= {word: word for word in (*fields["argv"], *stdin.split())
               if word not in copied and "/" not in word and (source / word).is_file()}
    before = {to: (source / name).read_bytes() for to, name in copied.items()}
    after = {name: (source / value).read_bytes() if isinstance(value, str) else given(value)
             for name, value in (fields.get("result_file") or {}).items()}
    wanted = Outcome(fields["status"], given(fields["stdout"]), given(fields["stderr"]))
    return Case(fields["id"], tuple(fields["argv"]), wanted, before, before | after, stdin.encode())


def check(report: Report, program: str) -> None:
    """Runs each case. Those of look-ups say what MIT's library answers."""
    for fields in cases():
        case_of(fields).check(report, program)
    for fields in cases("ktfind"):
        printed, words = given(fields["stdout"]) + given(fields["stderr"]), fields["mit"].split()
        due = f" kvno {words[2]} etype {words[4]} " if words[0] == "found" else CODES[words[2]]
        is_other = (due.encode() not in printed) != (fields["id"] == WRAPPED)
        report.check(f"MIT's answer to {fields['id']}", [fields["mit"]] * is_other)
