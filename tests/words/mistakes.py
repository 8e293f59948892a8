"""Bad command lines: on a pipe only the message is printed, on a terminal and with `--explain` also what is wrong."""

from makers.images import TWO
from runs.commands import COMMANDS
from runs.harness import WAYS, Case, Line, Outcome, Report, folder_of, run, shown, words_of
from words.command_lines import lines_of
from words.explaining import Explained
from words.phrases import code

MESSAGE = b"krbfile: bad command line\n"
KEY = "00112233445566778899aabbccddeeff"  # a word that may be a key
DIGITS = "a word of hexadecimal digits"  # what is printed in its place
SHORT = "0123456789abcde"  # a word that is too short for a key

# What is wrong, and lines with that mistake. If the line has a command, that command's help says more.
MISTAKES: dict[str, str | list[Line]] = {
    "unknown command frob": "frob, help frob", "unknown command KLIST": "KLIST -k k",
    "unknown option -k": "-k k, ktedit -k k, ccremove --expired -k old k", "unknown option --version=1": "--version=1",
    "unknown option -x": "help -x, klist -kxyt k, ktremove -kold -xe17 k",
    "left over: k": "help klist k, ktutil k", "unknown option --nosuch": "klist -k k --nosuch",
    "unknown command kcedit": "kcedit k", "unknown option --versio": "--versio",
    "unknown option --e": "ktdiff --e 17 k t", "unknown option -\\xc3\\xb6": "klist -tök k",
    "unknown option -k=yes": "klist -k=yes k", "unknown option --version": "klist --version",
    "no FILE": "ktedit --v1-big, ktedit --, ktfind, ktremove -k old, ccremove --expired, hold -k --v1-big",
    "no KEYTAB": "ktmatch, ktmatch -qp b@R --", "no FROM": "ktcopy -n -p b@R, ktcopy --",
    "no TO": "ktcopy k, ktcopy -k new k",
    "no KVNO": "ktfind k", "no ETYPE": "ktfind k 0", "no NAME": "ktfind k --v1-big 0 0",
    "left over: t": "ktfind k 0 0 b@R t, ktedit k t -x, hold -k k t", "left over: u": "ktcopy k -n t u",
    "--v1-big is for keytabs; give -k": "klist --v1-big k, hold k --in-place --v1-big",
    "--principal needs a value": "ktremove k --principal, ktcopy --principal -k new k t",
    "--service needs a value": "ccremove --service --expired k",
    "--kvno is given twice": "ktremove -k 1 --kvno 2 k, ktcopy --kvno=new --kvno new k t",
    "-s does not go with --config": "klist --config -s k",
    "nothing selects; give -p, --match, -k, -e, --keep or --same": "ktremove k, ktremove -n --none-ok k t",
    "-k needs a value": "ktremove -k, ktcopy k t -k", "-np needs a value": "ktremove k -np, ccremove k -np",
    "-p needs a value": "ktremove -p -k old k, ccremove -p --expired k, ktmatch -p --json k t",
    "--as goes with one -p": "ktcopy --as c@R k t, ktcopy --principal b@R -p b@R --as c@R k t, "
                             "ktcopy --match b@R --as c@R k t, ktcopy -p b@R --match b@R --as c@R k t",
    "--as-kvno goes with one -p and -k": ", ".join(f"ktcopy {words} --as-kvno 3 k t" for words in (
        "", "-p b@R", "-k 3", "-p b@R -p b@R -k new", "--match b@R -k 3", "-p b@R --match b@R -k 3")),
    "--as-kvno is given twice": "ktcopy -p b@R -k 3 --as-kvno 3 --as-kvno=4 k t",
    "--match needs a value": "ktdiff --match",
    "--keep does not go with -k": "ktremove -k 3 --keep 2 k, ktremove --keep 1 -kold --age 3 k",
    "--keep does not go with --kvno": "ktremove --kvno old --keep 1 k", "--keep needs a value": "ktremove k --keep",
    "--keep is given twice": "ktremove --keep 1 --keep 1 k",
    "unknown option --match": "ktcheck --match b@R k, klist --match b@R k",
    "--as is given twice": "ktcopy -p b@R --as c@R --as=c@R k t", "--as needs a value": "ktcopy -p b@R k t --as",
    '"c" has no realm': "ktcopy -p b@R --as c k t", "unknown option --as": "ktdiff -p b@R --as c@R k t",
    "unknown option --in-place": "ktdiff --in-place k t", "left over: v": "ktdiff k t v",
    '"b/x" has no realm': "ktcopy -p b/x --as c k t, ktdiff -p b/x k t",
    "--age goes with -k old or --keep alone": "ktremove --age 3 -p a@R k, ktremove -k 3 --age 3 k, "
                                              "ktremove --same --age 3 k",
    "--age is given twice": "ktremove -k old --age 3 --age 3 k", "--want needs a value": "ktcheck --want --json k",
    "--older is given twice": "ktcheck --want b --allow k --older x --older 3 k",
    "--only goes with --want": "ktcheck --only k, ktcheck k --only --allow unwanted --older 3",
    "-k does not go with FILE": "show -k k", "--keytab does not go with FILE": "show k t --keytab",
    "-s does not go with -k": "klist -s -k k, klist -sk k", "--for goes with -s alone": "klist --for=3 -k k",
    "--for needs a value": "klist -s k --for", "unknown option -q=yes": "ktcheck -q=yes k, ktmatch -q=yes k",
    "unknown option -n": "ktcheck -n k, hold -kn k", "unknown option --keep": "ccremove --keep 1 k",
    "unknown option -e": "ktmatch k -qe 17 t",
    '"k" is no finding': "ktcheck --want b --older x --allow k", '"new" is no version': "ktremove -k new k",
    '"old" is no version': "ktcopy -k old k t", '"weak" is no encryption type': "ktfind k 0 weak b@R",
    '"any" is no encryption type': "ktremove -e 17 -e any k, ktcopy -e any k t, ktfind k 0 any b@R",
    '"b" has no realm': "ktremove -p b k t, ktcopy -p b@R -p b k t, ccremove -p b@R -p b k, ktfind k 0 0 b, "
                        "ktcheck --want b@R --want=b -- k, ktmatch k -p b@R --principal=b, "
                        "ktremove --match b k, ktdiff --match *@R --match=b k t",
    '"=" has no realm': "ktremove -np= k", '"=3" is no version': "ktremove -k=3 k, ktcopy -k=3 k t",
    '"=17" is no encryption type': "ktremove -e=17 k", "unknown option -n=p=b@R": "ktremove -n=p=b@R k",
    "unknown option --v1-big": "ccedit --v1-big k", '"=b" has no realm': "ccremove -p=b k",
    "nothing selects; give -p, --match, --all-services or --expired": "ccremove -n --none-ok k, ccremove k t",
    "-s takes one FILE": "klist k -sc k k", "--silent takes one FILE": "klist k --silent t",
    '"b@R@S" has a second @': "ccremove -p b@R@S --expired k, ktcheck --want b@R@S --want b k, "
                           "ktmatch --match b@R@S k", r'"*@\" has a backslash at the end': "ccremove --match *@\\ k",
    '"*@R/*" has a / in the realm': "ktcopy --match *@R/* k t", r'"\*" has no realm': r"ktmatch --match \* k",
    '"x" is no version': "ktfind k x 0 b@R, ktcopy -p b@R -k 3 --as-kvno x k t",
    '"4294967296" is no version': "ktfind k 4294967296 0 b@R",
    '"b@R\\" has a backslash at the end': "ktfind k 0 0 b@R\\", '"b@R/x" has a / in the realm': "ktfind k 0 0 b@R/x",
    "unknown command ": [("",)], r"unknown command fr\x09ob\x7f": [("fr\tob\x7f",)],
    "left over: ": [("ccedit", "k", "")],
    **{f"{option} does not go with -k": f"klist {option} -k k" for option in ("-c", "--flags", "-C")},
    **{f"{option} is for keytabs; give -k": f"klist {option} k" for option in ("-t", "--keys")},
    **{f"-s does not go with {option}": f"klist -s {option} k" for option in ("--json", "-e", "-f", "-C")},
    **{f"-l does not go with {option}": f"klist -l {option} k, klist {option} k -l" for option in (
        "-k", "-t", "-K", "-e", "-f", "-C", "-s", "--keytab")},
    **{f'"{word}" is no time (90, 15m, 10h, 7d)': f"klist -s --for {word} k, ktremove -k old --age={word} k, "
                                                    f"ktcheck --want b --older {word} k"
       for word in ("d", "7D", "1.5h", "1d1h", "49711d", "71582789m", "4294967296")},
    **{f'"{word}" is no count': f"ktremove --keep {word} k, ktremove -p b@R --keep={word} k"
       for word in ("0", "256", "old", "1d", "4294967297", "00000000001", "00")},
    **{f'"{it}" is no finding': [("ktcheck", "--allow=old", f"--allow={it}", "k")]
       for it in ("", "Weak", "weak,old", " weak", "fault")},
}

# Lines with what may be a key, which is not shown, and lines whose word is too short for that.
HIDDEN: dict[str, str] = {
    f"unknown command {DIGITS}": f"{KEY}, help {KEY}", f"unknown option --nosuch={DIGITS}": f"klist --nosuch={KEY} k",
    f"left over: {DIGITS}": f"ktedit k {KEY.upper()}", f"unknown option -n=p={DIGITS}": f"ktremove -n=p={KEY} k",
    f"{DIGITS} is no version": f"ktfind k {KEY} 0 b@R, ktremove --kvno={KEY}x k, ktcopy -nk{KEY} k t, "
                             f"ktcopy -p b@R -k 3 --as-kvno {KEY} k t",
    f"{DIGITS} is no count": f"ktremove --keep {KEY} k",
    f"{DIGITS} has no realm": f"ccremove --service={KEY}/x k, ktcheck --want {KEY} k, ktdiff --match {KEY} k t",
    f"unknown option --x{KEY}": f"klist --x{KEY} k", f'"{SHORT}" is no version': f"ktfind k {SHORT} 0 b@R",
}

# What does here what commands of these names do in other programs.
ELSEWHERE = {"klist": "list ls", "ktfind": "get", "ktcopy": "add copy merge", "ktcopy --as": "rename", "ktdiff": "diff",
             "ktcheck": "check", "ktremove": "delete del rm remove ktdel", "ktremove -k old": "purge"}

# What is wrong, and what was meant as it seems.
NEAR: dict[tuple[str, str], str] = {
    ("unknown command klis", "klist"): "klis -k k, help klis", ("unknown command lkist", "klist"): "lkist",
    ("unknown command listk", "klist"): "listk", ("unknown command hlep", "help"): "hlep",
    ("unknown option --keytb", "--keytab"): "klist --keytb k, hold --keytb k",
    ("unknown option --enctype", "--enctypes"): "klist -k --enctype k",
    ("unknown option --enctypes", "--enctype"): "ktremove --enctypes 17 k",
    ("unknown option --etype=17", "--enctype"): "ktcopy --etype=17 k t",
    ("unknown option --in-palce", "--in-place"): "ktutil --in-palce",
    ("unknown option --expired=yes", "--expired"): "ccremove --expired=yes k",
    ("unknown option --with-file-name", "--with-filename"): "ktcheck --with-file-name k",
    **{(f"unknown command {word}", meant): word for meant, words in ELSEWHERE.items() for word in words.split()},
    ("unknown option --dry", "--dry-run"): "ktremove --dry k", ("unknown option --v=1", "--v1-big"): "ktutil --v=1",
    ("unknown command ktdif", "ktdiff"): "ktdif k t", ("unknown command ktmacth", "ktmatch"): "ktmacth k",
    ("unknown option --principals", "--principal"): "ktmatch --principals b@R k",
    ("unknown option --mach", "--match"): "ktmatch --mach b@R k",
    ("unknown option --none", "--none-ok"): "ccremove --none k",
    ("unknown option --sa", "--as"): "ktcopy -p b@R --sa c@R k t",
}


def mistake(line: str | Line, phrase: str) -> Explained:
    """Returns a line, beside a file `k`, and what is wrong with it."""
    return Explained(shown(line), words_of(line), (("bad command line", phrase),), {"k": TWO}, status=2, out=b"")


def help_for(line: str | Line) -> str:
    """Returns the command that prints the help which says more."""
    command = next(iter(words_of(line)), "")
    return f"krbfile {command} --help" if command in COMMANDS else "krbfile --help"


CASES = [
    *(mistake(line, f"{phrase}; see {help_for(line)}") for phrase, lines in {**MISTAKES, **HIDDEN}.items()
      for line in lines_of(lines)),
    *(mistake(line, f"{phrase}; see {help_for(line)}\nkrbfile: did you mean {meant}?")
      for (phrase, meant), lines in NEAR.items() for line in lines_of(lines)),
    *(mistake(line, f"{phrase}; see krbfile ktdiff --help")
      for line, phrase in (("ktdiff", "no A"), ("ktdiff -p b@R k", "no B"))),
    mistake(("klist", "-k", b"\xff"), "an argument is not UTF-8; see krbfile --help"),
    # Lines after a first `--explain`.
    *(Case(line, words_of(line), Outcome(2, err=MESSAGE + f"krbfile: {phrase}\n".encode()), {"k": TWO})
      for line, phrase in (
          ("--explain --explain klist -k k", "--explain is given twice; see krbfile --help"),
          ("--explain klist k -x --explain", "unknown option -x; see krbfile klist --help"),
          ("ktfind k --explain", "no KVNO; see krbfile ktfind --help"))),
    Case("an operand", ("ktfind", "--", "--explain"), Outcome(2, err=MESSAGE), {"k": TWO}),
    Case("behind a command", ("ktfind", "k", "4", "0", "b@R", "--explain"),
         Outcome(1, err=f"krbfile: k: refused 10\nkrbfile: {code(10)}\n".encode()), {"k": TWO}),
]


def check(report: Report, program: str) -> None:
    """Checks that the help follows where there is no command, if messages are explained."""
    with folder_of({}) as folder:
        shown_help = run(program, ("--help",), folder).out
        wanted = Outcome(2, err=MESSAGE + b"krbfile: no command; see krbfile --help\n" + shown_help)
        for way, (make, explains) in WAYS.items():
            report.compare(f"no command, {way}", wanted if explains else Outcome(2, err=MESSAGE),
                           make(program, (), folder))
