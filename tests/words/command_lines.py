"""Command lines: bundled, repeated, late and long options, help, the version, and lines that are refused. What each
shell that is there completes on one: the commands and options that help lists, and values. How help ends: the
statuses, a line each, and an example, which is run on sample files."""

import os
import re
from functools import cache, partial

from keytabs.listings import BY_NAME, sample
from makers.images import B, TWO, USUAL, keytab
from makers.samples import SAMPLES, make
from pages.readme import installed
from runs.commands import CHANGES, COMMANDS, READS
from runs.harness import (BAD_LINE, TOP, Case, Line, Outcome, Report, differences, every, folder_of, message, printed,
                          run, run_case, shown, words_of)
from words.phrases import FINDINGS

def lines_of(lines: str | list[Line]) -> list[str | Line]:
    """Returns lines, which commas separate where they are one text."""
    return lines.split(", ") if isinstance(lines, str) else lines


# Lines that are refused, beside keytabs `k` and `t` and a cache `c`, and that are not among the mistakes.
REFUSED: list[str | Line] = [
    "", *lines_of(
        "k, -k klist k, CCEDIT c, klist -tKe k, klist -k -t=yes k, klist -xk k, klist -k --keys=yes k, "
        "klist -k -v1-big k, ktfind k 0 0, ktfind -x k 0 0 b@R, ktfind --v1-big=yes k 0 0 b@R, ktfind k 0 0 -b@R, "
        "klist --in-place -k k, klist -V k, ktutil --in-place=yes, ccremove --version, help --version, "
        "klist --json -c -k k, klist --flags=yes c, ccedit --expired c"),
    *(f"klist {options} c" for options in lines_of(
        "-kc, -et, -ctK, -efC --v1-big, -kefC, -kt -e -C, -a, -n, -d, -A, -i, -V, -F, -E")),
    *(f"{command} {rest}" for command, those in {
        "klist": "-k -s c, -s --v1-big c, -s=yes c, -s --for c, -s --for= c, -s --for -1 c, -s -for 3 c, "
                 "-l --for 3 c, -l --v1-big c, -l=yes c",
        "ktremove": "-k old -k old k, -k -1 k, -k Old k, -k= k, -p b@R/ k, -p b@R, -p= k, --dry-run=yes -k old k, "
                    "-k new --age 3 k, -k old --age= k, -k old --age 00000000003 k, -k old -age 3 k, --keep= k, "
                    "--keep -1 k, -keep 1 k, --keep 1, --same=yes k, --match= k, -match b@R k, -p b@R --none-ok=yes k",
        "ktcopy": "-n k, -p b@R k, -p= k t, -k New k t, -n=yes k t, -r k t, --expired k t, -k new --age 3 k t, "
                  "--keep 1 k t, --same k t, --none-ok k t, -p b@R -k 3 --as-kvno= k t, -p b@R -k 3 --as-kvno 3 k",
        "ktdiff": "-n k t, -p= k t, -e 65536 k t, --replace k t, k, -as c@R k t, -k new k t, --match b k t",
        "ktmatch": "-p b@R/ k c, -p= k c, --service b@R k c, -p b@R, -k k c, --with-filename=yes k c, --want b@R k c",
        "ktcheck": "--older= k, -older 3 k, --want= k, --want @@ k, --with-filename=yes k, --only=b@R k",
        "ccremove": "-p b@R, -p b@R\\ c, -k old c, --v1-big --expired c, -expired c, --all-services=yes c, -a c, "
                    "--same c, --match b c",
        "hold": "-c k, -kx k, -k=yes k, --in-place=yes k, --json k, -V k, -k"}.items() for rest in lines_of(those)),
    (b"\xff", "-k", "k"), ("klist", b"-k\xff", "k"), ("klist", "-c", "c", b"\xff"), ("klist", "-s", "--for", "", "c"),
    ("ktfind", "k", "0", "0", b"b\xff@R"), ("ktcopy", "-k", "", "k", "t"), ("ktutil", ""), ("hold", "-k", "k", ""),
    # Words that are not a version, or not an enctype, and texts that are not a name with a realm.
    *(("ktfind", "k", word, "0", "b@R") for word in ("", "-1", "+1", "1 ", "0x3", "\u0663", "00000000003")),
    *(("ktfind", "k", "0", word, "b@R") for word in (
        "", "+17", "65536", "00000000017", "aes", "aes128-cts-hmac-sha1-96 ", "aes128-\u017fha1", "etype 17")),
    *(("ktfind", "k", "0", "0", word) for word in ("", "\\", "b@R@", "b@/")),
]

# Lines, and others that mean the same.
SAME: dict[str, str] = {
    "klist -k k": "klist k -k, klist -k -- k, klist k -k --, klist -k -kk k, klist --v1-big k -kk --v1-big",
    "klist -kt k": "klist -t -kt -t k, klist --times k -k --keytab",
    "klist -ktKe k": "klist -e -t -K -k k, klist -eKtk k, klist k --enctypes --keys -t --keytab",
    "klist c": "klist c -c, klist -cc -c c, klist -c -- c, klist c --",
    "klist -cf c": "klist -f c, klist -fff c", "klist -cC c": "klist -C c",
    "klist -cefC d": "klist --cache --flags --enctypes --config d, klist -fCec d",
    "klist -s d": "klist --silent d, klist d --cache --silent", "klist -s c": "klist --silent c",
    "klist -l c d": "klist --list c d, klist c -l d --cache -l, klist -lc -- DIR::c FILE:d",
    "klist -l --json c d": "klist --json -c c --list d", "klist -k k m": "klist k -k m, klist -k -- k FILE:m",
    "ktfind k 0 0 b@R": "ktfind k 3 17 b@R, ktfind k 0000000003 0000000017 b@R, ktfind k 0 AES128-cts b@R, "
                        "ktfind --v1-big k 0 0 b@R --v1-big, ktfind -- k 0 0 b@R, ktfind k 0 0 -- b@R",
    "ktedit k": "ktedit k --v1-big, ktedit -- k, ktedit k --in-place --v1-big --in-place",
    "ccedit c": "ccedit -- c, ccedit c --", "ktutil": "ktutil --v1-big --v1-big, ktutil --, ktutil --in-place",
    "hold -k k": "hold k -k, hold -kk -k k, hold --keytab -- k, hold k --in-place --v1-big -k --in-place",
    "hold c": "hold -- c, hold --in-place c",
    "ccremove --expired c": "ccremove c --expired, ccremove --expired c --expired, ccremove -pkrbtgt/R@R c, "
                            "ccremove c -p krbtgt/R@R, ccremove --expired -p krbtgt/R@R -- c",
    "ccremove -n -p host/a@R d": "ccremove --dry-run --service host/a@R d, ccremove -nn --service=host/a@R -n d, "
                                 "ccremove -nphost/a@R d, ccremove -n --all-services d, "
                                 "ccremove --none-ok -n --match=host/a@* d",
    "ktremove -n -k old r": "ktremove --dry-run --kvno old r, ktremove -n --keep 1 r, ktremove --keep=01 r -n",
    "ktremove -n --match *@R r": "ktremove --match b@R r --match=*@R -n --match b@*, ktremove -nn --match *@R -p b@R r",
    "ktremove --same -p host/a@R m": "ktremove --same --match host/a@R --same m --none-ok",
    "ktremove -p b@R -e 17 -e 23 m": "ktremove --principal b@R --enctype=17 -e23 m, "
                                     "ktremove --match b@R -e WEAK -e 17 m",
    "ktremove -p=b@R k": "ktremove --principal==b@R k",
    "ktcopy -n -p b@R -k new r t": "ktcopy --dry-run --principal=b@R --kvno=new r t",
    "ktcopy -e aes128-cts-hmac-sha1-96 r t": "ktcopy --enctype aes128-cts-hmac-sha1-96 r t",
    "ktcopy -n -p b@R --as c@R r t": "ktcopy --as=c@R r -np b@R t, ktcopy --dry-run --principal b@R r --as c@R -- t",
    "ktcopy -p b@R -k 3 --as-kvno 4 r t": "ktcopy --as-kvno=0004 r --kvno new -pb@R -- t",
    "ktdiff -p b@R -e 17 r t": "ktdiff --principal=b@R r --enctype aes128-cts t, ktdiff -p b@R -e17 --v1-big FILE:r t",
    "ktmatch -q -p host/a@R k d": r"ktmatch --quiet k --principal=\host/a@R d, ktmatch -qphost/a@R -- FILE:k DIR::d",
    "ktmatch -H --json k d o": "ktmatch k d --json o, ktmatch --json --with-filename --v1-big k -- d FILE:o",
    "ktcheck -q k m": "ktcheck --quiet k m", "ktcheck --json -q k m": "ktcheck --quiet --json -H k m",
    "ktcheck -H --older 1m --want b@R --want host/a@R m": r"ktcheck --older=60 m --with-filename --want=\host/a@R, "
                                                          "ktcheck -HH --want b@R --older 60s -- FILE:m",
    "ktcheck --only --want b@R k m": "ktcheck k --want=b@R --only m --only",
    "--version": "-V, --version klist, -V klist -x, --explain -V", "--help": "-h, help, --explain help",
    **{f"{name} --help": ", ".join((
        f"help {name}, {name} -h, --explain help {name}",
        *(f"{' '.join(run.words)} -h" for run in (*READS, *CHANGES) if run.words[0] == name))) for name in COMMANDS},
}

# What help names: the commands, each its own, and defaults.
HELP = {**{f"{command} --help": f"krbfile {command}" for command in COMMANDS}, "--help": " ".join(COMMANDS),
        "klist -h": "KRB5CCNAME KRB5_KTNAME /etc/krb5.keytab /tmp/krb5cc_",
        "ktcheck -h": "KRB5_KTNAME /etc/krb5.keytab", "ktmatch -h": "KRB5CCNAME /tmp/krb5cc_"}
TOOLCHAIN = "logic dac8208d650f15bf"  # that the version names

FILES = {"k": TWO, "t": keytab(B), "c": USUAL, "r": SAMPLES["rotated.keytab"], "m": SAMPLES["mixed.keytab"],
         "d": SAMPLES["krb5cc_1"], "o": SAMPLES["krb5cc_0"]}


def case(line: str | Line, wanted: Outcome, **after: bytes) -> Case:
    """Returns a line beside those files, with an input that is a script, and the files that it changes."""
    return Case(shown(line), words_of(line), wanted, FILES, {**FILES, **after}, b"start")


CASES = [
    *(case(line, BAD_LINE) for line in REFUSED),
    *(case(f"klist -k{letters} k", Outcome(0, sample(letters)))
      for letters in ("", "t", "e", "K", "te", "tK", "Ke", "tKe")),
    # A keytab is not a cache and a cache not a keytab; -e is an option of both.
    case("klist -e k", message(1, "k: not a cache (2)")), case("klist -ke c", message(1, "c: not a keytab (2)")),
    case("--version", printed(f"krbfile 2.0 (rattle {TOOLCHAIN})")),
]


def check_same(report: Report, program: str) -> None:
    """Runs lines that mean the same: they print the same, and leave the same files."""
    for line, others in SAME.items():
        wanted, after = run_case(program, case(line, Outcome(0)))
        for other in lines_of(others):
            case(other, wanted, **after).check(report, program)


def check_help(report: Report, program: str) -> None:
    """Prints help, which ends with a newline, on the output."""
    for line, words in HELP.items():
        got, _ = run_case(program, case(line, Outcome(0)))
        missing = [f"no {word}" for word in words.split() if word not in got.out.decode()]
        report.check(f"help: {shown(line)}", differences(Outcome(0, got.out.rstrip(b"\n") + b"\n"), got) + missing)


def check_toolchain(report: Report, _program: str) -> None:
    """Compares the toolchain's name with what it prints of itself, after the name of its kit."""
    output = run("rt", ("version",), TOP).out.decode()
    named = output.strip().partition(" ")[2]
    report.check("the toolchain of the version", [] if named == TOOLCHAIN else [f"it is {output!r}"])


# Each completes the last word of each line of TYPED, and prints `found` and the words on a line; zsh on a terminal.
BASH = """source "$0"; while IFS= read -r line; do
    COMP_WORDS=($line); [[ $line == *" " ]] && COMP_WORDS+=(""); COMP_CWORD=$((${#COMP_WORDS[@]} - 1)); _krbfile
    [[ ${#COMPREPLY[@]} == 0 && $(complete -p krbfile) == *"-o default"* ]] && COMPREPLY=($(compgen -f))
    echo found "${COMPREPLY[@]}"
done <<< "$TYPED\""""
ZSH = """zmodload zsh/zpty; export AT=$0:h; zpty z zsh -fi
zpty -w z 'eval $SETTING'; zpty -r z all '*END'; print -r -- $all"""
SETTING = """PROMPT=; fpath=($AT $fpath); autoload -Uz compinit; compinit -D -u
compadd() {
    [[ ${@[1,(i)--#]} == *-[OAD]* ]] && { builtin compadd "$@"; return }
    local -a own; builtin compadd -O own "$@"; all+=($own)
}
zle-line-init() {
    for LBUFFER in "${(@f)TYPED}"; do all=(); zle complete-word; print -r -- found $all; done
    print END; exit
}
zle -N zle-line-init"""
FISH = r"""source $argv[1]; for line in (string split \n $TYPED)
    echo found (complete -C $line | string replace -r '\t.*' '')
end"""
SHELLS = {"bash": ("-c", BASH, "bash-completion/completions/krbfile"),
          "zsh": ("-fc", ZSH, "zsh/site-functions/_krbfile"),
          "fish": ("-Nc", FISH, "fish/vendor_completions.d/krbfile.fish")}

# Lines, and what completes the last word, beside a file `k`.
LINES = {
    "klist -k --v": {"--v1-big"}, "--explain klist --js": {"--json"}, "--explain ktr": {"ktremove"},
    "help kte": {"ktedit"}, "ktfind --v1-big k 0 ": {*BY_NAME}, "ktcheck --allow ": {*FINDINGS}, "klist ": {"k"},
    "ktdiff ": {"k"}, "ktdiff k ": {"k"}, "ktmatch ": {"k"}, "ktmatch k k ": {"k"}, "ktmatch --p": {"--principal"},
    "ktcopy --a": {"--as", "--as-kvno"}, "ktcheck --w": {"--want", "--with-filename"},
    "ktcheck --o": {"--older", "--only"},
    **{" ".join((*run.words[:-1], "")): {"k"} for run in CHANGES if run.words[1:]},
    "ktremove --k": {"--keep", "--kvno"}, "ktdiff --m": {"--match"}, "ccremove --no": {"--none-ok"},
    "ktremove -k ": {"old"}, "ktcopy --kvno ": {"new"}, "ktcopy k -e ": {*BY_NAME},
    "ktremove --enctype aes256-cts-hmac-sha1": {"aes256-cts-hmac-sha1-96"},
}

STATUSES = "01234"  # the statuses that help lists
HELP_END = re.compile(r"\nStatuses:\n((?:  \d  .*\n)*)Example: (.*)\n  (.*krbfile.*)\n\Z")  # how it ends


@cache
def helped(program: str, command: str) -> str:
    """Returns the help of a command, or of none."""
    with folder_of({}) as folder:
        return run(program, [*command.split(), "--help"], folder).out.decode()


def offered(program: str, command: str) -> tuple[set[str], set[str]]:
    """Returns the commands and the options that the help of a command, or of none, lists."""
    commands, options = (helped(program, command).partition(f"\n{heading}:\n")[2].partition("\n\n")[0]
                         for heading in ("Commands", "Options"))
    heads = re.findall(r"^ +(-.*?)(?:  |$)", options, re.MULTILINE)
    return ({*re.findall(r"^  (\w+)", commands, re.MULTILINE)},
            {option for head in heads for option in re.findall(r"--?[\w-]+", head)})


def check_ends(report: Report, program: str) -> None:
    """Reads the end of each command's help, and runs its example beside sample files, without a message."""
    for command in sorted(offered(program, "")[0] - {"help"}):
        statuses, _, example = HELP_END.search(helped(program, command)).groups()
        listed = "".join(line.split()[0] for line in statuses.splitlines())
        report.check(f"the statuses of krbfile {command} --help", [] if listed == STATUSES else [f"it lists {listed}"])
        with folder_of({}) as folder, installed(program) as env:
            make(folder)
            got = run("sh", ("-c", example), folder, env=env)
        is_right = f"krbfile {command} " in f"{example} " and (got.status, got.err) == (0, b"")
        report.check(f"the example of krbfile {command} --help", [] if is_right else [f"{example} ends with {got}"])


def check_shell(shell: str, report: Report, program: str) -> None:
    """Compares what a shell completes with what help lists, and with the lines."""
    option, script, path = SHELLS[shell]
    commands, _ = offered(program, "")
    wanted = {**{first: {each for each in commands if each[0] == first} for first in {each[0] for each in commands}},
              **{f"{each} -": offered(program, each)[1] for each in {"", *commands} - {"help"}}, **LINES}
    with folder_of({"k": b""}) as folder, folder_of({}) as share:
        run(os.path.join(TOP, "completions", "generate"), (program, share), folder)
        env = {**os.environ, "HOME": share, "SETTING": SETTING,
               "TYPED": "\n".join(f"krbfile {line.lstrip()}" for line in wanted)}
        got = run(shell, (option, script, os.path.join(share, path)), folder, env=env)
    found = [{*line.split()} for line in re.findall(r"(?m)found(.*)$", got.out.decode())]
    report.check(f"the lines of {shell}", [] if len(found) == len(wanted) and not got.err else [f"{got}"])
    for (line, words), those in zip(wanted.items(), found):
        report.check(f"{shell} completes {line!r}", sorted(words ^ those))


check = every(check_same, check_help, every(check_toolchain, of="the toolchain of the version", needs=("rt",)),
              check_ends, *(every(partial(check_shell, shell), of=f"completions of {shell}", needs=(shell,))
                            for shell in SHELLS))
