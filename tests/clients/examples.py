"""Each job and script of examples/ runs over the samples, and README's line for cron. systemd looks at its units."""

import re
import shlex
import shutil
import signal
from dataclasses import replace
from importlib import import_module, util

from makers.images import FIELDS, TICKET, Name, cache, header_field, offset
from makers.samples import SAMPLES, make
from pages.documents import read
from pages.readme import installed
from runs.harness import TOP, Outcome, Report, files_in, folder_of, message, run

FOUND = b"".join(b"./mixed.keytab: " + line for line in (
    b"weak 53 kvno 3 etype 23 b@R\n", b"nostrong kvno 3 b@R\n", b"entries 2 free 0 holes 0\n"))
JOBS = {"keytabs.cron": FOUND, "keytabs.service": FOUND, "keytabs.yml":
        b'{"file":"./mixed.keytab","mode":"600","entries":2,"free":0,"holes":0,"findings":[{"finding":"weak",'
        b'"place":53,"kvno":3,"etype":23,"principal":"b@R"},{"finding":"nostrong","kvno":3,"principal":"b@R"}],'
        b'"fault":null,"status":1}'}
MATCHED = Outcome(0, b"opens 273 kvno 2 etype 23 at 168 HTTP/www.example.org@EXAMPLE.ORG\n")  # what ticket.conf prints
REMOVED = b"removed 2 kvno 3 etype 17 host/a@R\n"  # another line, which all jobs print

# The scripts, also over a cache with an offset and two tickets for one service, and the files that they leave.
SCRIPTS = {
    "check_keytabs.sh host.keytab": Outcome(0, b"KEYTABS OK\n"),
    "check_keytabs.sh --want c@R --want d@R mixed.keytab damaged.keytab 'n|o'": Outcome(
        2, b"KEYTABS CRITICAL: mixed.keytab: 2 missing, 1 nostrong, 1 weak; "
           b"damaged.keytab: 2 missing, fault 2 at 53; n/o: no such file\n"),
    "check_keytabs.sh host.keytab .": Outcome(3, b"KEYTABS UNKNOWN: .: cannot read\n"),
    "check_tickets.sh krb5.keytab alice.ccache": Outcome(0, b"TICKETS OK\n"),
    "check_tickets.sh -p HTTP/www.example.org@EXAMPLE.ORG next.keytab alice.ccache no": Outcome(
        2, b"TICKETS CRITICAL: alice.ccache: name 273 kvno 2 etype 23 HTTP/www.example.org@EXAMPLE.ORG;"
           b"krbfile: no: no such file\n"),
    "check_tickets.sh . alice.ccache": Outcome(3, b"TICKETS UNKNOWN: krbfile: .: cannot read\n"),
    "keytabs.prom.sh keytabs.prom --want b@R mixed.keytab twice.keytab .": Outcome(0, err=b"krbfile: .: cannot read\n"),
    "tickets.prom.sh odd tickets.prom": Outcome(0), "reset-offset.pl odd": Outcome(0),
    "edit-keytab.sh host.keytab sh -c 'cat; tail -c +3 other.keytab'": Outcome(0),
    "edit-keytab.sh host.keytab sh -c 'printf x'": message(1, "input: not a keytab (1)"),
    "edit-keytab.sh no/k cat": message(3, "no/k: cannot write"),
    "edit-keytab.sh mixed.keytab sh -c 'kill -KILL $PPID; cat host.keytab'": Outcome(-signal.SIGKILL),
    "reset-offset.pl damaged.keytab": message(1, "damaged.keytab: not a cache (2)"),
}
ODD = replace(TICKET, server=Name((b'a"\\\1',)))
BEFORE, AFTER = (cache(ODD, replace(ODD, endtime=8), fields=fields)
                 for fields in (FIELDS, header_field(9, b"\xab\xcd") + offset(0, 0)))
LEFT = {"host.keytab": SAMPLES["host.keytab"] + SAMPLES["other.keytab"][2:], "mixed.keytab": SAMPLES["mixed.keytab"],
        "odd": AFTER, "tickets.prom": rb"""# TYPE krbfile_ticket_end_seconds gauge
krbfile_ticket_end_seconds{file="odd",client="u@R",server="a\"\\\\?@R"} 1700036000
""", "keytabs.prom": b"""# TYPE krbfile_keytab_status gauge
krbfile_keytab_status{file="mixed.keytab"} 1
krbfile_keytab_status{file="twice.keytab"} 1
krbfile_keytab_status{file="."} 3
# TYPE krbfile_keytab_findings gauge
krbfile_keytab_findings{file="mixed.keytab",finding="nostrong"} 1
krbfile_keytab_findings{file="mixed.keytab",finding="weak"} 1
krbfile_keytab_findings{file="twice.keytab",finding="missing"} 1
krbfile_keytab_findings{file="twice.keytab",finding="same"} 1
"""}


def commands(name: str, text: str) -> list[list[str]]:
    """Returns the words of a file's removal and check, over files of the working folder. cron has a shell."""
    text = text.replace("/etc/krb5.keytab", "rotated.keytab").replace("/etc /var/lib", ".").replace("\\\n", "")
    lines = re.findall(r"^(?:ExecStart=|(?:[\d*]+ ){5}root )([^%\n]+)$", text, re.MULTILINE)
    if name == "keytabs.yml":
        lines = [it["ansible.builtin.command"]["cmd"] for it in import_module("yaml").safe_load(text)[0]["tasks"][1:]]
    return [["sh", "-c", line] if name == "keytabs.cron" else shlex.split(line) for line in lines]


def check_jobs(report: Report, folder: str, env: dict[str, str]) -> None:
    """Runs the jobs, and README's line for cron."""
    texts = {name: read(f"examples/{name}").replace("/usr/local/bin", env["TMPDIR"])
             for name in (*JOBS, "keytabs.timer")}
    with folder_of({name: text.encode() for name, text in texts.items()}) as units:
        got = run("systemd-analyze", ("verify", "./keytabs.service", "./keytabs.timer"), units)
    report.check("the units", [f"{got}"] if got.status or b"keytabs." in got.err else [])
    (line,) = re.findall(r"`(krbfile ktcheck [^`]*)` in cron", read("README.md"))
    got = run("sh", ("-c", line.replace("/etc/", "./")), folder, env=env)
    report.check("README's line for cron", [] if got.status == 1 and FOUND in got.out else [f"{got}"])
    (line,) = re.findall(r"^ExecStartPre=.*/(krbfile .*)", read("examples/ticket.conf"), re.MULTILINE)
    line = line.replace("/etc/httpd.keytab", "krb5.keytab").replace("/run/httpd", "alice")
    report.compare("ticket.conf", MATCHED, run("env", line.split(), folder, env=env))
    for name, found in JOBS.items():
        removal, search = commands(name, texts[name])
        for words, status, line in ((search, 1, found), (removal, 0, REMOVED)):
            got = run("env", words, folder, env=env)
            report.check(f"{name}: {words}", [] if got.status == status and line in got.out else [f"{got}"])
        make(folder)


def check(report: Report, program: str) -> None:
    """Runs this topic: first the jobs, then the scripts one after the other."""
    missing = [tool for tool in ("jq", "perl", "systemd-analyze") if shutil.which(tool) is None]
    if missing or util.find_spec("yaml") is None:
        report.skip("examples/", f"{', '.join(missing) or 'PyYAML'} is not there")
        return
    with installed(program) as env, folder_of({"odd": BEFORE}) as folder:
        env |= {"TMPDIR": env["KRBFILE"].removesuffix("/krbfile"), "PATH": f"{env['PATH']}:{TOP}/examples"}
        make(folder)
        check_jobs(report, folder, env)
        for words, wanted in SCRIPTS.items():
            report.compare(words, wanted, run("env", shlex.split(words), folder, env=env))
        after = files_in(folder)
    report.check("what the scripts leave", [name for name, data in LEFT.items() if after.get(name) != data])
