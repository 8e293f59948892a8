"""What packagers use: `make dist` packs the same bytes each time, and the archive tries itself in a root of its own;
`make install` puts each file where its readers look, and `uninstall` takes it away; Debian's packages and RPMs are
installed and removed; the wheel has what it needs; a target that fails leaves nothing, and `make help` has them all."""

import os
import re
import shutil
import tarfile
import zipfile
from functools import partial
from pathlib import Path

from pages.documents import read
from runs.harness import TOP, Outcome, Report, every, files_in, folder_of, run
from runs.system_calls import UNSHARE, no_mounts

BUILT = ("bin/krbfile-static", "lib/libkrbfile.a", "lib/libkrbfile.so.1")  # what is built and packed

# What is installed, but for the pages of calls, the examples and Python's module: into folders that are all given.
FOLDERS = {name: f"/{name}" for name in ("BINDIR", "LIBDIR", "INCLUDEDIR", "MANDIR", "DATADIR", "DOCDIR", "PYTHONDIR")}
INSTALLED = """BINDIR/krbfile INCLUDEDIR/krbfile.h INCLUDEDIR/krbfile_files.h LIBDIR/libkrbfile.a LIBDIR/libkrbfile.so.1
    LIBDIR/libkrbfile.so LIBDIR/pkgconfig/krbfile.pc DATADIR/bash-completion/completions/krbfile DOCDIR/README.md
    DOCDIR/examples/list.c DATADIR/fish/vendor_completions.d/krbfile.fish DATADIR/zsh/site-functions/_krbfile
    MANDIR/man1/krbfile.1 MANDIR/man3/krbfile.3 MANDIR/man3/krbf_kt_open.3 MANDIR/man5/krbfile.5 PYTHONDIR/krbfile/py.typed"""

EPOCH = 1_700_000_000  # the time that a packager gives

# What installs packages and removes them, in a root, whatever they depend on. The tools that pack, one of each target.
MANAGERS = {"deb": (("dpkg", "--force-depends", "--log=/dev/null"), "-i", "--purge"),
            "rpm": (("rpm", "--nodeps", "--dbpath=/db"), "-i", "-e")}
PACKERS = {"dist": "tar", "deb": "dpkg-deb", "rpm": "rpmbuild", "wheel": "python3"}


def made(*words: str, umask: int = 0o022) -> list[str]:
    """Runs make over what is built, and returns its faults. It is no part of the make that runs the tests."""
    env = {name: text for name, text in os.environ.items() if name not in ("MAKEFLAGS", "MFLAGS", "MAKELEVEL")}
    old = (f"-o{name}" for name in BUILT)
    done = run("make", (*old, *words), TOP, env={**env, "SOURCE_DATE_EPOCH": f"{EPOCH}"}, umask=umask)
    return [f"{done}"] if done.status else []


def selftest(top: str) -> Outcome:
    """Returns how an archive's test of itself ends, in a root that has busybox alone, if there is one."""
    if (busybox := shutil.which("busybox")) is None or no_mounts():
        return run("./selftest", (), top)
    root = os.path.dirname(top)
    os.mkdir(os.path.join(root, "bin"))
    shutil.copy(busybox, os.path.join(root, "bin"))
    script = f"PATH=/bin && /bin/busybox --install -s /bin && exec /{os.path.basename(top)}/selftest"
    first, *rest = (*UNSHARE, "chroot", root, "/bin/busybox", "sh", "-c", script)
    return run(first, rest, root)


def check_packed(report: Report, _program: str) -> None:
    """Packs the archive twice, and tries what README's line unpacks."""
    with folder_of({}) as one, folder_of({}) as two:
        report.check("make dist", [*made(f"DIST={one}", "dist"), *made(f"DIST={two}", "dist", umask=0o077)])
        (name,), page = os.listdir(one), read("README.md")
        report.check("the archives", [] if files_in(one) == files_in(two) else ["differ"])
        with tarfile.open(os.path.join(one, name)) as packed:
            report.check("the times in it", [] if {it.mtime for it in packed} == {EPOCH} else ["are others"])
        (unpack,) = re.findall(r"^    (tar .*)$", page, re.MULTILINE)
        got = run("sh", ("-c", f"{unpack} && sha256sum -c --quiet SHA256SUMS && pwd"), one)
        report.check("unpacking", [f"{got}"] if got.status or got.err else [])
        top = os.path.join(one, got.out.decode().strip())
        links = re.findall(r"\]\(([\w./]+)\)", page)
        report.check("README's links", [link for link in links if not Path(top, link).exists()])
        tried = selftest(top)
        report.check("./selftest", [] if tried.status == 0 and not tried.err else [f"{tried}"])


def check_installed(report: Report, program: str) -> None:
    """Installs what is built, and removes it."""
    with folder_of({}) as root:
        words = (f"PROGRAM={program}", f"DESTDIR={root}", *(f"{name}={path}" for name, path in FOLDERS.items()))
        faults = made(*words, "install")
        report.check("make install", faults + [name for name in INSTALLED.split() if not Path(root, name).exists()])
        text = Path(root, "LIBDIR", "pkgconfig", "krbfile.pc").read_text("utf-8")
        report.check("krbfile.pc", [] if "\nlibdir=/LIBDIR\n" in text and "@" not in text else [text])
        report.check("make uninstall", made(*words, "uninstall") + [*files_in(root)])
        Path(root, "a").touch()
        report.check("below a blank", made(f"DESTDIR={root}/a b", "uninstall") + [*{"a"}.difference(files_in(root))])
        report.check("nothing is built for it", [] if made(*words, "PROGRAM=no", "install") else ["it is installed"])


def check_targets(report: Report, _program: str) -> None:
    """Finds each target in the help, and lets a tool of each that packs fail, which leaves nothing."""
    targets = " ".join(re.findall(r"^\.PHONY: ((?:.*\\\n)*.*)", read("Makefile"), re.MULTILINE))
    named, words = (re.findall(r"[\w-]+", text) for text in (targets, run("make", ("help",), TOP).out.decode()))
    report.check("make help", [name for name in named if name not in words and not name.startswith("pack-")])
    for target, tool in PACKERS.items():
        with folder_of({}) as folder, folder_of({tool: b"#!/bin/sh\nexit 1\n"}) as tools:
            os.chmod(os.path.join(tools, tool), 0o755)
            faults = made(f"DIST={folder}", f"PATH={tools}:{os.environ['PATH']}", target)
            report.check(f"{target} without {tool}", ["it packs"] * (not faults) + os.listdir(folder))


def check_packages(report: Report, program: str, kind: str) -> None:
    """Builds packages of a kind twice, and installs and removes them in a root of its own."""
    (manager, *options), install, remove = MANAGERS[kind]
    with folder_of({}) as one, folder_of({}) as two, folder_of({}) as root:
        for folder, umask in ((one, 0o022), (two, 0o077)):
            report.check(f"make {kind}", made(f"PROGRAM={program}", f"DIST={folder}", kind, umask=umask))
        report.check(f"each {kind}", [] if files_in(one) == files_in(two) else ["differs"])
        if kind == "deb" and shutil.which("lintian"):
            got = run("lintian", os.listdir(one), one)
            report.check("lintian", [f"{got}"] * (got.status != 0))
        elif kind == "deb":
            report.skip("lintian", "it is not there")
        os.makedirs(os.path.join(root, "var/lib/dpkg/updates"))
        Path(root, "var/lib/dpkg/status").touch()
        first, *words = (*UNSHARE, manager, f"--root={root}", *options)
        got = run(first, (*words, install, *(os.path.join(one, name) for name in os.listdir(one))), root)
        report.check(f"each {kind} is installed", [f"{got}"] * (got.status != 0))
        report.compare(f"the program of {kind}", Outcome(1, b"empty\nentries 0 free 0 holes 0\n"), run(
            "sh", ("-c", "printf '\\5\\2' | usr/bin/krbfile ktcheck /dev/stdin"), root))
        got = run(first, (*words, remove, *(re.split(r"_|-\d", name)[0] for name in os.listdir(one))), root)
        report.check(f"each {kind} is removed", [f"{got}"] * (got.status != 0) + [*Path(root, "usr").rglob("*krbf*")])


def check_wheel(report: Report, _program: str) -> None:
    """Builds the wheel, whose module finds the library that is in it."""
    with folder_of({}) as folder:
        report.check("make wheel", made(f"DIST={folder}", "PYTHON=/usr/bin/python3", "wheel"))
        for name in os.listdir(folder):
            with zipfile.ZipFile(os.path.join(folder, name)) as wheel:
                text = b"".join(map(wheel.read, (it for it in wheel.namelist() if it.endswith("/METADATA"))))
                has_all = "krbfile/py.typed" in wheel.namelist() and b"\n# krbfile" in text
                report.check("its parts", [] if has_all else [f"{wheel.namelist()}"])
                wheel.extractall(folder)
        found = "from krbfile.library import exports as it; import os; print(os.path.relpath(it._name))"
        report.compare("its library", Outcome(0, b"krbfile/libkrbfile.so.1\n"), run("python3", ("-c", found), folder))


def check_linked(report: Report, _program: str) -> None:
    """Checks that what is linked here binds all symbols at the start, and that the static program needs no library."""
    for name, has_needs in ((BUILT[0], False), (BUILT[2], True)):
        got = run("readelf", ("-dlW", os.path.join(TOP, name)), TOP)
        is_right = re.search(rb"FLAGS_1.*\bNOW\b", got.out) and bool(re.search(rb"NEEDED|INTERP", got.out)) == has_needs
        report.check(f"how {name} is linked", [] if is_right else [f"{got}"])


def not_built(names: tuple[str, ...] = BUILT) -> str:
    """Returns that not all of these is built, or nothing."""
    missing = [name for name in names if not os.path.exists(os.path.join(TOP, name))]
    return f"{missing[0]} is not there: make static lib builds it" if missing else ""


check = every(every(check_linked, of="how it is linked", needs=("readelf",), lack=not_built),
              every(check_packed, check_installed, check_targets, of="the archive", needs=("make",), lack=not_built),
              *(every(partial(check_packages, kind=kind), of=f"each {kind}", needs=("make", PACKERS[kind]),
                      lack=lambda: not_built(BUILT[1:]) or no_mounts()) for kind in MANAGERS),
              every(check_wheel, of="the wheel", needs=("make",), lack=lambda: "python3-build is not there" * (
                  run("/usr/bin/python3", ("-m", "build", "--version"), TOP).status != 0)))
