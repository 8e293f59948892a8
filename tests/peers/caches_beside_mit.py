"""Caches that MIT's kinit and kvno fill in a realm made here, as MIT's klist and ours list them."""

import os
import re
import socket
import subprocess
import time
from collections.abc import Callable, Iterator
from contextlib import contextmanager
from dataclasses import replace
from functools import partial
from pathlib import Path
from random import Random

from keytabs.listings import BY_NAME
from makers.images import Entry, cache, keytab, offset
from makers.random_files import random_credential, random_name
from peers.beside_mit import SURROUNDINGS, Mit, are_there, check_seeds, differences_of, differing_types, lack, mit_klist
from runs.harness import Check, Outcome, Report, differences, every, files_in, folder_of, run

TOOLS = ("klist", "kinit", "kvno", "kdb5_util", "krb5kdc")  # MIT's programs

CLIENT_CONF = """[libdefaults]
 default_realm = CACHE.TEST
 dns_lookup_kdc = false
 dns_lookup_realm = false
 dns_canonicalize_hostname = false
 udp_preference_limit = 1
 ccache_type = {version}
[realms]
 CACHE.TEST = {{
  kdc = 127.0.0.1:{port}
 }}
"""
KDC_CONF = """[kdcdefaults]
 kdc_listen = 127.0.0.1:{port}
 kdc_tcp_listen = 127.0.0.1:{port}
[realms]
 CACHE.TEST = {{
  database_name = {folder}/principal
  key_stash_file = {folder}/stash
  acl_file = {folder}/acl
  max_renewable_life = 7d
 }}
[logging]
 kdc = FILE:{folder}/log
"""

ETYPES = ("aes128-cts-hmac-sha1-96", "aes256-cts-hmac-sha1-96", "aes128-cts-hmac-sha256-128",
          "aes256-cts-hmac-sha384-192", "camellia128-cts-cmac", "camellia256-cts-cmac")

HOST, ODD_NAME = "host/a.cache.test", "a\\/b\\@c/d\\\\e"
PRINCIPALS = ("user", "svc/h", HOST, ODD_NAME)  # beyond those of a new realm, as the text of a name has them
KINIT = ("kinit", "-k", "-t", "k")  # principals have the database's key, as the stash file has: a keytab serves kinit
USER = (*KINIT, "user")

# For each cache its version, and the commands that fill it.
FILLED: dict[str, tuple[int, list[tuple[str, ...]]]] = {
    "many flags": (4, [(*KINIT, "-f", "-p", "-r", "3d", "user"), ("kvno", HOST, ODD_NAME)]),
    "a service's alone": (4, [(*KINIT, "-S", HOST, "user")]),
    "a ticket that begins later": (4, [(*KINIT, "-s", "1h", "-l", "2h", "user")]),
    "each enctype": (4, [USER, *(("kvno", "-e", etype, HOST) for etype in ETYPES)]),
    "user to user": (4, [USER, ("kvno", "--u2u", "FILE:c", "user")]),
    "another client": (4, [(*KINIT, "-f", "svc/h"), ("kvno", "-U", "user", "svc/h")]),
    "version 3": (3, [(*KINIT, "-r", "2d", "user"), ("kvno", HOST)]),
}

REALM = b"CACHE.TEST"


class Failed(Exception):
    """One of MIT's programs failed."""


class Realm:
    """A realm in a folder, with its KDC running."""

    def __init__(self, folder: str, port: int) -> None:
        self.folder = folder
        for version in (3, 4):
            self.write(f"krb5-{version}.conf", CLIENT_CONF.format(version=version, port=port))
        self.write("kdc.conf", KDC_CONF.format(folder=folder, port=port))
        self.env = SURROUNDINGS | {"KRB5_KDC_PROFILE": os.path.join(folder, "kdc.conf"), "KRB5CCNAME": "FILE:c"}

    def write(self, name: str, text: str) -> None:
        """Writes a file in the folder."""
        Path(self.folder, name).write_text(text, "ascii")

    def surroundings(self, version: int = 4) -> dict[str, str]:
        """Returns the environment of a program that makes caches of that version."""
        return self.env | {"KRB5_CONFIG": os.path.join(self.folder, f"krb5-{version}.conf")}

    def call(self, *words: str, folder: str | None = None, version: int = 4, **env: str) -> bytes:
        """Runs a program, which has to succeed, and returns its output."""
        got = run(words[0], words[1:], folder or self.folder, env=self.surroundings(version) | env)
        if got.status != 0:
            raise Failed(f"{' '.join(words)}: {got.err.decode(errors='replace').strip()}")
        return got.out

    def create(self, names: tuple[str, ...]) -> None:
        """Creates the database, and the principals of those names, by an edited dump."""
        self.call("kdb5_util", "create", "-s", "-P", "master", "-r", "CACHE.TEST")
        head, *lines = self.call("kdb5_util", "dump").decode().splitlines()
        master = next(line for line in lines if "\tK/M@" in line)
        more = (principal_line(master, name) for name in names)
        self.write("more", "".join(f"{line}\n" for line in (head, *more)))
        self.call("kdb5_util", "load", "-update", "more")

    def keys(self) -> tuple[Entry, Entry]:
        """Returns the keys of two principals, a user and a service; they are that of the database."""
        master, = Mit(self.folder).klist("stash")
        etype, key = re.findall(r"\((?:0x)?(\S+)\)", master)
        user = Entry((b"user",), REALM, enctype=BY_NAME[etype], key=bytes.fromhex(key), version8=1, version32=1)
        return user, replace(user, components=(b"svc", b"h"))


def principal_line(master: str, name: str) -> str:
    """Returns the dump line of a principal with the key of the database, and all session enctypes."""
    fields = master.split("\t")
    key = fields[15 + 3 * int(fields[3]):-1]  # after the numbers at its start and the tagged data
    enctypes = b"session_enctypes\0" + ",".join(ETYPES).encode() + b"\0"
    full = name + "@" + REALM.decode()
    front = [*fields[:2], len(full), 1, *fields[4:6], full, 0, *fields[8:15]]
    return "\t".join(map(str, [*front, 11, len(enctypes), enctypes.hex(), *key, fields[-1]]))


def wait_for(port: int, started: subprocess.Popen[bytes]) -> None:
    """Waits until the KDC accepts connections."""
    for _ in range(100):
        with socket.socket() as caller:
            if caller.connect_ex(("127.0.0.1", port)) == 0:
                return
        if started.poll() is not None:
            break
        time.sleep(0.1)
    raise Failed("krb5kdc does not listen")


@contextmanager
def realm(more: tuple[str, ...] = ()) -> Iterator[Realm]:
    """Yields a realm with its principals and more of them; its KDC runs while it is used."""
    with folder_of({}) as folder:
        # A port that nobody listens on.
        with socket.create_server(("127.0.0.1", 0)) as listener:
            port = listener.getsockname()[1]
        made = Realm(folder, port)
        made.create((*PRINCIPALS, *more))
        with subprocess.Popen(["krb5kdc", "-n"], cwd=folder, env=made.surroundings(),
                              stdout=subprocess.DEVNULL, stderr=subprocess.DEVNULL) as started:
            try:
                wait_for(port, started)
                yield made
            finally:
                started.terminate()


def check_filled(report: Report, program: str, realm_of: Realm) -> None:
    """Fills each cache with MIT's programs, and lists it."""
    image = keytab(*realm_of.keys())
    for name, (version, commands) in FILLED.items():
        with folder_of({"k": image}) as folder:
            for words in commands:
                realm_of.call(*words, folder=folder, version=version)
            found = differences_of(program, folder, "-f", "-e", "-C")
            found += [] if b"CACHE.TEST" in mit_klist(folder, "c") else ["MIT's lists nothing"]
            wanted = Outcome(0, realm_of.call("klist", "-l", folder=folder))
            found += differences(wanted, run(program, ("klist", "-l", "c"), folder))
            found += [] if files_in(folder)["c"][1] == version else ["it has another version"]
        report.check(f"MIT's klist and ours: {name}", found)


def check_collection(report: Report, program: str, realm_of: Realm) -> None:
    """Has kinit fill a collection with two caches, one of them over then, and lists its caches."""
    with folder_of({"k": keytab(*realm_of.keys())}) as folder:
        collection = {"KRB5CCNAME": f"DIR:{folder}/all"}
        for words in ((*KINIT, "-l", "1s", "svc/h"), USER):
            realm_of.call(*words, folder=folder, **collection)
        time.sleep(2)
        theirs = realm_of.call("klist", "-l", folder=folder, **collection)
        names = re.findall(r"DIR::\S+", theirs.decode())
        wanted = Outcome(0, theirs.replace(b"DIR::", b"FILE:"))
        found = differences(wanted, run(program, ("klist", "-l", *names), folder))
        found += [] if len(names) == 2 and theirs.count(b"(Expired)") == 1 else [f"MIT's lists {theirs}"]
        for name in names:
            env = realm_of.surroundings() | {"KRB5CCNAME": name}
            found += differences(run("klist", ("-s",), folder, env=env), run(program, ("klist", "-s"), folder, env=env))
    report.check("MIT's klist -l of a collection and ours", found)


def faults_of_random(program: str, random: Random) -> list[str]:
    """Returns how listings differ of a random cache of its default principal's tickets, none a configuration entry."""
    default = random_name(random, False)
    names = (random_name(random, False) for _ in range(random.randrange(8)))
    those = [replace(random_credential(random), client=default, server=name) for name in names]
    image = cache(*those, default=default, fields=offset(5, -10), version=random.choice([3, 4]))
    with folder_of({"c": image}) as folder:
        found = differences_of(program, folder, "-f") + differing_types(program, folder)
        return [f"{image.hex()}: {fault}" for fault in found]


def in_realm(what: str, *checks: Callable[[Report, str, Realm], None], more: tuple[str, ...] = (),
             tools: tuple[str, ...] = ()) -> Check:
    """Returns a check that makes those in a realm with more principals, if MIT's programs are there."""
    def check(report: Report, program: str) -> None:
        try:
            with realm(more) as made:
                for each in checks:
                    each(report, program, made)
        except Failed as failed:
            report.check(f"MIT's programs in a realm made here: {what}", [str(failed)])

    return every(check, of=what, lack=lambda: lack(*TOOLS, *tools))


def check(report: Report, program: str) -> None:
    """Runs this topic if MIT's programs are installed."""
    in_realm("caches beside MIT's programs", check_filled, check_collection)(report, program)
    if are_there(report, "random caches beside MIT's klist", "klist"):
        check_seeds(report, "MIT's klist and ours: random caches", partial(faults_of_random, program))
