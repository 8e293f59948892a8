"""The files of the examples in README and the manual page."""

from dataclasses import replace
from pathlib import Path

from makers.images import B, HOST, PA_TYPE, TICKET, TWO, Credential, Entry, Name, cache, keytab, old, ticket_of

REALM = b"EXAMPLE.ORG"
ALICE = Name((b"alice",), REALM)
CUT = (47).to_bytes(4, "big") + HOST.spelled()[:20]  # a record with a length of 47, but only 20 bytes


def key_of(service: bytes, kvno: int, enctype: int) -> Entry:
    """Returns an entry of a host's keytab."""
    return Entry((service, b"www.example.org"), REALM, 1, 1_691_300_000 + (kvno == 4) * 17_000_000, kvno, enctype,
                 bytes(range(kvno, kvno + (32 if enctype == 18 else 16))), kvno)


def alices(first: bytes, second: bytes, kvno: int, enctype: int, renew_till: int = 0) -> Credential:
    """Returns Alice's ticket for a service."""
    return ticket_of(Name((first, second), REALM), enctype, kvno, client=ALICE, enctype=18, key=bytes(32),
                     authtime=1_708_634_600, endtime=1_708_670_600, renew_till=renew_till)


SAMPLES = {
    "krb5.keytab": keytab(key_of(b"host", 3, 18), key_of(b"host", 3, 17), key_of(b"HTTP", 2, 23)),
    "next.keytab": keytab(key_of(b"host", 4, 18), key_of(b"host", 4, 17)),
    "alice.ccache": cache(alices(b"krbtgt", REALM, 1, 18, 1_709_239_400),
                          alices(b"HTTP", b"www.example.org", 2, 23), default=ALICE),
    "host.keytab": TWO, "backup.keytab": TWO,
    "other.keytab": keytab(Entry((b"nfs", b"a"), version8=5, enctype=18, key=bytes(32), version32=5)),
    "rotated.keytab": keytab(HOST, Entry(version8=5, version32=5), B), "twice.keytab": keytab(HOST, HOST),
    "mixed.keytab": keytab(HOST, replace(B, enctype=23)), "damaged.keytab": keytab(HOST, CUT),
    "old.keytab": old(41, HOST, B), "krb5cc_0": cache(replace(TICKET, renew_till=1_700_604_800), PA_TYPE),
    # The ticket of host/a@R has expired; the other will not for a long time.
    "krb5cc_1": cache(replace(TICKET, endtime=2**32 - 1),
                      replace(TICKET, server=Name((b"host", b"a"))), PA_TYPE),
}


def make(folder: str) -> None:
    """Makes the files, readable by their owner only, as the program makes keytabs."""
    for name, data in SAMPLES.items():
        path = Path(folder, name)
        path.write_bytes(data)
        path.chmod(0o600)
