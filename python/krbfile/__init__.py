"""Keytabs and credential caches (the FILE type) of MIT Kerberos, by the C library libkrbfile.

    with edit_keytab("/etc/krb5.keytab") as keytab:
        for entry in keytab.weak():
            keytab.remove_at(entry.place)

    keytab = Keytab.load("/etc/krb5.keytab")
    print([ticket.server for ticket in Cache.load() if not keytab.opens(ticket)])

`edit_keytab` and `edit_cache` change a file by the program krbfile. `Keytab.load` and `Cache.load` read one, `open`
takes its bytes, and `image` gives them. A keytab or a cache may be changed during iteration, and threads may share
one. If it is damaged, iteration raises an error at the fault, which `fault` has.

The program is `PROGRAM`, if that is set, or KRBFILE in the environment, or the one of the archive that this module
is a part of, if only the module's owner can change that, or the one on PATH.

Principal names are `str`; bytes that are not UTF-8 are kept as surrogate escapes, so `os.fsencode(name)`
restores them. Calls take a name as text or bytes, and an encryption type as its number or its name in `ETYPES`. Keys are
bytes, and no `repr` shows one.

If the library refuses a call, or the file is damaged or of another kind, `KrbfileError` is raised: its `status` is
the number in krbfile.h. A file that cannot be read, held or saved raises `OSError`, in the words of the program.
Two kinds of it say that the file was saved, `LostChange`, or that this is not known, `UnknownSave`. A number that does
not fit raises `OverflowError`, an argument of another type `TypeError`, and a call that an older library lacks
`NotImplementedError`.
"""
from __future__ import annotations

from krbfile.cache import Cache, Ticket
from krbfile.editing import LostChange, UnknownSave, edit_cache, edit_keytab
from krbfile.files import AnyPath
from krbfile.keytab import Entry, Finding, Keytab
from krbfile.library import ETYPES, KrbfileError, NotFound

__all__ = ["Cache", "ETYPES", "Entry", "Finding", "Keytab", "KrbfileError", "LostChange", "NotFound", "PROGRAM",
           "Ticket", "UnknownSave", "edit_cache", "edit_keytab"]

__version__ = "2.0"

PROGRAM: AnyPath | None = None  # the path of the program, unless it is to be found elsewhere
