"""Which file is read: names of all kinds, odd files, and the greatest size."""

import os
from functools import partial

from keytabs.listings import B_LINE, HOST_LINE, listed
from makers.images import HOST, TWO, keytab
from runs.harness import Case, Outcome, message, over

LIMIT = 16_777_216  # the greatest size of a file that is read

# Each is taken and printed as it is given.
NAMES = ["./k", "two words", "schlüssel-ключ-鍵", "-k", "-", "a:b", "new\nline", "x" * 255]


def sized(size: int) -> bytes:
    """Returns a keytab of that size: an entry, and a hole up to the end."""
    return keytab(HOST, size - len(keytab(HOST)) - 4)


TOO_LARGE = message(1, "k: file too large")

# The greatest file that is read, one that is a byte longer, and one that is not a keytab in any case.
CASES = [
    *(Case(f"file name {file!r}", ("klist", "-k", "--", file),
           Outcome(0, listed(HOST_LINE, B_LINE, name=file.encode())), {os.path.normpath(file): TWO})
      for file in NAMES),
    *(Case(f"missing file {file!r}", ("klist", "-k", "--", file), message(1, f"{file}: no such file"), {"j": TWO})
      for file in ("a k", "no/k", "")),
    *(partial(over, f"a file of {size} bytes", "klist -k -- k", image(size), wanted) for size, image, wanted in (
        (LIMIT, sized, Outcome(0, listed(HOST_LINE))), (LIMIT + 1, sized, TOO_LARGE), (LIMIT + 1, bytes, TOO_LARGE))),
    # A folder; a file that opens, but whose first byte is never there; an endless one, and an empty one.
    *(Case(f"odd file {name}", ("klist", "-k", name), message(status, f"{name}: {what}")) for name, what, status in (
        (".", "cannot read", 3), ("/proc/self/mem", "cannot read", 3), ("/dev/zero", "file too large", 1),
        ("/dev/null", "not a keytab (1)", 1))),
]
