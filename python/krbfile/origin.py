"""The archive, or the repository, that this module may be a part of. A file of it is used only if nobody but the
module's owner can change it, or put another in its place."""
from __future__ import annotations

import grp
import os
import pwd

SOURCE = os.path.realpath(__file__)
MODULE = os.path.dirname(SOURCE)
TOP = os.path.dirname(os.path.dirname(MODULE))


def own_group(owner: int) -> int | None:
    """Returns the group of a user alone: their first, if it has their name and no other member."""
    try:
        user = pwd.getpwuid(owner)
        group = grp.getgrgid(user.pw_gid)
    except KeyError:
        return None
    return group.gr_gid if group.gr_name == user.pw_name and {*group.gr_mem} <= {user.pw_name} else None


def is_safe(path: str, owner: int) -> bool:
    """Whether a file or a folder is that owner's, and only they may change it. A link is open to all by its mode."""
    found = os.lstat(path)
    if found.st_uid != owner or found.st_mode & 0o002:
        return False
    return not found.st_mode & 0o020 or found.st_gid == own_group(owner)


def beside(folder: str, name: str) -> str | None:
    """Returns the path of a file in a folder beside `python`, or None if it is not there or not safe."""
    folders = (MODULE, os.path.dirname(MODULE), TOP, os.path.join(TOP, "docs"), os.path.join(TOP, folder))
    path = os.path.join(TOP, folder, name)
    try:
        owner = os.lstat(SOURCE).st_uid
        are_safe = all(is_safe(each, owner) for each in (*folders, os.path.join(TOP, "docs", "krbfile.1"), path))
    except OSError:
        return None
    return path if are_safe and MODULE.endswith("/python/krbfile") else None
