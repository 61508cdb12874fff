"""A file is written at once or not at all."""

import contextlib
import os
import stat
import tempfile

from warrenctl.fault import Fault

FOR_OWNER = 0o600


def write(name, data, like=None):
    """Writes a file by renaming another one to its name, so that nobody reads a part of it.

    A file that is there keeps its mode and its owner, and one that `name` links to is the one that is written. A new file is for its owner alone; with
    `like` it has the mode of that file, and its owner and group, as far as this user may give these. What is no regular file, such as /dev/stdout, is
    written to as it is. Fails with one line if it can't be written.
    """
    data = data.encode() if isinstance(data, str) else data
    try:
        old = status_of(name)
        if name.startswith("/dev/") or old is not None and not stat.S_ISREG(old.st_mode):
            with open(name, "wb") as file:
                file.write(data)
        else:
            replace(os.path.realpath(name), data, old, like and status_of(like))
    except OSError as error:
        raise Fault(f"{name}: {error.strerror}") from None


def status_of(name):
    try:
        return os.stat(name)
    except FileNotFoundError:
        return None


def replace(target, data, old, like):
    """Writes the data beside the target, and renames it. `old` and `like` are what the system says of the target and of the file that it is like."""
    handle, new = tempfile.mkstemp(dir=os.path.dirname(target), prefix=".new")
    try:
        with open(handle, "wb") as file:
            file.write(data)
            file.flush()
            give(handle, old, like)
            os.fsync(handle)
        os.replace(new, target)
    except BaseException:
        os.unlink(new)
        raise
    sync_folder(target)


def give(handle, old, like):
    """Gives a new file the owner and the mode of the old one, or of the one that it is like."""
    if old is not None:
        os.fchown(handle, old.st_uid, old.st_gid)
    elif like is not None:
        for owner, group in ((-1, like.st_gid), (like.st_uid, -1)):
            with contextlib.suppress(PermissionError):
                os.fchown(handle, owner, group)
    found = old or like
    os.fchmod(handle, stat.S_IMODE(found.st_mode) if found else FOR_OWNER)


def sync_folder(name):
    """Has the name of a file on the disk, too."""
    folder = os.open(os.path.dirname(os.path.abspath(name)), os.O_RDONLY)
    try:
        os.fsync(folder)
    finally:
        os.close(folder)
