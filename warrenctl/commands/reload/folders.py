"""Folders with the three files of a broker, and the link to the one in force."""

import contextlib
import hashlib
import os
import re
import shutil
import subprocess
import sys
import tempfile

from warrenctl.fault import Fault
from warrenctl.files.definitions_file import read, replace
from warrenctl.files.writing import write

NAMES = ("definitions.json", "guarantees.json", "certificates.json")
# the copy of files in force, in the folder of a unit (examples/deploy/files)
LAST, NEXT = "last", "next"
MARK = re.compile(r"reload\.[0-9a-f]{12}")
MEANINGS = {1: "a guarantee does not hold, or a certificate has a fault", 2: "a guarantee is undecided"}


def path_in(folder, place):
    return os.path.join(folder, NAMES[place])


def check_folders(link, new):
    """Refuses a link that is none, and a folder that can't be put in its place."""
    if not os.path.islink(link):
        if os.path.lexists(link):
            raise Fault(f"{link} is no link; move it to another name, and make the link by ln -s")
        raise Fault(f"{link} is not there; make the link to the folder in force by ln -s")
    if not os.path.isdir(link):
        raise Fault(f"{link} leads to no folder")
    if not os.path.isdir(new):
        raise Fault(f"{new} is no folder")
    if os.path.samefile(link, new):
        raise Fault(f"{link} leads to {new} already; copy the folder, and change the copy")
    for place in (0, 1):
        if not os.path.isfile(path_in(new, place)):
            raise Fault(f"{path_in(new, place)} is not there")


def mark(folder):
    """Puts an exchange into the definitions whose name is of the files' sum, in place of the one of another time."""
    name = path_in(folder, 0)
    definitions = read(name, "exchanges")
    definitions["exchanges"] = [it for it in definitions["exchanges"] if not MARK.fullmatch(str(it.get("name")))]
    total = hashlib.sha256(repr(definitions).encode(errors="surrogatepass"))
    with open(path_in(folder, 1), "rb") as file:
        total.update(file.read())
    made = {"name": f"reload.{total.hexdigest()[:12]}", "vhost": "/", "type": "fanout", "durable": True, "auto_delete": False, "internal": True}
    definitions["exchanges"].append({**made, "arguments": {}})
    replace(name, definitions)


def asked(program, *words):
    """Runs a command of the program. Its lines are shown unless it is done, and then it is told what it ended with."""
    try:
        done = subprocess.run([program, *words], capture_output=True)
    except OSError as error:
        raise Fault(f"{program}: {error.strerror}") from None
    if done.returncode:
        sys.stdout.write(done.stdout.decode(errors="replace"))
        sys.stdout.flush()
        said = done.stderr.decode(errors="replace").strip().splitlines()
        meaning = MEANINGS.get(done.returncode) or (said[-1] if said else "it said nothing")
        raise Fault(f"nothing was changed: {words[0]} ended with {done.returncode}: {meaning}")


def certify(program, folder, old):
    """Writes the certificates of a folder, once they are verified. A new file has the owner and the mode of that in the folder `old`."""
    definitions, guarantees, certificates = (path_in(folder, it) for it in range(3))
    with tempfile.TemporaryDirectory() as place:
        made = path_in(place, 2)
        asked(program, "check", definitions, guarantees, "--out", made)
        asked(program, "verify", definitions, guarantees, made)
        with open(made, "rb") as file:
            data = file.read()
    write(certificates, data, next(it for it in (path_in(old, 2), path_in(old, 0)) if os.path.exists(it)))


def swap(link, new):
    """Has the link lead to the folder, at once: as `ln -sfn` of another name and `mv -T` over it."""
    folder = os.path.dirname(os.path.abspath(link))
    target = os.path.abspath(new)
    target = os.path.basename(target) if os.path.dirname(target) == folder else target
    other = os.path.abspath(link) + ".new"
    if os.path.islink(other):
        os.unlink(other)
    os.symlink(target, other)
    os.replace(other, link)


@contextlib.contextmanager
def as_owner_of(folder):
    """Writes as the owner of a folder, so that nothing in it can lead root's writes elsewhere; what is made is for that owner alone."""
    owner, before, mask = os.stat(folder), (os.geteuid(), os.getegid()), os.umask(0o077)
    try:
        os.setegid(owner.st_gid)
        os.seteuid(owner.st_uid)
        yield
    finally:
        os.seteuid(before[0])
        os.setegid(before[1])
        os.umask(mask)


def keep(folder, kept):
    """Puts the three files in the place of a unit's copy of those in force."""
    last, made = (os.path.join(kept, it) for it in (LAST, NEXT))
    texts = {}
    for place, name in enumerate(NAMES):
        with open(path_in(folder, place), "rb") as file:
            texts[name] = file.read()
    with as_owner_of(kept):
        shutil.rmtree(made, ignore_errors=True)
        os.mkdir(made)
        for name, text in texts.items():
            with open(os.path.join(made, name), "wb") as file:
                file.write(text)
        shutil.rmtree(last, ignore_errors=True)
        os.rename(made, last)
