"""Makes a folder of what is released: a Debian package, a tar.gz of the programs with their pages and completions, warrenctl as one file, an image for
podman and docker, and SHA256SUMS, with a signature if there is a key. The version is that of CHANGELOG.md's newest heading; what is above it is not
released, and then the time and the name of the commit are in the version. docs/inside/RELEASING.md has the steps around it."""

import os
import platform
import re
import subprocess
import sys
import tempfile

from dev import ROOT, archive
from dev.package.__main__ import answer, changelog, commit, make, moment, sum_of
from dev.package.tree import (
    LICENCE, contents, copyright_of, libraries_of, maintainer_in, package_version, put, released_in, stripped, with_live_links,
)  # fmt: skip
from dev.release.archives import Entry, image_of, packed, tar_of
from warrenctl import VERSION
from warrenctl.cli.run import DONE, run, tell
from warrenctl.cli.words import Words
from warrenctl.fault import Fault

MADE = {"{}.1": "share/man/man1/{}.1", "{}.bash": "share/bash-completion/completions/{}", "_{}": "share/zsh/site-functions/_{}"}
FILES = [f"/etc/warren/current/{it}.json" for it in ("definitions", "guarantees", "certificates")]
NOBODY = "65534:65534"
# how each program that signs writes the first line of its keys, and what it is called with
SIGNING = {
    "minisign": (b"untrusted comment: minisign ", "minisign", ["minisign", "-S", "-s", "{key}", "-m", "SHA256SUMS"]),
    "signify": (b"untrusted comment: signify ", "signify-openbsd", ["signify-openbsd", "-S", "-s", "{key}", "-m", "SHA256SUMS"]),
}


def words():
    parser = Words("release", __doc__, "Status: 0 made; 3 not made, and a line says why.", "python3 -m dev.release")
    parser.add_argument("program", metavar="PROGRAM", help="the proved program")
    parser.add_argument("folder", metavar="FOLDER", help="where the folder of the release is made; it must not be there")
    parser.add_argument("--maintainer", help="who answers for the package; without it, the first line of the file MAINTAINER")
    parser.add_argument("--key", metavar="FILE", help="sign SHA256SUMS with this key of minisign or signify")
    return parser.parse_args()


def tags():
    """The versions of the tags of this commit."""
    return [it[1:] for it in (answer("git", "tag", "--points-at", "HEAD") or "").split() if re.fullmatch(r"v[0-9][0-9.]*", it)]


def check_versions(version, tagged):
    """Fails with one line if a tag of this commit, or warrenctl, has another version than the release."""
    other = next((it for it in tagged if it != version), None)
    if other is not None:
        raise Fault(f"this commit has the tag v{other}, and the release is {version}: CHANGELOG.md's newest heading and the tag have to agree")
    released, _ = released_in(changelog())
    if released != VERSION:
        raise Fault(f"warrenctl says that it is {VERSION}, and CHANGELOG.md that {released} is the last release")


def libraries_in(program):
    """The paths of the libraries and of the loader that a program needs, as the loader of this machine finds them."""
    done = subprocess.run(["ldd", program], capture_output=True, text=True)
    if done.returncode or "not found" in done.stdout:
        return []
    return sorted(set(re.findall(r"(/\S+) \(0x", done.stdout)))


def programs_of(program):
    """The two programs, as they are installed."""
    path = os.path.join(ROOT, "out/warrenctl")
    archive.make(path, "/usr/bin/env python3")
    return {"warren": stripped(program), "warrenctl": contents(path)}


def tar_entries(programs, top):
    entries = [Entry(f"bin/{name}", data, 0o755) for name, data in programs.items()]
    for it in programs:
        entries += [Entry(target.format(it), contents(f"{ROOT}/dev/manual/made/{source.format(it)}"), 0o644) for source, target in MADE.items()]
    pages = {it: with_live_links(contents(f"{ROOT}/{it}").decode(), it, ()).encode() for it in ("README.md", "CHANGELOG.md")}
    entries += [Entry(f"share/doc/warren/{name}", data, 0o644) for name, data in {**pages, "copyright": copyright_of(ROOT)}.items()]
    return [it._replace(path=f"{top}/{it.path}") for it in entries]


def image_entries(program, data):
    """The program, the libraries and the loader that it needs, and a folder for the three files."""
    entries = [Entry("usr/bin/warren", data, 0o755), Entry("etc/warren/current", None, 0o755)]
    return entries + [Entry(it.lstrip("/"), contents(it), 0o755) for it in libraries_in(program)]


def settings(version, revision):
    """How the image is run."""
    labels = {"title": "warren", "description": "message broker for AMQP 0-9-1 whose routing is certified", "version": version, "revision": revision}
    return {
        "User": NOBODY,
        "ExposedPorts": {"5672/tcp": {}},
        "Entrypoint": ["/usr/bin/warren", "serve", *FILES],
        "Cmd": ["--listen", "0.0.0.0:5672", "--reload", "100"],
        # as the first process of an image warren has no handler for TERM
        "StopSignal": "SIGKILL",
        "Labels": {f"org.opencontainers.image.{name}": it for name, it in labels.items() if it},
    }


def sign(folder, key):
    """Signs SHA256SUMS. Fails with one line if the key is none, or the program that signs is missing or fails."""
    first = contents(key).splitlines()[0]
    found = next((it for it in SIGNING.values() if first.startswith(it[0])), None)
    if found is None:
        raise Fault(f"{key}: it is no key of minisign or signify")
    _, package, command = found
    try:
        done = subprocess.run([it.format(key=os.path.abspath(key)) for it in command], cwd=folder)
    except FileNotFoundError:
        raise Fault(f"{command[0]} is not here: apt-get install {package}") from None
    if done.returncode:
        raise Fault(f"{command[0]} failed")


def fill(folder, given, version, maintainer):
    """Makes the files of the release, but for the sums."""
    machine, when = platform.machine(), int(moment())
    programs = programs_of(given.program)
    make(given.program, folder, maintainer)
    put(folder, "warrenctl", programs["warrenctl"], 0o755)
    put(folder, f"warren-{version}-{machine}.tar.gz", packed(tar_of(tar_entries(programs, f"warren-{version}"), when)))
    revision = answer("git", "rev-parse", "HEAD")
    image, digest = image_of(image_entries(given.program, programs["warren"]), settings(version, revision), when, machine, f"warren:{version.replace('+', '-')}")
    put(folder, f"warren-{version}-{machine}.oci.tar", image)
    print(f"the program needs {libraries_of(given.program)}, and takes {len(programs['warren']) / 1e6:.1f} MB")
    print(f"the image's digest is {digest}")


def sums_of(folder):
    return "".join(f"{sum_of(os.path.join(folder, it))}  {it}\n" for it in sorted(os.listdir(folder)))


def main(given):
    maintainer = given.maintainer or maintainer_in(ROOT)
    version = package_version(given.program, changelog(), commit())
    check_versions(version, tags())
    folder = os.path.join(given.folder, f"warren-{version}")
    if os.path.exists(folder):
        raise Fault(f"{folder} is there already")
    os.makedirs(given.folder, exist_ok=True)
    # made beside its name, so that half a release has no name
    with tempfile.TemporaryDirectory(dir=given.folder) as room:
        made = os.path.join(room, "made")
        os.mkdir(made, 0o755)
        fill(made, given, version, maintainer)
        put(made, "SHA256SUMS", sums_of(made).encode())
        if given.key:
            sign(made, given.key)
        os.rename(made, folder)
    if not os.path.exists(os.path.join(ROOT, LICENCE)):
        tell("release", f"the file {LICENCE} is missing: nobody but the authors may pass this on")
    with open(os.path.join(folder, "SHA256SUMS"), encoding="utf-8") as file:
        print(f"{folder}:\n{file.read()}", end="")
    return DONE


if __name__ == "__main__":
    sys.exit(run("release", lambda: main(words())))
