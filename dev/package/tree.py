"""What a package has: its files, and what the system has to know of it."""

import gzip
import os
import re
import subprocess
import tempfile

from dev import archive
from dev.program import version_of
from warrenctl.fault import Fault

HERE = os.path.dirname(os.path.abspath(__file__))
SHARE = "usr/share/warren"
# what an operator reads and tries; warrenctl itself is one file on the path
SHARED = ("README.md", "CHANGELOG.md", "docs", "examples", "tools", "warrenctl/README.md")
PYTHON = "/usr/bin/python3"
LEFT_OUT = ("tests", "__pycache__", "out")
FIRST = "etc/warren/first"
# a broker that nobody may log in to, and that has no queue
FILES = {
    "definitions.json": '{"vhosts":[{"name":"/"}],\n"users":[],\n"permissions":[],\n"exchanges":[],\n"queues":[],\n"bindings":[]}\n',
    "guarantees.json": '{"guarantees":[]}\n',
    "certificates.json": "[]",
}
ABOUT = """message broker for AMQP 0-9-1 whose routing is certified
 It keeps messages in memory alone. An installation starts and restarts nothing,
 for a stop loses all messages."""
SCRIPTS = ("postinst", "prerm", "postrm")
DEFAULTS = "etc/default/warren"
NEEDRESTART = "etc/needrestart/conf.d/warren.conf"
CONFIGURATION = (*(f"{FIRST}/{it}" for it in FILES), DEFAULTS, NEEDRESTART)
UNITS = [f"examples/deploy/{it}" for it in ("warren.service", "warren@.service", "warren-front.service", "warren-ping.service", "warren-ping.timer")]
UNITS.append("examples/metrics/warren-metrics.service")
# where the pages and completions of a program go in a package
MADE = {"{}.bash": "bash-completion/completions/{}", "_{}": "zsh/vendor-completions/_{}"}
# a link of a page to another file
LINK = re.compile(r"\[([^][]*)\]\(([^)#\s]+)(#[^)\s]*)?\)")
LICENCE = "LICENCE"
NO_LICENCE = "No licence has been chosen yet. Until then nobody but the authors may copy, change or pass on this work."


def released_in(changelog):
    """Returns the version of the first release that a changelog has, and whether entries stand above it."""
    above, _, rest = changelog.partition("\n## Unreleased\n")[2].partition("\n## ")
    found = re.match(r"([0-9][0-9.]*) ", rest) if rest else re.search(r"^## ([0-9][0-9.]*) ", changelog, re.MULTILINE)
    if found is None:
        raise Fault("CHANGELOG.md has no release")
    return found.group(1), bool(above.strip())


def package_version(program, changelog, commit):
    """Returns the version of a package: the changelog's, and behind it the time and the name of the commit if there are unreleased entries.

    `commit` is both as `date.name`, or `None`. A later commit is a later version to apt, and each comes before the next release.
    """
    told = version_of(program)
    if told is None:
        raise Fault(f"{program} does not say which version of warren it is")
    released, is_ahead = released_in(changelog)
    if told != released:
        raise Fault(f"{program} says that it is {told}, and CHANGELOG.md that {released} is the last release")
    return f"{released}+{f'git{commit}' if commit else 'unreleased'}" if is_ahead else released


def maintainer_in(top):
    """Returns who answers for a package and takes reports of holes: the first line of the file MAINTAINER, as `Name <address>`."""
    try:
        with open(os.path.join(top, "MAINTAINER"), encoding="utf-8") as file:
            line = file.readline().strip()
    except FileNotFoundError:
        line = ""
    if not re.fullmatch(r"[^<>]+ <[^<>@\s]+@[^<>@\s]+>", line):
        raise Fault("the first line of the file MAINTAINER has to say who answers for the package and takes reports of holes, as Name <address@host>")
    return line


def put(tree, name, data, mode=0o644):
    path = os.path.join(tree, name)
    os.makedirs(os.path.dirname(path), mode=0o755, exist_ok=True)
    with open(path, "wb") as file:
        file.write(data)
    os.chmod(path, mode)


def contents(name):
    with open(name, "rb") as file:
        return file.read()


def stripped(program):
    """The bytes of a program without its symbols; as it is if it is a script. Fails with one line without binutils."""
    data = contents(program)
    if not data.startswith(b"\x7fELF"):
        return data
    with tempfile.TemporaryDirectory() as folder:
        made = os.path.join(folder, "stripped")
        try:
            done = subprocess.run(["strip", "--strip-unneeded", "-o", made, program], capture_output=True, text=True)
        except FileNotFoundError:
            raise Fault("strip is not here: apt-get install binutils") from None
        if done.returncode:
            raise Fault(f"strip: {' '.join(done.stderr.split())}")
        return contents(made)


def unit_of(data):
    """The unit of the repository for a program of a package, without the remarks at its top."""
    return data[re.search(rb"^\[Unit\]$", data, re.MULTILINE).start() :].replace(b"/usr/local/", b"/usr/")


def with_live_links(text, page, there):
    """A page whose links lead to files that are there: of any other its words alone are left."""

    def kept(found):
        words, target, _ = found.groups()
        path = os.path.normpath(os.path.join(os.path.dirname(page), target))
        return found.group(0) if "://" in target or path in there else words

    return LINK.sub(kept, text)


def folders_of(names):
    """These paths, and each folder on the way to one."""
    found = set(names)
    for it in names:
        while it := os.path.dirname(it):
            found.add(it)
    return found


def copyright_of(top):
    """Who has written this, and under which licence it may be passed on."""
    path = os.path.join(top, LICENCE)
    terms = contents(path).decode() if os.path.exists(path) else NO_LICENCE + "\n"
    return f"warren\nCopyright: the authors of warren\n\n{terms}".encode()


def shared_files(top):
    """Yields the paths of the pages, scripts and examples that a package has, below the folder `top`."""
    for name in SHARED:
        if os.path.isfile(os.path.join(top, name)):
            yield name
        for at, folders, names in os.walk(os.path.join(top, name)):
            here = os.path.relpath(at, top)
            folders[:] = sorted(it for it in folders if it not in LEFT_OUT)
            yield from (f"{here}/{it}" for it in sorted(names))


def share(tree, top):
    """Puts the pages, scripts and examples into the tree, with the same paths among each other as in the repository."""
    names = list(shared_files(top))
    there = folders_of(names)
    for name in names:
        source = os.path.join(top, name)
        data = contents(source)
        if name.endswith(".md"):
            data = with_live_links(data.decode(), name, there).encode()
        put(tree, f"{SHARE}/{name}", data, 0o755 if os.access(source, os.X_OK) else 0o644)
    put(tree, f"{SHARE}/copyright", copyright_of(top))
    put(tree, f"{SHARE}/changelog.gz", gzip.compress(contents(os.path.join(top, "CHANGELOG.md")), mtime=0))
    os.makedirs(os.path.join(tree, "usr/share/doc"), mode=0o755, exist_ok=True)
    os.symlink("../warren", os.path.join(tree, "usr/share/doc/warren"))


def lay_out(tree, program, top):
    """Puts the programs, what is made of their help, the units and the configuration into the tree."""
    put(tree, "usr/bin/warren", stripped(program), 0o755)
    archive.make(os.path.join(tree, "usr/bin/warrenctl"), PYTHON)
    made = os.path.join(top, "dev/manual/made")
    for it in ("warren", "warrenctl"):
        put(tree, f"usr/share/man/man1/{it}.1.gz", gzip.compress(contents(os.path.join(made, f"{it}.1")), mtime=0))
        for source, target in MADE.items():
            put(tree, f"usr/share/{target.format(it)}", contents(os.path.join(made, source.format(it))))
    for it in UNITS:
        put(tree, f"lib/systemd/system/{os.path.basename(it)}", unit_of(contents(os.path.join(top, it))))
    for name, text in FILES.items():
        put(tree, f"{FIRST}/{name}", text.encode(), 0o640)
    put(tree, DEFAULTS, contents(os.path.join(HERE, "files/default")))
    put(tree, "usr/lib/warren/files", contents(os.path.join(top, "examples/deploy/files")), 0o755)
    put(tree, NEEDRESTART, contents(os.path.join(top, "examples/deploy/needrestart.conf")))


def libraries_of(program):
    """The C library of the newest version that the program asks for, and the compiler's if it asks for that."""
    data = contents(program)
    versions = {tuple(map(int, it.split(b"."))) for it in re.findall(rb"\bGLIBC_([0-9]+(?:\.[0-9]+)+)", data)}
    newest = ".".join(map(str, max(versions))) if versions else None
    return (f"libc6 (>= {newest})" if newest else "libc6") + (", libgcc-s1" if b"libgcc_s.so.1" in data else "")


def size_of(tree):
    """How many kilobytes the files of a tree take, as dpkg counts them."""
    return sum((os.lstat(os.path.join(at, it)).st_size + 1023) // 1024 for at, _, names in os.walk(tree) for it in names)


def control(tree, program, version, architecture, maintainer):
    if "\n" in maintainer:
        raise Fault("a maintainer is one line")
    fields = {
        "Package": "warren",
        "Version": version,
        "Architecture": architecture,
        "Maintainer": maintainer,
        "Depends": f"{libraries_of(program)}, passwd",
        "Recommends": "python3 (>= 3.9)",
        "Suggests": "prometheus, haproxy, stunnel4",
        "Installed-Size": str(size_of(tree)),
        "Section": "net",
        "Priority": "optional",
        "Description": ABOUT,
    }
    put(tree, "DEBIAN/control", "".join(f"{name}: {it}\n" for name, it in fields.items()).encode())
    put(tree, "DEBIAN/conffiles", "".join(f"/{it}\n" for it in CONFIGURATION).encode())
    for name in SCRIPTS:
        put(tree, f"DEBIAN/{name}", contents(os.path.join(HERE, "files", name)), 0o755)
