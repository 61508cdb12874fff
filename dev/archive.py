"""Makes one file of warrenctl, which runs by Python 3.9 or later: python3 -m dev.archive FILE [--python PYTHON]

The same sources give the same file: it has their texts in the order of their names, with one time for all.
"""

import os
import stat
import sys
import tempfile
import zipfile

from dev import ROOT
from warrenctl.cli.run import DONE, run
from warrenctl.cli.words import Words

PACKAGE = "warrenctl"
LEFT_OUT = ("tests", "__pycache__")
# the first time that an archive can have
MOMENT = (1980, 1, 1, 0, 0, 0)
MAIN = b"import sys\n\nfrom warrenctl.__main__ import main\n\nsys.exit(main())\n"


def sources():
    """The paths of the files of the package, below the repository, in the order of their names."""
    found = []
    for at, folders, names in os.walk(os.path.join(ROOT, PACKAGE)):
        folders[:] = [it for it in folders if it not in LEFT_OUT]
        found += (os.path.relpath(os.path.join(at, it), ROOT) for it in names if it.endswith(".py"))
    return sorted(found)


def put(archive, name, data):
    entry = zipfile.ZipInfo(name, MOMENT)
    entry.external_attr = (stat.S_IFREG | 0o644) << 16
    archive.writestr(entry, data, zipfile.ZIP_DEFLATED)


def make(path, python):
    """Makes the file, at once or not at all."""
    folder = os.path.dirname(os.path.abspath(path))
    os.makedirs(folder, exist_ok=True)
    with tempfile.TemporaryDirectory(dir=folder) as room:
        made = os.path.join(room, PACKAGE)
        with open(made, "wb") as file:
            file.write(f"#!{python}\n".encode())
            with zipfile.ZipFile(file, "w") as archive:
                put(archive, "__main__.py", MAIN)
                for name in sources():
                    with open(os.path.join(ROOT, name), "rb") as source:
                        put(archive, name, source.read())
        os.chmod(made, 0o755)
        os.replace(made, path)


def words():
    parser = Words("archive", __doc__, "Status: 0 made; 3 not made, and a line says why.", "python3 -m dev.archive")
    parser.add_argument("file", metavar="FILE", help="the file to be made")
    parser.add_argument("--python", metavar="PYTHON", default="/usr/bin/env python3", help="what runs it (%(default)s)")
    return parser.parse_args()


def main(given):
    make(given.file, given.python)
    return DONE


if __name__ == "__main__":
    sys.exit(run("archive", lambda: main(words())))
