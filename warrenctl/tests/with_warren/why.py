"""Asks warren of the guarantees of broken.py: python3 -m warrenctl.tests.with_warren.why WARREN

`warren check` has to leave each undecided, and `why` has to find the key of the row, to which `warren route` says yes.
"""

import json
import os
import subprocess
import sys
import tempfile

from dev.beds.commands import warrenctl
from warrenctl.tests.broken import BROKEN


def main(warren):
    wrong = 0
    with tempfile.TemporaryDirectory() as folder:
        files = [os.path.join(folder, it) for it in ("definitions.json", "guarantees.json")]
        for title, definitions, guarantee, _, said in BROKEN:
            for name, value in zip(files, (definitions, {"guarantees": [guarantee]})):
                with open(name, "w", encoding="utf-8") as file:
                    json.dump(value, file)
            checked = subprocess.run([warren, "check", *files], capture_output=True, text=True)
            asked = subprocess.run([*warrenctl("why"), *files, "--warren", warren], capture_output=True, text=True)
            as_wanted = checked.stdout == "1 undecided states\n" and asked.returncode == 1
            as_wanted = as_wanted and asked.stdout.endswith(f": UNDECIDED by `check`, but NO: {said} (`warren route` says so too)\n")
            wrong += not as_wanted
            print(f"{'as wanted' if as_wanted else 'WRONG'}: {title}: {checked.stdout.strip()}{checked.stderr.strip()}; {asked.stdout.strip()}{asked.stderr.strip()}")
    print(f"{len(BROKEN)} guarantees, {wrong} wrong")
    return 1 if wrong else 0


if __name__ == "__main__":
    sys.exit(main(sys.argv[1]))
