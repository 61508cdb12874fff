"""For the tests: a folder that has the scripts of dev/ beside a program and an `rt` that are made up."""

import os
import shutil
import signal
import subprocess
import sys
import tempfile
import time

from dev import ROOT


class Trial:
    """A repository of one program, `warren`, over a library `below`, and beside it a library `other`."""

    def __init__(self):
        self.folder = tempfile.TemporaryDirectory()
        self.root = self.folder.name
        for it in ("dev", "warrenctl"):
            shutil.copytree(f"{ROOT}/{it}", f"{self.root}/{it}", ignore=shutil.ignore_patterns("__pycache__", "tests"))
        shutil.copytree(f"{ROOT}/examples/shop", f"{self.root}/examples/shop")
        self.write("crates.txt", "# what it stands on\nbelow: bytes\nother: bytes\nwarren: below clap\n")
        for it in ("below", "other", "warren"):
            self.write(f"crates/{it}/src/{'main' if it == 'warren' else 'lib'}.rt", "")
            self.write(f"crates/{it}/proofs/Lib.antt", "")

    def __enter__(self):
        return self

    def __exit__(self, *_):
        self.folder.cleanup()

    def write(self, name, text, seconds_ago=100):
        path = f"{self.root}/{name}"
        os.makedirs(os.path.dirname(path), exist_ok=True)
        with open(path, "w", encoding="utf-8") as file:
            file.write(text)
        os.chmod(path, 0o755)
        then = time.time() - seconds_ago
        for it in (path, os.path.dirname(path)):
            os.utime(it, (then, then))

    def rt(self, lines):
        """The toolchain's command, as these lines of sh; each run of it is a line of the file `runs`."""
        self.write("bin/rt", f'#!/bin/sh\necho "$@" >> {self.root}/runs\n{lines}\n')

    def program(self, lines):
        """The unproved program, newer than its sources, as these lines of sh."""
        self.write("out/try/warren", f"#!/bin/sh\n{lines}\n", seconds_ago=10)

    def runs(self):
        try:
            with open(f"{self.root}/runs", encoding="utf-8") as file:
                return file.read().splitlines()
        except FileNotFoundError:
            return []

    def start(self, tool, *words, interrupt=signal.SIG_DFL):
        """Starts the tool, in which SIGINT is handled so at first."""
        path = f"{self.root}/bin:{os.environ['PATH']}"
        command = [sys.executable, "-m", f"dev.{tool}", *words]
        how = {"stdin": subprocess.DEVNULL, "stdout": subprocess.PIPE, "stderr": subprocess.PIPE, "text": True}
        how["preexec_fn"] = lambda: signal.signal(signal.SIGINT, interrupt)
        return subprocess.Popen(command, cwd=self.root, env={**os.environ, "PATH": path}, **how)

    def run(self, tool, *words):
        running = self.start(tool, *words)
        out, said = running.communicate(timeout=120)
        return running.returncode, out, said
