"""Runs the pages' commands as they are, in a root and a network of their own: `python3 -m dev.pages` calls it there."""

import contextlib
import glob
import os
import re
import select
import shutil
import signal
import subprocess
import sys
import time

from dev import ROOT
from dev.beds.rabbit import NotHere, Rabbit
from dev.beds.staging import NAMES, USER, wanted
from dev.pages.blocks import blocks_of, commands_of, first_missing
from dev.pages.files import CURRENT, READ, brokers, json_of, text_of, with_a_queue_of_orders, work_folder

PAGES = ("README.md", "docs/*.md", "examples/*/README.md", "warrenctl/README.md")
RELEASE = "/mnt/release"
# seconds: a machine may be busy
PATIENCE, REST = 300, 2
# for a command that asks for a password
TYPED = "a long password\n" * 2
# what a root without sudo, and a test without a terminal, lack
BEFORE = 'sudo() { "$@"; }\n'
INSTALLS = ("sha256sum ", "sudo ", "podman ")
# what goes on until its block is over, and prints when it is ready
SERVES = re.compile(r"(?:\w+=\w+ )?(?:warren serve|warrenctl metrics|warrenctl front|haproxy|warrenctl depths(?! .*--(?:once|prometheus))) ")
# what a page shows of a guarantee that doesn't hold: the status is then 1
BROKEN = re.compile(r"^\d+ no |: NO: ")
# the first of these with which a command begins says how it ends, as its page or help does; all others end with 0
OTHER_STATUSES = {
    "warrenctl unrouted definitions.json --exchange shop": 0,
    "warrenctl unrouted definitions.json": 1,
    "warren route definitions.json bakery": 3,
    "warrenctl convert --check ": 1,
    "warrenctl audit definitions.json guarantees.json --only ": 1,
}
NOT_RUN = {"make": "it needs a clone with rt", "podman": "it needs /sys", "rabbitmq": "examples/takeover asks the same by HTTP"}


def has(program):
    return shutil.which(program) is not None


def has_pika():
    return subprocess.run([sys.executable, "-c", "import pika"], stderr=subprocess.DEVNULL).returncode == 0


def as_run(text, places):
    """A command with the names of this root in place of those that a reader puts in."""
    for name, here in places.items():
        text = text.replace(name, here)
    return text


class Server:
    """A command that goes on until it is ended: it is there if it has not ended a while after its first output."""

    def __init__(self, text, folder, shown=()):
        begins = "" if re.match(r"\w+=", text) else "exec "
        how = {"cwd": folder, "stdin": subprocess.DEVNULL, "stdout": subprocess.PIPE, "stderr": subprocess.STDOUT}
        self.process = subprocess.Popen(["bash", "-c", begins + text], start_new_session=True, **how)
        waits = PATIENCE if shown or "serve" in text else REST
        there = select.select([self.process.stdout], [], [], waits)[0]
        self.said = os.read(self.process.stdout.fileno(), 65_536).decode("utf-8", "replace") if there else ""
        time.sleep(REST)
        missing = first_missing(shown, self.said)
        self.is_there = self.process.poll() is None and missing is None

    def end(self):
        with contextlib.suppress(ProcessLookupError):
            os.killpg(self.process.pid, signal.SIGKILL)
        self.process.wait()
        self.process.stdout.close()


def why_left(command, rabbit):
    """Why a command is not run here, or `None`."""
    text = command.text
    if "5672/api" in text and rabbit is None:
        return "rabbitmq-server is not installed"
    if text.startswith("import pika"):
        return None if has_pika() else "python3-pika is not installed"
    for it in ("haproxy", "curl"):
        if text.startswith(it) and not has(it):
            return f"{it} is not installed"
    if "--svg" in text and not has("dot"):
        return "graphviz is not installed"
    return next((why for it, why in NOT_RUN.items() if text.startswith(it)), None)


def run_one(command, text, folder):
    """Runs a command that ends by itself. Returns whether it did what its page says, and what it printed."""
    words = [sys.executable, "-c", text] if command.text.startswith("import ") else ["bash", "-c", BEFORE + text]
    done = subprocess.run(words, cwd=folder, input=TYPED, stdout=subprocess.PIPE, stderr=subprocess.STDOUT, text=True, timeout=PATIENCE)
    by_page = int(any(BROKEN.search(it) for it in command.shown))
    status = next((number for it, number in OTHER_STATUSES.items() if command.text.startswith(it)), by_page)
    missing = first_missing(command.shown, done.stdout)
    said = f"status {done.returncode}, {done.stdout[-1500:]}" if done.returncode != status else f"{missing!r} is not printed, but {done.stdout[-1500:]}"
    return done.returncode == status and missing is None, said


def run_block(commands, places, rabbit, folder):
    """Runs the commands of a block, one after the other, and yields whether each did what its page says."""
    with contextlib.ExitStack() as servers:
        for it in commands:
            left, text = why_left(it, rabbit), as_run(it.text, places)
            name = f"{it.page}:{it.line}: {it.text.splitlines()[0]}"
            if left:
                print(f"{name}: left out, {left}", flush=True)
            elif text.startswith("cd "):
                folder = os.path.join(folder, text.removeprefix("cd "))
            elif SERVES.match(text):
                server = Server(text.removesuffix("&"), folder, it.shown)
                servers.callback(server.end)
                yield wanted(name, server.is_there, server.said)
            else:
                yield wanted(name, *run_one(it, text, folder))


def outcomes(rabbit):
    release = glob.glob(f"{RELEASE}/*")[0]
    version = re.search(r"warren-(\S+)-x86_64\.tar\.gz", " ".join(os.listdir(release))).group(1)
    places = {"USER:PASSWORD": "guest:guest", "VERSION": version, "PASSWORD=..": f"PASSWORD={USER}", "--within 100": "--within 60000"}
    if rabbit:
        places["HOST:15672"] = f"127.0.0.1:{rabbit.management}"
    pages = [os.path.relpath(it, READ) for pattern in PAGES for it in sorted(glob.glob(f"{READ}/{pattern}"))]
    blocks = [it for page in pages for it in (commands_of(page, block) for block in blocks_of(text_of(page))) if it]
    installing = next(it for it in blocks if it[0].text.startswith(INSTALLS))
    yield from run_block(installing, places, rabbit, release)
    for it in blocks:
        if it is not installing:
            yield from in_its_folder(it, places, rabbit)


def in_its_folder(block, places, rabbit):
    brokers()
    folder = work_folder(block[0])
    for it in block:
        if it.text.startswith("warrenctl suggest"):
            with contextlib.suppress(FileNotFoundError):
                os.remove(os.path.join(folder, it.text.split()[3]))
    files = " ".join(f"{CURRENT}/{it}" for it in NAMES)
    with contextlib.ExitStack() as ends:
        if not any(it.text.startswith("warren serve") for it in block):
            ends.callback(Server(f"warren serve {files} --listen 127.0.0.1:5672 --reload 2", folder).end)
        yield from run_block(block, places, rabbit, folder)


def main():
    os.environ["WARREN_PASSWORD"] = USER
    # commands take warrenctl as it is installed
    os.environ.pop("PYTHONPATH", None)
    with contextlib.ExitStack() as stack:
        try:
            rabbit = stack.enter_context(Rabbit())
            rabbit.import_definitions(with_a_queue_of_orders(json_of(f"{ROOT}/examples/shop/definitions.json")))
        except NotHere:
            rabbit = None
        return 0 if all(list(outcomes(rabbit))) else 1


if __name__ == "__main__":
    sys.exit(main())
