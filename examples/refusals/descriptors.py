"""Takes all descriptors of a server that looks at its files, and gives them back.

    python3 -m examples.refusals.descriptors WARREN

While as many sockets are open as the server has descriptors, a look at the files tells `no descriptor is free`. Once they are closed no look
tells anything, files that were replaced meanwhile are in force, and a client is served."""

import os
import resource
import select
import shutil
import socket
import subprocess
import sys
import tempfile
import time

from examples.refusals.serve import LOAD, Client, Lost

FILES = ("definitions.json", "guarantees.json", "certificates.json")
DESCRIPTORS, SOCKETS = 24, 32
WITHIN = 10
ACCOUNT, QUEUE = ("till", "till"), "one"
TOLD = b"warren: definitions.json: no descriptor is free\n"


def limited():
    resource.setrlimit(resource.RLIMIT_NOFILE, (DESCRIPTORS, DESCRIPTORS))


def lines_of(stream, seconds, enough=None):
    """What comes on a stream in these seconds, or until a line is there."""
    came, until = b"", time.monotonic() + seconds
    while (enough is None or enough not in came) and time.monotonic() < until:
        if select.select([stream], [], [], 0.1)[0]:
            more = os.read(stream.fileno(), 65536)
            if not more:
                break
            came += more
    return came


def is_served(port):
    try:
        return Client(port, ACCOUNT).confirmed(QUEUE, [b"served"]) == 1
    except Lost:
        return False


def trial(port, err, folder):
    """What is wrong, as lines."""
    wrong = []
    held = [socket.create_connection(("127.0.0.1", port), timeout=3) for _ in range(SOCKETS)]
    told = lines_of(err, WITHIN, TOLD)
    if TOLD not in told:
        wrong.append(f"without a descriptor a look tells {told[:200]!r}")
    if set(told.splitlines(keepends=True)) - {TOLD}:
        wrong.append(f"something else is told, too: {told[:200]!r}")
    with open(os.path.join(folder, FILES[0]), "a", encoding="utf-8") as file:
        file.write("\n")
    for one in held:
        one.close()
    lines_of(err, 3)
    after = lines_of(err, 2)
    if after:
        wrong.append(f"with descriptors a look tells {after[:200]!r}")
    if not is_served(port):
        wrong.append("a later client is not served")
    return wrong


def main():
    with tempfile.TemporaryDirectory() as folder:
        for name in FILES:
            shutil.copy(os.path.join(LOAD, name), folder)
        words = [os.path.realpath(sys.argv[1]), "serve", *FILES, "--listen", "127.0.0.1:0", "--reload", "2"]
        server = subprocess.Popen(words, cwd=folder, stdout=subprocess.PIPE, stderr=subprocess.PIPE, preexec_fn=limited)
        try:
            wrong = trial(int(server.stdout.readline().rsplit(b":", 1)[1]), server.stderr, folder)
        finally:
            server.kill()
            server.wait()
    print("descriptors: " + (", ".join(wrong) or "a look without one told so, and none with them told anything"))
    sys.exit(1 if wrong else 0)


if __name__ == "__main__":
    main()
