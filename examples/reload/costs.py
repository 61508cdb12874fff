"""python3 -m examples.reload.costs WARREN [N ..]: what `--reload N` costs the program WARREN, idle and busy, with definitions of 2 kB, 200 kB and 16 MB, and
beside a certificates file of 1 MB that is refused at each look. Without N it takes 2, 10, 100, 1,000 and 10,000. It wants Linux."""

import os
import subprocess
import sys
import tempfile
import time

from examples.load import client

HERE = os.path.dirname(os.path.abspath(__file__))
sys.dont_write_bytecode = True


SECONDS = 2
"""How long each load lasts."""

WINDOW = 100
"""How many publishes wait for their acks."""

PUBLISH = client.publish("direct", "nowhere", b"twelve bytes")
"""A publish that comes to no queue, so that nothing piles up."""


def made(folder, size):
    """The files of examples/load, with spaces behind the definitions up to a size."""
    for name in ("definitions.json", "guarantees.json", "certificates.json"):
        with open(f"{HERE}/../load/{name}", "rb") as it:
            text = it.read()
        if name == "definitions.json":
            text += b" " * (size - len(text))
        with open(f"{folder}/{name}", "wb") as it:
            it.write(text)
    return [f"{folder}/{it}.json" for it in ("definitions", "guarantees", "certificates")]


def processor_time(server):
    """The seconds of processor time that the server has taken."""
    with open(f"/proc/{server.pid}/stat") as it:
        fields = it.read().rsplit(")", 1)[1].split()
    return (int(fields[11]) + int(fields[12])) / os.sysconf("SC_CLK_TCK")


def serve(program, files, every):
    """The server, once it listens, and its port."""
    words = [program, "serve", *files, "--listen", "127.0.0.1:0"]
    words += ["--reload", str(every)] if every else []
    server = subprocess.Popen(words, stdout=subprocess.PIPE, stderr=subprocess.DEVNULL)
    said = server.stdout.readline().decode()
    return server, int(said.rsplit(":", 1)[1])


def load(program, files, every, spoil=None):
    """Publishes a second, and the part of a core that the idle server took."""
    server, port = serve(program, files, every)
    try:
        if spoil:
            spoil()
        it = client.Client(port)
        it.select()
        start, taken = time.time(), processor_time(server)
        time.sleep(SECONDS)
        idle = (processor_time(server) - taken) / (time.time() - start)
        batch, count = PUBLISH * (WINDOW // 2), 0
        it.socket.sendall(batch)
        start = time.time()
        while time.time() < start + SECONDS:
            it.socket.sendall(batch)
            it.await_acks(WINDOW // 2)
            count += WINDOW // 2
        return count / (time.time() - start), idle
    finally:
        server.kill()
        server.wait()


def main(program, every):
    numbers = [int(it) for it in every] or [2, 10, 100, 1000, 10000]
    with tempfile.TemporaryDirectory() as folder:
        for size in (2_000, 200_000, 16_000_000):
            files = made(folder, size)
            alone, rest = load(program, files, None)
            print(f"{size} bytes, without --reload: {alone:.0f} a second, idle {100 * rest:.1f} %")
            for n in numbers:
                rate, idle = load(program, files, n)
                print(f"{size} bytes, --reload {n}: {rate:.0f} a second, {rate / alone:.2f} of that; idle {100 * idle:.1f} %", flush=True)
        files = made(folder, 2_000)

        def spoil():
            """Each state of a certificate for a guarantee that is not there."""
            states = ",".join("[0,0]" for _ in range(166_000))
            text = '[{"exchange":"direct","form":1,"mode":"reaches","pattern":"a","queue":"one","states":[%s]}]' % states
            with open(f"{folder}/new", "w") as it:
                it.write(text)
            os.rename(f"{folder}/new", files[2])

        for n in [None, *numbers]:
            files = made(folder, 2_000)
            rate, idle = load(program, files, n, spoil)
            print(f"a refused certificates file of 1 MB, --reload {n}: {rate:.0f} a second, idle {100 * idle:.1f} %", flush=True)


main(sys.argv[1], sys.argv[2:])
