"""Counts how many instructions a message costs a broker, by valgrind's callgrind: one row for each load, one column for each program.

Each PROGRAM is a `warren`, given as a path or as NAME=PATH. Instructions of the system's calls are not counted, so other work on the machine
changes no figure. Each load is run with few messages and with many, and the difference is divided by the difference of their numbers:
neither the start of the server nor a login is in a figure. Wants Debian's package `valgrind`, and takes some minutes for each program.

--hold FILE takes the loads of FILE, a JSON object with a figure for each, and fails if a program takes over a tenth more than one of them.
"""

import argparse
import json
import os
import re
import resource
import shutil
import signal
import subprocess
import sys
import tempfile

from examples.load.client import Client, cancel, consume, publish
from warrenctl.cli.run import run
from warrenctl.cli.words import Words

HERE = os.path.dirname(os.path.realpath(__file__))
sys.dont_write_bytecode = True


STATUSES = "Status: 0 all loads were counted; 1 a server does not start; 2 a load is over its figure; 3 the command line is refused, or valgrind is not here."
NOT_STARTED, OVER = 1, 2
# how much more than its figure a load may take
SLACK = 1.1

# messages of the two runs of a load, and how many publishes wait for their acks
FEW, MORE, WINDOW = 1_000, 6_000, 100
# consumers that stay, and how many of them a channel has
STAYING, ON_CHANNEL = 1_000, 250
# clients that publish side by side, and the window of each
MANY, EACH = 1_000, 20
# open files of the server and of this process, each of which has a socket for each client
OPEN_FILES = 3_000
# bindings of the topic exchange `keys`
BINDINGS = 1_000


def publisher(port):
    """Returns a client whose publishes are confirmed."""
    client = Client(port)
    client.select()
    return client


def publish_each(client, words):
    """Writes the publishes by windows, and waits for the acks of each window."""
    for at in range(0, len(words), WINDOW):
        client.socket.sendall(b"".join(words[at : at + WINDOW]))
        client.await_acks(WINDOW)


def confirmed(port, count, size=12):
    """Publishes messages that stay in their queue."""
    publish_each(publisher(port), [publish("direct", "new", b"x" * size)] * count)


def confirmed_1024(port, count):
    confirmed(port, count, 1024)


def confirmed_by_many(port, count):
    """Publishes messages from many clients, each of which writes its window at once and waits for its acks: a window of each for each client counted."""
    clients = [publisher(port) for _ in range(MANY)]
    words = publish("direct", "new", b"x" * 12) * EACH
    for _ in range(0, count, MANY):
        for client in clients:
            client.socket.sendall(words)
        for client in clients:
            client.await_acks(EACH)
    for client in clients:
        client.close()


def acknowledge(consumer, count):
    consumer.acknowledge(count)
    # answered once all acknowledgements are performed
    consumer.purge("one")


def delivered(port, count):
    """Publishes messages that are delivered and acknowledged, a window at a time."""
    client, consumer = publisher(port), Client(port)
    consumer.consume("one")
    for _ in range(0, count, WINDOW):
        publish_each(client, [publish("direct", "new", b"x" * 12)] * WINDOW)
        acknowledge(consumer, WINDOW)


def under_new_keys(port, count):
    """Publishes each message under a key of its own."""
    publish_each(publisher(port), [publish("keys", f"new.{it}", b"x" * 12) for it in range(count)])


def drained(port, count):
    """Publishes all messages, and then delivers and acknowledges them."""
    confirmed(port, count)
    consumer = Client(port)
    consumer.consume("one")
    acknowledge(consumer, count)


def come_and_go(port, count):
    """Has consumers of a queue come and go, by windows: each is cancelled before the next comes."""
    client = Client(port)
    for _ in range(0, count, WINDOW):
        client.socket.sendall((consume("one", "it") + cancel("it")) * WINDOW)
        missing = 2 * WINDOW
        while missing > 0:
            missing -= len(client.methods())


def staying(port):
    """Returns clients with consumers of the queue `one`."""
    clients = [Client(port) for _ in range(0, STAYING, ON_CHANNEL)]
    for client in clients:
        for number in range(ON_CHANNEL):
            client.ask(consume("one", f"stays{number}"), 60, 21)
    return clients


def come_and_go_beside(port, count):
    """The same beside consumers that stay, none of which was given a message."""
    clients = staying(port)
    come_and_go(port, count)
    for client in clients:
        client.close()


def come_and_go_behind(port, count):
    """The same after a delivery to each of the first that stay: whoever comes is kept between these and the others, since its turn is between theirs."""
    first, *others = staying(port)
    confirmed(port, WINDOW)
    first.acknowledge(WINDOW)
    come_and_go(port, count)
    for client in (first, *others):
        client.close()


MANY_PUBLISH = f"publish, 12 bytes, {MANY:,} clients of {EACH}"
# how many messages the loads have for each that they are asked for, other than 1
TIMES = {MANY_PUBLISH: EACH}
# the name of each load, its messages, and the load whose instructions are taken off
LOADS = (
    ("publish, 12 bytes", confirmed, None),
    (MANY_PUBLISH, confirmed_by_many, None),
    ("publish, 1,024 bytes", confirmed_1024, None),
    ("publish, deliver and ack, 12 bytes", delivered, None),
    (f"publish under a new key, {BINDINGS:,} bindings", under_new_keys, None),
    ("drain a queue: deliver and ack, 12 bytes", drained, confirmed),
    ("consume and cancel", come_and_go, None),
    (f"consume and cancel beside {STAYING:,}", come_and_go_beside, None),
    (f"the same after {WINDOW} deliveries", come_and_go_behind, None),
)


def written_files(folder):
    """Writes the files to serve: this folder's, and a topic exchange of many bindings. Returns their names."""
    with open(os.path.join(HERE, "definitions.json"), encoding="utf-8") as file:
        definitions = json.load(file)
    definitions["exchanges"].append({**definitions["exchanges"][0], "name": "keys", "type": "topic"})
    some = {**definitions["bindings"][0], "source": "keys"}
    keys = ["new.*", *(f"kind{it}.*.#" for it in range(1, BINDINGS))]
    definitions["bindings"] += [{**some, "routing_key": key} for key in keys]
    name = os.path.join(folder, "definitions.json")
    with open(name, "w", encoding="utf-8") as file:
        json.dump(definitions, file)
    return [name, *(os.path.join(HERE, it) for it in ("guarantees.json", "certificates.json"))]


def instructions(program, folder, files, run, count):
    """Returns how many instructions a server takes from its start to its end, if it gets `count` messages of a load."""
    out = os.path.join(folder, "counted")
    words = ["valgrind", "--tool=callgrind", f"--callgrind-out-file={out}", program, "serve", *files, "--listen", "127.0.0.1:0"]
    process = subprocess.Popen(words, stdout=subprocess.PIPE, stderr=subprocess.DEVNULL, text=True)
    try:
        said = process.stdout.readline()
        if not said:
            raise EOFError(f"{program} does not start")
        run(int(said.rsplit(":", 1)[1]), count)
    finally:
        process.send_signal(signal.SIGTERM)
        process.wait()
    with open(out, encoding="utf-8") as file:
        return int(re.search(r"^(?:totals|summary): (\d+)", file.read(), re.MULTILINE).group(1))


def of_message(program, folder, files, run, times=1):
    few, more = (instructions(program, folder, files, run, count) for count in (FEW, MORE))
    return (more - few) / (MORE - FEW) / times


def count_all(programs, loads, figures):
    """Prints a line for each load, and returns the names of those that are over their figures."""
    over = []
    with tempfile.TemporaryDirectory() as folder:
        files = written_files(folder)
        for name, run, without in loads:
            times = TIMES.get(name, 1)
            counts = [of_message(path, folder, files, run, times) - (of_message(path, folder, files, without) if without else 0) for _, path in programs]
            is_over = name in figures and max(counts) > SLACK * figures[name]
            over += [name] * is_over
            print(f"{name:44}" + "".join(f"{it:12,.0f}" for it in counts) + f"   over {figures.get(name, 0):,}" * is_over, flush=True)
    return over


def figures_of(parser, name):
    """Returns the figures of a file. It is refused if one of them is none of a load."""
    try:
        with open(name, encoding="utf-8") as file:
            figures = json.load(file)
    except (OSError, ValueError) as error:
        parser.error(f"{name}: {error}")
    for it in set(figures) - {load for load, _, _ in LOADS}:
        parser.error(f"{name}: no load is called {it}")
    return figures


def parsed():
    parser = Words("instructions", __doc__, STATUSES, "python3 -m examples.load.instructions", formatter_class=argparse.RawDescriptionHelpFormatter)
    parser.add_argument("programs", nargs="+", metavar="PROGRAM", help="a path to a program `warren`, or NAME=PATH")
    parser.add_argument("--hold", metavar="FILE", help="take the loads of this file alone, and fail if one is over its figure")
    given = parser.parse_args()
    named = [it.rpartition("=")[::2] for it in given.programs]
    for _, path in named:
        if not os.access(path, os.X_OK):
            parser.error(f"{path} is no program")
    if shutil.which("valgrind") is None:
        parser.error("valgrind is not here: apt-get install valgrind")
    figures = figures_of(parser, given.hold) if given.hold else {}
    return [(name or os.path.basename(path), os.path.realpath(path)) for name, path in named], figures


def main():
    programs, figures = parsed()
    _, hard = resource.getrlimit(resource.RLIMIT_NOFILE)
    resource.setrlimit(resource.RLIMIT_NOFILE, (min(hard, OPEN_FILES), hard))
    print(f"{'instructions a message':44}" + "".join(f"{name:>12}" for name, _ in programs), flush=True)
    over = count_all(programs, [load for load in LOADS if not figures or load[0] in figures], figures)
    if over:
        print(f"over a tenth more than its figure: {', '.join(over)}")
    return OVER if over else 0


def ended():
    try:
        return main()
    except EOFError as error:
        print(f"instructions: {error}", file=sys.stderr)
        return NOT_STARTED


if __name__ == "__main__":
    sys.exit(run("instructions", ended))
