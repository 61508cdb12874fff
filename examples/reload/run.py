"""Replaces the files of a server while it serves, and looks at what its clients and its operator see.

    python3 -m examples.reload.run WARREN

WARREN is the program of that crate. It is served with `--reload 2`: its files are read again after every second turn, and a turn rests a tenth of a second at
most. It wants Python 3."""

import json
import os
import subprocess
import sys
import tempfile
import threading
import time

from dev.beds.example import run_example
from warrenctl.amqp.client import Client, Message

sys.dont_write_bytecode = True


SECOND = 1.0
NAMES = ["definitions.json", "guarantees.json", "certificates.json"]


def definitions(queues, to):
    """A direct exchange `orders` that leads the key `new` to one of these queues."""
    user = {"name": "till", "password_hash": "YWJjZHrKTgkwAX37nyLw6Dww3kyaNSJiTfh1qdvqp5EssHXW", "hashing_algorithm": "rabbit_password_hashing_sha256"}
    kept = {"vhost": "/", "durable": True, "auto_delete": False, "arguments": {}}
    return json.dumps(
        {
            "vhosts": [{"name": "/"}],
            "users": [user],
            "permissions": [{"user": "till", "vhost": "/", "configure": "^$", "write": ".*", "read": ".*"}],
            "exchanges": [dict(kept, name="orders", type="direct", internal=False)],
            "queues": [dict(kept, name=name) for name in queues],
            "bindings": [{"source": "orders", "vhost": "/", "destination": to, "destination_type": "queue", "routing_key": "new", "arguments": {}}],
        }
    )


class Server:
    """A running server, and what it says."""

    def __init__(self, warren, folder):
        self.files = [os.path.join(folder, name) for name in NAMES]
        self.folder = folder
        self.lines = []
        self.put(definitions(["audit", "ledger"], "audit"))
        words = [warren, "serve", *self.files, "--listen", "127.0.0.1:0", "--reload", "2"]
        self.process = subprocess.Popen(words, stdout=subprocess.PIPE, stderr=subprocess.PIPE, text=True)
        self.port = int(self.process.stdout.readline().rsplit(":", 1)[1])
        threading.Thread(target=self.listen, daemon=True).start()

    def listen(self):
        for line in self.process.stderr:
            self.lines.append(line.rstrip("\n"))

    def replace(self, place, text):
        """A file is replaced as a whole."""
        written = os.path.join(self.folder, "new")
        with open(written, "w") as file:
            file.write(text)
        os.replace(written, self.files[place])

    def put(self, stated, guarantees='{"guarantees":[]}', certificates="[]"):
        """All three, the certificates last."""
        self.mark()
        for place, text in enumerate([stated, guarantees, certificates]):
            self.replace(place, text)

    def mark(self):
        """The files are about to change."""
        self.start = len(self.lines)

    def said(self, seconds=SECOND):
        """What it says, for so long, since the files changed."""
        time.sleep(seconds)
        return self.lines[self.start:]


def wanted(what, is_so):
    print(f"{what}: {'ok' if is_so else 'FAILED'}", flush=True)
    return is_so


def publish(client, body):
    """Publishes to `orders` under the key `new`, and says whether it is acked."""
    number = client.publish(Message(b"orders", b"new", b"\0\0", body))
    return client.settled() == [(number, True)]


def taken(client, queue):
    """The body of the first message of a queue, which is taken; none if it is empty."""
    delivery = client.get(queue)
    if delivery is None:
        return None
    client.ack(delivery.tag)
    return delivery.message.body


def main(warren):
    with tempfile.TemporaryDirectory() as folder:
        server = Server(warren, folder)
        try:
            return all(list(outcomes(server)))
        finally:
            server.process.kill()


def outcomes(server):
    client = Client("127.0.0.1", server.port, "till", "till")
    client.select()
    yield wanted("a publish goes by the files as they stood", publish(client, b"first") and taken(client, "audit") == b"first")
    yield wanted("another one waits", publish(client, b"waits"))

    server.put(definitions(["ledger", "audit", "new"], "new"))
    said = server.said()
    yield wanted("within a second the next goes by the new ones", publish(client, b"second") and taken(client, "new") == b"second")
    yield wanted("nothing is said of files that are taken", said == [])

    server.put(definitions(["ledger", "new"], "new"))
    said = server.said()
    yield wanted("a queue in use may not go, which is said once", said == ['warren: reload refused in-use "audit"'])
    yield wanted("serving goes on with what stood", publish(client, b"third") and taken(client, "new") == b"third")

    server.put("{")
    said = server.said()
    yield wanted("a file that is refused", said == [f"warren: {server.files[0]}: refused 1"])
    server.mark()
    os.remove(server.files[0])
    said = server.said()
    yield wanted("a file that cannot be read", said == [f"warren: {server.files[0]}: cannot read"])
    server.put(definitions(["ledger", "audit", "new"], "new"), '{"guarantees":[{"mode":"reaches","exchange":"orders","pattern":"new","queue":"new"}]}')
    said = server.said()
    yield wanted("a guarantee without its certificate", said[-1:] == ["warren: certificate 1: fault 5"] and len(said) <= 2)
    server.put(definitions(["ledger", "audit", "new"], "new"))
    said = server.said()
    yield wanted("nothing is said once they fit", said == [])
    yield wanted("what waited is there", taken(client, "audit") == b"waits")


if __name__ == "__main__":
    sys.exit(run_example("examples/reload", __doc__, lambda warren: 0 if main(warren) else 1))
