"""Serves a scripted client while one growth of memory is refused, or one call of a socket or of the poll fails.

    serve.py WARREN LIBRARY [few | one]

At each place in turn: at most one connection is lost, nothing that was acked is gone, and a later client is served."""

import errno
import os
import socket
import struct
import subprocess
import sys
import tempfile

HERE = os.path.dirname(os.path.realpath(__file__))
LOAD = os.path.join(HERE, "..", "load")
ERRORS = [errno.EIO, errno.ECONNRESET, errno.EPIPE, errno.EMFILE, errno.ENOMEM, errno.EINTR, errno.EAGAIN]
CALLS = ["accept4", "recv", "send", "epoll_wait", "epoll_ctl", "close"]
PUBLISHES = 3


def shortstr(text):
    return bytes([len(text)]) + text.encode()


def method(channel, class_id, method_id, arguments=b""):
    payload = struct.pack(">HH", class_id, method_id) + arguments
    return b"\x01" + struct.pack(">HI", channel, len(payload)) + payload + b"\xce"


def publish(key, body, exchange=""):
    """The frames of a publish of at most 131,064 bytes: its key is a queue's name unless there is an exchange."""
    header = struct.pack(">HHQH", 60, 0, len(body), 0)
    content = b"\x02" + struct.pack(">HI", 1, len(header)) + header + b"\xce" + b"\x03" + struct.pack(">HI", 1, len(body)) + body + b"\xce"
    return method(1, 60, 40, struct.pack(">H", 0) + shortstr(exchange) + shortstr(key) + b"\0") + content


def opening(user, password):
    plain = b"\0" + user.encode() + b"\0" + password.encode()
    start_ok = struct.pack(">I", 0) + shortstr("PLAIN") + struct.pack(">I", len(plain)) + plain + shortstr("en_US")
    tune_ok = struct.pack(">HIH", 255, 131072, 0)
    return b"AMQP\0\0\x09\1" + method(0, 10, 11, start_ok) + method(0, 10, 31, tune_ok) + method(0, 10, 40, shortstr("/") + b"\0\0") + method(1, 20, 10, b"\0")


class Lost(Exception):
    """The connection ended, or said nothing for a while."""


class Client:
    """A connection with one channel."""

    # seconds without an answer after which it is lost
    patience = 3

    def __init__(self, port, account):
        self.unread = b""
        try:
            self.socket = socket.create_connection(("127.0.0.1", port), timeout=self.patience)
            self.socket.sendall(opening(*account))
        except OSError as error:
            raise Lost from error
        self.until(20, 11)

    def frame(self):
        while len(self.unread) < 7 or len(self.unread) < 8 + struct.unpack(">I", self.unread[3:7])[0]:
            try:
                more = self.socket.recv(65536)
            except OSError as error:
                raise Lost from error
            if not more:
                raise Lost
            self.unread += more
        length = 8 + struct.unpack(">I", self.unread[3:7])[0]
        frame, self.unread = self.unread[:length], self.unread[length:]
        return frame

    def until(self, *wanted):
        """The next method of these two numbers, or of the second pair of them."""
        while True:
            frame = self.frame()
            if frame[0] == 1 and struct.unpack(">HH", frame[7:11]) in zip(wanted[::2], wanted[1::2]):
                return frame

    def send(self, data):
        try:
            self.socket.sendall(data)
        except OSError as error:
            raise Lost(error.strerror) from error

    def confirmed(self, queue, bodies):
        """How many of these publishes were acked."""
        acked = 0
        try:
            self.send(method(1, 85, 10, b"\0"))
            self.until(85, 11)
            for body in bodies:
                self.send(publish(queue, body))
                self.until(60, 80)
                acked += 1
        except Lost:
            pass
        return acked

    def drain(self, queue, bodies):
        """Gets all that is ready, acknowledges it, and adds its bodies to these."""
        while True:
            self.send(method(1, 60, 70, struct.pack(">H", 0) + shortstr(queue) + b"\0"))
            got = self.until(60, 71, 60, 72)
            if got[9:11] == b"\x00\x48":
                return
            self.frame()
            bodies.append(self.frame()[7:-1])
            self.send(method(1, 60, 80, got[11:19] + b"\0"))


class Server:
    """`warren serve` under the library."""

    def __init__(self, warren, library, folder, **told):
        self.report = os.path.join(folder, "report")
        if os.path.exists(self.report):
            os.unlink(self.report)
        environment = dict(os.environ, LD_PRELOAD=library, REFUSE_REPORT=self.report, **told)
        words = [warren, "serve", "definitions.json", "guarantees.json", "certificates.json", "--listen", "127.0.0.1:0"]
        self.process = subprocess.Popen(words, cwd=LOAD, env=environment, stdout=subprocess.PIPE)
        told = self.process.stdout.readline()
        if not told.startswith(b"warren: listening on "):
            self.stop()
            sys.exit(f"serve: {warren} does not listen")
        self.port = int(told.rsplit(b":", 1)[1])

    def stop(self):
        self.process.kill()
        self.process.wait()


def trial(warren, library, folder, account, queue, **told):
    """What is wrong with a session of three clients while this is refused, or nothing."""
    server = Server(warren, library, folder, **told)
    lost, acked, found = 0, [], []
    try:
        clients = []
        for _ in range(2):
            try:
                clients.append(Client(server.port, account))
            except Lost:
                lost += 1
        for number, client in enumerate(clients):
            bodies = [b"%d %d" % (number, count) for count in range(PUBLISHES)]
            count = client.confirmed(queue, bodies)
            acked += bodies[:count]
            lost += count < PUBLISHES
        try:
            Client(server.port, account).drain(queue, found)
        except Lost:
            lost += 1
            Client(server.port, account).drain(queue, found)
        if server.process.poll() is not None:
            return "the server ended"
        if lost > 1:
            return f"{lost} connections were lost"
        gone = [body for body in acked if body not in found]
        return f"acked and gone: {gone}" if gone else None
    except Lost:
        return "a later client is not served"
    finally:
        server.stop()


def places(how):
    """What is refused or fails, run by run: every place, one in ten, or a few growths and each call with one error."""
    growths, calls, errors = {"few": (10, 10, ERRORS), "one": (40, 20, ERRORS[:1])}.get(how, (1, 1, ERRORS))
    for place in range(1, 240, growths):
        yield dict(REFUSE_AT=str(place))
    for name in CALLS:
        for error in errors:
            for place in range(1, 27, calls):
                yield dict(FAIL_CALL=name, FAIL_AT=str(place), FAIL_ERROR=str(error))


def main():
    warren, library = os.path.realpath(sys.argv[1]), os.path.realpath(sys.argv[2])
    account, queue = ("till", "till"), "one"
    wrong = tried = 0
    with tempfile.TemporaryDirectory() as folder:
        for told in places(sys.argv[3] if sys.argv[3:] else "all"):
            tried += 1
            what = trial(warren, library, folder, account, queue, **told)
            if what:
                wrong += 1
                print(f"{told}: {what}", flush=True)
    print(f"serve: {tried} places, {wrong} wrong", flush=True)
    sys.exit(1 if wrong or not tried else 0)


if __name__ == "__main__":
    main()
