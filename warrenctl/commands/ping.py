"""Sends a message to a queue and takes it back: one login, one confirmed publish to the queue by its name, gets until the message came, and one
acknowledgement. The queue is one of the definitions file that nothing else uses. With --hello it sends the eight bytes that begin AMQP, without a login
and without a queue, and reads the broker's first frame. Prints how many milliseconds that took."""

import os
import signal
import socket
import ssl
import time

from warrenctl.amqp.client import Client, Message, quoted
from warrenctl.amqp.methods import START
from warrenctl.amqp.wire import PROTOCOL_HEADER, method
from warrenctl.cli.login import address_of, password_for
from warrenctl.cli.run import DONE, NOT_WHOLE, tell
from warrenctl.cli.words import PORT, Words
from warrenctl.fault import Fault

STATUSES = "Status: 0 it came back; 1 it came back later than --within says; 3 it did not, and a line says why."
NO_PROPERTIES = b"\0\0"
MARK = b"ping "
# seconds after which a message of another ping belongs to nobody
STALE = 120
MOST_SECONDS = 60
REST = 0.05
# with which nobody logs in
NOBODY = "nobody"
# how connection.start begins: its size may be any
START_FRAME = method(0, START)[:-1]


def number(text):
    found = float(text)
    if not 0 < found < float("inf"):
        raise ValueError
    return found


def words(arguments):
    parser = Words("ping", __doc__, STATUSES)
    parser.add_argument("server", metavar="USER@HOST[:PORT]", help=f"who logs in where; the port is {PORT} unless it is given. With --hello without USER@")
    parser.add_argument("queue", metavar="QUEUE", nargs="?", help="a queue of the definitions file that only pings use, such as \"ping\"")
    parser.add_password()
    parser.add_argument("--hello", action="store_true", help="log in nowhere: read the first frame alone")
    parser.add_argument("--tls", action="store_true", help="with --hello: over TLS, whosever the certificate is")
    parser.add_argument("--seconds", type=number, default=5, help=f"give up after this many seconds, {MOST_SECONDS} at most (%(default)s)")
    parser.add_argument("--within", type=number, metavar="MS", help="status 1 if it takes more milliseconds")
    given = parser.parse_args(arguments)
    if given.seconds > MOST_SECONDS:
        parser.error(f"--seconds: {MOST_SECONDS} at most")
    if given.hello and (given.queue is not None or given.password_file or "@" in given.server):
        parser.error("--hello takes HOST[:PORT] alone")
    if not given.hello and (given.queue is None or given.tls):
        parser.error("--tls needs --hello" if given.tls else "a queue is missing")
    return given


def a_body():
    """Returns a body that no other ping has: the time and a random number."""
    return MARK + f"{time.time():.3f} {os.urandom(8).hex()}".encode()


def age_of(body):
    """Returns how many seconds ago a ping sent this, or `None` if none did."""
    fields = body.split(b" ")
    try:
        return time.time() - float(fields[1]) if len(fields) == 3 and body.startswith(MARK) else None
    except ValueError:
        return None


def ping(given):
    """Returns how many milliseconds it took until the message was back."""
    user, host, port = address_of(given.server)
    password = password_for(user, given.password_file)
    give_up_after(given.seconds, f"{host}:{port}: the message did not come back within {given.seconds:g} seconds")
    started = time.monotonic()
    with Client(host, port, user, password, given.seconds) as client:
        # what pings left behind goes first, so that it never fills a queue that has a limit
        before = next_of(client, given.queue)
        if before is not None:
            client.give_back(before.tag)
        body = a_body()
        publish(client, given.queue, body)
        while not take(client, given.queue, body):
            time.sleep(REST)
    return (time.monotonic() - started) * 1000


def hello(given):
    """Returns how many milliseconds it took until the broker's first frame was read: connection.start."""
    _, host, port = address_of(f"{NOBODY}@{given.server}")
    where = f"{host}:{port}"
    give_up_after(given.seconds, f"{where}: no hello within {given.seconds:g} seconds")
    started = time.monotonic()
    try:
        with connected(host, port, given.tls) as connection:
            connection.sendall(PROTOCOL_HEADER)
            first = connection.makefile("rb").read(len(START_FRAME))
    except OSError as error:
        raise Fault(f"{where}: {error.strerror or error}") from None
    if first[:1] != START_FRAME[:1] or first[7:] != START_FRAME[7:]:
        raise Fault(f"{where}: {'the connection was ended' if not first else 'what came is no hello of AMQP 0-9-1'}")
    return (time.monotonic() - started) * 1000


def connected(host, port, tls):
    connection = socket.create_connection((host, port))
    if not tls:
        return connection
    context = ssl.SSLContext(ssl.PROTOCOL_TLS_CLIENT)
    context.check_hostname, context.verify_mode = False, ssl.CERT_NONE
    return context.wrap_socket(connection)


def give_up_after(seconds, why):
    def give_up(*_):
        raise Fault(why)

    signal.signal(signal.SIGALRM, give_up)
    signal.setitimer(signal.ITIMER_REAL, seconds)


def publish(client, queue, body):
    client.select()
    client.publish(Message(b"", queue.encode(errors="surrogateescape"), NO_PROPERTIES, body))
    if not client.settled()[0][1]:
        raise Fault(f"queue {quoted(queue)}: is full, so the publish was nacked")


def take(client, queue, body):
    """Takes the message of `body`, and returns whether it did.

    The message of another ping will do if this one is not right behind it: that ping then takes ours. So pings that run at the same time never wait
    for each other. What pings left behind is acknowledged.
    """
    first = next_of(client, queue)
    if first is None:
        return False
    if first.message.body == body:
        client.ack(first.tag)
        return True
    second = next_of(client, queue)
    is_ours = second is not None and second.message.body == body
    client.ack(second.tag if is_ours else first.tag)
    if second is not None:
        client.give_back(first.tag if is_ours else second.tag)
    return True


def next_of(client, queue):
    """Returns the first ready message that a ping sent a short time ago, or `None`. Acknowledges older ones."""
    while True:
        delivery = client.get(queue)
        age = 0 if delivery is None else age_of(delivery.message.body)
        if age is None:
            client.give_back(delivery.tag)
            raise Fault(f"queue {quoted(queue)}: has a message that no ping sent")
        if age <= STALE:
            return delivery
        client.ack(delivery.tag)


def main(given):
    took = hello(given) if given.hello else ping(given)
    print(f"{took:.1f} ms")
    if given.within is not None and took > given.within:
        tell("ping", f"{took:.1f} ms are more than {given.within:g}")
        return NOT_WHOLE
    return DONE
