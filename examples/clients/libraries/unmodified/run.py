"""Runs clients of this folder as they are, with RabbitMQ and then with warren through `warrenctl front`: python3 -m examples.clients.libraries.unmodified.run WARREN

Each declares an exchange and a queue of the shop, binds them, publishes under confirms and consumes, with the defaults of its library: it asks
for a heartbeat, if its library does. A line for each says whether it printed what it should. Status 0 if none printed something else.

They are Debian packages: python3-pika, python3-aio-pika, ruby-bunny, php-amqplib, php-cli, librabbitmq-client-java,
default-jdk-headless, golang-go, golang-github-rabbitmq-amqp091-go-dev and celery; and rabbitmq-server. What is not installed is passed over.
"""

import contextlib
import json
import os
import re
import signal
import subprocess
import sys
import tempfile

from dev.beds.commands import warrenctl
from dev.beds.example import run_example
from dev.beds.rabbit import NotHere, Rabbit

HERE = os.path.dirname(os.path.abspath(__file__))
ROOT = os.path.join(HERE, "../../../..")
SHOP = [os.path.join(ROOT, "examples/shop", f"{it}.json") for it in ("definitions", "guarantees", "certificates")]

PYTHON = "/usr/bin/python3"
JARS = "/usr/share/java/amqp-client.jar:/usr/share/java/slf4j-api.jar"
GO = {"GO111MODULE": "off", "GOPATH": "/usr/share/gocode"}
SECONDS = 180

# by name: the Debian package, what makes its program in a folder, and the program
CLIENTS = {
    "pika": ("python3-pika", None, [PYTHON, "pika_client.py"]),
    "aio-pika": ("python3-aio-pika", None, [PYTHON, "aio_pika_client.py"]),
    "bunny": ("ruby-bunny", None, ["ruby", "bunny_client.rb"]),
    "php-amqplib": ("php-amqplib", None, ["php", "php_amqplib_client.php"]),
    "Java": ("librabbitmq-client-java", ["javac", "-cp", JARS, "-d", "{}", "JavaClient.java"], ["java", "-cp", JARS + ":{}", "JavaClient"]),
    "Go": ("golang-github-rabbitmq-amqp091-go-dev", ["go", "build", "-o", "{}/go_client", "go_client.go"], ["{}/go_client"]),
    "Celery": ("celery", None, [PYTHON, "celery_client.py"]),
}
# what a program wants else, which its file sets
WANTS = {"Celery": "its worker wants no gossip, no mingle and no remote control, which make queues of their own"}


def version_of(package):
    """The version of a Debian package without its revision, or nothing if it is not installed."""
    done = subprocess.run(["dpkg-query", "-W", "-f", "${db:Status-Status} ${Version}", package], capture_output=True, text=True)
    status, _, version = done.stdout.partition(" ")
    return re.sub(r"^\d+:|-[^-]*$|\+dfsg.*", "", version) if status == "installed" else None


@contextlib.contextmanager
def listening(command):
    """Starts a program that says where it listens, and gives its port."""
    with subprocess.Popen(command, stdout=subprocess.PIPE, text=True) as running:
        try:
            found = re.search(r"listening on [^ ]*:(\d+)", running.stdout.readline())
            if not found:
                raise SystemExit(f"{command[0]} does not listen")
            yield int(found.group(1))
        finally:
            running.terminate()
            running.stdout.read()


@contextlib.contextmanager
def rabbitmq():
    """A RabbitMQ with the shop's topology, in which the shop's user may declare; or nothing if it is not installed."""
    try:
        with Rabbit() as rabbit:
            with open(SHOP[0], encoding="utf-8") as file:
                rabbit.import_definitions(json.load(file))
            rabbit.api("users/till", {"password": "till", "tags": ""})
            rabbit.permit("till", "/")
            yield rabbit.port
    except NotHere as error:
        print(f"unmodified: RabbitMQ is left out: {error}")
        yield None


def run(command, folder, *words):
    """Whether a program of this folder ended well, and what it printed."""
    command = [it.replace("{}", folder) for it in command] + list(words)
    environment = {**os.environ, **GO, "GOCACHE": os.path.join(folder, "cache"), "PYTHONDONTWRITEBYTECODE": "1"}
    pipes = {"stdout": subprocess.PIPE, "stderr": subprocess.PIPE, "text": True, "start_new_session": True}
    try:
        with subprocess.Popen(command, cwd=HERE, env=environment, **pipes) as running:
            try:
                out, said = running.communicate(timeout=SECONDS)
            finally:
                # with all that it started
                with contextlib.suppress(ProcessLookupError):
                    os.killpg(running.pid, signal.SIGKILL)
    except (OSError, subprocess.TimeoutExpired) as error:
        return False, str(error)
    return running.returncode == 0, out.strip() if running.returncode == 0 else said[-2_000:]


def try_client(name, servers, folder):
    """Tells in a line whether a client did what it should with each server; whether it did."""
    package, making, command = CLIENTS[name]
    version = version_of(package)
    if version is None:
        print(f"{name}: not here (apt-get install {package})", flush=True)
        return True
    made, said = run(making, folder) if making else (True, "")
    wrong = [] if made else [f"it is not made: {said}"]
    for server, port in servers.items() if made else ():
        done, said = run(command, folder, str(port))
        if not done or said != f"by {name}":
            wrong.append(f"with {server}: {said}")
    told = "NOT as expected, " + "; ".join(wrong) if wrong else "as expected, with " + " and ".join(servers)
    print(f"{name} {version}: {told}{'; ' + WANTS[name] if name in WANTS else ''}", flush=True)
    return not wrong


def main(warren):
    serve = [warren, "serve", *SHOP, "--listen", "127.0.0.1:0"]
    with tempfile.TemporaryDirectory() as folder, rabbitmq() as rabbit, listening(serve) as port:
        front = [*warrenctl("front"), SHOP[0], "--listen", "127.0.0.1:0", "--to", f"127.0.0.1:{port}"]
        with listening(front) as front_port:
            servers = {"RabbitMQ": rabbit} if rabbit else {}
            servers["warren through the front"] = front_port
            return 0 if all([try_client(name, servers, folder) for name in CLIENTS]) else 1


if __name__ == "__main__":
    sys.exit(run_example("unmodified", __doc__, main))
