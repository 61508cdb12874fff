"""A RabbitMQ on loopback, for examples and comparisons: started, filled by its management interface, and ended.

    with Rabbit() as rabbit:
        rabbit.add_user("till", "till")
        rabbit.import_definitions(definitions)
        serve_clients_at(rabbit.port)

The node is of the user who runs the script, root or another. It has an epmd of its own, ports that were free, and a folder for temporary
files, which goes with it. It is ended with the block, and by the system if the script is killed. It needs Debian's package
`rabbitmq-server` (tried with 3.10.8).
"""

import base64
import contextlib
import ctypes
import http.client
import json
import os
import random
import shutil
import signal
import socket
import subprocess
import sys
import tempfile
import threading
import time
import urllib.parse

# where Debian's package has the programs that run as any user; the ones on the path go to the user rabbitmq
PROGRAMS = "/usr/lib/rabbitmq/bin"
ADMINISTRATOR = "guest"
PLUGINS = ("rabbitmq_management",)
# below the ports that the system gives to whoever asks for none, so that nobody gets one between the look and the start
PORTS = range(20_000, 32_000)
LOOPBACK = "127.0.0.1"
# seconds for a start, an answer of the management interface, and a stop
START, ANSWER, STOP = 180, 600, 60
REST = 0.1
PROTOCOL_HEADER = b"AMQP\0\0\x09\x01"
KERNEL = "-kernel inet_dist_use_interface {127,0,0,1}"
SAID_LAST = 5
DIE_WITH_PARENT = 1


class RabbitFault(Exception):
    """RabbitMQ was asked for something and did not do it; the text says what, in one line."""


class NotHere(RabbitFault):
    """RabbitMQ is not installed."""


def is_here(programs=PROGRAMS):
    return os.path.exists(os.path.join(programs, "rabbitmq-server")) and shutil.which("epmd") is not None


def free_ports(count):
    """Returns `count` ports at which nobody listens, each another."""
    with contextlib.ExitStack() as held:
        ports = []
        while len(ports) < count:
            port = random.choice(PORTS)
            taken = held.enter_context(socket.socket())
            taken.setsockopt(socket.SOL_SOCKET, socket.SO_REUSEADDR, 1)
            with contextlib.suppress(OSError):
                taken.bind((LOOPBACK, port))
                ports.append(port)
        return ports


def quoted(name):
    """A name as a part of a path of the management interface."""
    return urllib.parse.quote(name, safe="")


def _readable(value):
    """A reason of the management interface as a text: some are lists of the numbers of characters."""
    if isinstance(value, list) and value and all(isinstance(it, int) for it in value):
        return "".join(map(chr, value))
    return " ".join(map(_readable, value)) if isinstance(value, list) else str(value)


def _reason(said):
    """Why a request was refused, in one line."""
    with contextlib.suppress(ValueError, TypeError, KeyError):
        said = _readable(json.loads(said)["reason"])
    return " ".join(said.split()) or "no reason is given"


def _with_parent():
    """Has the system end the new process if the script is killed, so that nothing is left."""
    ctypes.CDLL(None).prctl(DIE_WITH_PARENT, signal.SIGTERM)


def _ended(process, seconds):
    try:
        process.wait(seconds)
    except subprocess.TimeoutExpired:
        return False
    return True


def _answers(port):
    """Whether a broker answers the protocol header at this port."""
    try:
        with socket.create_connection((LOOPBACK, port), STOP) as client:
            client.sendall(PROTOCOL_HEADER)
            return len(client.recv(1)) == 1
    except OSError:
        return False


class Rabbit:
    """A node of RabbitMQ with its management interface, whose administrator is `guest`.

    `port` is for clients, `management` for HTTP, `distribution` for other nodes: each is a free one unless it is given. `configuration` is
    added to rabbitmq.conf, `advanced` is advanced.config, and `plugins` are enabled beside the management interface.
    """

    def __init__(self, name="warren", port=None, management=None, distribution=None, plugins=(), configuration="", advanced="[].", programs=PROGRAMS):
        if not is_here(programs):
            raise NotHere("RabbitMQ is not installed: apt-get install rabbitmq-server")
        free = free_ports(4)
        self.node = f"{name}@localhost"
        self.port, self.management, self.distribution = port or free[0], management or free[1], distribution or free[2]
        self._epmd_port, self._programs = free[3], programs
        self._plugins, self._configuration, self._advanced = (*PLUGINS, *plugins), configuration, advanced
        self._node = self._epmd = self._before = None
        self.folder = None

    # ---- start and end

    def __enter__(self):
        self.folder = tempfile.mkdtemp(prefix="warren-rabbit-")
        try:
            if threading.current_thread() is threading.main_thread():
                self._before = signal.signal(signal.SIGTERM, lambda *_: sys.exit(128 + signal.SIGTERM))
                # a shell without job control has what it starts in the background ignore SIGINT
                if signal.getsignal(signal.SIGINT) is signal.SIG_IGN:
                    signal.signal(signal.SIGINT, signal.default_int_handler)
            self._write_files()
            self._epmd = self._run("epmd", "-address", LOOPBACK, "-port", str(self._epmd_port))
            self.start()
        except BaseException:
            self.__exit__()
            raise
        return self

    def __exit__(self, *_):
        self._kill()
        if self._epmd is not None:
            self._epmd.kill()
            self._epmd.wait()
        shutil.rmtree(self.folder, ignore_errors=True)
        if self._before is not None:
            signal.signal(signal.SIGTERM, self._before)

    def start(self):
        """Starts the node, again after a `stop` with what it kept, and returns once it answers clients and HTTP."""
        self._node = self._run(os.path.join(self._programs, "rabbitmq-server"))
        end = time.monotonic() + START
        while not (_answers(self.port) and self._manages()):
            if self._node.poll() is not None:
                raise RabbitFault(f"RabbitMQ ended while it started: {self._said()}")
            if time.monotonic() > end:
                raise RabbitFault(f"RabbitMQ did not answer within {START} seconds: {self._said()}")
            time.sleep(REST)

    def stop(self):
        """Stops the node as an operator does. Durable queues and persistent messages are there after the next `start`."""
        self._node.terminate()
        if not _ended(self._node, STOP):
            self._kill()
            raise RabbitFault(f"RabbitMQ did not stop within {STOP} seconds, and was killed")

    def _kill(self):
        """Kills the node with all processes of its group, and waits until they are gone."""
        if self._node is None:
            return
        end = time.monotonic() + STOP
        with contextlib.suppress(ProcessLookupError):
            while time.monotonic() < end:
                os.killpg(self._node.pid, signal.SIGKILL)
                self._node.poll()
                time.sleep(REST)
        self._node.wait()

    def _write_files(self):
        for folder in ("log", "mnesia"):
            os.mkdir(os.path.join(self.folder, folder))
        listeners = f"listeners.tcp.1 = {LOOPBACK}:{self.port}\nmanagement.tcp.ip = {LOOPBACK}\nmanagement.tcp.port = {self.management}\n"
        # a small disk is no reason to keep publishers waiting here
        self._write("rabbitmq.conf", f"{listeners}disk_free_limit.absolute = 10MB\n{self._configuration}\n")
        self._write("advanced.config", self._advanced + "\n")
        self._write("plugins", f"[{','.join(self._plugins)}].\n")

    def _write(self, name, text):
        with open(os.path.join(self.folder, name), "w", encoding="utf-8") as file:
            file.write(text)

    def _environment(self):
        of_system = {name: value for name, value in os.environ.items() if not name.startswith(("RABBITMQ_", "ERL_"))}
        at = {
            "HOME": "",
            "RABBITMQ_CONF_ENV_FILE": "none",
            "RABBITMQ_CONFIG_FILE": "rabbitmq.conf",
            "RABBITMQ_ADVANCED_CONFIG_FILE": "advanced.config",
            "RABBITMQ_ENABLED_PLUGINS_FILE": "plugins",
            "RABBITMQ_LOG_BASE": "log",
            "RABBITMQ_MNESIA_BASE": "mnesia",
            "RABBITMQ_PID_FILE": "pid",
        }
        return of_system | {name: os.path.join(self.folder, value) for name, value in at.items()} | {
            "RABBITMQ_NODENAME": self.node,
            "RABBITMQ_DIST_PORT": str(self.distribution),
            "RABBITMQ_SERVER_ADDITIONAL_ERL_ARGS": KERNEL,
            "RABBITMQ_CTL_ERL_ARGS": KERNEL,
            "ERL_EPMD_ADDRESS": LOOPBACK,
            "ERL_EPMD_PORT": str(self._epmd_port),
        }

    def _run(self, *command):
        """Starts a program in a group of processes of its own, so that Ctrl-C reaches the script alone."""
        with open(os.path.join(self.folder, "said"), "ab") as said:
            return subprocess.Popen(
                command,
                stdin=subprocess.DEVNULL,
                stdout=said,
                stderr=said,
                cwd=self.folder,
                env=self._environment(),
                start_new_session=True,
                preexec_fn=_with_parent,
            )

    def _said(self):
        with open(os.path.join(self.folder, "said"), encoding="utf-8", errors="replace") as file:
            lines = [line.strip() for line in file if line.strip()]
        return " / ".join(lines[-SAID_LAST:]) or "it said nothing"

    @property
    def pid(self):
        """The process of the node itself, whose memory and processor time are RabbitMQ's."""
        with open(os.path.join(self.folder, "pid"), encoding="utf-8") as file:
            return int(file.read())

    # ---- asked by its programs, and by HTTP

    def control(self, *words):
        """Runs rabbitmqctl with these words, and returns what it printed."""
        command = [os.path.join(self._programs, "rabbitmqctl"), "-q", *words]
        done = subprocess.run(command, capture_output=True, text=True, cwd=self.folder, env=self._environment(), stdin=subprocess.DEVNULL)
        if done.returncode:
            raise RabbitFault(f"rabbitmqctl {words[0]}: {' '.join((done.stderr or done.stdout).split())}")
        return done.stdout

    def _manages(self):
        try:
            self.api("overview")
        except RabbitFault:
            return False
        return True

    def api(self, path, body=None, method=None, user=ADMINISTRATOR, password=ADMINISTRATOR):
        """Asks the management interface for /api/`path`: a GET, or a PUT of `body`. Returns the value that it answers, if any."""
        method = method or ("GET" if body is None else "PUT")
        headers = {"Authorization": "Basic " + base64.b64encode(f"{user}:{password}".encode()).decode(), "Content-Type": "application/json"}
        connection = http.client.HTTPConnection(LOOPBACK, self.management, timeout=ANSWER)
        try:
            connection.request(method, f"/api/{path}", None if body is None else json.dumps(body), headers)
            answer = connection.getresponse()
            said = answer.read().decode("utf-8", "replace")
        except (OSError, http.client.HTTPException) as error:
            raise RabbitFault(f"RabbitMQ does not answer {method} /api/{path}: {error}") from None
        finally:
            connection.close()
        if answer.status >= 300:
            raise RabbitFault(f"RabbitMQ refuses {method} /api/{path}: {answer.status}, {_reason(said)}")
        return json.loads(said) if said else None

    def add_vhost(self, name):
        """Makes a virtual host, in which the administrator may do all."""
        self.api(f"vhosts/{quoted(name)}", {})
        self.permit(ADMINISTRATOR, name)

    def add_user(self, name, password, tags="", vhost="/"):
        """Makes a user who may do all in this virtual host."""
        self.api(f"users/{quoted(name)}", {"password": password, "tags": tags})
        self.permit(name, vhost)

    def permit(self, user, vhost):
        self.api(f"permissions/{quoted(vhost)}/{quoted(user)}", {"configure": ".*", "write": ".*", "read": ".*"})

    def import_definitions(self, value, vhost=None):
        """Takes in a definitions file's value: of all virtual hosts, or the exchanges, queues and bindings of one."""
        self.api("definitions" if vhost is None else f"definitions/{quoted(vhost)}", value, "POST")

    def export_definitions(self, vhost=None):
        """Returns what GET /api/definitions gives, of all virtual hosts or of one."""
        return self.api("definitions" if vhost is None else f"definitions/{quoted(vhost)}")
