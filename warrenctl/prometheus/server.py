"""Serves a page of metrics over HTTP, with a thread for each connection: a client that is silent keeps no other waiting."""

import socket
import threading
from collections import deque
from http.server import BaseHTTPRequestHandler, ThreadingHTTPServer

from warrenctl.fault import FAILED, Fault
from warrenctl.prometheus.text import CONTENT_TYPE, page_of

# seconds that a client may be silent
PATIENCE = 10
# the most connections; one more ends the oldest
MOST = 64
PATHS = ("/", "/metrics")


class Handler(BaseHTTPRequestHandler):
    """Answers with the server's page, and logs nothing."""

    timeout = PATIENCE

    def do_GET(self):
        if self.path.partition("?")[0] not in PATHS:
            self.send_error(404)
            return
        page = page_of(self.server.collect())
        self.send_response(200)
        self.send_header("Content-Type", CONTENT_TYPE)
        self.send_header("Content-Length", str(len(page)))
        self.end_headers()
        self.wfile.write(page)

    def log_message(self, *_):
        pass


class Server(ThreadingHTTPServer):
    """Listens at `host` and `port`. `collect` returns the metrics of a page, and may be called by several threads at once."""

    daemon_threads = True
    # how many clients may wait to be taken
    request_queue_size = 128

    def __init__(self, host, port, collect):
        self.address_family = socket.AF_INET6 if ":" in host else socket.AF_INET
        self.collect = collect
        self._open, self._lock = deque(), threading.Lock()
        super().__init__((host, port), Handler)

    def server_bind(self):
        # without the look-up of this machine's name, which may take seconds
        self.socket.setsockopt(socket.SOL_SOCKET, socket.SO_REUSEADDR, 1)
        self.socket.bind(self.server_address)
        self.server_address = self.socket.getsockname()
        self.server_name, self.server_port = self.server_address[:2]

    def process_request(self, request, client_address):
        with self._lock:
            self._open.append(request)
            if len(self._open) > MOST:
                end(self._open.popleft())
        super().process_request(request, client_address)

    def shutdown_request(self, request):
        with self._lock:
            if request in self._open:
                self._open.remove(request)
        super().shutdown_request(request)

    def handle_error(self, *_):
        """A client that goes away or is silent is no matter of ours."""


def end(connection):
    """Ends a connection whose thread waits for it; the thread closes it."""
    try:
        connection.shutdown(socket.SHUT_RDWR)
    except OSError:
        pass


def server_at(address, collect, status=FAILED):
    """Returns a server at this address and port. Fails with one line, and with this status, if it can't listen there."""
    try:
        return Server(*address, collect)
    except OSError as error:
        raise Fault(f"{address[0]}:{address[1]}: {error.strerror or error}", status) from None
