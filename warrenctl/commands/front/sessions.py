"""One client's connection and that to the server, and what passes between them."""

import asyncio

from warrenctl.commands.front import frames
from warrenctl.commands.front.translator import Translator

# seconds for a login, for the way to the server, and for what is left to be sent when one side has ended
LOGIN, CONNECT, LINGER = 30, 10, 10
# as RabbitMQ ends a connection that has not been heard of: twice its heartbeat
HEARTBEATS_MISSED = 2


class Side(asyncio.Protocol):
    """One of the two sockets of a session."""

    def __init__(self, session):
        self.session, self.transport = session, None

    def connection_made(self, transport):
        self.transport = transport
        self.session.made(self)

    def data_received(self, data):
        self.session.received(self, data)

    def pause_writing(self):
        self.session.reads(self.session.other(self), False)

    def resume_writing(self):
        self.session.reads(self.session.other(self), True)

    def connection_lost(self, _):
        self.session.lost(self)


class Session:
    """`house` has the settings, counts connections and takes lines for the log."""

    def __init__(self, house):
        self._house = house
        self._loop = asyncio.get_running_loop()
        self.client, self.server = Side(self), Side(self)
        self._name = self._address = ""
        self._early = []  # what came before there was a connection to the server
        self._is_counted = self._wrote = False
        self._connecting = None
        self._heard = 0.0
        self._paused = set()
        self._timers = []
        self.translator = Translator(house.file, house.heartbeat, self.note, house.counts)

    def other(self, side):
        return self.server if side is self.client else self.client

    def note(self, line):
        self._house.note(f"{self._name} {line}")

    # ---- events of the two sockets

    def made(self, side):
        if side is self.server:
            early, self._early = self._early, []
            for data in early:
                self.received(self.client, data)
            return
        address = side.transport.get_extra_info("peername") or ("?", 0)
        self._address, self._name = address[0], f"{address[0]}:{address[1]}"
        self._is_counted = self._house.enter(self._address)
        if not self._is_counted:
            self.note(f"closed: {self._house.most} connections of this address are open")
            side.transport.abort()
            return
        self._later(LOGIN, self._not_logged_in)

    def received(self, side, data):
        if side is self.client and self.server.transport is None:
            self._wait_for_server(data)
            return
        if side is self.client:
            self._heard = self._loop.time()
            to_client, to_server = self.translator.from_client(data)
            if self.translator.heartbeat:
                self._watch(self.translator.heartbeat)
        else:
            to_client, to_server = self.translator.from_server(data)
        if to_client:
            self._wrote = True
            self.client.transport.write(to_client)
        if to_server:
            self.server.transport.write(to_server)

    def _wait_for_server(self, data):
        """Keeps the first bytes of a client, and connects to the server: for a client that sends nothing there is no connection to it."""
        self._early.append(data)
        self.reads(self.client, False)
        if self._connecting is None:
            self._connecting = self._loop.create_task(self._connect())

    def reads(self, side, does):
        """Has a socket read, or not while the other one takes nothing."""
        if side.transport is None or side.transport.is_closing():
            return
        if does:
            self._paused.discard(side)
            self._heard = self._loop.time()
            side.transport.resume_reading()
        elif side not in self._paused:
            self._paused.add(side)
            side.transport.pause_reading()

    def lost(self, side):
        """Ends the other socket, once it has taken what was to be sent to it."""
        for it in self._timers:
            it.cancel()
        if side is self.client and self._is_counted:
            self._is_counted = False
            self._house.leave(self._address)
            self.note("end")
        other = self.other(side).transport
        if other is not None and not other.is_closing():
            other.close()
            self._loop.call_later(LINGER, other.abort)

    async def _connect(self):
        try:
            await asyncio.wait_for(self._loop.create_connection(lambda: self.server, *self._house.server), CONNECT)
        except (OSError, asyncio.TimeoutError) as error:
            self.note(f"closed: no way to {self._house.server[0]}:{self._house.server[1]}: {getattr(error, 'strerror', None) or 'no answer'}")
            self.client.transport.abort()
            return
        if self.client.transport.is_closing():
            self.server.transport.abort()
        else:
            self.reads(self.client, True)

    # ---- time

    def _later(self, seconds, work):
        self._timers = [it for it in self._timers if not it.cancelled() and it.when() > self._loop.time()]
        self._timers.append(self._loop.call_later(seconds, work))

    def _not_logged_in(self):
        if not self.translator.logged_in:
            self.note(f"closed: no login in {LOGIN} seconds")
            self.client.transport.abort()

    def _watch(self, heartbeat):
        """Begins to keep the heartbeat that the client agreed to."""
        self.translator.heartbeat = 0
        self._wrote = True
        self._later(heartbeat / 2, lambda: self._beat(heartbeat))

    def _beat(self, heartbeat):
        """Sends a heartbeat if nothing else was sent, and ends a client that has not been heard of, unless it is not read."""
        if self.client.transport.is_closing():
            return
        if not self._wrote and not self.client.transport.get_write_buffer_size():
            self.client.transport.write(frames.HEARTBEAT_FRAME)
        self._wrote = False
        if self.client not in self._paused and self._loop.time() - self._heard > HEARTBEATS_MISSED * heartbeat:
            self.note(f"closed: not heard of for {HEARTBEATS_MISSED * heartbeat} seconds")
            self.client.transport.abort()
            return
        self._later(heartbeat / 2, lambda: self._beat(heartbeat))
