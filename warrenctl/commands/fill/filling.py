"""The messages of a file go back to a broker, under confirms."""

from warrenctl.cli.run import let_in
from warrenctl.fault import Fault
from warrenctl.files.message_file import message_of

# so many publishes wait for their confirms, and so many bytes of lines: a broker that sends them back must not have to wait for us
WINDOW, WINDOW_BYTES = 256, 1 << 19


class Filling:
    """How far it is: the lines that were taken are counted; those that were not, and those that wait, are kept by their confirm numbers."""

    def __init__(self, client, lines, place):
        """`place` has the exchange and the key to publish to, or none of both to take those of each message."""
        self.client, self.lines, self.place = client, lines, place
        self.taken, self.why, self.bytes = 0, None, 0
        self.refused, self.waiting = {}, {}

    def all(self):
        """Publishes until one is not taken or something is wrong, which `why` then says, and waits for the confirms of what was sent.

        Where the caller holds signals back, they end only what waits for the broker: each line is then counted, kept, or still to be read.
        """
        try:
            for line in self.lines:
                self.waiting[self.client.published + 1] = line
                self.bytes += len(line)
                message = message_of(line)
                with let_in():
                    self.client.publish(message, *self.place)
                self._settle_until(WINDOW, WINDOW_BYTES)
                if self.refused:
                    break
            self._settle_until(0, 0)
            if self.refused:
                self.why = "a queue is full, or none is there for a message"
        except (Fault, KeyboardInterrupt) as error:
            self.why = str(error) or "broken off"

    def _settle_until(self, most, most_bytes):
        while len(self.waiting) > most or self.bytes > most_bytes:
            with let_in():
                settled = self.client.settled()
            for number, is_taken in settled:
                line = self.waiting.pop(number)
                self.bytes -= len(line)
                self.taken += is_taken
                if not is_taken:
                    self.refused[number] = line

    def left(self):
        """The lines that were not confirmed, in their order."""
        for _, line in sorted({**self.refused, **self.waiting}.items()):
            yield line
        yield from self.lines
