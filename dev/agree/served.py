"""RabbitMQ's side: a connection that performs operations and reads their answers."""

from dev.agree.operations import answers
from warrenctl.amqp.client import Client

# A passive declare may overtake a rejection in a queue's mailbox. The next one is sent once the first was answered, so it overtakes the same
# rejection only if the queue rests just then; the fourth only if it rests there four times.
DECLARES = 4


class Conversation(Client):
    """A client that has logged in, with its channel open. An operation is sent as it is, and its answers are read."""

    def ask(self, operation):
        self._send(operation.asked)
        return answers(self._incoming, operation)

    def settle(self, queue):
        """Waits until this queue has handled what was rejected."""
        for _ in range(DECLARES):
            self.queue(queue)
