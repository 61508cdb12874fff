"""Tries rabbit.py on a real RabbitMQ: python3 -m dev.tests.with_rabbitmq

It starts a node, imports definitions and exports them, publishes, stops the node and starts it again, and looks that nothing is left of it.
Status 0 if all was as expected, or if RabbitMQ is not installed, which a line says.
"""

import os

from dev.beds.rabbit import NotHere, Rabbit, RabbitFault
from warrenctl.amqp.client import Client, Message

# the flags of delivery-mode alone, and 2: persistent
PERSISTENT = b"\x10\x00\x02"
QUEUE = {"name": "q", "vhost": "/", "durable": True, "auto_delete": False, "arguments": {}}
DEFINITIONS = {"exchanges": [], "queues": [QUEUE], "bindings": []}


def log_in(rabbit):
    return Client("127.0.0.1", rabbit.port, "till", "secret")


def try_all():
    with Rabbit() as rabbit:
        rabbit.add_user("till", "secret")
        rabbit.import_definitions(DEFINITIONS)
        assert rabbit.export_definitions()["queues"] == [QUEUE], rabbit.export_definitions()
        assert "till" in rabbit.control("list_users")
        try:
            rabbit.import_definitions({"queues": [QUEUE | {"name": "wrong", "arguments": {"x-max-length": "many"}}]})
            raise AssertionError("RabbitMQ takes a limit that is a text")
        except RabbitFault as error:
            assert len(str(error).splitlines()) == 1 and "x-max-length" in str(error), error
        with log_in(rabbit) as client:
            client.select()
            client.publish(Message(b"", b"q", PERSISTENT, b"stays"))
            assert client.settled() == [(1, True)]
        pid, folder = rabbit.pid, rabbit.folder
        rabbit.stop()
        assert not os.path.exists(f"/proc/{pid}"), "the node runs after its stop"
        rabbit.start()
        with log_in(rabbit) as client:
            assert client.get("q").message.body == b"stays"
        pid = rabbit.pid
    assert not os.path.exists(f"/proc/{pid}") and not os.path.exists(folder), "something is left behind the block"


if __name__ == "__main__":
    try:
        try_all()
        print("rabbit: as expected")
    except NotHere as error:
        print(f"dev.tests.with_rabbitmq: skipped, {error}")
