"""Compares the limits of queues with those that a real RabbitMQ keeps: python3 -m warrenctl.tests.with_rabbitmq.limits

It sets policies and operator policies at random for queues with limits of their own, takes the export, publishes to each queue, and looks that
as many messages are kept as the file that is made says. Status 0 if all are, or if RabbitMQ is not installed, which a line says; 1 otherwise.
"""

import random
import sys
import time

from dev.beds.rabbit import NotHere, Rabbit
from warrenctl.amqp.client import Client, Message
from warrenctl.commands.convert.convert import convert

QUEUES = 60
PUBLISHED = 40
# the flags of a content header that has no property
NO_PROPERTIES = bytes(2)
# seconds that RabbitMQ may take until a policy is in force everywhere
SETTLED = 5


def declare(rabbit, chance):
    for place in range(QUEUES):
        own = {"x-max-length": chance.randint(1, 60)} if chance.random() < 0.6 else {}
        rabbit.api(f"queues/%2F/q{place:02}", {"durable": True, "arguments": own})
    for path, words in (("policies", ("all", "queues", "exchanges")), ("operator-policies", ("all", "queues", "exchanges"))):
        for place in range(8):
            pattern = chance.choice((f"^q{chance.randint(0, 5)}", f"{chance.randint(0, 9)}$", "^q[0-2]"))
            settings = {"max-length": chance.randint(1, 60)} if chance.random() < 0.8 else {"expires": 3_600_000}
            rabbit.api(f"{path}/%2F/p{place}", {"pattern": pattern, "definition": settings, "priority": place, "apply-to": chance.choice(words)})


def counts(rabbit):
    """How many messages each queue keeps of those that are sent to it."""
    with Client("127.0.0.1", rabbit.port, "till", "secret") as client:
        for place in range(QUEUES):
            for number in range(PUBLISHED):
                client.publish(Message(b"", f"q{place:02}".encode(), NO_PROPERTIES, str(number).encode()))
    time.sleep(1)
    with Client("127.0.0.1", rabbit.port, "till", "secret") as client:
        return {f"q{place:02}": client.queue(f"q{place:02}").ready for place in range(QUEUES)}


def main(seed):
    with Rabbit() as rabbit:
        rabbit.add_user("till", "secret")
        declare(rabbit, random.Random(seed))
        made, changes = convert(rabbit.export_definitions())
        time.sleep(SETTLED)
        kept = counts(rabbit)
    wrong = 0
    for it in made["queues"]:
        wanted = min(it["arguments"].get("x-max-length", PUBLISHED), PUBLISHED)
        if kept[it["name"]] != wanted:
            wrong += 1
            print(f"{it['name']}: RabbitMQ keeps {kept[it['name']]}, and the file says {wanted}")
    limited = sum("x-max-length" in it["arguments"] for it in made["queues"])
    by_operator = sum("is added, from operator" in it.what for it in changes)
    print(f"seed {seed}: {QUEUES} queues, {limited} limited, {by_operator} of them by an operator; {wrong} otherwise than RabbitMQ keeps them")
    return 1 if wrong or by_operator == 0 else 0


if __name__ == "__main__":
    try:
        sys.exit(main(int(sys.argv[1]) if sys.argv[1:] else 1))
    except NotHere as error:
        print(f"warrenctl.tests.with_rabbitmq.limits: skipped, {error}")
