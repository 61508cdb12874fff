"""What is ready in a queue goes into a file."""

# so many messages are asked for at once
BATCH = 256


def drain(client, queue, kept):
    """Moves messages until none is ready. A batch is on the disk before it is acknowledged, and is counted once the broker has taken that."""
    while client.queue(queue).ready:
        tag = None
        before = kept.count
        for delivery in client.gets(queue, BATCH):
            kept.write(delivery.message)
            tag = delivery.tag
        if tag is not None:
            kept.keep()
            client.ack(tag, multiple=True)
            client.queue(queue)
            yield kept.count - before
