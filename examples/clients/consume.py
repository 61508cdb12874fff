"""Consumes a queue of the shop: each message as it comes, one at a time and acknowledged, until none came for three seconds."""

import sys

import pika


def main(port, queue):
    credentials = pika.PlainCredentials("till", "till")
    parameters = pika.ConnectionParameters("127.0.0.1", port, "/", credentials)
    with pika.BlockingConnection(parameters) as connection:
        channel = connection.channel()
        channel.basic_qos(prefetch_count=1)
        for method, properties, body in channel.consume(queue, inactivity_timeout=3):
            if method is None:
                break
            print(f"{queue} {method.exchange} {method.routing_key} {body.decode()}")
            channel.basic_ack(method.delivery_tag)
        channel.cancel()


main(int(sys.argv[1]), sys.argv[2])
