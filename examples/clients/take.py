"""Takes what waits in a queue of the shop, message by message, and acknowledges each."""

import sys

import pika


def main(port, queue):
    credentials = pika.PlainCredentials("till", "till")
    parameters = pika.ConnectionParameters("127.0.0.1", port, "/", credentials)
    with pika.BlockingConnection(parameters) as connection:
        channel = connection.channel()
        while True:
            method, properties, body = channel.basic_get(queue)
            if method is None:
                break
            print(f"{queue} {method.exchange} {method.routing_key} {body.decode()}")
            channel.basic_ack(method.delivery_tag)


main(int(sys.argv[1]), sys.argv[2])
