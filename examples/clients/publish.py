"""Publishes an order and a payment to the shop, each confirmed by the broker."""

import sys

import pika

PROPERTIES = pika.BasicProperties(content_type="text/plain", delivery_mode=2)


def publish(channel, exchange, key, body):
    channel.basic_publish(exchange, key, body, PROPERTIES, mandatory=True)
    print(f"confirmed {exchange} {key}")


def main(port):
    credentials = pika.PlainCredentials("till", "till")
    parameters = pika.ConnectionParameters("127.0.0.1", port, "/", credentials)
    with pika.BlockingConnection(parameters) as connection:
        channel = connection.channel()
        channel.confirm_delivery()
        publish(channel, "shop", "orders.new", b"two loaves")
        publish(channel, "payments", "paid", b"seven shillings")


main(int(sys.argv[1]))
