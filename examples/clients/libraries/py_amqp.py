"""Publishes an order to the shop, each confirmed, and takes it from `audit`, with py-amqp: the Debian package python3-amqp."""

import sys

import amqp

with amqp.Connection(f"127.0.0.1:{sys.argv[1]}", userid="till", password="till", confirm_publish=True) as connection:
    channel = connection.channel()
    channel.basic_publish(amqp.Message("by py-amqp", content_type="text/plain"), "shop", "orders.new")
    message = channel.basic_get("audit")
    channel.basic_ack(message.delivery_tag)
    print(message.body)
