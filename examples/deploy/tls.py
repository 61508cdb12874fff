"""Publishes an order to the shop over TLS, and takes it from `audit`: python3 tls.py PORT CERTIFICATE"""

import ssl
import sys

import pika


def main(port, certificate):
    context = ssl.create_default_context(cafile=certificate)
    credentials = pika.PlainCredentials("till", "till")
    options = pika.SSLOptions(context, "localhost")
    with pika.BlockingConnection(pika.ConnectionParameters("127.0.0.1", port, "/", credentials, ssl_options=options)) as connection:
        channel = connection.channel()
        channel.confirm_delivery()
        channel.basic_publish("shop", "orders.new", b"two loaves")
        _, _, body = channel.basic_get("audit", auto_ack=True)
        print(f"over TLS: {body.decode()}")


main(int(sys.argv[1]), sys.argv[2])
