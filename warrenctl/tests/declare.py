"""Declares at a RabbitMQ what the exports of this folder were taken of: python3 declare.py MANAGEMENT_PORT, as guest, on a new node.

Then GET /api/definitions is `shop_and_office.json`, GET /api/definitions/office `office_alone.json`, and what
rabbitmqctl export_definitions writes `control.json`.
"""

import base64
import json
import sys
import urllib.parse
import urllib.request


def declare(port):
    def put(path, body, method="PUT"):
        request = urllib.request.Request(f"http://127.0.0.1:{port}/api/{path}", json.dumps(body).encode(), method=method)
        request.add_header("Authorization", "Basic " + base64.b64encode(b"guest:guest").decode())
        request.add_header("Content-Type", "application/json")
        urllib.request.urlopen(request).read()

    def exchange(vhost, name, kind, arguments={}, **others):
        path = f"exchanges/{urllib.parse.quote(vhost, safe='')}/{urllib.parse.quote(name, safe='')}"
        put(path, {"type": kind, "durable": True, "auto_delete": False, "internal": False, "arguments": arguments, **others})

    def queue(vhost, name, arguments={}, **others):
        path = f"queues/{urllib.parse.quote(vhost, safe='')}/{urllib.parse.quote(name, safe='')}"
        put(path, {"durable": True, "auto_delete": False, "arguments": arguments, **others})

    def bind(vhost, source, kind, name, key, arguments={}):
        path = f"bindings/{urllib.parse.quote(vhost, safe='')}/e/{source}/{kind}/{urllib.parse.quote(name, safe='')}"
        put(path, {"routing_key": key, "arguments": arguments}, "POST")

    def right(vhost, user, configure, write, read):
        put(f"permissions/{urllib.parse.quote(vhost, safe='')}/{user}", {"configure": configure, "write": write, "read": read})

    put("users/till", {"password": "till", "tags": ""})
    put("users/clerk", {"password": "clerk", "tags": "monitoring"})
    put("users/robot", {"password_hash": "", "tags": ""})
    put("vhosts/office", {})
    right("/", "till", "^$", "^(shop|payments)$", ".*")
    right("/", "robot", ".*", ".*", ".*")
    right("office", "clerk", ".*", ".*", ".*")
    right("office", "guest", ".*", ".*", ".*")

    exchange("/", "shop", "topic", {"alternate-exchange": "strays"})
    exchange("/", "payments", "direct")
    exchange("/", "records", "fanout", internal=True)
    exchange("/", "strays", "fanout")
    exchange("/", "by_header", "headers")
    queue("/", "packing", {"x-message-ttl": 60000, "x-max-priority": 5})
    queue("/", "audit", {"x-queue-type": "quorum", "x-delivery-limit": 3})
    queue("/", "billing", {"x-max-length": 1000, "x-dead-letter-exchange": "dead"})
    queue("/", "dead")
    queue("/", "lost", {"x-max-length": 10, "x-overflow": "drop-head"})
    queue("/", "replay", {"x-queue-type": "stream", "x-max-age": "7D"})
    queue("/", "session", auto_delete=True)
    queue("/", "odd..name")
    bind("/", "shop", "q", "packing", "orders.*")
    bind("/", "shop", "e", "records", "orders.#")
    bind("/", "payments", "q", "billing", "paid", {"since": 2019})
    bind("/", "payments", "e", "records", "paid")
    bind("/", "records", "q", "audit", "")
    bind("/", "records", "q", "replay", "")
    bind("/", "strays", "q", "lost", "")
    bind("/", "by_header", "q", "audit", "", {"x-match": "all", "kind": "order"})
    bind("/", "amq.topic", "q", "session", "news.#")
    bind("/", "shop", "q", "odd..name", "odd.*")
    put("policies/%2F/deaths", {"pattern": "^pack", "definition": {"dead-letter-exchange": "strays", "max-length": 50, "ha-mode": "all"}, "priority": 1, "apply-to": "queues"})
    put("policies/%2F/others", {"pattern": "^pay", "definition": {"alternate-exchange": "strays"}, "priority": 0, "apply-to": "exchanges"})

    put("operator-policies/%2F/most", {"pattern": "^(billing|lost|dead|pack)", "definition": {"max-length": 20, "message-ttl": 1000}, "priority": 0, "apply-to": "queues"})

    exchange("office", "desk", "topic")
    queue("office", "tray", {"x-overflow": "reject-publish", "x-max-length": 5})
    bind("office", "desk", "q", "tray", "#")
    put("vhost-limits/office/max-queues", {"value": 10})
    put("topic-permissions/office/clerk", {"exchange": "desk", "write": "^letters", "read": ".*"})


if __name__ == "__main__":
    declare(int(sys.argv[1]))
