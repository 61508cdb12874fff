"""The commands of warrenctl. The module of each has `words`, which reads its command line, and `main`, which does the work and returns the status."""

COMMANDS = {
    "convert": "makes a definitions file of an export of RabbitMQ",
    "suggest": "writes a first guarantees file: what holds today",
    "unrouted": "says which messages are dropped, since no binding takes them",
    "why": "says why a file is refused, and what a verdict means",
    "draw": "draws a topology, and what breaks a guarantee",
    "report": "writes one HTML page of a topology and its guarantees",
    "audit": "checks certificates without warren",
    "split": "cuts a topology into parts, each for a process of its own",
    "user": "adds a user, or gives a user a new password",
    "depths": "shows the ready messages and consumers of each queue",
    "ping": "sends a message and takes it back, and says how long that took",
    "drain": "moves the messages of a queue into a file",
    "fill": "publishes the messages of such a file",
    "reload": "puts a folder of changed files in force",
    "close": "shuts publishers out while consumers go on",
    "open": "lets publishers in again",
    "metrics": "serves metrics of a broker to Prometheus",
    "front": "serves clients that ask for heartbeats, declare or bind",
}
