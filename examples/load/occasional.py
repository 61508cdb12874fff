"""A client that publishes now and then, beside others that never pause."""

import contextlib
import multiprocessing
import time

from examples.load.client import Client

GAP = 0.1
"""How many seconds pass between two of its publishes."""

COUNT = 100
"""How often it publishes."""


def never_pause(port, batch, window, begun, over):
    """Publishes one window after another, each once the one before is acked."""
    client = Client(port)
    client.select()
    while not over.is_set():
        client.socket.sendall(batch)
        client.await_acks(window)
        begun.set()
    client.close()


@contextlib.contextmanager
def publishers(port, words, window, count):
    """So many clients, each a process of its own, that never pause."""
    over = multiprocessing.Event()
    begun = [multiprocessing.Event() for _ in range(count)]
    busy = [multiprocessing.Process(target=never_pause, args=(port, words * window, window, it, over)) for it in begun]
    for process in busy:
        process.start()
    try:
        for it in begun:
            it.wait()
        yield
    finally:
        over.set()
        for process in busy:
            process.join()


def latencies(client, words, queue):
    """How many seconds each of its publishes took to be acked, the least first. What waits is purged in between, since the others
    never stop."""
    taken = []
    for _ in range(COUNT):
        time.sleep(GAP)
        began = time.perf_counter()
        client.socket.sendall(words)
        client.await_acks(1)
        taken.append(time.perf_counter() - began)
        client.purge(queue)
    return sorted(taken)


def tell_latencies(name, taken):
    p50, p99, most = (1000 * it for it in (taken[len(taken) // 2], taken[len(taken) * 99 // 100 - 1], taken[-1]))
    print(f"one publish every 100 ms, {name}: p50 {p50:.2f} ms, p99 {p99:.2f} ms, max {most:.2f} ms", flush=True)
