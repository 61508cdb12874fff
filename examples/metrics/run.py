"""Serves the shop, has `warrenctl metrics` tell of it, and looks at what it tells. Then a Prometheus asks it, and is asked what dashboard.json asks.

    python3 -m examples.metrics.run WARREN

WARREN is the program of that crate. The last part needs prometheus and promtool: apt-get install --no-install-recommends prometheus.
The status is not 0 if something differs. Without them a line says that this part is skipped."""

import json
import os
import shutil
import subprocess
import sys
import tempfile
import urllib.parse
import urllib.request

from dev.beds.commands import warrenctl
from dev.beds.example import run_example
from dev.beds.rabbit import free_ports
from dev.beds.staging import NAMES, PATIENCE, SHOP, Served, is_acked, shop_in, until, wanted

HERE = os.path.dirname(os.path.realpath(__file__))
sys.dont_write_bytecode = True


def missing():
    """Returns what is not on this machine, or `None`."""
    return next((it for it in ("prometheus", "promtool") if shutil.which(it) is None), None)


def fetched(address):
    with urllib.request.urlopen(address, timeout=PATIENCE) as answer:
        return answer.read().decode()


def values_at(address):
    """Returns the samples of a page, by name and labels."""
    lines = [it for it in fetched(f"http://{address}/metrics").splitlines() if it and not it.startswith("#")]
    return {name: float(value) for name, _, value in (it.rpartition(" ") for it in lines)}


class Watched(Served):
    """The shop under `--reload 2`, and an exporter that reads its standard error and hands it on into a file."""

    def __init__(self, warren, folder):
        shop_in(folder)
        self.log = os.path.join(folder, "log")
        super().__init__(warren, folder, "--reload", "2", errors=subprocess.PIPE)
        words = [*warrenctl("metrics"), f"till@127.0.0.1:{self.port}", self.files[0], "--listen", "127.0.0.1:0", "--errors", "-", "--hand-on"]
        with open(self.log, "wb") as log:
            self.exporter = subprocess.Popen(words, stdin=self.process.stderr, stdout=subprocess.PIPE, stderr=log, text=True, env={**os.environ, "WARREN_PASSWORD": "till"})
        self.process.stderr.close()
        self.address = self.exporter.stdout.readline().split()[-1]

    def __exit__(self, *_):
        self.exporter.kill()
        self.exporter.wait()
        self.end()


def of_the_exporter(broker):
    with broker.client() as publisher, broker.client() as consumer:
        publisher.select()
        yield wanted("three orders are acked", all([is_acked(publisher, "shop", "orders.new", b"two loaves") for _ in range(3)]))
        consumer.consume("packing", 2)
        found = values_at(broker.address)
        audit = found.get('warren_queue_messages_ready{queue="audit"}')
        packing = found.get('warren_queue_messages_ready{queue="packing"}')
        yield wanted("ready messages: 3 in audit; 1 in packing, for two were given out", (audit, packing) == (3, 1), (audit, packing))
        yield wanted("consumers", found.get('warren_queue_consumers{queue="packing"}') == 1 and found.get('warren_queue_consumers{queue="audit"}') == 0)
        yield wanted("connections", found["warren_connections"] == 2, found["warren_connections"])
        yield wanted("the process", found["warren_process_resident_memory_bytes"] > 1e6 and found["warren_process_open_fds"] > 4)
    yield wanted("connections that have ended", until(lambda: values_at(broker.address)["warren_connections"] == 0))


def of_reloads(broker):
    with open(broker.files[1], "w", encoding="utf-8") as file:
        file.write("{")
    count = until(lambda: values_at(broker.address)['warren_errors_total{cause="file"}'])
    yield wanted("refused reloads are counted", count >= 1, count)
    with open(broker.log, encoding="utf-8") as file:
        lines = set(file.read().splitlines())
    yield wanted("and their lines are handed on", lines == {f"warren: {broker.files[1]}: refused 1"}, lines)
    shutil.copy(os.path.join(SHOP, NAMES[1]), broker.files[1])


def of_rules():
    for words in (("check", "config", "prometheus.yml"), ("test", "rules", "alerts_test.yml")):
        done = subprocess.run(["promtool", *words], cwd=HERE, capture_output=True, text=True)
        yield wanted(f"promtool {' '.join(words)}", done.returncode == 0, done.stdout + done.stderr)


def expressions():
    """Returns what the dashboard asks, for all brokers and queues."""
    with open(os.path.join(HERE, "dashboard.json"), encoding="utf-8") as file:
        panels = json.load(file)["panels"]
    return [it["expr"].replace("$queue", ".*").replace("$instance", ".*") for panel in panels for it in panel["targets"]]


class Prometheus:
    """A Prometheus over prometheus.yml, that asks the exporter each second."""

    def __init__(self, folder, exporter):
        with open(os.path.join(HERE, "prometheus.yml"), encoding="utf-8") as file:
            text = file.read().replace("15s", "1s").replace("127.0.0.1:9419", exporter)
        shutil.copy(os.path.join(HERE, "alerts.yml"), folder)
        config = os.path.join(folder, "prometheus.yml")
        with open(config, "w", encoding="utf-8") as file:
            file.write(text)
        self.address = f"127.0.0.1:{free_ports(1)[0]}"
        words = ["prometheus", f"--config.file={config}", f"--storage.tsdb.path={folder}/data", f"--web.listen-address={self.address}"]
        self.process = subprocess.Popen(words, stdout=subprocess.DEVNULL, stderr=subprocess.DEVNULL)

    def ask(self, expression):
        """Returns how many series answer."""
        try:
            answer = json.loads(fetched(f"http://{self.address}/api/v1/query?" + urllib.parse.urlencode({"query": expression})))
            return len(answer["data"]["result"]) if answer["status"] == "success" else 0
        except OSError:
            return 0

    def alerts(self):
        return {it["labels"]["alertname"] for it in json.loads(fetched(f"http://{self.address}/api/v1/alerts"))["data"]["alerts"]}

    def end(self):
        self.process.kill()
        self.process.wait()


def of_prometheus(broker, folder):
    prometheus = Prometheus(folder, broker.address)
    try:
        yield wanted("a Prometheus asks", until(lambda: prometheus.ask("warren_up == 1")))
        for it in expressions():
            # this broker has no limit of address space; nothing else may be without an answer
            if "virtual_memory_max" not in it:
                yield wanted(f"the dashboard's {it}", until(lambda: prometheus.ask(it)))
        yield wanted("an alert is on its way for audit, which has no consumer", until(lambda: "WarrenQueueWithoutConsumers" in prometheus.alerts()))
        broker.end()
        yield wanted("a broker that is gone", until(lambda: "WarrenBrokerDown" in prometheus.alerts()))
    finally:
        prometheus.end()


def outcomes(broker, folder):
    yield from of_the_exporter(broker)
    yield from of_reloads(broker)
    lacks = missing()
    if lacks:
        print(f"examples/metrics: rules and dashboard are skipped, {lacks} is not here: apt-get install --no-install-recommends prometheus")
        return
    yield from of_rules()
    yield from of_prometheus(broker, folder)


def main(warren):
    with tempfile.TemporaryDirectory() as folder:
        with Watched(warren, folder) as broker:
            return 0 if all(list(outcomes(broker, folder))) else 1


if __name__ == "__main__":
    sys.exit(run_example("examples/metrics", __doc__, main))
