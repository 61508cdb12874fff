"""Runs the ping of each file of this folder that has one, against a broker with the user and the queue `ping`: python3 probes.py PORT PASSWORD_FILE

Prints a line for each, with its status. The command is taken out of the file; paths, the port and the password's file are replaced by those of this
machine. kubernetes.yml wants PyYAML (apt-get install python3-yaml), and is left out with a line if that is not here."""

import json
import os
import re
import shlex
import subprocess
import sys

HERE = os.path.dirname(os.path.abspath(__file__))
ROOT = os.path.join(HERE, "../..")
# the one file, if the environment names it; that of this repository
WARRENCTL = [os.environ["WARRENCTL"]] if os.environ.get("WARRENCTL") else ["-m", "warrenctl"]


def text_of(name):
    with open(os.path.join(HERE, name), encoding="utf-8") as file:
        return file.read()


def commands():
    """Yields each file's name with its command; no command if it can't be read here."""
    yield "Containerfile", json.loads(re.search(r"^HEALTHCHECK .* CMD (\[.*\])$", text_of("Containerfile"), re.MULTILINE).group(1))
    yield "warren-ping.service", shlex.split(re.search(r"^ExecStart=(.*)$", text_of("warren-ping.service"), re.MULTILINE).group(1))
    try:
        import yaml
    except ImportError:
        yield "kubernetes.yml", None
        return
    deployment = next(it for it in yaml.safe_load_all(text_of("kubernetes.yml")) if it["kind"] == "Deployment")
    yield "kubernetes.yml", deployment["spec"]["template"]["spec"]["containers"][0]["readinessProbe"]["exec"]["command"]


def here(word, port, password):
    word = word.replace("127.0.0.1:5672", f"127.0.0.1:{port}")
    return re.sub(r"^(/run/secrets/ping|\$\{CREDENTIALS_DIRECTORY\}/password)$", lambda _: password, word)


def main(port, password):
    for name, command in commands():
        if command is None:
            print(f"{name}: left out, PyYAML is not here")
            continue
        program, *words = (here(it, port, password) for it in command)
        if os.path.basename(program) != "warrenctl":
            raise SystemExit(f"{name}: it runs {program}")
        done = subprocess.run([sys.executable, *WARRENCTL, *words], cwd=ROOT, stdin=subprocess.DEVNULL, capture_output=True, text=True, timeout=60)
        print(f"{name}: status {done.returncode}", flush=True)


main(sys.argv[1], sys.argv[2])
