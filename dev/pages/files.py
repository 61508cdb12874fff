"""The files and folders that the pages speak of, for a block's commands."""

import json
import os
import shutil
import subprocess

from dev import ROOT
from dev.beds.staging import NAMES, certify, shop_in, write_json
from dev.pages.blocks import blocks_of

READ, WORK, BROKERS = "/mnt/pages", "/tmp/work", "/etc/warren"
SERVED, CURRENT = f"{BROKERS}/2026-11-01", f"{BROKERS}/current"
OWN_FOLDERS = ("examples/shop/README.md", "examples/branches/README.md")


def json_of(path):
    with open(path, encoding="utf-8") as file:
        return json.load(file)


def ci(name):
    return json_of(f"{ROOT}/examples/ci/{name}.json")


def with_users(definitions):
    """The shop, with the users and the queue that the pages name."""
    (user,), (permission,), queue = definitions["users"], definitions["permissions"], definitions["queues"][0]
    for it in ("ping", "metrics"):
        definitions["users"].append({**user, "name": it})
        definitions["permissions"].append({**permission, "user": it})
    definitions["queues"].append({**queue, "name": "ping", "arguments": {"x-max-length": 16, "x-overflow": "reject-publish"}})
    return definitions


def changed(definitions):
    """With one binding key changed, as GUARANTEES has it."""
    return json.loads(json.dumps(definitions).replace('"orders.#"', '"orders.*.#"'))


def with_detour(definitions):
    next(it for it in definitions["queues"] if it["name"] == "billing")["arguments"]["x-dead-letter-exchange"] = "news"
    return definitions


def with_guest_queue(export):
    export["queues"].append({**export["queues"][0], "name": "of a client", "auto_delete": True, "arguments": {}})
    return export


def with_a_queue_of_orders(definitions):
    definitions["queues"].append({**definitions["queues"][0], "name": "orders.eu"})
    return definitions


def never_to_mail():
    return {"guarantees": [{"mode": "never", "exchange": "payments", "pattern": "#", "queue": "mail"}]}


def fill(folder, definitions, guarantees):
    """Puts the files into a folder; certificates too, if all holds. Guarantees of an export are of no definitions here."""
    for name, value in zip(NAMES, (definitions, guarantees)):
        write_json(f"{folder}/{name}", value)
    if guarantees != ci("guarantees"):
        certify("warren", folder)


def work_folder(command):
    """Makes the folder in which a block's commands run, with the files that its page speaks of, and returns its path."""
    shutil.rmtree(WORK, ignore_errors=True)
    os.mkdir(WORK)
    if command.page in OWN_FOLDERS:
        shutil.copytree(os.path.dirname(f"{ROOT}/{command.page}"), WORK, dirs_exist_ok=True)
        return WORK
    os.symlink(f"{ROOT}/examples", f"{WORK}/examples")
    shop = json_of(f"{ROOT}/examples/shop/definitions.json")
    write_json(f"{WORK}/changed.json", changed(shop))
    write_json(f"{WORK}/export.json", shop)
    definitions, guarantees = with_users(shop), json_of(f"{ROOT}/examples/shop/guarantees.json")
    if command.text.startswith("warren check dead.json"):
        write_json(f"{WORK}/dead.json", with_detour(json_of(f"{ROOT}/examples/shop/definitions.json")))
        guarantees = never_to_mail()
    if command.text.startswith("examples/ci/check export.json"):
        guarantees = ci("guarantees")
        write_json(f"{WORK}/export.json", with_guest_queue(ci("export")) if "--only" in command.text else changed(ci("export")))
    if command.page == "README.md" and command.text.startswith("warren check"):
        first = next(blocks_of(text_of(command.page))).lines
        definitions, guarantees = changed(definitions), {"guarantees": [json.loads(it) for it in first]}
    fill(WORK, definitions, guarantees)
    make_pair()
    open(f"{WORK}/warren.log", "w").close()
    return WORK


def make_pair():
    """Makes a certificate for TLS and its key, and both as one file."""
    words = ["openssl", "req", "-x509", "-newkey", "rsa:2048", "-nodes", "-subj", "/CN=localhost", "-keyout", "key.pem", "-out", "chain.pem"]
    subprocess.run(words, cwd=WORK, check=True, stderr=subprocess.DEVNULL)
    with open(f"{WORK}/certificate.pem", "wb") as both:
        for it in ("chain.pem", "key.pem"):
            with open(f"{WORK}/{it}", "rb") as file:
                shutil.copyfileobj(file, both)


def text_of(page):
    with open(f"{READ}/{page}", encoding="utf-8") as file:
        return file.read()


def brokers():
    """Makes the folders of a broker as OPERATIONS has them: the shop, and a link to it."""
    shutil.rmtree(BROKERS, ignore_errors=True)
    os.makedirs(SERVED)
    shop_in(SERVED)
    fill(SERVED, with_users(json_of(f"{SERVED}/definitions.json")), json_of(f"{SERVED}/guarantees.json"))
    shutil.copytree(SERVED, f"{BROKERS}/second")
    os.symlink(SERVED, CURRENT)
