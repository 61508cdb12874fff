"""The entries of a user in a definitions file."""

import base64
import hashlib

RIGHTS = {"vhost": "/", "configure": "^$", "write": ".*", "read": ".*"}


def hash_of(password, salt):
    """RabbitMQ's hash: a salt of four bytes and the SHA-256 of it and the password, in Base64."""
    return base64.b64encode(salt + hashlib.sha256(salt + password).digest()).decode()


def entries(name, password_hash):
    user = {"name": name, "password_hash": password_hash, "hashing_algorithm": "rabbit_password_hashing_sha256", "tags": []}
    return {"users": [user], "permissions": [{"user": name, **RIGHTS}]}


def with_user(definitions, made):
    """Puts the entries into the definitions: a user of this name gets the new hash, and keeps the rest."""
    (user,), (permission,) = made["users"], made["permissions"]
    there = [it for it in definitions["users"] if it.get("name") == user["name"]]
    for it in there:
        it.update(password_hash=user["password_hash"], hashing_algorithm=user["hashing_algorithm"])
    if not there:
        definitions["users"].append(user)
    if not any(it.get("user") == user["name"] for it in definitions["permissions"]):
        definitions["permissions"].append(permission)
    return "has a new password" if there else "is added"


def without_user(definitions, name):
    """Takes a user and the permissions out of the definitions. Returns whether there was one."""
    before = len(definitions["users"])
    definitions["users"] = [it for it in definitions["users"] if it.get("name") != name]
    definitions["permissions"] = [it for it in definitions["permissions"] if it.get("user") != name]
    return len(definitions["users"]) < before
