"""Archives that are the same bytes for the same contents: a tar of files, and an image in the layout of the Open Container Initiative."""

import gzip
import hashlib
import io
import json
import os
import tarfile
import time
from collections import namedtuple

# data: bytes; a folder has none
Entry = namedtuple("Entry", "path data mode")

LAYER = "application/vnd.oci.image.layer.v1.tar+gzip"
CONFIG = "application/vnd.oci.image.config.v1+json"
MANIFEST = "application/vnd.oci.image.manifest.v1+json"
ARCHITECTURES = {"x86_64": "amd64", "aarch64": "arm64"}


def folders_of(entries):
    """Each folder on the way to an entry, which is there once."""
    found = set()
    for it in entries:
        path = it.path
        while path := os.path.dirname(path):
            found.add(path)
    return [Entry(it, None, 0o755) for it in found - {entry.path for entry in entries}]


def tar_of(entries, moment):
    """Returns a tar of these entries, in the order of their paths, with one time for all, all of root."""
    made = io.BytesIO()
    with tarfile.open(fileobj=made, mode="w", format=tarfile.USTAR_FORMAT) as archive:
        for it in sorted([*entries, *folders_of(entries)]):
            info = tarfile.TarInfo(it.path)
            info.mtime, info.mode, info.uname, info.gname = moment, it.mode, "root", "root"
            info.type = tarfile.DIRTYPE if it.data is None else tarfile.REGTYPE
            info.size = len(it.data or b"")
            archive.addfile(info, io.BytesIO(it.data or b""))
    return made.getvalue()


def packed(data):
    return gzip.compress(data, mtime=0)


def digest_of(data):
    return f"sha256:{hashlib.sha256(data).hexdigest()}"


def json_of(value):
    return json.dumps(value, sort_keys=True, separators=(",", ":")).encode()


def described(kind, data, **more):
    return {"mediaType": kind, "digest": digest_of(data), "size": len(data), **more}


def image_of(entries, settings, moment, machine, name):
    """Returns an archive of an image with one layer, and its digest. `settings` is what the image is run with, `name` how a tool calls it once it is read."""
    layer = tar_of(entries, moment)
    blob = packed(layer)
    created = time.strftime("%Y-%m-%dT%H:%M:%SZ", time.gmtime(moment))
    about = {"architecture": ARCHITECTURES.get(machine, machine), "os": "linux"}
    config = json_of({**about, "created": created, "config": settings, "rootfs": {"type": "layers", "diff_ids": [digest_of(layer)]}, "history": [{"created": created}]})
    manifest = json_of({"schemaVersion": 2, "mediaType": MANIFEST, "config": described(CONFIG, config), "layers": [described(LAYER, blob)]})
    named = {"org.opencontainers.image.ref.name": name}
    index = json_of({"schemaVersion": 2, "manifests": [described(MANIFEST, manifest, platform=about, annotations=named)]})
    blobs = [Entry(f"blobs/sha256/{digest_of(it)[7:]}", it, 0o644) for it in (config, manifest, blob)]
    files = [Entry("index.json", index, 0o644), Entry("oci-layout", json_of({"imageLayoutVersion": "1.0.0"}), 0o644)]
    return tar_of([*blobs, *files], moment), digest_of(manifest)
