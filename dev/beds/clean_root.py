"""A Debian root in which a script may install and remove: this machine's packages without anything beside them, and what is changed is gone at the end.

It is an overlay over this machine's root, in a mount namespace of its own. /usr/local, /opt, /home and each folder that Debian has not are empty.
"""

import os
import shutil
import subprocess
import tempfile

SHOWN = "bin|boot|dev|etc|lib*|proc|run|sbin|sys|usr|var"
ENTER = f"""
set -eu
mount -t tmpfs tmpfs "$1"
mkdir "$1/changes" "$1/work" "$1/root"
mount -t overlay overlay -o "lowerdir=/,upperdir=$1/changes,workdir=$1/work" "$1/root"
for it in "$1"/root/*; do
    case ${{it##*/}} in
        {SHOWN}) ;;
        *) [ ! -d "$it" ] || [ -L "$it" ] || mount -t tmpfs tmpfs "$it" ;;
    esac
done
for it in usr/local run; do mount -t tmpfs tmpfs "$1/root/$it"; done
mount --bind /dev "$1/root/dev"
mount -t proc proc "$1/root/proc" 2> /dev/null || mount --bind /proc "$1/root/proc"
mkdir -p "$1/root/mnt"
mount --bind "$2" "$1/root/mnt"
cd "$1/root/mnt"
exec chroot "$1/root" /usr/bin/env -i PATH=/usr/sbin:/usr/bin:/sbin:/bin LC_ALL=C.UTF-8 DEBIAN_FRONTEND=noninteractive sh -euc "cd /mnt; $3"
"""


def run_inside(folder, script, seconds=300):
    """Runs a script of the shell in such a root, in which `folder` is /mnt, for at most `seconds` seconds. Returns what subprocess says."""
    with tempfile.TemporaryDirectory() as place:
        command = ["unshare", "--mount", "sh", "-c", ENTER, "sh", place, folder, script]
        return subprocess.run(command, capture_output=True, text=True, stdin=subprocess.DEVNULL, timeout=seconds)


def why_not():
    """Returns why there can be no such root here, or `None`."""
    if os.geteuid() != 0:
        return "root"
    for it in ("unshare", "dpkg"):
        if shutil.which(it) is None:
            return it
    with tempfile.TemporaryDirectory() as folder:
        return None if run_inside(folder, "true").returncode == 0 else "a mount namespace with an overlay"
