"""The process that listens at a port of this machine, found in /proc, and its connections."""

import os
from collections import namedtuple

# states of /proc/net/tcp: ESTABLISHED and CLOSE_WAIT are connections that the process has open
LISTEN, OPEN = "0A", ("01", "08")

Socket = namedtuple("Socket", "port state inode")


def sockets(proc="/proc"):
    """Yields the TCP sockets of this machine, each with its local port."""
    for name in ("net/tcp", "net/tcp6"):
        try:
            with open(os.path.join(proc, name), encoding="ascii") as file:
                lines = file.readlines()[1:]
        except OSError:
            continue
        for line in lines:
            fields = line.split()
            yield Socket(int(fields[1].rpartition(":")[2], 16), fields[3], fields[9])


def connections_at(port, proc="/proc"):
    """Returns how many connections are open at this port."""
    return sum(1 for it in sockets(proc) if it.port == port and it.state in OPEN)


def listener_at(port, proc="/proc"):
    """Returns the number of the process that listens at this port, or `None` if there is none or this user may not see its descriptors."""
    wanted = {f"socket:[{it.inode}]" for it in sockets(proc) if it.port == port and it.state == LISTEN}
    return next((int(pid) for pid in os.listdir(proc) if pid.isdigit() and wanted and has_one_of(os.path.join(proc, pid, "fd"), wanted)), None)


def has_one_of(folder, wanted):
    """Returns whether a descriptor in `folder` is one of these sockets."""
    try:
        return any(os.readlink(os.path.join(folder, it)) in wanted for it in os.listdir(folder))
    except OSError:
        return False


def text_of(name):
    """Returns what a file of /proc has, or `None` if it is not there or this user may not read it."""
    try:
        with open(name, encoding="utf-8", errors="replace") as file:
            return file.read()
    except OSError:
        return None


def limit_of(pid, what, proc="/proc"):
    """Returns a soft limit of the process, such as that of "Max address space" in bytes, or `None` if it has none."""
    lines = (text_of(os.path.join(proc, str(pid), "limits")) or "").splitlines()
    found = next((line[len(what) :].split()[0] for line in lines if line.startswith(what)), "")
    return int(found) if found.isdigit() else None


def started_at(ticks, proc="/proc"):
    """Returns the time of a start in seconds since 1970, by its clock ticks since the start of the machine."""
    lines = (text_of(os.path.join(proc, "stat")) or "").splitlines()
    begun = next((int(line.split()[1]) for line in lines if line.startswith("btime ")), 0)
    return begun + ticks / os.sysconf("SC_CLK_TCK")


def figures_of(pid, proc="/proc"):
    """Returns the figures of a process by their names; none if it is not there. Those that this user may not see are left out."""
    stat = text_of(os.path.join(proc, str(pid), "stat"))
    if stat is None:
        return {}
    # what follows the name in brackets begins with the third field of proc(5)
    fields = stat.rpartition(")")[2].split()
    found = {
        "virtual_memory_bytes": int(fields[20]),
        "resident_memory_bytes": int(fields[21]) * os.sysconf("SC_PAGE_SIZE"),
        "start_time_seconds": started_at(int(fields[19]), proc),
        "cpu_seconds_total": (int(fields[11]) + int(fields[12])) / os.sysconf("SC_CLK_TCK"),
        "virtual_memory_max_bytes": limit_of(pid, "Max address space", proc),
        "max_fds": limit_of(pid, "Max open files", proc),
        "open_fds": count_in(os.path.join(proc, str(pid), "fd")),
    }
    return {name: it for name, it in found.items() if it is not None}


def count_in(folder):
    try:
        return len(os.listdir(folder))
    except OSError:
        return None
