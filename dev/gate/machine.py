"""The processors and the memory that this process may use, and how many checks of crates they are enough for."""

import os
import re

# the most memory that the check of a crate takes, in bytes, as measured; and the most that rt reckons for one
TAKES, RECKONED = 4_500_000_000, 9_100_000_000
# the share of the free memory that rt gives to checks
SHARE = 0.85
# of each version of control groups: a limit, and what is held of it; a quota of time, and its period
MEMORY = (
    ("/sys/fs/cgroup/memory.max", "/sys/fs/cgroup/memory.stat", r"anon (\d+)"),
    ("/sys/fs/cgroup/memory/memory.limit_in_bytes", "/sys/fs/cgroup/memory/memory.stat", r"total_rss (\d+)"),
)
TIME = (
    ("/sys/fs/cgroup/cpu.max", "/sys/fs/cgroup/cpu.max", r" (\d+)"),
    ("/sys/fs/cgroup/cpu/cpu.cfs_quota_us", "/sys/fs/cgroup/cpu/cpu.cfs_period_us", r"(\d+)"),
)


def number_in(path, pattern):
    """The first number that the pattern finds in the file, or None."""
    try:
        with open(path, encoding="utf-8") as file:
            found = re.search(pattern, file.read())
    except OSError:
        return None
    return int(found[1]) if found else None


def processors():
    """How many processors this process may use."""
    found = len(os.sched_getaffinity(0))
    for quota_file, period_file, pattern in TIME:
        quota, period = number_in(quota_file, r"^(\d+)"), number_in(period_file, pattern)
        if quota and period:
            found = min(found, max(quota // period, 1))
    return found


def free_memory():
    """How many bytes of memory this process may take."""
    kilobytes = number_in("/proc/meminfo", r"MemAvailable:\s+(\d+)")
    found = [1024 * kilobytes] if kilobytes else []
    for limit_file, held_file, pattern in MEMORY:
        limit, held = number_in(limit_file, r"^(\d+)"), number_in(held_file, pattern)
        if limit and held is not None:
            found.append(max(limit - held, 0))
    return min(found, default=0)


def checks_at_once(count, memory):
    """How many checks to run at once on so many processors and bytes, or None if rt is to choose: where its own reckoning fills the processors, or
    where there is memory for one check alone."""
    if SHARE * memory >= count * RECKONED:
        return None
    checks = min(count, int(memory / TAKES))
    return checks if checks > 1 else None
