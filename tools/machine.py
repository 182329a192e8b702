"""What this machine has: how many proofs go on it side by side."""

import os
import pathlib
import re

# What a proof takes of memory at most, as measured of these crates, but for that of chaosd, which takes 5.4 GB. Most take half as much, so
# that there is room for it beside others.
PROOF_BYTES = 2_500_000_000


def free_bytes():
    """The free memory of the machine, or less by the limit of the control group."""
    found = [1024 * int(re.search(r"MemAvailable:\s+(\d+)", pathlib.Path("/proc/meminfo").read_text())[1])]
    try:
        limit = int(pathlib.Path("/sys/fs/cgroup/memory.max").read_text())
        held = re.search(r"anon (\d+)", pathlib.Path("/sys/fs/cgroup/memory.stat").read_text())
        found.append(limit - int(held[1]))
    except (OSError, ValueError, TypeError):
        pass
    return min(found)


def slots():
    """How many proofs have memory: one at least."""
    return max(1, int(0.85 * free_bytes() / PROOF_BYTES))


def lanes():
    """How many proofs have a processor and memory: one at least."""
    return min(len(os.sched_getaffinity(0)), slots())
