"""How much this machine can run at a time."""
import os
import pathlib
import re


def at_a_time(size):
    """Returns how many tasks of so many bytes may run at a time: one a processor, and no more than memory holds."""
    meminfo = pathlib.Path("/proc/meminfo").read_text()
    free = int(re.search(r"MemAvailable: +(\d+)", meminfo)[1]) * 1024
    return max(1, min(len(os.sched_getaffinity(0)), free // size))
