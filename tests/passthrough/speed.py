"""How long a small write takes with the gates and without them: by hand, as a machine's load
decides it."""

import os
import statistics
import time

from passthrough.mounts import mounted

MOUNTS = 10
RUNS = 40
WRITES = 250
DATA = b"x" * 512


def time_of_writes(file):
    """Microseconds of one write, over some hundred."""
    began = time.perf_counter()
    for number in range(WRITES):
        os.pwrite(file, DATA, number * len(DATA))
    return (time.perf_counter() - began) * 1e6 / WRITES


def one_pair(programs):
    """Two new mounts, one with the gates and one without, in turns. The median of each."""
    times = {"gated": [], "ungated": []}
    with mounted(programs) as gated, mounted(programs, "--ungated") as ungated:
        files = {
            name: os.open(f"{mount.point}/file", os.O_CREAT | os.O_WRONLY)
            for name, mount in (("gated", gated), ("ungated", ungated))
        }
        for number in range(RUNS):
            for name in sorted(files, reverse=number % 2 == 1):
                times[name].append(time_of_writes(files[name]))
        for file in files.values():
            os.close(file)
    return [statistics.median(found) for found in times.values()]


def speed(programs):
    """How long a small write takes, over several pairs of mounts: two mounts of one kind differ by
    more than the gates cost."""
    pairs = [one_pair(programs) for _ in range(MOUNTS)]
    medians = [statistics.median(found) for found in zip(*pairs)]
    ratios = sorted((one / other - 1) * 100 for one, other in pairs)
    text = (
        f"a write of {len(DATA)} bytes, median of {MOUNTS} mounts: gated {medians[0]:.1f} us,"
        f" ungated {medians[1]:.1f} us"
    )
    return (
        f"{text}; with the gates {statistics.median(ratios):+.1f} %, from {ratios[0]:+.1f} to"
        f" {ratios[-1]:+.1f} %"
    )


BY_HAND = [speed]
