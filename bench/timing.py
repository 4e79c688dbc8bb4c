"""Times requests through `qblk io` and through `qemu-io`, in turn."""

import os
import resource
import statistics
import subprocess
import sys
import time
from pathlib import Path

TOP = Path(__file__).resolve().parent.parent
KIB = 1_024
MIB = 1_024 * KIB
GIB = 1_024 * MIB
CLUSTER = 64 * KIB
ROUNDS = 5


def program():
    """The program that is timed, by default the one that `rt run` leaves."""
    return Path(sys.argv[1]).resolve() if len(sys.argv) > 1 else TOP / "crates" / "qblk" / "out" / "qblk"


def created(image, size):
    """An image of qcow2, made anew."""
    image.unlink(missing_ok=True)
    subprocess.run(["qemu-img", "create", "-q", "-f", "qcow2", image, str(size)], check=True)
    return image


def used():
    """The processor time of the processes that have ended, in seconds."""
    ended = resource.getrusage(resource.RUSAGE_CHILDREN)
    return ended.ru_utime + ended.ru_stime


def timed(words, source):
    """How long a process takes, and how much processor time, in seconds. What was written before is on the disk then."""
    os.sync()
    with open(source, "rb") as lines:
        before, used_before = time.perf_counter(), used()
        subprocess.run(words, stdin=lines, stdout=subprocess.DEVNULL, stderr=subprocess.DEVNULL, check=True)
        return time.perf_counter() - before, used() - used_before


def compare(title, form, image_of, requests, folder):
    """Runs the requests through both, in turn, each on the image that `image_of` gives, and prints the ratios of the medians."""
    trace = Path(folder, "trace")
    quiet = Path(folder, "quiet")
    trace.write_text("".join(line + "\n" for line in requests))
    quiet.write_text("".join(line.replace(" ", " -q ", 1) + "\n" for line in requests))
    ours, theirs = [], []
    for _ in range(ROUNDS):
        ours.append(timed([program(), "io", form, image_of(), trace], "/dev/null"))
        theirs.append(timed(["qemu-io", "-t", "writeback", "-f", form, image_of()], quiet))
    print(title)
    for name, our, their in zip(("time", "processor"), zip(*ours), zip(*theirs)):
        ratio = statistics.median(our) / statistics.median(their)
        print(f"  {name}: qblk {spread(our)}, qemu-io {spread(their)}, ratio {ratio:.2f}", flush=True)


def spread(times):
    return f"{statistics.median(times):.2f} s ({min(times):.2f} to {max(times):.2f})"
