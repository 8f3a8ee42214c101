#!/usr/bin/env python3
"""nbd.py [SECONDS [REPETITIONS]]: c/examples/nbd under fio, over a pool and over lists behind a lock, beside nbdkit and qemu-nbd: two
tables. Each run has a server of its own and a Unix socket; a cell has the median of the repetitions, 2 seconds and 5 of them unless
told otherwise. The device is 256 MiB of memory; the load is as many reads as writes of 4 KiB, at random places.

It needs gcc and Debian's fio, nbdkit and qemu-utils, and the machine has nothing else to do.
"""
import glob
import json
import os
import signal
import statistics
import subprocess
import sys
import tempfile
import time

ROOT = os.path.dirname(os.path.dirname(os.path.abspath(__file__)))
C = f"{ROOT}/c"
SECONDS = int(sys.argv[1]) if len(sys.argv) > 1 else 2
REPETITIONS = int(sys.argv[2]) if len(sys.argv) > 2 else 5
SIZE = 1 << 28
# Connections, requests that each has in flight, and in the second table tags of the server.
OPEN = [(1, 1), (1, 16), (4, 16), (16, 16)]
FULL = [(4, 16, 1), (4, 16, 4), (16, 16, 1), (16, 16, 4), (16, 16, 16)]


def build(made):
    subprocess.run([f"{C}/library.sh", "build"], check=True, stderr=subprocess.DEVNULL, env={**os.environ, "OUT": f"{made}/out"})
    gcc = ["gcc", "-std=c99", "-D_DEFAULT_SOURCE", "-O2", *glob.glob(f"{C}/examples/nbd/*.c")]
    subprocess.run([*gcc, f"-I{C}", f"{made}/out/libtags.a", "-pthread", "-o", f"{made}/tags"], check=True)
    subprocess.run([*gcc, f"-I{ROOT}/bench/nbd", "-pthread", "-o", f"{made}/list"], check=True)


def command(who, made, tags):
    """How a server is started that listens at the socket."""
    at = f"{made}/socket"
    if who == "nbdkit":
        return ["nbdkit", "--foreground", "--exit-with-parent", "--unix", at, "memory", str(SIZE)]
    if who == "qemu-nbd":
        return ["qemu-nbd", "--persistent", "--shared=32", "--format=raw", f"--socket={at}", f"{made}/disk"]
    return [f"{made}/{who}", "--unix", at, "--memory", str(SIZE), "--tags", str(tags), "--connections", "47", "--workers", "4"]


def start(arguments, at):
    ran = subprocess.Popen(arguments, stdin=subprocess.DEVNULL, stdout=subprocess.DEVNULL)
    end = time.monotonic() + 10
    while not os.path.exists(at) and time.monotonic() < end:
        time.sleep(0.01)
    return ran


def load(at, connections, depth):
    """Requests, requests a second, and the 99.9th percentile of their times in microseconds."""
    options = {
        "name": "load", "ioengine": "nbd", "uri": f"nbd+unix:///?socket={at}", "rw": "randrw", "bs": "4k", "iodepth": depth, "numjobs": connections, "thread": 1,
        "size": SIZE, "time_based": 1, "runtime": SECONDS, "group_reporting": 1, "output-format": "json", "percentile_list": "50:99.9",
        "unified_rw_reporting": "mixed",
    }
    ran = subprocess.run(["fio", *(f"--{name}={value}" for name, value in options.items())], stdout=subprocess.PIPE, check=True, timeout=30 + SECONDS)
    found = json.loads(ran.stdout[ran.stdout.index(b"{") :])["jobs"][0]["mixed"]
    return found["total_ios"], found["iops"], found["clat_ns"]["percentile"]["99.900000"] / 1000


def measure(who, made, connections, depth, tags=1024):
    """Of one run: requests a second, the 99.9th percentile, and of the server processor microseconds and switches for each request."""
    at = f"{made}/socket"
    ran = start(command(who, made, tags), at)
    try:
        count, rate, slowest = load(at, connections, depth)
    finally:
        ran.send_signal(signal.SIGTERM)
        _, _, used = os.wait4(ran.pid, 0)
        ran.returncode = 0
        if os.path.exists(at):
            os.unlink(at)
    return rate, slowest, (used.ru_utime + used.ru_stime) * 1e6 / count, (used.ru_nvcsw + used.ru_nivcsw) / count


def measured(contenders, made, *case):
    """The runs of each contender, which take turns, in an order that changes."""
    runs = {who: [] for who in contenders}
    for repetition in range(REPETITIONS):
        for who in contenders if repetition % 2 else reversed(contenders):
            runs[who].append(measure(who, made, *case))
    return runs


def row(runs):
    rates, slowest, processor, switches = zip(*runs)
    middle = statistics.median
    spread = f"{middle(rates) / 1000:.1f} ({min(rates) / 1000:.0f}-{max(rates) / 1000:.0f})"
    return f"{spread} | {middle(slowest) / 1000:.1f} | {middle(processor):.1f} | {middle(switches):.2f}"


def table(contenders, made, cases, head):
    columns = [head, "server", "thousand requests a second (least-most)", "99.9th percentile, ms", "processor us a request", "switches a request"]
    print("|", " | ".join(columns), "|")
    print("|---" * len(columns) + "|")
    for case in cases:
        for who, runs in measured(contenders, made, *case).items():
            print(f"| {', '.join(map(str, case))} | {who} | {row(runs)} |", flush=True)


def main():
    # In memory, as the other devices are.
    with tempfile.TemporaryDirectory(dir="/dev/shm") as made:
        build(made)
        with open(f"{made}/disk", "wb") as file:
            file.truncate(SIZE)
        table(["tags", "list", "nbdkit", "qemu-nbd"], made, OPEN, "connections, depth")
        print()
        table(["tags", "list"], made, FULL, "connections, depth, tags")


main()
