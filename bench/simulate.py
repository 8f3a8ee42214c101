#!/usr/bin/env python3
"""simulate.py [ROUNDS]: how a pair, and a map without a tag to spare, grow with processors that this machine does not have: up to
64 on two sockets, by simulate/lines.c, which says how; through C from a pool without caches and with caches of 8, and of
the kernel's sbitmap. A cell is the nanoseconds of a round, of 2,000 by each processor.

`kernel.sh` has fetched the kernel's files. It takes gcc, on x86-64, and nothing depends on the machine or on what else it does.
"""
import os
import re
import subprocess
import sys
import tempfile

HERE = os.path.dirname(os.path.abspath(__file__))
ROOT = os.path.dirname(HERE)
sys.path.insert(0, f"{ROOT}/c/tests/schedules")
sys.dont_write_bytecode = True

from instrument import ATOMIC, touched  # noqa: E402

ROUNDS = int(sys.argv[1]) if len(sys.argv) > 1 else 2_000
PROCESSORS = [1, 2, 4, 16, 64]
CONTENDERS = {"kernel": "kernel", "c": "C, own slots", "c-cache": "C, cache"}
KERNEL = f"{HERE}/out/linux-source-6.12/lib"
FLAGS = ["-O2", "-march=x86-64-v2", "-fno-pie", "-fcf-protection=none"]
SHIM = [f"-I{HERE}/kernel/shim", f"-I{HERE}/out/headers", "-include", f"{HERE}/kernel/shim/kernel.h", "-std=gnu11", "-fno-strict-aliasing", "-w"]
# Instructions that only read what they name last.
READS = re.compile(r"\t(cmp|test|bt[bwlq]?\t|u?comis)")


def kind(line, operand):
    if ATOMIC.match(line):
        return "atomic"
    return "store" if line.split("#")[0].rstrip().endswith(operand) and not READS.match(line) and line.count(",") else "load"


def instrumented(assembly):
    """The assembly with a call before each access to memory."""
    for line in assembly.splitlines(keepends=True):
        operand = touched(line)
        if operand:
            yield f"\tleaq -128(%rsp), %rsp\n\tpushq %rdi\n\tleaq {operand}, %rdi\n\tcallq touch_{kind(line, operand)}\n"
            yield "\tpopq %rdi\n\tleaq 128(%rsp), %rsp\n"
        yield line


def build(made):
    parts = {"library": f"{ROOT}/c/generated/tag_c-x86_64.s"}
    sources = {"c_tags": (f"{HERE}/kernel/c_tags.c", []), "sbitmap": (f"{KERNEL}/sbitmap.c", SHIM), "find_bit": (f"{KERNEL}/find_bit.c", SHIM)}
    sources["sbitmap_tags"] = (f"{HERE}/kernel/sbitmap_tags.c", SHIM)
    for name, (source, options) in sources.items():
        parts[name] = f"{made}/{name}.plain.s"
        subprocess.run(["gcc", *FLAGS, *options, "-S", source, "-o", parts[name]], check=True)
    for name, path in parts.items():
        with open(path, encoding="utf-8") as file, open(f"{made}/{name}.s", "w", encoding="utf-8") as to:
            to.writelines(instrumented(file.read()))
    rest = [f"{ROOT}/c/{name}" for name in os.listdir(f"{ROOT}/c") if name.endswith(".c")]
    ours = [f"{HERE}/simulate/lines.c", f"{HERE}/simulate/touch.S", *(f"{made}/{name}.s" for name in parts)]
    subprocess.run(["gcc", "-no-pie", *FLAGS, "-Wall", *ours, *rest, "-pthread", "-o", f"{made}/lines"], check=True)


def main():
    with tempfile.TemporaryDirectory() as made:
        build(made)
        for workload, depth in (("pair", 1_024), ("pair", 10_240), ("full", 1_024), ("full", 10_240)):
            print(f"{workload}, {depth:,} tags:\n")
            print("| processors | " + " | ".join(CONTENDERS.values()) + " |\n" + "|---" * (1 + len(CONTENDERS)) + "|")
            for processors in PROCESSORS:
                case = [workload, str(depth), str(processors), str(ROUNDS)]
                cells = [subprocess.run([f"{made}/lines", who, *case], stdout=subprocess.PIPE, check=True, text=True).stdout.strip() for who in CONTENDERS]
                print(f"| {processors} | " + " | ".join(cells) + " |")
            print()


main()
