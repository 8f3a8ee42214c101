#!/usr/bin/env python3
"""Writes a fio log, version 2, of almost 16 MiB, the same each time: `logs.py spread` or `logs.py sweeps`.

spread: reads, writes, trims, syncs and datasyncs on four disks of 4 TiB, at random offsets; one line in ten trims 1 to 8 GiB.
sweeps: small writes at random offsets of one disk of 4 TiB, each followed by a read of the whole disk.
"""
import random
import sys

MOST = 16 * 1024 * 1024
DISK = 4 << 40
SECTOR = 512
KINDS = ["read"] * 10 + ["write"] * 7 + ["trim"] * 2 + ["sync", "datasync"]


def spread(chance):
    """An I/O line on one of four disks."""
    name = f"/dev/nvme{chance.randrange(4)}n1"
    kind = chance.choice(KINDS)
    if kind in ("sync", "datasync"):
        return [f"{name} {kind} 0 0"]
    length = chance.randrange(1, 9) << 30 if kind == "trim" else SECTOR << chance.randrange(8)
    return [f"{name} {kind} {chance.randrange((DISK - length) // SECTOR) * SECTOR} {length}"]


def sweeps(chance):
    """A small write and a read of everything."""
    offset = chance.randrange(DISK // 4096) * 4096
    return [f"/dev/nvme0n1 write {offset} 4096", f"/dev/nvme0n1 read 0 {DISK}"]


def main():
    kinds = {"spread": spread, "sweeps": sweeps}
    if sys.argv[1:] not in [[name] for name in kinds]:
        sys.exit(__doc__)
    lines_of = kinds[sys.argv[1]]
    chance = random.Random(1)
    text = ["fio version 2 iolog", *(f"/dev/nvme{disk}n1 add" for disk in range(4))]
    size = sum(len(line) + 1 for line in text)
    while True:
        more = lines_of(chance)
        size += sum(len(line) + 1 for line in more)
        if size > MOST:
            break
        text += more
    sys.stdout.write("\n".join(text) + "\n")


main()
