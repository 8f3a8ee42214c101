"""report.py LINES: prints what growth.sh measured as tables. A line of the file has a part, the tags, the threads, who, and the
nanoseconds of a processor and by the clock. A cell has the medians of both over the repetitions, or nothing where nobody ran."""
import collections
import statistics
import sys

PARTS = {
    "pairs": "A pair, on an idle machine: nanoseconds of a processor / by the clock.",
    "pairs, loaded": "The same under load: twice as many busy threads as processors beside it.",
    "handover": "A request handed over, on an idle machine: nanoseconds of a processor, of both threads / by the clock.",
    "handover, loaded": "The same under load.",
}
NAMES = {
    "pool": "C",
    "cache": "C, cache",
    "batches": "C, by eights",
    "plain": "bitmap, one hint",
    "semaphore": "semaphore and bitmap",
    "list": "locked list",
    "mempool": "rte_mempool",
}


def read(path):
    """The times by part, of each by row, and of each row by contender, in the order in which they first stand in the file."""
    parts = {}
    with open(path, encoding="utf-8") as lines:
        for line in lines:
            part, tags, threads, who, processor, clock = line.rstrip("\n").split("\t")
            row = parts.setdefault(part, {}).setdefault((int(tags), int(threads)), collections.defaultdict(list))
            row[who].append((float(processor), float(clock)))
    return parts


def cell(times):
    return " / ".join(f"{statistics.median(one):.1f}" for one in zip(*times))


def main():
    for part, rows in read(sys.argv[1]).items():
        everybody = list(dict.fromkeys(who for row in rows.values() for who in row))
        print(f"\n{PARTS[part]}\n")
        print("| tags | threads | " + " | ".join(NAMES.get(who, who) for who in everybody) + " |")
        print("|" + "---|" * (2 + len(everybody)))
        for (tags, threads), row in rows.items():
            print(f"| {tags:,} | {threads} | " + " | ".join(cell(row[who]) if who in row else "" for who in everybody) + " |")


main()
