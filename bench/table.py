"""table.py LINES TIME: prints the figures of a file of JSON lines as a table: of each case its median over the alternations, and
the least and the most of them. A ratio is tag_bench's median over the contender's. TIME is `processor` for a thread's processor
time, which a machine that is busy with something else changes little, or `ns` for the clock."""
import json
import statistics
import sys

OURS = "tag_bench"


def read(path, time):
    """The figures by case, and of each by contender, in the order in which they first stand in the file."""
    figures = {}
    with open(path, encoding="utf-8") as lines:
        for line in lines:
            entry = json.loads(line)
            case = (entry["case"], entry["threads"])
            who = entry.get("contender", OURS)
            figures.setdefault(case, {}).setdefault(who, []).append(entry[time])
    return figures


def cell(runs):
    return f"{statistics.median(runs):.1f} ({min(runs):.1f}-{max(runs):.1f})"


def main():
    figures = read(sys.argv[1], sys.argv[2])
    others = []
    for runs in figures.values():
        others += [who for who in runs if who != OURS and who not in others]
    head = ["case", "threads", "tag_bench"]
    for who in others:
        head += [who, "ratio"]
    print("Nanoseconds per operation of one thread: median (least-most) over the alternations.\n")
    print("| " + " | ".join(head) + " |")
    print("|" + "---|" * len(head))
    for (case, threads), runs in figures.items():
        row = [case, str(threads), cell(runs[OURS]) if OURS in runs else ""]
        for who in others:
            if who in runs and OURS in runs:
                ratio = statistics.median(runs[OURS]) / max(statistics.median(runs[who]), 0.01)
                row += [cell(runs[who]), f"{ratio:.2f}"]
            else:
                row += [cell(runs[who]) if who in runs else "", ""]
        print("| " + " | ".join(row) + " |")


main()
