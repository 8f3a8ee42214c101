"""report.py LINES SVG: prints what kernel.sh measured as tables, and draws a part of it.

Of each depth there are two tables, as docs/PERFORMANCE.md has them: the first has each contender with its hints apart, the second
what else was measured. A figure is the median over the repetitions. Times are a thread's processor time, which a machine that is
busy with something else changes little. A ratio is to the kernel's time with hints apart in the same repetition; less is better. The
last column is the nanoseconds that an operation over `Queue` takes more than one over the map alone, in the same repetition, with
hints apart. Of one depth a third table has how many times as long one of several threads takes as one alone, hints apart; by the
clock too, where what is above the processor time is time that the machine did not give to the threads; and there is a plot."""
import json
import statistics
import sys
from math import log2

KERNEL = ("kernel", "apart")
OURS = ("tag_bench", "apart")
QUEUE = ("tag_queue", "apart")
POOL = ("tag_pool", "apart")
CACHE = ("tag_cache", "apart")
MEMPOOL = ("mempool", None)
THROUGH_C = ("tag_c", "apart")
OWN_SLOTS = ("tag_c, own slots", "apart")
CACHE_THROUGH_C = ("tag_c, cache", "apart")
RUST = ("rust", "apart")
CACHE_IN_RUST = ("rust, cache", "apart")
BITMAP = ("bitmap", "apart")
LIMIT = ("limit", None)
REGISTERS = ("registers", None)
# The columns of the first table, and of the second, each a title and a contender.
FIRST = [
    ("C, own slots", OWN_SLOTS),
    ("C, cache", CACHE_THROUGH_C),
    ("Rust", RUST),
    ("Rust, cache", CACHE_IN_RUST),
    ("`Queue`", QUEUE),
    ("cache", CACHE),
    ("map", OURS),
    ("rte_mempool", MEMPOOL),
    ("bitmap", BITMAP),
    ("queue of tags", ("queue", None)),
    ("locked list", ("locked list", None)),
]
SECOND = [
    ("limit", LIMIT),
    ("boost queue", ("boost queue", None)),
    ("moodycamel queue", ("moodycamel queue", None)),
    ("`Pool`", POOL),
    ("C, pool's slots", THROUGH_C),
    ("kernel, from 0", ("kernel", "from 0")),
    ("map, from 0", ("tag_bench", "from 0")),
    ("`Queue`, from 0", ("tag_queue", "from 0")),
    ("cache, from 0", ("tag_cache", "from 0")),
    ("C, from 0", ("tag_c", "from 0")),
]
# Of which contenders the third table says how much longer a thread takes while others run.
SCALING = [
    ("registers", REGISTERS),
    ("limit", LIMIT),
    ("kernel", KERNEL),
    ("map", OURS),
    ("`Queue`", QUEUE),
    ("cache", CACHE),
    ("`tag_c`", THROUGH_C),
]
# What the plot has: its panels, and of each contender its name, its colour and the dashes of its line.
PLOTTED_DEPTH = 1024
PANELS = [
    ("pair", "one tag at a time"),
    ("ring", "32 tags held by each thread"),
    ("full", "all tags held"),
]
LINES = [
    (CACHE, "cache", "#0b6e4f", None),
    (OURS, "map", "#111111", None),
    (KERNEL, "kernel", "#c62828", None),
    (MEMPOOL, "rte_mempool", "#8e4fb0", None),
    (("queue", None), "queue of tags", "#2f6fd0", None),
    (("locked list", None), "locked list", "#c98a00", None),
    (LIMIT, "limit", "#777777", "5 4"),
]


# What precedes a workload's name in the lines of tag_bench, and the contender that it stands for.
LAYERS = {"": "tag_bench", "queue": "tag_queue", "pool": "tag_pool", "cache": "tag_cache"}


def read(path):
    """Of each workload, depth, count of threads and contender with its hints, the entries by repetition."""
    figures = {}
    with open(path, encoding="utf-8") as lines:
        for line in lines:
            entry = json.loads(line)
            hints, _, depth = entry["case"].rpartition("depth ")
            hints = hints.removeprefix("hints ").removesuffix(", ") or None
            layer, _, workload = entry["workload"].rpartition(" ")
            who = (entry.get("contender", LAYERS[layer]), hints)
            case = (workload, int(depth), entry["threads"])
            figures.setdefault(case, {}).setdefault(who, {})[entry["repetition"]] = entry
    return figures


def ratio(case, who, what="processor"):
    """The median of the ratios to the kernel of the same repetition. None where either was not measured."""
    ours, kernel = case.get(who, {}), case.get(KERNEL, {})
    ratios = [ours[at][what] / max(kernel[at][what], 0.01) for at in ours if at in kernel]
    return statistics.median(ratios) if ratios else None


def costs(case, upper, lower):
    """The median of what an upper layer takes more than a lower one in the same repetition, in nanoseconds."""
    above, below = case.get(upper, {}), case.get(lower, {})
    more = [above[at]["processor"] - below[at]["processor"] for at in above if at in below]
    return statistics.median(more) if more else None


def median(case, who):
    return statistics.median(entry["processor"] for entry in case[who].values())


def print_table(head, rows):
    print("| " + " | ".join(head) + " |")
    print("|" + "---|" * len(head))
    for row in rows:
        print("| " + " | ".join(row) + " |")
    print()


def cells(case, columns):
    ratios = [ratio(case, who) for _, who in columns]
    return ["" if value is None else f"{value:.2f}" for value in ratios]


def first_row(case):
    return [f"{median(case, KERNEL):.1f}" if KERNEL in case else "", *cells(case, FIRST)]


def second_row(case):
    more = costs(case, QUEUE, OURS)
    return [*cells(case, SECOND), "" if more is None else f"{more:+.1f}"]


def print_tables(figures, depth):
    cases = {(workload, str(threads)): case for (workload, at, threads), case in figures.items() if at == depth}
    print(f"Depth {depth:,}:\n")
    head = ["workload", "threads"]
    print_table([*head, "kernel, ns", *(title for title, _ in FIRST)], ([*at, *first_row(it)] for at, it in cases.items()))
    titles = [title for title, _ in SECOND]
    print_table([*head, *titles, "`Queue` over map, ns"], ([*at, *second_row(it)] for at, it in cases.items()))


def slowdown(figures, workload, who, threads, what):
    """The median of the ratios of what one of several threads takes to what one alone takes, in the same repetition."""
    several = figures.get((workload, PLOTTED_DEPTH, threads), {}).get(who, {})
    alone = figures.get((workload, PLOTTED_DEPTH, 1), {}).get(who, {})
    ratios = [several[at][what] / max(alone[at][what], 0.01) for at in several if at in alone]
    return statistics.median(ratios) if ratios else None


def print_scaling(figures):
    rows = []
    for what, time in (("processor", "processor"), ("ns", "clock")):
        for workload in ("pair", "ring"):
            for threads in (2, 4):
                ratios = [slowdown(figures, workload, who, threads, what) for _, who in SCALING]
                rows.append([time, workload, str(threads), *("" if value is None else f"{value:.2f}" for value in ratios)])
    print_table(["time", "workload", "threads", *(name for name, _ in SCALING)], rows)


class Panel:
    """One workload: nanoseconds over threads, both on scales on which twice as much is one step."""

    WIDTH, HEIGHT, LEFT, TOP = 210, 220, 60, 92
    THREADS = [1, 2, 4]

    def __init__(self, index, least, most):
        self.left = self.LEFT + index * (self.WIDTH + 34)
        self.least, self.most = least, most

    def x(self, threads):
        return self.left + 14 + self.THREADS.index(threads) * (self.WIDTH - 28) / (len(self.THREADS) - 1)

    def y(self, ns):
        return self.TOP + self.HEIGHT * (1 - log2(ns / self.least) / log2(self.most / self.least))


def text(x, y, words, **style):
    style = "".join(f' {name.replace("_", "-")}="{value}"' for name, value in style.items())
    return f'<text x="{x:.1f}" y="{y:.1f}"{style}>{words}</text>'


def draw(figures, path):
    points = {
        (workload, who): [
            (threads, median(case, who))
            for threads in Panel.THREADS
            if who in (case := figures.get((workload, PLOTTED_DEPTH, threads), {}))
        ]
        for workload, _ in PANELS
        for who, *_ in LINES
    }
    times = [ns for line in points.values() for _, ns in line]
    least = 2 ** int(log2(min(times)))
    most = 2 ** (int(log2(max(times))) + 1)
    width = Panel.LEFT + len(PANELS) * (Panel.WIDTH + 34)
    height = Panel.TOP + Panel.HEIGHT + 80
    out = [
        f'<svg xmlns="http://www.w3.org/2000/svg" width="{width}" height="{height}" viewBox="0 0 {width} {height}"'
        ' font-family="sans-serif" font-size="12" fill="#222">',
        f'<rect width="{width}" height="{height}" fill="#fff"/>',
        text(Panel.LEFT, 20, f"A get, a touch and a clear: nanoseconds of a thread's processor time, {PLOTTED_DEPTH:,} tags", font_size=14),
        text(Panel.LEFT, 38, "The scale is logarithmic: each line is twice the one below it. Lower is faster."),
        text(Panel.LEFT, 54, "limit: no search, one locked instruction for the get and one for the clear."),
    ]
    for index, (workload, title) in enumerate(PANELS):
        panel = Panel(index, least, most)
        out += draw_panel(panel, title, index == 0)
        for who, _, colour, dashes in LINES:
            out += draw_line(panel, points[workload, who], colour, dashes)
    out += draw_legend(height - 14)
    with open(path, "w", encoding="utf-8") as svg:
        svg.write("\n".join(out + ["</svg>"]) + "\n")


def draw_panel(panel, title, has_scale):
    out = [text(panel.left, panel.TOP - 12, title, font_weight="bold")]
    ns = panel.least
    while ns <= panel.most:
        y = panel.y(ns)
        out.append(f'<path d="M{panel.left} {y:.1f}h{panel.WIDTH}" stroke="#ddd"/>')
        if has_scale:
            out.append(text(panel.left - 6, y + 4, f"{ns} ns" if ns > panel.most / 2 else ns, text_anchor="end"))
        ns *= 2
    bottom = panel.TOP + panel.HEIGHT + 18
    out += [text(panel.x(threads), bottom, threads, text_anchor="middle") for threads in panel.THREADS]
    return out + [text(panel.left + panel.WIDTH / 2, bottom + 18, "threads", text_anchor="middle")]


def stroke(colour, dashes):
    return f'stroke="{colour}" stroke-width="2"' + (f' stroke-dasharray="{dashes}"' if dashes else "")


def draw_line(panel, line, colour, dashes):
    if not line:
        return []
    at = [(panel.x(threads), panel.y(ns)) for threads, ns in line]
    way = " ".join(f"{x:.1f},{y:.1f}" for x, y in at)
    out = [f'<polyline points="{way}" fill="none" {stroke(colour, dashes)}/>']
    return out + [f'<circle cx="{x:.1f}" cy="{y:.1f}" r="3.5" fill="{colour}"/>' for x, y in at]


def draw_legend(y):
    out, x = [], Panel.LEFT
    for _, name, colour, dashes in LINES:
        out.append(f'<path d="M{x} {y - 4}h22" {stroke(colour, dashes)}/>')
        out.append(text(x + 28, y, name))
        x += 50 + 6 * len(name)
    return out


def main():
    figures = read(sys.argv[1])
    depths = sorted({depth for _, depth, _ in figures})
    for depth in depths:
        print_tables(figures, depth)
    if PLOTTED_DEPTH in depths:
        print_scaling(figures)
        draw(figures, sys.argv[2])


main()
