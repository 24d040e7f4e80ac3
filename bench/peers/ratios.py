#!/usr/bin/env python3
"""Prints what a comparison came to: for each case, value size, number of threads and size of table the
median of the rounds of each cache, in nanoseconds of a thread for an operation, and beside the other
caches how many times as fast as they this project's is. A * says that there are more threads than
processors. The tables of pages and the pictures are of the usual number of slots, and leave these out.
Usage: ratios.py FILE..             with the JSON lines that peers prints
       ratios.py --medians FILE..   prints the medians, as JSON lines that can be given in their place
       ratios.py --front FILE..     prints the front page's table, of one thread and of four
       ratios.py --all FILE..       prints the guide's table, of one thread
       ratios.py --plots FOLDER FILE..   draws the guide's pictures, by gnuplot: an SVG for each case"""
import json
import os
import statistics
import subprocess
import sys
from collections import defaultdict
from typing import NamedTuple

OURS = "ferretgold"
SHOWN = (OURS, "rocksdb-hyperclock", "rocksdb-lru", "rocksdb-lru-sharded")
# The guide's table has the twin as well.
ALL = (OURS, "twin", "rocksdb-hyperclock", "rocksdb-lru")
COLOURS = {OURS: "#b8860b", "twin": "#2e8b57", "rocksdb-hyperclock": "#1f5fa8", "rocksdb-lru": "#7a7a7a"}
PANEL = 300, 260
USUAL_SLOTS = 16_384
# Words of 8 bytes that a slot has before its value.
HEAD = 7
# The cases that the front page shows, by the names that it has for them.
FRONT = {"get": "hit", "misses": "miss", "mix": "mix", "evict": "evict"}


class At(NamedTuple):
    """What was measured."""
    case: str
    size: int
    threads: int
    slots: int
    processors: int

    @property
    def is_crowded(self):
        return self.threads > self.processors

    @property
    def megabytes(self):
        return self.slots * (8 * HEAD + self.size) / 1e6


def read(files):
    """The rounds' nanoseconds, by what was measured and cache; and how the others were built."""
    rounds, builds = defaultdict(lambda: defaultdict(list)), {}
    for file in files:
        with open(file, encoding="utf-8") as lines:
            for it in map(json.loads, lines):
                slots, processors = it.get("slots", USUAL_SLOTS), it.get("processors", it["threads"])
                at = At(it["case"], it["value_size"], it["threads"], slots, processors)
                rounds[at][it["cache"]].append(it["nanoseconds_per_operation"])
                builds[it["cache"]] = it["build"]
    return rounds, builds


def shown(median, ours):
    """A median, and beside it how many times as fast this project's is."""
    return f"{median:9.1f} x{median / ours:5.2f}" if ours else f"{median:9.1f}"


def medians_of(rounds):
    """The median of the rounds of each cache, by what was measured."""
    return {
        at: {cache: statistics.median(them) for cache, them in of.items()} for at, of in rounds.items()
    }


def usual(medians):
    """Those of the usual number of slots, and of no more threads than processors, by case, value size and
    threads."""
    return {
        at[:3]: of for at, of in medians.items() if at.slots == USUAL_SLOTS and not at.is_crowded
    }


def print_ratios(medians, builds):
    others = [it for it in builds if it != OURS]
    for it in others:
        print(f"{it}: {builds[it]}")
    names = "".join(f"{it.removeprefix('rocksdb-'):>17}" for it in others)
    print(f"{'case':13}{'bytes':>6}{'MB':>7}{'threads':>8} {OURS:>12}{names}")
    for at, of in medians.items():
        ours = of.get(OURS)
        row = "".join(f"  {shown(of[it], ours)}" if it in of else " " * 17 for it in others)
        threads = f"{at.threads:8}{'*' if at.is_crowded else ' '}"
        print(f"{at.case:13}{at.size:6}{at.megabytes:7.1f}{threads}{ours or float('nan'):12.1f}{row}")


def print_medians(medians, builds):
    for at, of in medians.items():
        for cache, median in of.items():
            line = {"cache": cache, "build": builds[cache], "case": at.case, "value_size": at.size}
            line |= {"threads": at.threads, "processors": at.processors, "slots": at.slots}
            line |= {"nanoseconds_per_operation": round(median, 1)}
            print(json.dumps(line))


def print_front(medians, _):
    """A row for each case and number of threads, a cell for each size: the four caches, the fastest of
    them bold."""
    medians = usual(medians)
    sizes = sorted({size for _, size, threads in medians if threads == 1})
    print("|  | " + " | ".join(f"{size:,} bytes" for size in sizes) + " |")
    print("|---" * (len(sizes) + 1) + "|")
    for case, name in FRONT.items():
        for threads, many in ((1, "1 thread"), (4, "4 threads")):
            cells = []
            for size in sizes:
                of = [round(medians[case, size, threads][it]) for it in SHOWN]
                cells.append(" / ".join(f"**{it:,}**" if it == min(of) else f"{it:,}" for it in of))
            print(f"| {name}, {many} | " + " | ".join(cells) + " |")


def print_all(medians, _):
    """A row for each case and size that all caches play: nanoseconds, and how many times as fast this
    project's cache is."""
    print("| Case | Bytes | Ferretgold | twin | | HyperClockCache | | LRUCache | |")
    print("|---|---|---|---|---|---|---|---|---|")
    for (case, size, threads), of in usual(medians).items():
        if threads == 1 and all(it in of for it in ALL):
            ours, *others = (of[it] for it in ALL)
            cells = " | ".join(f"{it:,.0f} | {it / ours:.2f}" for it in others)
            print(f"| {case} | {size:,} | {ours:,.0f} | {cells} |")


def panel(size, caches):
    """gnuplot's words for one panel: the points of each cache, and its curve."""
    words, curves = [f'set title "{size:,} bytes"'], []
    for cache, points in caches.items():
        name = f"$of_{size}_{len(curves)}"
        words += [f"{name} << END", *points, "END"]
        colour = COLOURS.get(cache, "#444444")
        curves.append(f'{name} using 1:2 with linespoints pt 7 ps 0.5 lw 2 lc "{colour}" title "{cache}"')
    return [*words, "plot " + ", ".join(curves), "unset key", "unset ylabel"]


def plot(case, of, file):
    """Draws a case: a panel for each size, with the operations a second of all threads over their number."""
    panels = defaultdict(lambda: defaultdict(list))
    for (size, threads), medians in sorted(of.items()):
        for cache, median in medians.items():
            panels[size][cache].append(f"{threads} {1000 * threads / median:.4f}")
    threads = sorted({it for _, it in of})
    words = [
        f"set terminal svg size {PANEL[0] * len(panels)},{PANEL[1]} font 'sans,11' background 'white'",
        f"set output '{file}'",
        f"set multiplot layout 1,{len(panels)} title \"{case}\"",
        "set key top left samplen 1 font ',9'",
        "set yrange [0:*]",
        "set offsets 0, 0, graph 0.3, 0",
        f"set xrange [{threads[0] - 0.2}:{threads[-1] + 0.2}]",
        f"set xtics ({', '.join(map(str, threads))})",
        "set grid ytics lc '#dddddd'",
        "set xlabel 'threads'",
        "set ylabel 'million operations a second'",
    ]
    for it in panels.items():
        words += panel(*it)
    text = "\n".join([*words, "unset multiplot", ""])
    subprocess.run(["gnuplot"], input=text, text=True, check=True)
    print(file)


def plots(medians, folder):
    """The pictures of cases that were measured at several numbers of threads: a warm start isn't."""
    os.makedirs(folder, exist_ok=True)
    cases = defaultdict(dict)
    for (case, size, threads), of in usual(medians).items():
        cases[case][size, threads] = of
    for case, of in cases.items():
        if len({threads for _, threads in of}) > 1:
            plot(case, of, f"{folder}/{case}.svg")


PRINTERS = {"--medians": print_medians, "--front": print_front, "--all": print_all}


def main():
    words = sys.argv[1:]
    first = words.pop(0) if words[:1] and words[0] in (*PRINTERS, "--plots") else ""
    folder = words.pop(0) if first == "--plots" and words else ""
    rounds, builds = read(words)
    if not rounds:
        sys.exit(__doc__)
    medians = medians_of(rounds)
    if first == "--plots":
        plots(medians, folder)
    else:
        PRINTERS.get(first, print_ratios)(medians, builds)


main()
