#!/usr/bin/env python3
"""Prints what measure.py measured as tables in Markdown. Speeds are thousands of operations a
second: medians of the rounds, with their quartiles, the fastest cache's bold. Then come hits of a
hundred look-ups of blocks, and how many of a hundred samples were in the cache's functions, and
behind + in locks, of one cache after the other. A * says that there are more threads than
processors. Below stand the cells in which all of this cache's middle half is behind
HyperClockCache's (in LevelDB its own cache's), and how far hit rates are from the guide's.
Usage: tables.py FILE..             with the lines that measure.py prints
       tables.py --speeds FILE..    prints only the table of speeds
       tables.py --rates FILE..     prints only that of hit rates
       tables.py --medians FILE..   prints lines that can be given in place of those"""
import json
import os
import re
import statistics
import sys
from collections import defaultdict

HERE = os.path.dirname(os.path.realpath(__file__))
OURS = "ferretgold"
NAMES = {OURS: "Ferretgold", "hyper_clock_cache": "HyperClockCache", "lru_cache": "LRUCache"}
ENGINES = {"rocksdb": "RocksDB", "leveldb": "LevelDB"}
PEERS = {"rocksdb": "hyper_clock_cache", "leveldb": "lru_cache"}
OF_CELL = "table", "engine", "law", "threads", "block", "part", "writes"
SPEED = "operations_per_second"
# The guide's columns of hit rates, and how many of its rows, from the first on, are skewed.
IN_GUIDE = NAMES | {OURS: "from 0"}
PERCENTS = 33, 10
SKEWED = 3


def read(files):
    """The lines of runs, by cell and cache, of hit rates, and of machines."""
    runs, rates, machines = defaultdict(lambda: defaultdict(list)), [], []
    for file in files:
        with open(file, encoding="utf-8") as lines:
            for it in map(json.loads, lines):
                if "machine" in it:
                    machines.append(it)
                elif it["table"] == "rates":
                    rates.append(it)
                else:
                    runs[tuple(it[name] for name in OF_CELL)][it["cache"]].append(it)
    return runs, rates, machines


def values(lines, name):
    return [it[name] for it in lines if name in it]


def quartiles(lines):
    """Of the speeds: the lower quartile, the median, and the upper quartile."""
    if "quartiles" in lines[0]:
        return lines[0]["quartiles"]
    found = values(lines, SPEED)
    if len(found) == 1:
        return found * 3
    return statistics.quantiles(found, n=4, method="inclusive")


# ---- Speeds --------------------------------------------------------------------------------------


def thousands(number):
    return f"{number / 1000:,.{0 if number >= 99_950 else 1}f}"


def shown(lines, is_best):
    lower, median, upper = map(thousands, quartiles(lines))
    return f"{f'**{median}**' if is_best else median} ({lower}–{upper})"


def others(of, digits, *names):
    """Medians of these of each cache."""
    def one(lines, name):
        found = values(lines, name)
        return f"{statistics.median(found):.{digits}f}" if found else ""
    caches = [[one(of[it], name) for name in names] for it in NAMES if it in of]
    return " / ".join("+".join(it) if all(it) else "-" for it in caches)


def print_speeds(runs, _, machines):
    """A row for each cell."""
    print(f"| Reads | Threads | {' | '.join(NAMES.values())} | Hits | Share+locks |")
    print("|---" * (len(NAMES) + 4) + "|")
    processors = machines[0]["machine"]["processors"]
    for (table, engine, law, threads, block, part, writes), of in runs.items():
        program = "`cache_bench`" if table == "cache_bench" else ENGINES[engine]
        what = f"{program}, {block // 1024} KiB, {part}, {law}{', beside writes' * writes}"
        medians = {it: quartiles(lines)[1] for it, lines in of.items()}
        best = max(medians, key=medians.get)
        speeds = [shown(of[it], it == best) if it in of else "" for it in NAMES]
        row = [what, f"{threads}{'*' * (threads > processors)}", *speeds]
        row += [others(of, 1, "hits"), others(of, 0, "share", "locks")]
        print(f"| {' | '.join(row)} |")


def print_verdict(engine, runs):
    """The mean of how many times as fast this cache is as its peer, and where it is behind."""
    peer, ratios, behind = PEERS[engine], [], []
    for cell, of in runs.items():
        if cell[OF_CELL.index("engine")] != engine or not {OURS, peer} <= set(of):
            continue
        ours, theirs = quartiles(of[OURS]), quartiles(of[peer])
        ratios.append(ours[1] / theirs[1])
        if ours[2] < theirs[0]:
            behind.append(f"  {' '.join(map(str, cell))}: {ratios[-1]:.3f}")
    if ratios:
        mean = statistics.geometric_mean(ratios)
        print(f"{ENGINES[engine]}: {mean:.3f} times as fast as with {NAMES[peer]} in the mean of "
              f"{len(ratios)} cells, {min(ratios):.3f} to {max(ratios):.3f}; "
              f"its whole middle half is behind in {len(behind)}")
        print("".join(f"{it}\n" for it in behind), end="")


# ---- Hit rates -----------------------------------------------------------------------------------


def guide():
    """The rows of the guide's table: by column and percents."""
    with open(os.path.join(HERE, "../../docs/GUIDE.md"), encoding="utf-8") as it:
        section = re.split(r"^## ", it.read().split("\n## Hit rates\n")[1], flags=re.M)[0]
    rows = [[it.strip() for it in line.strip("|").split("|")]
            for line in section.splitlines() if line.startswith("| ")]
    return [{name: dict(zip(PERCENTS, map(float, cell.split("/"))))
             for name, cell in zip(rows[0][1:], row[1:])} for row in rows[1:]]


def cells_of(rates):
    """Hits by law and size of cache, of each engine and cache; and these."""
    cells, columns = defaultdict(dict), {}
    for it in rates:
        at = it["engine"], it["cache"]
        cells[it["law"], it["percent"]][at] = it["hits"]
        columns[at] = True
    return cells, list(columns)


def print_rates(_, rates, __):
    """A row for each law and size of cache."""
    cells, columns = cells_of(rates)
    heads = [f"{ENGINES[engine]}: {NAMES[cache]}" for engine, cache in columns]
    print(f"| Blocks read | Cache of | {' | '.join(heads)} |")
    print("|---" * (len(heads) + 2) + "|")
    for (law, percent), of in cells.items():
        row = (f"{of[it]:.1f}" if it in of else "" for it in columns)
        print(f"| {law} | {percent} % | {' | '.join(row)} |")


def span(numbers):
    return f"{min(numbers):+.2f} to {max(numbers):+.2f}"


def print_distances(rates):
    """How far what was measured is from the guide's, by skewed laws and by the others."""
    cells, columns = cells_of(rates)
    laws = list(dict.fromkeys(law for law, _ in cells))
    rows = dict(zip(laws, guide()))
    for engine, cache in columns:
        off = defaultdict(list)
        for (law, percent), of in cells.items():
            if (engine, cache) in of:
                inside = of[engine, cache] - rows[law][IN_GUIDE[cache]][percent]
                off[law in laws[:SKEWED]].append(inside)
        print(f"{ENGINES[engine]} with {NAMES[cache]}: by skewed laws {span(off[True])}, by others "
              f"{span(off[False])} points from the guide's hit rates")


# ---- All of it -----------------------------------------------------------------------------------


def print_medians(runs, rates, machines):
    for cell, of in runs.items():
        for cache, lines in of.items():
            found = {it: values(lines, it) for it in ("hits", "share", "locks")}
            medians = {it: round(statistics.median(all), 2) for it, all in found.items() if all}
            medians |= {"quartiles": [round(it) for it in quartiles(lines)]}
            print(json.dumps(dict(zip(OF_CELL, cell)) | {"cache": cache} | medians))
    for it in rates + machines:
        print(json.dumps(it))


def print_all(runs, rates, machines):
    if runs:
        print_speeds(runs, rates, machines)
        print()
        for engine in ENGINES:
            print_verdict(engine, runs)
    if rates:
        print()
        print_rates(runs, rates, machines)
        print()
        print_distances(rates)
    for it in machines:
        rounds = f"{it['rounds']} rounds of {it['seconds']} s: " if runs else ""
        of = ", ".join(f"{name} {value}" for name, value in it["machine"].items())
        print(f"\n{rounds}{of}")


PRINTERS = {"--speeds": print_speeds, "--rates": print_rates, "--medians": print_medians}


def main():
    words = sys.argv[1:]
    printer = PRINTERS[words.pop(0)] if words[:1] and words[0] in PRINTERS else print_all
    runs, rates, machines = read(words)
    if not machines:
        sys.exit(__doc__)
    printer(runs, rates, machines)


main()
