#!/usr/bin/env python3
"""Measures RocksDB and LevelDB with this cache as their block cache and with their own, by what
`make` built here, and prints a line of JSON for each round of each cell and cache; tables.py makes
tables of them. In a round a cell is played by one cache after the other on the same processors, in
the next round by another first, and on others. All cells are played once before any is played
again. Where there is perf, one more run of each says what part of the time is the cache's.
Usage: measure.py [--rounds N] [--seconds N] [--shares yes|no]
                  [--table cache_bench|readrandom|middle|rates].. [--engine rocksdb|leveldb]..
                  [--cache ferretgold|hyper_clock_cache|lru_cache].. [--threads N]..
All that is left out is measured, by nine rounds of three seconds."""
import argparse
import json
import os
import re
import shutil
import subprocess
import sys
import time
from typing import NamedTuple

import shares

HERE = os.path.dirname(os.path.realpath(__file__))
BUILT = os.path.join(HERE, "../build/engines")
TABLES = "cache_bench", "readrandom", "middle", "rates"
CACHES = {
    "rocksdb": ("ferretgold", "hyper_clock_cache", "lru_cache"),
    "leveldb": ("ferretgold", "lru_cache"),
}
LAWS = "uniform", "skewed"
# How much of the data a cache holds. All of it takes more, with what is beside the data.
PARTS = {"a third": 1 / 3, "a tenth": 1 / 10, "all": 1.3}
KEYS, KEY, VALUE = 1_000_000, 16, 240  # a million of so many bytes
# By this range of exponents db_bench draws about as a Zipf law of 1 does from so many keys.
EXPONENTS = 14
WRITTEN = 10 << 20  # bytes a second, beside reads
OF_TABLES = ".sst", ".ldb"


class Cell(NamedTuple):
    """What is measured with each cache."""

    table: str
    engine: str
    law: str
    threads: int
    block: int = 4096
    part: str = "a third"
    writes: bool = False


def cells():
    """All cells. Those of the table `middle` differ by one thing from a cell of readrandom's."""
    for law in LAWS:
        for threads in (1, 2, 4):
            yield Cell("cache_bench", "rocksdb", law, threads, 8192, "a quarter")
    for engine in CACHES:
        for block in (4096, 16384):
            for law in LAWS:
                for threads in (1, 2, 4):
                    yield Cell("readrandom", engine, law, threads, block)
        middle = Cell("middle", engine, "skewed", 2)
        yield middle._replace(block=32768)
        yield middle._replace(part="a tenth")
        yield middle._replace(part="all")
        yield middle._replace(writes=True)
        yield middle._replace(threads=8)


def built(name):
    return os.path.join(BUILT, name)


def note(text):
    print(text, file=sys.stderr, flush=True)


def ran(words, processors=None):
    """What a program prints, which stays on these processors."""
    stay = (lambda: os.sched_setaffinity(0, processors)) if processors else None
    words = [str(it) for it in words]
    done = subprocess.run(words, capture_output=True, text=True, check=False, preexec_fn=stay)
    if done.returncode != 0:
        sys.exit(f"{' '.join(words)}\n{done.stdout}{done.stderr}")
    return done.stdout


# ---- Databases -----------------------------------------------------------------------------------


def db_bench(folder, block, *words):
    """db_bench on a database of RocksDB."""
    sizes = f"--num={KEYS}", f"--key_size={KEY}", f"--value_size={VALUE}", f"--block_size={block}"
    return [built("db_bench"), f"--db={folder}", *sizes, "--compression_type=none", *words]


def reader(action, folder, block, **more):
    """The reader on a database of LevelDB."""
    of = {"engine": "leveldb", "folder": folder, "keys": KEYS, "value": VALUE, "block": block}
    return [built("reader"), action, *(word for pair in (of | more).items() for word in pair)]


def database(engine, block):
    """The folder of a database, which is filled if it isn't there."""
    folder = built(f"data/{engine}-{block}")
    if not os.path.exists(folder):
        note(f"filling {folder}")
        new = f"{folder}.new"
        shutil.rmtree(new, ignore_errors=True)
        os.makedirs(new)
        fill = "--benchmarks=fillseq,compact", "--disable_wal=1"
        ran(db_bench(new, block, *fill) if engine == "rocksdb" else reader("fill", new, block))
        os.rename(new, folder)
    return folder


def capacity_of(cell):
    """Of the cache: a part of the bytes of the database's tables."""
    files = os.scandir(database(cell.engine, cell.block))
    size = sum(it.stat().st_size for it in files if it.name.endswith(OF_TABLES))
    return int(size * PARTS[cell.part])


def copy(file, target):
    """Tables are never written to again."""
    (os.link if file.endswith(OF_TABLES) else shutil.copyfile)(file, target)


class Copied:
    """The folder of a copy of a cell's database, which goes: engines write when they open one."""

    def __init__(self, cell):
        self.whole, self.folder = database(cell.engine, cell.block), built("data/copy")

    def __enter__(self):
        shutil.rmtree(self.folder, ignore_errors=True)
        return shutil.copytree(self.whole, self.folder, copy_function=copy)

    def __exit__(self, *_):
        shutil.rmtree(self.folder)


# ---- Runs ----------------------------------------------------------------------------------------


def processors_of(cell, number):
    """As many as there are threads, or all, if the engine has something else to do."""
    usable = sorted(os.sched_getaffinity(0))
    many = len(usable) if cell.writes else min(cell.threads, len(usable))
    return [usable[(number + it) % len(usable)] for it in range(many)]


class Player:
    """Plays a cell for so many seconds. Words `through` come before its program's."""

    def __init__(self, seconds):
        self.seconds = seconds
        self.operations = {}  # of a thread, by cells of cache_bench: as many for all caches

    def play(self, cell, cache, number, through=()):
        of_engine = {"rocksdb": self.rocksdb, "leveldb": self.leveldb}[cell.engine]
        run = self.cache_bench if cell.table == "cache_bench" else of_engine
        rate, hits = run(cell, cache, number, through)
        return {"operations_per_second": rate, "hits": hits}

    def cache_bench(self, cell, cache, number, through):
        if cell not in self.operations:
            self.operations[cell] = 50_000
            rate, _ = self.cache_bench(cell, cache, number, through)
            self.operations[cell] = int(rate * self.seconds / cell.threads)
        words = [built("cache_bench"), f"--cache_type={cache}", f"--threads={cell.threads}"]
        words += [f"--ops_per_thread={self.operations[cell]}"]
        words += [f"--skewed={int(cell.law == 'skewed')}"]
        text = ran([*through, *words], processors_of(cell, number))
        hits, sought = map(int, re.search(r"Hits = (\d+) of (\d+)", text).groups())
        rate = int(re.search(r"parallel ops/sec = (\d+)", text)[1])
        return rate, round(100 * hits / sought, 2)

    def rocksdb(self, cell, cache, number, through):
        name = "readwhilewriting" if cell.writes else "readrandom"
        words = ["--use_existing_db=1", f"--benchmarks=readseq,{name}", f"--threads={cell.threads}"]
        words += [f"--cache_type={cache}", f"--cache_size={capacity_of(cell)}"]
        words += [f"--duration={self.seconds}", f"--seed={number + 1}"]
        words += ["--perf_level=2", "--progress_reports=0"]
        if cell.law == "skewed":
            words += [f"--read_random_exp_range={EXPONENTS}"]
        if cell.writes:
            words += [f"--benchmark_write_rate_limit={WRITTEN}", f"--write_buffer_size={8 << 20}"]
        with Copied(cell) as folder:
            words = db_bench(folder, cell.block, *words)
            text = ran([*through, *words], processors_of(cell, number))
        text = text[text.rindex(f"\n{name} "):]
        found = (rf"{it} = (\d+)" for it in ("block_cache_hit_count", "block_read_count"))
        hits, misses = (int(re.search(it, text)[1]) for it in found)
        rate = int(re.search(r"(\d+) ops/sec", text)[1])
        return rate, round(100 * hits / (hits + misses), 2)

    def leveldb(self, cell, cache, number, through):
        writes = WRITTEN // (KEY + VALUE) if cell.writes else 0
        with Copied(cell) as folder:
            words = reader("read", folder, cell.block, cache=cache, capacity=capacity_of(cell),
                           law=cell.law, threads=cell.threads, seconds=self.seconds, writes=writes)
            found = json.loads(ran([*through, *words], processors_of(cell, number)))
        return found["operations_per_second"], found["hits"]


# ---- All of it -----------------------------------------------------------------------------------


def print_line(**of):
    print(json.dumps(of), flush=True)


def machine():
    """Where this is measured, and of what."""
    with open("/proc/cpuinfo", encoding="utf-8") as it:
        model = re.search(r"model name\s*: (.*)", it.read())
    with open(os.path.join(HERE, "../../tests/engines/source.sh"), encoding="utf-8") as it:
        versions = dict(re.findall(r"/(\w+)_([\d.]+)\.orig", it.read()))
    words = "git", "-C", HERE, "describe", "--always", "--dirty"
    commit = subprocess.run(words, capture_output=True, text=True, check=False).stdout.strip()
    found = {"model": model[1] if model else os.uname().machine, "commit": commit, **versions}
    return found | {"processors": len(os.sched_getaffinity(0))}


def options():
    it = argparse.ArgumentParser(usage=__doc__)
    it.add_argument("--rounds", type=int, default=9)
    it.add_argument("--seconds", type=int, default=3)
    it.add_argument("--shares", choices=("yes", "no"), default="yes")
    it.add_argument("--table", action="append", choices=TABLES)
    it.add_argument("--engine", action="append", choices=tuple(CACHES))
    it.add_argument("--cache", action="append", choices=CACHES["rocksdb"])
    it.add_argument("--threads", action="append", type=int)
    return it.parse_args()


class Asked:
    """What of it all is asked for."""

    def __init__(self, words):
        self.words = words

    def wants(self, name, value):
        return value in (getattr(self.words, name) or [value])

    def cells(self):
        names = "table", "engine", "threads"
        return [it for it in cells() if all(self.wants(name, getattr(it, name)) for name in names)]

    def caches(self, engine, number=0):
        """Those of an engine, each of which is the first of some rounds."""
        found = [it for it in CACHES[engine] if self.wants("cache", it)]
        return [found[(number + at) % len(found)] for at in range(len(found))]


def main():
    words = options()
    asked, player, start = Asked(words), Player(words.seconds), time.time()
    print_line(machine=machine(), rounds=words.rounds, seconds=words.seconds)
    for number in range(words.rounds):
        for cell in asked.cells():
            for cache in asked.caches(cell.engine, number):
                found = player.play(cell, cache, number)
                print_line(**cell._asdict(), cache=cache, round=number, **found)
        minutes = (time.time() - start) / 60
        note(f"round {number + 1} of {words.rounds}, after {minutes:.1f} minutes")
    for cell in asked.cells() if words.shares == "yes" and shares.can() else ():
        for cache in asked.caches(cell.engine):
            with shares.Recorded(built("perf.data")) as recorded:
                player.play(cell, cache, 0, recorded.words)
                print_line(**cell._asdict(), cache=cache, **recorded.shares())
    for engine in CACHES if asked.wants("table", "rates") else ():
        if asked.wants("engine", engine):
            os.makedirs(built("data"), exist_ok=True)
            words = [built("rates"), engine, built(f"data/{engine}-rates"), 4]
            print(ran([*words, *asked.caches(engine)]), end="", flush=True)
    note(f"all, after {(time.time() - start) / 60:.1f} minutes")


main()
