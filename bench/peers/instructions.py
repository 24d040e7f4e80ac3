#!/usr/bin/env python3
"""Counts the instructions of an operation, by valgrind: those of a run with more operations less those of
one with fewer, over the difference. One thread.
Usage: instructions.py PROGRAM [CASE]..   with a program that make built here; without cases, all of them"""
import re
import subprocess
import sys

CASES = "hits-uniform", "touch", "get", "misses", "mix", "evict", "pinned"
CACHES = "ferretgold", "twin", "ferretgold-rocksdb", "rocksdb-hyperclock", "rocksdb-lru"
OF_OBJECTS = "touch"  # what a cache of objects and the twin with a word as value play
FEW, MANY = 2_000, 10_000


def counted(program, cache, case, value_size, operations):
    """The instructions of a run that makes so many operations in a round."""
    words = ["valgrind", "--tool=callgrind", "--callgrind-out-file=/dev/null", program]
    words += ["--cache", cache, "--case", case, "--value-size", str(value_size), "--threads", "1"]
    words += ["--rounds", "1", "--operations", str(operations)]
    ran = subprocess.run(words, capture_output=True, text=True, check=True)
    return int(re.search(r"Collected : (\d+)", ran.stderr)[1])


def main():
    if len(sys.argv) < 2:
        sys.exit(__doc__)
    program, *cases = sys.argv[1:]
    print(f"{'case':13}{'bytes':>6}" + "".join(f"{it:>20}" for it in CACHES))
    for case in cases or CASES:
        for value_size in (16, 256, 4096):
            row = ""
            for cache in CACHES:
                if case == OF_OBJECTS and cache in ("ferretgold", "twin"):
                    cache += "-objects"
                few, many = (counted(program, cache, case, value_size, it) for it in (FEW, MANY))
                row += f"{(many - few) / (MANY - FEW):20.0f}"
            print(f"{case:13}{value_size:6}{row}", flush=True)


main()
