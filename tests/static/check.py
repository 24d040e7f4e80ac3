#!/usr/bin/env python3
"""Checks of texts that need no prover: each says what is wrong, and where.

usage: tests/static/check.py [NAME..]    all of them, or those of these names"""
import os
import sys

sys.dont_write_bytecode = True
HERE = os.path.dirname(os.path.realpath(__file__))
sys.path[:0] = [HERE, os.path.join(HERE, "../edits")]
from calls import no_allocation, no_lock, one_operation, plants, unused
from edit import edits
from guarantees import guarantees
from header import layout, wrappers
from limits import bounds, limits
from texts import columns, links, words

CHECKS = [columns, words, links, edits, no_lock, no_allocation, one_operation, plants, unused, guarantees, layout,
          wrappers, limits, bounds]


def main():
    os.chdir(os.path.join(HERE, "../.."))
    wrong, asked = 0, sys.argv[1:]
    if unknown := set(asked) - {it.__name__ for it in CHECKS}:
        sys.exit(f"no check {', '.join(sorted(unknown))}\n{__doc__}")
    for check in CHECKS:
        if not asked or check.__name__ in asked:
            faults = list(check())
            wrong += bool(faults)
            print("".join(f"{it}\n" for it in faults) + f"{check.__name__}: {len(faults)} faults", flush=True)
    return wrong > 0


sys.exit(main())
