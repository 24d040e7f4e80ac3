#!/usr/bin/env python3
"""Reads what examples/c/metrics.c prints, in Prometheus' text format, and says what isn't as it should be:
each sample follows its family's help and type, buckets have those before them, too, and what all calls came
to is what those of both clients did.
Usage: metrics | tests/c/metrics.py READS"""
import re
import sys

LINE = re.compile(r"(\w+)\{((?:\w+=\"[^\"]*\",?)+)\} (\d+)")
CLIENTS = ('cache="small",client="0"', 'cache="small",client="1"')


def samples(text):
    """The number of each sample: by its name and labels, those of a cache first."""
    found, family = {}, None
    for line in text.splitlines():
        if told := re.fullmatch(r"# HELP (ferretgold_\w+) \w.*\.", line):
            family = told[1]
        elif line in (f"# TYPE {family} counter", f"# TYPE {family} histogram"):
            suffixes = ("_bucket", "_sum", "_count") if line.endswith("histogram") else ("",)
        else:
            name, labels, number = LINE.fullmatch(line).groups()
            assert name in [family + it for it in suffixes], f"{name} stands among samples of {family}"
            whose, rest = re.fullmatch(r'(cache="all"|cache="small",client="\d")(.*)', labels).groups()
            assert (whose, name, rest) not in found, f"{line}: there are two of these"
            found[whose, name, rest] = int(number)
    return found


def check(found, reads):
    of_all = {it[1:]: number for it, number in found.items() if it[0] == 'cache="all"'}
    assert len(found) == 3 * len(of_all), "not all have the same samples"
    for (name, rest), number in of_all.items():
        of_each = sum(found[whose, name, rest] for whose in CLIENTS)
        assert name != "ferretgold_misses_total" or min(found[whose, name, rest] for whose in CLIENTS) > 0
        assert of_each == number, f"{name}{rest}: {number} in all, and {of_each} of the clients"
    numbers = {name.removeprefix("ferretgold_") + rest: it for (name, rest), it in of_all.items()}
    assert numbers["hits_total"] + numbers["misses_total"] == reads
    assert numbers["hits_total"] > 0 < numbers["evicted_total"] <= numbers["evicted_charge_total"]
    outcomes = {rest: it for name, it in numbers.items() if (rest := name.removeprefix("insertions_total")) != name}
    assert len(outcomes) == 5 and outcomes[',outcome="placed"'] > 0 < outcomes[',outcome="there"']
    buckets = [it for name, it in numbers.items() if name.startswith("insertion_turns_bucket")]
    assert len(buckets) == 16 and buckets == sorted(buckets) and 0 < buckets[0] < buckets[-1]
    assert buckets[-1] == numbers["insertion_turns_count"] == sum(outcomes.values())
    assert numbers["insertion_turns_sum"] >= buckets[-1] - buckets[0]


check(samples(sys.stdin.read()), int(sys.argv[1]))
