#!/usr/bin/env python3
"""Plays twenty traces of 5,000 calls on the built program and on tests/program/model.py, and fails where
an answer or a report differs, or where something that the traces are to show never came. Options are
drawn for each trace, all letters occur, and registers are drawn as the letter needs: the model plays
along. It's the same at each run.

Usage: tests/program/many.py [PROGRAM]      by default what rt ci built
       tests/program/many.py --print N      trace N from 0 on; its options go to standard error"""
import collections
import os
import random
import re
import subprocess
import sys

sys.dont_write_bytecode = True
import model

HERE = os.path.dirname(os.path.realpath(__file__))
TRACES, CALLS = 20, 5000

# What has to come in some trace: an answer, or the start of one, or a count in an answer.
ANSWERS = (
    "placed", "dropped", "standalone", "hit", "miss", "held", "freed", "kept", "busy", "none", "value",
    "refused HandlesFull", "refused Spent", "refused TooLarge", "refused CapacityFull",
    "refused OccupancyFull",
)
COUNTED = ("erased", "displaced", "usage", "pinned", "occupancy", "boosts", "evicted", "freed", "hit", "turns")
COUNTS = re.compile(rf"\b({'|'.join(COUNTED)}) [1-9]")
AT_END = "handles held at the end"
OTHER_SHARD = "displaced above 0 in another shard than the first"


def options(number, draws):
    """The options of a trace, and the most that a charge commonly is. The capacity is some twenty
    charges, of all shards together or of each."""
    slots, shards, most = draws.choice((8, 16, 32, 64)), draws.choice((1, 2, 4)), draws.choice((1, 10, 40, 2000))
    capacity = (10 + draws.randrange(21)) * (most + 1) // 2 * draws.choice((1, shards))
    told = {
        "slots": slots, "shards": shards, "room": 1 + draws.randrange(4), "clients": 1 + draws.randrange(4),
        "handles": draws.choice((2, 8, slots, 2 * slots)), "capacity": capacity,
        "serials": draws.choice((2**54, 2**54, 400 + draws.randrange(400))), "seed": draws.choice((0, draws.randrange(2**31))),
        "strict": number % 2 == 1, "marks": number // 2 % 2 == 1,
    }
    return told, most


class Drawer:
    """Draws the lines of one trace, with the model playing along."""

    def __init__(self, model, number):
        self.draws = random.Random(number)
        self.options, self.most = options(number, self.draws)
        self.cache = model.Cache(self.options)
        self.keys = 1 + self.draws.randrange(3 * self.options["slots"] * self.options["shards"])
        # Releases come seldom in some traces, so that much is held, and often in others.
        letters = {"I": 10, "P": 6, "G": 12, "F": 2, "V": 3, "E": 2, "U": 2, "W": 4, "S": 1}
        letters["R"] = self.draws.choice((6, 16, 24))
        self.letters = "".join(letter * often for letter, often in letters.items())

    def words(self):
        """The options as the program's words."""
        for name, told in self.options.items():
            if told is True:
                yield f"--{name}"
            elif told is not False:
                yield from (f"--{name}", str(told))

    def key(self):
        """One of the trace's keys. The upper half of the first word is another shard's."""
        number = self.draws.randrange(self.keys)
        return f"{number % 5 + (number // 5 % 4 << 32)} {number // 20}"

    def charge(self):
        """At most the trace's most; now and then more than a shard may hold."""
        if self.draws.randrange(40):
            return 1 + self.draws.randrange(self.most)
        return 1 + self.draws.randrange(2 * self.options["capacity"])

    def entry(self):
        size = self.draws.randrange(8 * self.options["room"] + 1)
        value = "".join(f"{self.draws.randrange(256):02x}" for _ in range(size)) or "-"
        return f"{self.key()} {self.charge()} {self.draws.choice('HLB')} {value}"

    def register(self, client, is_full):
        """A register that is full, or empty, as the call needs; now and then any."""
        held = self.cache.clients[client].registers
        several = [str(it) for it in range(self.options["handles"] + 4)]
        fit = [it for it in several if (it in held) == is_full]
        return self.draws.choice(fit if fit and self.draws.randrange(16) else several)

    def slot(self):
        return f"{self.draws.randrange(self.options['shards'])} {self.draws.randrange(self.options['slots'])}"

    def letter(self, client):
        """A letter; seldom one that reads a register where all are empty."""
        letter = self.draws.choice(self.letters)
        while letter in "RVF" and not self.cache.clients[client].registers and self.draws.randrange(16):
            letter = self.draws.choice(self.letters)
        return letter

    def line(self):
        client = self.draws.randrange(self.options["clients"])
        letter = self.letter(client)
        rest = {
            "I": self.entry,
            "P": lambda: f"{self.register(client, False)} {self.entry()}",
            "G": lambda: f"{self.register(client, False)} {self.key()}",
            "F": lambda: f"{self.register(client, False)} {self.register(client, True)}",
            "R": lambda: f"{self.register(client, True)} {self.draws.choice('UN')} {self.draws.choice('KKKE')}",
            "V": lambda: self.register(client, True),
            "E": self.key,
            "W": self.slot,
        }
        return f"{client} {letter} {rest[letter]()}" if letter in rest else f"{client} {letter}"

    def last_lines(self):
        """What shows the whole cache at the end: each slot, the totals, each client's counts."""
        for shard in range(self.options["shards"]):
            for slot in range(self.options["slots"]):
                yield f"0 W {shard} {slot}"
        yield "0 U"
        for client in range(self.options["clients"]):
            yield f"{client} S"

    def trace(self):
        """The lines, the model's answers with its report, and the handles held before that."""
        lines, answers, last = [], [], list(self.last_lines())
        for number in range(CALLS):
            left = CALLS - number
            lines.append(last[-left] if left <= len(last) else self.line())
            answers.append(self.cache.answer(lines[-1]))
        held = sum(len(it.registers) for it in self.cache.clients)
        return lines, [*answers, self.cache.report()], held


def played(program, words, lines):
    """What the program answers, its status last where that isn't 0."""
    text = "".join(f"{it}\n" for it in lines)
    ran = subprocess.run([program, "run", *words], input=text, capture_output=True, text=True, timeout=60, check=False)
    ended = [f"status {ran.returncode}: {ran.stderr.strip()}"] if ran.returncode else []
    return ran.stdout.splitlines() + ended


def difference(lines, model, program):
    """The first answer that differs, with its line; nothing where none does."""
    lines = [*lines, "the report"]
    for number in range(max(len(model), len(program))):
        line, ours, theirs = ((it[number] if number < len(it) else "nothing") for it in (lines, model, program))
        if ours != theirs:
            return f"line {number + 1}, {line}: the model answers {ours}, the program {theirs}"
    return ""


def count(seen, lines, answers, held):
    """Adds what a trace's answers show."""
    for line, answer in zip([*lines, ""], answers):
        seen[OTHER_SHARD] += bool(re.match(r"\d+ W [1-9]", line) and re.search(r"displaced [1-9]", answer))
        seen[next((it for it in ANSWERS if f"{answer} ".startswith(f"{it} ")), "")] += 1
        for name in COUNTS.findall(answer):
            seen[f"{name} above 0"] += 1
    seen[AT_END] += held


def main():
    if sys.argv[1:2] == ["--print"]:
        drawer = Drawer(model, int(sys.argv[2]))
        print("".join(f"{it}\n" for it in drawer.trace()[0]), end="")
        print(*drawer.words(), file=sys.stderr)
        return 0
    program = os.path.realpath(sys.argv[1] if len(sys.argv) > 1 else f"{HERE}/../../crates/hcc_play/out/hcc_play")
    seen, differ = collections.Counter(), 0
    for number in range(TRACES):
        drawer = Drawer(model, number)
        lines, answers, held = drawer.trace()
        count(seen, lines, answers, held)
        fault = difference(lines, answers, played(program, drawer.words(), lines))
        if fault:
            differ += 1
            print(f"failed: trace {number}, run {' '.join(drawer.words())}: {fault}")
    needed = [*ANSWERS, *(f"{it} above 0" for it in COUNTED), OTHER_SHARD, AT_END]
    missing = [it for it in needed if not seen[it]]
    print("many: " + ", ".join(f"{it} {seen[it]}" for it in needed))
    print(f"many: {TRACES} traces of {CALLS} calls: {differ} differ; never seen: {', '.join(missing) or 'nothing'}")
    return differ or missing


sys.exit(bool(main()))
