#!/usr/bin/env python3
"""Tries the edits of crates/NAME/edits/, which the prover has to refuse, and fails where it doesn't.

usage: tests/edits/try.py [--match WORD] [--lanes N] [--log FILE] [CRATE..]
       tests/edits/try.py --gate LOG [--until SECONDS] [--lanes N] [--log FILE]

It wants the libraries below as rt check, rt lib or rt ci left them in out/, and prints of each edit
what it breaks: functions, each with a clause or what else had to hold there; else the line that tells.

With --gate it runs beside rt ci, of which LOG has the output, and 'rt ci ended' behind it: a crate's
edits are tried once the libraries below it are proved or kept, and once rt ci has ended in as many
lanes as there are processors. KEPT is the folder in which tests/c/library.sh keeps its proof then, over
which edits of its crate are tried. With --until they are tried in an order that the commit draws, and none
are begun once so many seconds have passed; it prints which weren't tried."""
import argparse
import collections
import hashlib
import os
import shutil
import subprocess
import sys
import tempfile
import threading
import time
from concurrent.futures import ThreadPoolExecutor

sys.dont_write_bytecode = True
HERE = os.path.dirname(os.path.realpath(__file__))
sys.path[:0] = [HERE, os.path.join(HERE, "../static")]
from crates import crates
from edit import edits_of
from functions import Code
from room import listing
from trying import make_seed, try_edits

PAUSE = 2  # seconds between two looks at a log
PART = 40  # the most edits of a crate that a lane takes at once, and so in a check


def parts(edits):
    """A crate's edits in equal parts, each with some of each function's: they come in its order."""
    many = -(-len(edits) // PART)
    return [edits[at::many] for at in range(many)]


def draw():
    """Gives edits numbers that the commit draws."""
    commit = subprocess.getoutput("git rev-parse HEAD")
    return lambda key: hashlib.sha256(f"{commit}{key}".encode()).digest()


class Libraries:
    """The libraries that edits stand on, linked into a folder of this run's: rt ci may replace its
    own at its end."""

    def __init__(self, crates, folder, log):
        self.crates, self.folder, self.log = crates, folder, log

    def said(self):
        """The lines of the log; none where there is no log."""
        if not self.log:
            return []
        with open(self.log, encoding="utf-8", errors="replace") as it:
            return it.read().split("\n")

    def has_gate_ended(self):
        return not self.log or "rt ci ended" in self.said()

    def begun(self, crate):
        """The folder that has a proof of a static library, if the gate makes it, there or still to come."""
        kept = os.environ.get("KEPT")
        return f"{kept}.done" if self.log and kept and crate.is_static else None

    def lacking(self, crate):
        """None where all libraries below the crate are there, 'later' where some may still come, or
        which one won't."""
        said, begun = self.said(), self.begun(crate)
        if begun and not os.path.isdir(begun) and "rt ci ended" not in said:
            return "later"
        for name in crate.below:
            made = f"{self.crates[name].folder}/out/rlib/{name}.rlib"
            is_there = any(it.startswith((f"rt: {name} proved", f"rt: {name} is kept")) for it in said)
            if self.log and not is_there:
                return name if "rt ci ended" in said or f"rt: {name} NOT PROVED" in said else "later"
            if os.path.isdir(f"{self.folder}/{name}.rlib"):
                continue
            if not os.path.isdir(made):
                return name
            shutil.copytree(made, f"{self.folder}/{name}.rlib", copy_function=os.link)
        return None


class Seeds:
    """What a check of each crate without an edit kept, which one lane makes for all parts."""

    def __init__(self, crates, edits, libraries, code, say, log):
        self.crates, self.edits, self.libraries, self.code = crates, edits, libraries, code
        self.say, self.log, self.made, self.why, self.making = say, log, {}, {}, set()
        self.left = collections.Counter(it.crate for it in edits)

    def folder_of(self, name):
        return f"{self.libraries.folder}/{name}.seed"

    def of(self, name):
        """The folder of a crate's seed, made if it isn't there; None where it isn't proved."""
        seed, rlibs = self.folder_of(name), self.libraries.folder
        if name not in self.made:
            crate, own = self.crates[name], [it for it in self.edits if it.crate == name]
            try:
                begun = self.libraries.begun(crate)
                reach = self.code.reach(name) if self.libraries.log else {}
                made = make_seed(crate, own, reach, rlibs, seed, begun, self.say, self.log)
                self.made[name], self.why[name] = made
            finally:
                self.making.discard(name)
        return seed if self.made[name] is not None else None

    def judge(self, part):
        """Where the seed wasn't proved, or was touched, nothing counts of what was tried over it."""
        name = part[0].crate
        if self.made[name] is None or listing(self.folder_of(name)) != self.made[name]:
            for it in part:
                it.verdict, it.said = "UNSOUND", f"the crate isn't proved without it: {self.why[name]}"
        self.left[name] -= len(part)
        if not self.left[name]:
            shutil.rmtree(self.folder_of(name), ignore_errors=True)


class Lanes:
    """Parts of crates' edits that are tried side by side, first those that take longest: an edit takes
    the longer the more libraries its crate stands on. With an end they come as drawn, and no part
    begins behind it."""

    def __init__(self, crates, edits, libraries, end, say, log):
        self.crates, self.libraries, self.end, self.say, self.log = crates, libraries, end, say, log
        self.code, drawn = Code(crates, crates), draw()
        self.seeds = Seeds(crates, edits, libraries, self.code, say, log)
        of = [[it for it in edits if it.crate == name] for name in crates]
        if end:
            of = [sorted(it, key=lambda edit: drawn(edit.key)) for it in of]
        self.left = [part for it in of for part in parts(it)]
        weight = lambda part: -len(part) * (1 + len(crates[part[0].crate].below))
        self.left.sort(key=lambda part: drawn(part[0].key) if end else weight(part))
        self.taking = threading.Lock()

    def take(self):
        """The next part whose crate is ready; 'later' while there may be one; None at the end."""
        with self.taking:
            if self.end and time.monotonic() > self.end:
                return None
            for part in list(self.left):
                name = part[0].crate
                lacking = self.libraries.lacking(self.crates[name])
                if lacking == "later" or name in self.seeds.making:
                    continue
                self.left.remove(part)
                if not lacking:
                    if name not in self.seeds.made:
                        self.seeds.making.add(name)
                    return part
                for it in part:
                    it.verdict, it.said = "NOT TRIED", f"{lacking} isn't built: rt check builds it"
            return "later" if self.left else None

    def work(self, is_more):
        """Tries part by part; a lane more begins once rt ci has ended."""
        while is_more and self.left and not self.libraries.has_gate_ended():
            time.sleep(PAUSE)
        while part := self.take():
            if part == "later":
                time.sleep(PAUSE)
                continue
            crate, seed = self.crates[part[0].crate], self.seeds.of(part[0].crate)
            if seed:
                reach, folder = self.code.reach(crate.name), self.libraries.folder
                try_edits(crate, part, reach, folder, seed, self.say, self.log)
            self.seeds.judge(part)

    def run(self, lanes):
        many = max(lanes, os.cpu_count() if self.libraries.log else 0)
        with ThreadPoolExecutor(many) as threads:
            list(threads.map(self.work, (it >= lanes for it in range(many))))


def arguments():
    parse = argparse.ArgumentParser(usage=__doc__)
    parse.add_argument("--gate", default="")
    parse.add_argument("--until", type=int, default=0)
    parse.add_argument("--match", default="")
    parse.add_argument("--lanes", type=int, default=os.cpu_count())
    parse.add_argument("--log", default=os.devnull)
    parse.add_argument("crates", nargs="*")
    return parse.parse_args()


def main():
    given, all_crates, began = arguments(), crates(), time.monotonic()
    named = [it for it in all_crates.values() if not given.crates or it.name in given.crates]
    edits = [it for crate in named for it in edits_of(crate) if given.match in it.name and not it.is_of_gate]
    printing = threading.Lock()
    with tempfile.TemporaryDirectory(prefix="try-edits-") as folder, open(given.log, "w", encoding="utf-8") as log:
        def say(text, to=sys.stdout):
            with printing:
                print(text, file=to, flush=True)

        libraries = Libraries(all_crates, folder, given.gate)
        end = given.until and began + given.until
        Lanes(all_crates, edits, libraries, end, say, lambda text: say(text, log)).run(given.lanes)
    for it in edits:
        if it.verdict in (None, "refused"):
            broken = " ".join(sorted(f"{of}:{goal}" for of, goal in it.goals)) or it.said
            print(f"{it.key}: {f'refused: {broken}' if it.verdict else 'not tried'}")
    failed = [it for it in edits if it.verdict and it.verdict != "refused"]
    print("".join(f"{it.key}: {it.verdict}: {it.said[:300]}\n" for it in failed), end="")
    tried, minutes = sum(bool(it.verdict) for it in edits), round((time.monotonic() - began) / 60)
    print(f"edits: {tried} of {len(edits)} tried in {minutes} minutes, {len(failed)} failed")
    return 1 if failed else 0


sys.exit(main())
