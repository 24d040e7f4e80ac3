#!/usr/bin/env python3
"""Watches the checks that a process and those that it began run, and has those give way on which nothing
waits: tests, then what rt ci tries of must-fail/, then edits. So the processors go to the proofs of
libraries first, which are the longest chain. Ended by SIGTERM, it prints how long each crate's proof,
its tests and its edits took, and the sums: wall seconds, by one look a second. What rt ci proves of a
crate to try its edits over is told with these. Checks run side by side, so these don't add up to the
gate's own time.

usage: tests/edits/watch.py PROCESS"""
import glob
import os
import signal
import sys
import time
from collections import defaultdict

# The kinds of check, and how far each gives way.
KINDS = {"proof": 0, "tests": 5, "must-fail": 8, "edits": 10}


def text_of(process, name):
    """A file that the system has of a process; nothing once that has ended."""
    try:
        with open(f"/proc/{process}/{name}", encoding="utf-8", errors="replace") as it:
            return it.read()
    except OSError:
        return ""


def kind_of(process, words):
    """What a check is of, that was begun with these words."""
    try:
        if "/rt-edit-" in os.readlink(f"/proc/{process}/cwd"):
            return "must-fail"
    except OSError:
        pass  # It has ended.
    if any("/try-edits-" in it for it in words):
        return "edits"
    return "tests" if "--test" in words else "proof"


def give_way(process, nice):
    """Lowers the priority of a check's threads to this, where it is higher."""
    for path in glob.glob(f"/proc/{process}/task/*") if nice else ():
        thread = int(os.path.basename(path))
        try:
            if os.getpriority(os.PRIO_PROCESS, thread) < nice:
                os.setpriority(os.PRIO_PROCESS, thread, nice)
        except OSError:
            pass  # It has ended.


def running(top):
    """Crate and kind of each check that runs now below a process, but for a check's own helpers."""
    processes = [os.path.basename(it) for it in glob.glob("/proc/[0-9]*")]
    parents = {it: (text_of(it, "stat").rpartition(")")[2].split() + ["", ""])[1] for it in processes}
    checks = {}
    for process in processes:
        words = text_of(process, "cmdline").split("\0")
        if os.path.basename(words[0]) != "rattle" or "--crate-name" not in words or not is_below(top, process, parents):
            continue
        kind = kind_of(process, words)
        give_way(process, KINDS[kind])
        checks[process] = words[words.index("--crate-name") + 1], kind
    return [of for process, of in checks.items() if parents[process] not in checks]


def is_below(top, process, parents):
    """Whether a process was begun by another one, or by one of those that it began."""
    while process and process != top:
        process = parents.get(process)
    return process == top


def main():
    seconds, done, last = defaultdict(float), [], time.monotonic()
    signal.signal(signal.SIGTERM, lambda *_: done.append(True))
    while not done:
        now = time.monotonic()
        for of in running(sys.argv[1]):
            seconds[of] += now - last
        last = now
        time.sleep(1)
    for crate in sorted({crate for crate, _ in seconds}):
        print(f"{crate}: " + ", ".join(f"{kind} {seconds[crate, kind]:.0f} s" for kind in KINDS))
    sums = {kind: sum(took for (_, of), took in seconds.items() if of == kind) for kind in KINDS}
    print("all: " + ", ".join(f"{kind} {took / 60:.0f} min" for kind, took in sums.items()))


main()
