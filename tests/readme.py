#!/usr/bin/env python3
"""Sees that what the front page and the guide show is so: the trace and its answers, the C that
compiles, the speed table as it was measured, the number of wrong bodies; and runs their commands that
prove nothing, each of which takes one to two minutes, and compares what they print. It fails, and
says which, where one differs or fails, or where a command of KINDS isn't there.

Usage: tests/readme.py [KIND..]   with none, all of them; with 'quick', no command is run"""
import glob
import json
import os
import re
import subprocess
import sys
import tempfile
import time

KINDS = ("run", "core", "blocks", "--test")
PAGES = ("README.md", "docs/GUIDE.md")
MEDIANS = "docs/speed/medians.jsonl"
TRACE = "examples/cache.trace"
SECONDS = "1200"

# The front page's command; a row of the guide: what it is for, the command, and what it prints.
FRONT = re.compile(r"^    (\(cd \S+ && rt try .*\))$", re.M)
ROW = re.compile(r"^\| ([^|]+) \| `(\(cd \S+ && rt try .*\))` \| (.+) \|$", re.M)
# A command's kind: the first word that the program is given, or that it is the tests.
KIND = re.compile(r"rt try (?:--data \S+ )*(?:-- )?(\S+?)[ )]")
# A line of the trace, its answer, and what it means.
PLAYED = re.compile(r"^\| (?:`([^`]*)`)? ?\| `([^`]*)` \| .*\|$", re.M)
SHOWN_C = """#include "ferretgold.h"
size_t read_from_disk(const ferretgold_key *key, unsigned char *block, size_t length);
void shown(ferretgold_client *client, ferretgold_key key);
void shown(ferretgold_client *client, ferretgold_key key) {
unsigned char block[4096];
size_t length;
%s}
"""


def read(name):
    with open(name, encoding="utf-8") as it:
        return it.read()


def clients_of(report):
    """What every order of the threads gives of a report of block reads: a client on each line."""
    lines = []
    for client in json.loads(report)["clients"]:
        del client["hits"], client["misses"]
        lines.append(json.dumps(client, separators=(",", ":")) + "\n")
    return "".join(lines)


def is_as_shown(kind, printed, shown):
    """Whether a command printed what its row names."""
    if kind == "--test":
        return re.search(r"^test result: ok", printed, re.M) and "FAILED" not in printed
    stored = read(re.search(r"`(examples/[^`]+)`", shown)[1])
    return (clients_of(printed) if kind == "blocks" else printed) == stored


def fault_of(kind, command, shown):
    """Runs a command; what is wrong with it, or nothing."""
    # By itself rt waits too short a time where other steps take the processors.
    patient = command.replace("rt try ", f"rt try --seconds {SECONDS} ", 1)
    words = ["timeout", SECONDS, "bash", "-c", patient]
    ran = subprocess.run(words, capture_output=True, text=True, check=False)
    if ran.returncode != 0:
        return f"status {ran.returncode}: {ran.stderr.strip()[-300:]}"
    try:
        return "" if is_as_shown(kind, ran.stdout, shown) else f"printed:\n{ran.stdout}"
    except (KeyError, OSError, TypeError, ValueError) as fault:
        return f"can't be judged, by {fault!r}"


def trace_fault(page):
    """The front page shows the trace and its answers."""
    rows = PLAYED.findall(page)
    trace = "".join(f"{line}\n" for line, _ in rows if line)
    answers = "".join(f"{answer}\n" for _, answer in rows)
    is_so = trace == read(TRACE) and answers == read(TRACE.replace(".trace", ".answers"))
    return "" if is_so else f"the rows of the trace aren't {TRACE} and its answers"


def c_fault(page):
    """The front page's C compiles without a warning."""
    shown = re.search(r"^```c\n(.*?)^```", page, re.M | re.S)
    if not shown:
        return "no C is shown"
    with tempfile.NamedTemporaryFile("w", suffix=".c") as it:
        it.write(SHOWN_C % shown[1])
        it.flush()
        words = ["cc", "-std=c11", "-Wall", "-Wextra", "-Werror", "-fsyntax-only", "-Iinclude", it.name]
        ran = subprocess.run(words, capture_output=True, text=True, check=False)
    return ran.stderr if ran.returncode else ""


def speed_faults():
    """The tables of speed are those that the measured medians make."""
    found = []
    for page, table in zip(PAGES, ("--front", "--all")):
        words = ["bench/peers/ratios.py", table, MEDIANS]
        ran = subprocess.run(words, capture_output=True, text=True, check=False)
        if ran.returncode or ran.stdout not in read(page):
            found.append(f"{page}: its table of speed isn't what `{' '.join(words)}` prints")
    return found


def count_fault(page):
    """The front page tells how many wrong bodies there are."""
    edits = "".join(read(it) for it in glob.glob("crates/*/edits/*.edit"))
    many = f"{len(re.findall('^edit: ', edits, re.M)) + len(glob.glob('crates/*/must-fail/*.edit')):,}"
    return "" if re.search(rf"\b{many}\b[^.]*wrong bodies", page) else f"there are {many} wrong bodies"


def commands():
    """Each command: its kind, what it is for, itself, and what it prints."""
    front, guide = (read(it) for it in PAGES)
    rows = [("play a trace", it, f"`{TRACE.replace('.trace', '.answers')}`") for it in FRONT.findall(front)]
    return [(KIND.search(row[1])[1], *row) for row in rows + ROW.findall(guide)]


def main():
    os.chdir(os.path.join(os.path.dirname(os.path.realpath(__file__)), ".."))
    rows, front = commands(), read(PAGES[0])
    kinds = [it[0] for it in rows]
    faults = [f"no command of {kind}" for kind in KINDS if kind not in kinds]
    faults += [f"a command of {kind}, which nobody judges" for kind in kinds if kind not in KINDS]
    faults += [it for it in (trace_fault(front), c_fault(front), count_fault(front)) if it]
    faults += speed_faults()
    for kind, what, command, shown in rows:
        if kind in (sys.argv[1:] or KINDS):
            began = time.monotonic()
            fault = fault_of(kind, command, shown)
            print(f"{what}: {time.monotonic() - began:.0f} s", flush=True)
            faults += [f"{what}: {fault}"] if fault else []
    for fault in faults:
        print(f"failed: {fault}")
    print(f"readme: {len(rows)} commands, {len(faults)} failed")
    return bool(faults)


sys.exit(main())
