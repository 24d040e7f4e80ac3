#!/usr/bin/env python3
"""Makes one web page that replays a script of the protocol's events: the slots, references, counts,
hand and ledgers after each event, forwards and back. It runs `hcc_play core` on the script, and puts
its lines into tools/page.html; the page needs nothing else.

Usage: tools/page.py SCRIPT [--slots N] [--clients N] [--capacity N] [--strict] [--program PROGRAM] > PAGE
The program is what `rt ci` or `rt run` in crates/hcc_play left there, if no other is named."""
import argparse
import json
import os
import subprocess
import sys

sys.dont_write_bytecode = True
HERE = os.path.dirname(os.path.realpath(__file__))
BUILT = os.path.join(HERE, "..", "crates", "hcc_play", "out", "hcc_play")
MOST = 10_000


def arguments():
    told = argparse.ArgumentParser(description="Makes a web page that replays a script of events.")
    told.add_argument("script")
    told.add_argument("--program", default=BUILT)
    told.add_argument("--slots", type=int, default=2)
    told.add_argument("--clients", type=int, default=2)
    told.add_argument("--capacity", type=int, default=600)
    told.add_argument("--strict", action="store_true")
    return told.parse_args()


def played(of, script):
    """The program's lines; it ends here with the program's own status and text where it fails."""
    words = [of.program, "core", "--slots", str(of.slots), "--clients", str(of.clients)]
    words += ["--capacity", str(of.capacity), *["--strict"] * of.strict]
    ran = subprocess.run(words, input=script, capture_output=True, check=False)
    if ran.returncode:
        sys.stderr.buffer.write(ran.stderr)
        sys.exit(ran.returncode)
    return ran.stdout.decode("ascii").splitlines()


def page(of, script, lines):
    """The page's text. `<` is written so that no line can end the part of the page that has them."""
    replay = {
        "name": os.path.basename(of.script), "slots": of.slots, "clients": of.clients,
        "capacity": of.capacity, "strict": of.strict, "limit": of.slots * 84 // 100,
        "script": script.decode("ascii").splitlines(), "lines": lines,
    }
    with open(os.path.join(HERE, "page.html"), encoding="utf-8") as it:
        return it.read().replace('"@REPLAY@"', json.dumps(replay).replace("<", "\\u003c"))


def main():
    of = arguments()
    if not os.access(of.program, os.X_OK):
        sys.exit(f"page: no program at {of.program}: `rt run` in crates/hcc_play makes it")
    try:
        with open(of.script, "rb") as it:
            script = it.read()
    except OSError as fault:
        sys.exit(f"page: {of.script}: {fault.strerror}")
    if script.count(b"\n") > MOST:
        sys.exit(f"page: {of.script} has more than {MOST} events")
    print(page(of, script, played(of, script)), end="")


main()
