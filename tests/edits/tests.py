#!/usr/bin/env python3
"""Tests tests/edits/try.py on the lowest crate: which edits it refuses, and what it says of those that
show nothing. Fails where it says anything else."""
import os
import re
import shutil
import subprocess
import sys
import tempfile

sys.dont_write_bytecode = True
HERE = os.path.dirname(os.path.realpath(__file__))
LEFT = "let left = (countdown - 1).min(GREATEST_CLOCKED);"
WORD = "(kind as u64) << ADDRESS_BITS | address"
# Name, file, old text, new text, verdict; a line of what it breaks or of the compiler's error.
EDITS = [
    ("changes.clocked.drops_one", "changes", LEFT, "let left = countdown.min(GREATEST_CLOCKED);", "refused"),
    ("changes.corrected.is_the_same", "changes", "releases < NEAR ||", "NEAR > releases ||", "NOT REFUSED"),
    ("changes.unreferenced.has_no_end", "changes", "packed(uses, uses,", "packed(uses, uses(,", "BAD EDIT"),
    ("changes.started.names_nothing", "changes", "u32::from(keep), false", "u32::from(kept), false", "BAD EDIT"),
    ("fields.hit.is_elsewhere", "fields", "word & HIT_BIT == 7", "false", "BAD EDIT"),
    ("fields.refs.calls_less", "fields", "acquires(word).wrapping_sub(", "((word & COUNTER_MASK) as u32).wrapping_sub(", "BAD EDIT"),
    ("changes.started.is_refused", "changes", "u32::from(keep), false", "u32::from(kept), false", "refused", "error: value `kept`"),
    ("changes.started.errs_otherwise", "changes", "u32::from(keep), false", "u32::from(kept), false", "BAD EDIT", "error: is private"),
    ("changes.clocked.compiles", "changes", LEFT, "let left = countdown.min(GREATEST_CLOCKED);", "BAD EDIT", "error: is private"),
    ("objects.packed_object.leaves_the_kind_out", "objects", WORD, "address", "refused", "breaks: kind"),
    ("objects.packed_object.is_the_same", "objects", WORD, f"let word = {WORD}; word", "NOT REFUSED", "breaks: kind"),
]
ENSURES = "    ensures { SomeIff result (IsClockable word) (clocked_word word) }\n"
failed = 0


def judge(name, ok, said=""):
    """Tells a case that did not pass."""
    global failed
    if not ok:
        failed += 1
        print(f"failed: {name}\n{said}")


def put(name, file, old, new, *lines):
    with open(f"crates/hcc_word/edits/{name}.edit", "w", encoding="utf-8") as it:
        it.write("\n".join([f"file: src/{file}.rt\n", f"edit: {name.partition('.')[2]}", *lines, f"old: {old}", f"new: {new}\n"]))


def tried(*words):
    """The status of the script, and what it said."""
    ran = subprocess.run([f"{HERE}/try.py", *words], capture_output=True, text=True, check=False)
    return ran.returncode, ran.stdout + ran.stderr


def verdicts():
    for name, file, old, new, _, *lines in EDITS:
        put(name, file, old, new, *lines)
    status, said = tried()
    judge("a bad edit fails it", status == 1, said)
    for name, _, _, _, verdict, *_ in EDITS:
        found = re.search(rf"^hcc_word/{name}: (refused|BAD EDIT|NOT REFUSED)", said, re.M)
        judge(f"{name}: {verdict}", found and found[1] == verdict, said)
    judge("names alone are told", "only a proof file names what it took away" in said, said)
    judge("what an edit breaks is told", f"{EDITS[0][0]}: refused: changes::clocked:returns\n" in said, said)
    judge("it is tried by that alone", "leaves_the_kind_out: refused: objects::packed_object:kind\n" in said, said)
    for name, *_ in EDITS[1:]:
        os.remove(f"crates/hcc_word/edits/{name}.edit")


def gate():
    """As the gate runs it, behind a log in which nothing is proved: nothing stands below."""
    status, said = tried("--gate", "log")
    judge("what is refused passes the gate", status == 0 and "edits: 1 of 1 tried" in said, said)
    status, said = tried("--gate", "log", "--until", "-1")
    judge("what there is no time for is told", status == 0 and f"{EDITS[0][0]}: not tried\n" in said, said)


def changed():
    """A function whose contract says less: its edit is proved."""
    path = "crates/hcc_word/src/changes.rt"
    with open(path, encoding="utf-8") as it:
        text = it.read()
    with open(path, "w", encoding="utf-8") as it:
        it.write(text.replace(ENSURES, ""))
    status, said = tried("--gate", "log")
    judge("a weak contract fails the gate", status == 1 and "drops_one: NOT REFUSED" in said, said)


def main():
    crate = os.path.realpath(f"{HERE}/../../crates/hcc_word")
    with tempfile.TemporaryDirectory(prefix="edits-tests-") as folder:
        for part in ("src", "specs", "proofs"):
            shutil.copytree(f"{crate}/{part}", f"{folder}/crates/hcc_word/{part}")
        os.mkdir(f"{folder}/crates/hcc_word/edits")
        os.chdir(folder)
        for name, text in (("crates.txt", "hcc_word:\n"), ("log", "")):
            with open(name, "w", encoding="utf-8") as it:
                it.write(text)
        for part in (verdicts, gate, changed):
            part()
    print(f"edits, tried: {failed} failed")
    return 1 if failed else 0


sys.exit(main())
