#!/usr/bin/env python3
"""Writes docs/GUARANTEES.md: the front, docs/guarantees.front.md, with the clauses and definitions
that it quotes, and behind it each public function of each crate with its contract.

usage: tests/static/guarantees.py

A line of the front is replaced by what it names, as the source has it:

    {{clause CRATE FUNCTION NAME..}}   clauses of a function. FUNCTION is Type::name or name; NAME is
                                       that of an 'ensures', requires:NAME, or requires or ensures
                                       where the clause has none
    {{spec CRATE FILE NAME..}}         definitions of crates/CRATE/specs/FILE.antt

tests/static/check.py fails where the page isn't what this would write, where a name that the front
quotes isn't found, or where the rows of the README's guarantees name a function, a clause or a
definition that isn't there.

A row names functions, and behind them their clauses in parentheses: `f`, `Type::g` (`clause`,
`other`). In parentheses a name with a capital first is a definition, and `f`: `c` behind a semicolon
is a clause of another function. A crate or a type in a function's place means that one of its
functions has the clauses. A function may be called CRATE::Type::name, and a name may be a link."""
import difflib
import os
import re
import sys

sys.dont_write_bytecode = True
HERE = os.path.dirname(os.path.realpath(__file__))
sys.path[:0] = [HERE, os.path.join(HERE, "../edits")]
from crates import crates
from page import Source, listed, quoted
from texts import read

FRONT, PAGE, README = "docs/guarantees.front.md", "docs/GUARANTEES.md", "README.md"
SHOWN = 40  # lines of a difference
SECTION = re.compile(r"^## [^\n]*guarantee[^\n]*\n(.*?)(?=^## |\Z)", re.M | re.S | re.I)
LINK = re.compile(r"\[([^]]*)\]\([^)]*\)")
NAME = re.compile(r"`([\w:]+)`")
GROUP = re.compile(r"((?:`[\w:]+`(?:, (?:and )?| and )?)+) ?\(((?:`[\w:]+`[,;:]? ?)+)\)")


def rows_of(page):
    """The rows of the README's guarantees, of tables and of lists, each with its line."""
    section = SECTION.search(page)
    if not section:
        return None
    first = page.count("\n", 0, section.start(1)) + 1
    rows = enumerate(section[1].split("\n"), first)
    return [(line, LINK.sub(r"\1", row)) for line, row in rows if row.startswith(("|", "- "))]


def pairs_in(row):
    """Functions and the clauses that they are said to have."""
    found = []
    for outer, inner in GROUP.findall(row):
        for part in inner.split(";"):
            whose, _, names = part.rpartition(":")
            for function in NAME.findall(whose or outer):
                found.append((function, NAME.findall(names)))
    return found


def functions_named(source, name):
    """The functions that a name may mean: its own, or those of a crate or a type."""
    if name in source.functions:
        return source.functions[name]
    every = [it for crate in source.functions.values() for it in crate]
    return [it for it in every if it.is_named(name)] or [it for it in every if it.owner == name]


def fault_of(source, function, names):
    """What a row says of this function that isn't so, or nothing."""
    there = functions_named(source, function)
    if not there:
        return f"there is no function {function}"
    clauses = [it for it in names if not it[0].isupper()]
    defined = {it for crate in source.definitions.values() for file in crate.values() for it in file}
    if missing := [it for it in names if it[0].isupper() and it not in defined]:
        return f"there is no definition {', '.join(missing)}"
    if not any(all(it.has(name) for name in clauses) for it in there):
        return f"no function {function} has the clauses {', '.join(clauses)}"
    return ""


def faults_of(source, page):
    """What the README's guarantees name that isn't there."""
    rows = rows_of(page)
    if rows is None:
        return ["no section of guarantees"]
    faults = []
    for line, row in rows:
        found = [fault_of(source, *it) for it in pairs_in(row)]
        faults += [f"line {line}: {it}" for it in found if it]
    return faults


def differences(page):
    """What the page has otherwise, with its lines' numbers; nothing where it is the same."""
    had = read(PAGE).split("\n") if os.path.isfile(PAGE) else []
    lines = list(difflib.unified_diff(had, page.split("\n"), PAGE, "what it would be", "", "", 0, ""))
    more = [f"... {len(lines) - SHOWN} lines more"] if len(lines) > SHOWN else []
    return ["\n".join([f"{PAGE} isn't what it would be"] + lines[:SHOWN] + more)] if lines else []


def made():
    """The page as it would be written, and what it and the README name that isn't there."""
    source = Source(crates())
    front, faults = quoted(source, read(FRONT))
    return front + listed(source), faults + [f"{README}: {it}" for it in faults_of(source, read(README))]


def guarantees():
    """What the page of contracts has otherwise than the contracts, and names that aren't there."""
    page, faults = made()
    return faults + differences(page)


if __name__ == "__main__":
    os.chdir(os.path.join(HERE, "../.."))
    with open(PAGE, "w", encoding="utf-8") as it:
        it.write(made()[0])
