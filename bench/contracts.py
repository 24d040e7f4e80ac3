#!/usr/bin/env python3
"""How many definitions, in how many lines, files and crates, one needs to read a public function's
contract: those of specs/ that it names, and those that these name. A name stands for what its file
imports or has under it, so each number is an upper bound.

usage: bench/contracts.py CRATE FUNCTION..    as: bench/contracts.py hcc_cache Cache::get"""
import os
import re
import sys

sys.dont_write_bytecode = True
TOP = os.path.join(os.path.dirname(os.path.realpath(__file__)), "..")
sys.path[:0] = [f"{TOP}/tests/edits", f"{TOP}/tests/static"]
from crates import crates
from page import definitions_in
from functions import functions_of

WORD = re.compile(r"[^\s(){}\[\],;.⟦⟧`]+")
IMPORT = re.compile(r"(?:pub |unfoldable |ghost )*use Rattle\.(\w+)\.([\w.+#-]+?)(?:\.\{([^}]*)\})?;?$", re.M)


class Specs:
    """The files of all crates, read once: definitions and imports by their names."""

    def __init__(self):
        self.crates, self.files = crates(), {}

    def read(self, crate, path):
        """A file's definitions, and its imports: name, to crate, file and name there."""
        of = self.crates[crate]
        if (crate, path) not in self.files and os.path.isfile(f"{of.folder}/{path}"):
            imports = {}
            for library, module, names in IMPORT.findall(of.text(path)):
                for it in names.split(","):
                    name, _, other = it.strip().partition(" as ")
                    imports[other or name] = library, f"{module.replace('.', '/')}.antt", name
            self.files[crate, path] = definitions_in(of, path), imports
        return self.files.get((crate, path), ({}, {}))

    def named(self, crate, path, text):
        """The definitions that a file's text names."""
        for word in set(WORD.findall(text)):
            where, found = (crate, path, word), set()
            while where and where not in found and where[0] in self.crates:
                found.add(where)
                definitions, imports = self.read(*where[:2])
                if where[2] in definitions:
                    yield where
                where = None if where[2] in definitions else imports.get(where[2])

    def reached(self, function):
        """All definitions that a function's contract leads to."""
        clauses = "\n".join(line for it in function.clauses for line in it.lines)
        todo, found = list(self.named(function.crate, function.path, clauses)), set()
        while todo:
            at = todo.pop()
            if at not in found:
                found.add(at)
                todo += self.named(*at[:2], "\n".join(self.read(*at[:2])[0][at[2]].lines))
        return found


def main():
    specs = Specs()
    for it in functions_of(specs.crates[sys.argv[1]]):
        if it.label in sys.argv[2:]:
            found = specs.reached(it)
            lines = sum(len(specs.read(*at[:2])[0][at[2]].lines) for at in found)
            files, of = len({at[:2] for at in found}), len({at[0] for at in found})
            print(f"{it.label}: {len(found)} definitions, {lines} lines, {files} files, {of} crates")


main()
