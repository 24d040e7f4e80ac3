"""An edit that the prover has to refuse: its name, what it changes, and in which functions.

It has lines 'file: PATH', and pairs of lines 'old: TEXT' and 'new: TEXT', each text in its file once.
must-fail/ has a file for each, as rt reads them, named FILE.FUNCTION.WHAT.edit. edits/ has a file for
each file of code: a line 'file: PATH', and behind it the edits, each under a line 'edit:
FUNCTION.WHAT'. There may stand 'breaks: GOAL', with a clause that it breaks or what else has to hold
there; and where the compiler has to refuse it, 'error: TEXT' with text of its error. The crate's files
are in rt fmt's layout: the first line of an item and its last have one indent."""
import glob
import os
import re

from crates import FOLDERS, crates, symbol_of
from functions import BLOCK, body_at

IMPORT = re.compile(r"\s*(?:pub )?(?:ghost )?use ")
ADDED = re.compile(r"(?:use [^;]*; )?fn \w+\(")
GHOST = re.compile(r"\s+ghost \w+ = ")


def read_edits(file):
    """The edits of a file by their names, each with its changes, path, old text and new text, the
    compiler's errors, and what it breaks, if it says so."""
    folder, stem = os.path.split(file.removesuffix(".edit"))
    name, first, old, found = "", "", None, {}
    if os.path.basename(folder) == "must-fail":
        name = stem
        found[name] = [], [], []
    with open(file, encoding="utf-8") as it:
        for line in it.read().split("\n"):
            if line.startswith("edit: "):
                path, name = first, f"{os.path.basename(first).partition('.')[0]}.{line[6:].strip()}"
                if name in found:
                    raise ValueError(f"{file}: {name} stands twice")
                found[name] = [], [], []
            elif line.startswith("error: "):
                found[name][1].append(line[7:].strip())
            elif line.startswith("breaks: "):
                found[name][2].append(line[8:].strip())
            elif line.startswith("file: "):
                path = line[6:].strip()
                first = first or path
            elif line.startswith("old: "):
                old = line[5:]
            elif line.startswith("new:") and old is not None:
                found[name][0].append((path, old, line[4:].removeprefix(" ")))
                old = None
    return found


def applied(pairs, texts):
    """The texts with these changes, or None where an old text isn't in its file once."""
    texts = dict(texts)
    for path, old, new in pairs:
        if texts.get(path, "").count(old) != 1:
            return None
        texts[path] = texts[path].replace(old, new)
    return texts


def helpers_at(text, at):
    """The functions of the file in whose bodies the type is named whose impl stands at this place."""
    heads = [it for it in text[:at].split("\n") if BLOCK.match(it)]
    named = re.search(r" for (\w+) \{$", heads[-1]) if heads else None
    uses = re.finditer(rf"::<{named[1]}\b", text) if named else ()
    return [found for it in uses if (found := body_at(text, it.start()))]


class Edit:
    """An edit, the functions whose bodies alone it changes (none: it changes more than bodies, or the
    compiler has to refuse it), and what came of it."""

    def __init__(self, crate, name, pairs, errors, breaks, is_of_gate):
        self.crate, self.name, self.pairs, self.is_of_gate = crate.name, name, pairs, is_of_gate
        self.errors, self.breaks = errors, "".join(breaks)
        self.key = f"{crate.name}/{self.name}"
        self.symbols = []
        self.verdict, self.said, self.goals = None, "", set()
        self.texts = {}
        for path in {it[0] for it in self.pairs}:
            if os.path.isfile(f"{crate.folder}/{path}"):
                self.texts[path] = crate.text(path)
        if not self.pairs or applied(self.pairs, self.texts) is None:
            self.verdict, self.said = "BAD EDIT", "an old text isn't in its file once"
            return
        self.symbols = [] if errors else self.found_symbols()

    def found_symbols(self):
        """The functions whose bodies the edit changes, as rattle names them; none where it changes
        anything else. A function's first line, imports beside a body, functions that it adds, and the
        functions' own proof files, are nothing else. What a helper's impl says of its steps is in the
        functions that use it."""
        found, now = [], dict(self.texts)
        for path, old, new in self.pairs:
            begin = now[path].index(old)
            in_body = [body_at(now[path], it, True) for it in (begin, begin + len(old) - 1)]
            line = now[path][now[path].rfind("\n", 0, begin) + 1 :].split("\n")[0]
            now[path] = now[path].replace(old, new)
            is_proof = any(f"/{it.replace('::', '/')}/" in path for it in found)
            is_added = new.endswith(old) and ADDED.match(new)
            if is_proof or (IMPORT.match(line) or is_added) and path.startswith("src/"):
                continue
            if not path.startswith("src/") or in_body[0] != in_body[1]:
                return []
            of = in_body[:1] if in_body[0] else helpers_at(now[path], begin) if GHOST.match(line) else []
            if not of:
                return []
            symbols = [symbol_of(owner, path, name) for owner, name in of]
            found += [it for it in dict.fromkeys(symbols) if it not in found]
        return found

    def made(self):
        return applied(self.pairs, self.texts)


def edits_of(crate):
    """The crate's edits, in the order of their names."""
    found = []
    for folder in FOLDERS:
        for file in glob.glob(f"{crate.folder}/{folder}/*.edit"):
            edits = read_edits(file).items()
            found += [Edit(crate, name, *of, folder == "must-fail") for name, of in edits]
    return sorted(found, key=lambda it: it.name)


def fault_of(edit, crate):
    """What is wrong with an edit's text or name, or nothing. Its name is FILE.FUNCTION.WHAT, with any item
    in the function's place."""
    words, path = edit.name.split("."), edit.pairs[0][0] if edit.pairs else ""
    file = os.path.basename(path).partition(".")[0]
    if edit.verdict:
        return edit.said
    if not path.startswith("src/") or words[0] != file or len(words) != 3:
        return f"name it {file}.FUNCTION.WHAT"
    item = rf"\b(fn|const|struct|enum|trait|type) {re.escape(words[1])}\b"
    return "" if re.search(item, crate.text(path)) else f"there is no {words[1]} in {path}"


def edits():
    """Edits that change no code, whose old text isn't in its file once, that aren't named by what they
    change, or have a name that another one has."""
    found = [(it, crate) for crate in crates().values() for it in edits_of(crate)]
    keys = [it.key for it, _ in found]
    for it, crate in found:
        if fault := fault_of(it, crate):
            yield f"{it.key}: {fault}"
        if keys.count(it.key) > 1:
            yield f"{it.key}: stands in must-fail/ and in edits/"
