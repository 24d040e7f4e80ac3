"""Edits planted beside the functions that they change.

A copy of the function, its contract and its proof has the wrong body under a name of its own; the
function stays as it is, and so do all that call it. So edits of one function, and of functions that
call one another, go into one check. And where an edit says what it breaks, the copy promises that and
one clause more: for each clause that a wrong body leaves unproved the prover searches in vain. (With a
single clause its goals would have other names, which proofs cite.)"""
import os
import re

from functions import functions_of

ANSWER = re.compile(r"(?:abbrev )?pub (returns[\w-]*?(?:-clause-(\w+))?) : ")
MODULES = re.compile(r"\.proofs\.([\w.+]+)\.(?!Met\b)(?:[A-Z]\w*|\{)")


class Planting:
    """A crate in whose texts copies of functions are planted."""

    def __init__(self, crate):
        self.crate, self.files, self.named = crate, {}, {}
        self.functions = {(it.path, it.symbol): it for it in reversed(functions_of(crate))}
        for path in crate.files(".antt"):
            self.files.setdefault(os.path.dirname(path), []).append(path)
            for name in MODULES.findall(crate.text(path)):
                self.named.setdefault(name, set()).add(os.path.dirname(path))

    def proof_of(self, symbol):
        """The folder of a function's proof, '' where it has none; None where that can't be copied: it
        is one by hand, has more than answers and invariants, or other files name its modules."""
        end = f"/{symbol.replace('::', '/')}"
        found = [it for it in self.files if it.startswith("proofs/") and it.endswith(end)]
        below = [it for it in self.files if f"{end}/" in it]
        if len(found) > 1 or below:
            return None
        if not found:
            return ""
        names = {os.path.basename(it) for it in self.files[found[0]]}
        users = self.named.get(found[0][7:].replace("/", "."), set())
        return found[0] if names <= {"Answers.antt", "Invariants.antt"} and users <= {found[0]} else None

    def plant(self, edit, number, texts):
        """Adds a copy of an edit's function, with the edit, to these texts, and gives the name of it;
        None where it can't be."""
        if len(edit.symbols) != 1 or edit.errors:
            return None
        [symbol], path = edit.symbols, edit.pairs[0][0]
        folder, function = self.proof_of(symbol), self.functions.get((path, symbol))
        if folder is None or not function or not can_stand_twice(function):
            return None
        first, whole = whole_of(function, edit.texts[path].split("\n"))
        parts = {it: self.crate.text(it) for it in self.files.get(folder, ())} | {path: whole}
        for at, old, new in edit.pairs:
            if parts.get(at, "").count(old) != 1:
                return None
            parts[at] = parts[at].replace(old, new)
        parts = narrowed(parts, path, function, first, edit.breaks)
        name = f"{function.name}_edit_{number}"
        copy = re.sub(rf"\bfn {function.name}\b", f"fn {name}", parts.pop(path))
        texts[path] = texts.get(path, edit.texts[path]).replace(whole, f"{whole}\n\n{copy}")
        to = f"{os.path.dirname(folder)}/{name}"
        modules = [f".{it.replace('/', '.')}." for it in (folder, to)]
        for it, text in parts.items():
            texts[it.replace(folder, to)] = text.replace(*modules)
        return f"{symbol.rpartition('::')[0]}::{name}".removeprefix("::")


def can_stand_twice(function):
    """Whether a copy is as good as the function: not if it is of a trait or its impl, or calls itself."""
    calls_itself = rf"(?<![.:\w]){'[Ss]elf(?:[.]|::)' if function.block else ''}{function.name}\("
    is_of_trait = function.is_of_trait or " for " in function.block
    return not is_of_trait and not re.search(calls_itself, function.body)


def whole_of(function, lines):
    """The row on which a function begins, with what stands above it, and its text."""
    first = function.row
    while lines[first - 1].strip().startswith(("#[", "//")):
        first -= 1
    return first, "\n".join(lines[first : function.end + 1])


def narrowed(parts, path, function, first, breaks):
    """A function's text, from its first row on, and its proof with the clause that it breaks, or none
    where that is no clause, and the shortest other one; as they are where the edit says nothing, or one
    answer is for all."""
    clauses = [it for it in function.clauses if it.kind == "ensures"]
    if not breaks or len(clauses) < 3 or not all(it.name for it in clauses):
        return parts
    proofs = {it: items_of(text) for it, text in parts.items() if it.endswith("/Answers.antt")}
    if any(clause == "" for items in proofs.values() for _, clause, _ in items):
        return parts
    by_size = sorted(clauses, key=lambda it: (it.name != breaks, it.height, len(it.lines[-1])))
    kept = with_cited({it.name for it in by_size[:2]}, [it for items in proofs.values() for it in items])
    lines = parts[path].split("\n")
    for it in reversed(clauses):
        if it.name not in kept:
            del lines[it.row - first : it.row - first + it.height]
    answers = {it: [text for _, of, text in items if of is None or of in kept] for it, items in proofs.items()}
    return {**parts, **{it: "\n\n".join(texts) for it, texts in answers.items()}, path: "\n".join(lines)}


def items_of(text):
    """What stands in a file of answers, each with its name and the clause that it is for: none where it
    is no answer of what the function returns, '' where it is for all clauses."""
    parts = [(ANSWER.match(it), it) for it in re.split(r"\n\n(?! )", text)]
    return [(at[1], at[2] or "", it) if at else (None, None, it) for at, it in parts]


def with_cited(kept, items):
    """These clauses, and those whose answers are cited by what stays."""
    left = [it for it in items if it[1] and it[1] not in kept]
    stays = "".join(text for _, of, text in items if of is None or of in kept)
    cited = {of for name, of, _ in left if re.search(rf"(?<![\w-]){name}(?![\w-])", stays)}
    return with_cited(kept | cited, items) if cited else kept
