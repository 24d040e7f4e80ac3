"""The functions of a crate as its source has them: doc comments, signatures and contracts; bodies, and
whom they call, by names.

The files are in rt fmt's layout: a clause begins on a line of its own, with 'requires' or 'ensures',
and ends where its braces close; behind the clauses the body opens, and it closes at the function's
indent."""
import os
import re

from crates import FUNCTION, owner_in, symbol_of

BLOCK = re.compile(r"(unsafe )?impl\b|(pub )?trait ")
CLAUSE = re.compile(r"\s*(requires|ensures) (?:(\w+) )?\{")
TRAIT = re.compile(r"(?:pub )?trait (\w+)")
TYPE = re.compile(r"^pub (?:struct|enum|trait) (\w+)", re.M)
MODULE = re.compile(r"^pub mod (\w+);", re.M)
EXPORTED = re.compile(r"^pub use [\w:]+?(?:::\{([^}]*)\}|::(\w+));", re.M)

# What isn't code: comments, single characters, texts.
UNREAD = re.compile(r"""//[^\n]*|/\*.*?\*/|'(?:\\.|[^'\\])'|"(?:\\.|[^"\\])*\"""", re.S)
CALL = re.compile(r"(?:\b(\w+)::(?:<[^;()]*?>::)?|(\.))?\b([a-z_]\w*)(?:::<[^;()]*?>)?\(")


class Clause:
    """A clause of a contract: 'requires' or 'ensures', its name, if any, its line and its text, with
    the comment above it."""

    def __init__(self, found, row, above):
        self.kind, self.name, self.row, self.lines = found[1], found[2] or "", row, above
        self.depth = self.height = 0

    def add(self, line):
        self.lines.append(line)
        self.height += 1
        self.depth += line.count("{") - line.count("}")

    def is_called(self, name):
        """Whether a quote means it: by its name, or by its kind where it has none, or by both as
        KIND:NAME. A name alone is that of an 'ensures'."""
        kind, _, rest = name.rpartition(":")
        return (kind or "ensures", rest) == (self.kind, self.name) or (
            not self.name and name == self.kind
        )


class Function:
    """A function: where it is, its doc comment, its signature, its clauses, and its body's code."""

    def __init__(self, crate, path, lines, code, row, block):
        found = FUNCTION.match(lines[row])
        self.crate, self.path, self.row, self.indent = crate.name, path, row, found[1]
        trait = TRAIT.match(block) if found[1] else None
        self.is_of_trait, self.block = bool(trait), block if found[1] else ""
        self.owner = (trait[1] if trait else owner_in(block) or "") if found[1] else ""
        # A call may be by the type, or by the trait that it is of.
        self.owners = {self.owner, *re.findall(r"\w+", block)} if found[1] else set()
        self.name = found[2]
        self.symbol = symbol_of(self.owner, path, self.name)
        self.label = f"{self.owner}::{self.name}" if self.owner else self.name
        is_of_public = trait and block.startswith("pub ")
        self.is_written_public = lines[row].lstrip().startswith("pub ") or bool(is_of_public)
        self.is_export = row > 0 and "no_mangle" in lines[row - 1]
        self.docs = docs_above(lines, row)
        self.signature, self.clauses = contract_at(lines, row, found[1])
        opens, self.end = rows_of_body(code, row, found[1])
        self.body = "\n".join(code[opens + 1 : self.end]) if opens < self.end else code[opens]

    def place(self, row=None):
        """The link to a line of its file, from docs/."""
        line = (self.row if row is None else row) + 1
        return f"../crates/{self.crate}/{self.path}#L{line}"

    def is_named(self, name):
        return name in (self.label, self.name, f"{self.crate}::{self.label}")

    def has(self, clause):
        """Whether it has a clause of this name, of either kind."""
        return any(clause == it.name for it in self.clauses)


def docs_above(lines, row):
    """The first paragraph of the doc comment above a line, on one line."""
    found = []
    while row > 0 and lines[row - 1].strip() and not lines[row - 1].endswith(("{", "}", ";")):
        row -= 1
        found.insert(0, lines[row].strip())
    told = [it[3:].strip() for it in found if it.startswith("///")]
    end = told.index("") if "" in told else len(told)
    return re.sub(r"\[(`[^`]+`)\]", r"\1", " ".join(told[:end]))


def contract_at(lines, row, indent):
    """A function's signature, as lines, and its clauses."""
    signature, clauses, above = [], [], []
    for at in range(row, len(lines)):
        line = lines[at]
        if clauses and clauses[-1].depth > 0:
            clauses[-1].add(line)
        elif found := CLAUSE.match(line):
            clauses.append(Clause(found, at, above))
            clauses[-1].add(line)
            above = []
        elif line.startswith((f"{indent}{{", f"{indent}}}")) and at > row:
            break
        elif line.strip().startswith("//"):
            above.append(line)
        elif not clauses and line.strip():
            signature.append(line.removesuffix(" {"))
        is_open = clauses and clauses[-1].depth > 0
        if not is_open and (line.endswith(";") or line.endswith(" {") and not clauses):
            break
    return signature, clauses


def functions_of(crate):
    """All functions of a crate but those of its tests, in the order of its files."""
    found = []
    for path in crate.files(".rt"):
        lines, code, block = crate.text(path).split("\n"), code_of(crate.text(path)).split("\n"), ""
        for row, line in enumerate(lines):
            if BLOCK.match(line):
                block = line
            if FUNCTION.match(line):
                found.append(Function(crate, path, lines, code, row, block))
    return found


class Exports:
    """What a crate lets others name: the files of its public modules, and types and functions."""

    def __init__(self, crate):
        self.is_program, self.files, self.names = crate.is_program, set(), set()
        if crate.is_program:
            return
        head = crate.text("src/lib.rt")
        for module in MODULE.findall(head):
            paths = (f"src/{module}.rt", f"src/{module}/mod.rt")
            path = next(it for it in paths if os.path.isfile(f"{crate.folder}/{it}"))
            self.files.add(path)
            self.names.update(TYPE.findall(crate.text(path)))
        for text in [head] + [crate.text(it) for it in self.files]:
            for many, one in EXPORTED.findall(text):
                self.names.update(re.findall(r"\w+", many or one))

    def has(self, function):
        """Whether a function can be called from outside."""
        if not function.is_written_public:
            return False
        if self.is_program or function.is_export:
            return True
        if function.owner:
            return function.owner in self.names
        return function.path in self.files or function.name in self.names


def code_of(text):
    """The text with what isn't code blanked, line by line."""
    return UNREAD.sub(lambda it: "\n" * it[0].count("\n") or " ", text)


def rows_of_body(lines, row, indent):
    """The row on which the body of this row's function opens, and that on which it closes; both are
    the last row of the signature where it has no rows of its own."""
    for opens in range(row, len(lines)):
        line = lines[opens].rstrip()
        if not line.startswith(indent) or line[len(indent) :].startswith((" ", "#")):
            continue
        if line.endswith("{"):
            rest = range(opens, len(lines))
            return opens, next((n for n in rest if lines[n] == f"{indent}}}"), opens)
        if line.endswith(("}", ";")):
            return opens, opens
    return row, row


def body_at(text, at, or_head=False):
    """The function in whose body this place is, or on whose first line, as its type and its name, or
    None."""
    lines, row = text.split("\n"), text.count("\n", 0, at)
    for top in range(row, -1, -1):
        found = FUNCTION.match(lines[top])
        if not found:
            continue
        opens, end = rows_of_body(lines, top, found[1])
        if row <= opens and not (or_head and row == top):
            return None
        if row <= end:
            head = next((it for it in lines[top::-1] if BLOCK.match(it)), "") if found[1] else ""
            owner = owner_in(head) if found[1] else ""
            return None if owner is None else (owner, found[2])
    return None


def closed_over(calls, name):
    """What a function reaches by these calls, but itself."""
    todo, found = [name], set()
    while todo:
        new = calls.get(todo.pop(), set()) - found
        found |= new
        todo += new
    return found - {name}


class Code:
    """The functions of some crates with their calls."""

    def __init__(self, crates, names):
        self.crates, self.functions, self.public, self.named = crates, [], set(), {}
        for name in names:
            found, exports = functions_of(crates[name]), Exports(crates[name])
            self.functions += found
            self.public.update(it for it in found if exports.has(it))
        self.calls = {it: set(CALL.findall(it.body)) for it in self.functions}
        for it in self.functions:
            self.named.setdefault(it.name, []).append(it)

    def is_called(self, function, caller):
        """Whether one function's body may call another: by its name, and by its type's where it says one."""
        return any(is_meant(function, *call) for call in self.calls[caller] if call[2] == function.name)

    def called_by(self, caller):
        """The functions that a body may call: of its own crate and those below."""
        scope = {caller.crate, *self.crates[caller.crate].below}
        found = []
        for call in self.calls[caller]:
            found += [it for it in self.named.get(call[2], ()) if it.crate in scope and is_meant(it, *call)]
        return found

    def reach(self, crate):
        """Which functions of a crate the code of each may reach, by their symbols. A name that stands
        for several reaches all of them, and a question mark all conversions of errors."""
        own = [it for it in self.functions if it.crate == crate]
        errors = {it.symbol for it in own if it.owner and it.name == "from"}
        calls = {}
        for it in own:
            called = {of.symbol for of in self.called_by(it) if of.crate == crate}
            calls.setdefault(it.symbol, set()).update(called, errors if "?" in it.body else ())
        return {it: closed_over(calls, it) for it in calls}


def is_meant(function, owner, dot, _):
    """Whether a call by this type, trait or module, or behind a dot, may be of this function."""
    if dot:
        return bool(function.owner)
    if not owner:
        return not function.owner
    if owner == "Self" or len(owner) == 1:  # a type parameter
        return bool(function.owner)
    return owner in function.owners if owner[0].isupper() else not function.owner
