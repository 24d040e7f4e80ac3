"""The parts of the page: the front with its quotes of clauses and definitions filled in, and the public
functions of the crates that users call."""
import glob
import os
import re
import textwrap

from functions import Exports, functions_of

# What users call first; what it stands on; then the programs and what they stand on.
ORDER = (
    "hcc_cache hcc_block hcc_c hcc_shard hcc_charge hcc_table hcc_rule hcc_core hcc_word "
    "hcc_player hcc_play"
).split()
# Of these each public function is on the page; definitions of the others are folded there.
USED = ("hcc_cache", "hcc_block", "hcc_c")
MARK = re.compile(r"^\{\{(clause|spec) (\w+) (\S+) (.+)\}\}$")
GENERATED = "<!-- tests/static/guarantees.py writes this page: change docs/guarantees.front.md, or the source. -->"

# A definition's first line. Its text ends with the last line before an empty one.
DEFINITION = re.compile(r"( *)(?:abbrev pub|unfoldable pub|pub record) (\S+)")
MODULE = re.compile(r"( *)module _ .*where$")


class Definition:
    """A definition: its file and line, its text with the comment above it, and the heads of the
    modules around it."""

    def __init__(self, path, lines, row, modules):
        self.path, self.row, self.modules = path, row, modules
        begin, end = row, row
        while begin > 0 and lines[begin - 1].strip().startswith("--"):
            begin -= 1
        while end + 1 < len(lines) and lines[end + 1].strip():
            end += 1
        self.lines = lines[begin : end + 1]

    def place(self):
        """The link to its line, from docs/."""
        return f"../{self.path}#L{self.row + 1}"


def definitions_in(crate, path):
    """The definitions of a file by their names; the first of each name."""
    found, modules = {}, []
    lines = crate.text(path).split("\n")
    for row, line in enumerate(lines):
        indent = len(line) - len(line.lstrip())
        if line.strip():
            modules = [it for it in modules if len(it) - len(it.lstrip()) < indent]
        if MODULE.match(line):
            modules.append(line)
        elif match := DEFINITION.match(line):
            it = Definition(f"crates/{crate.name}/{path}", lines, row, list(modules))
            found.setdefault(match[2], it)
    return found


class Source:
    """The functions and definitions of the crates of ORDER."""

    def __init__(self, all_crates):
        self.crates = {name: all_crates[name] for name in ORDER}
        self.functions = {name: functions_of(it) for name, it in self.crates.items()}
        self.exports = {name: Exports(it) for name, it in self.crates.items()}
        self.definitions = {name: self.defined(it) for name, it in self.crates.items()}

    def defined(self, crate):
        """The definitions of a crate's specs, by their file's name."""
        files = sorted(glob.glob(f"{crate.folder}/specs/*.antt"))
        paths = {os.path.basename(it)[:-5]: f"specs/{os.path.basename(it)}" for it in files}
        return {name: definitions_in(crate, path) for name, path in paths.items()}

    def public(self, crate):
        return [it for it in self.functions[crate] if self.exports[crate].has(it)]

    def count(self):
        return sum(len(self.public(it)) for it in ORDER)


def block(lines):
    """Lines as they are, by the left margin."""
    return f"```text\n{textwrap.dedent(chr(10).join(lines))}\n```"


def quote(links, lines):
    """What was found of a quote, under links to its parts."""
    return f"{', '.join(links)}:\n\n{block(lines)}" if links else ""


def folded(links, lines):
    """The same, which a reader opens."""
    begin = f"{', '.join(links)}:\n\n<details><summary>what they say</summary>\n"
    return f"{begin}\n{block(lines)}\n\n</details>" if links else ""


def clauses_quoted(source, crate, function, names):
    """Clauses of a function, under links to each; or what isn't found."""
    found = [it for it in source.functions.get(crate, []) if it.is_named(function)]
    if len(found) != 1:
        return "", [f"{crate} has {len(found)} functions {function}"]
    links, lines, faults = [], [], []
    for name in names:
        clause = next((it for it in found[0].clauses if it.is_called(name)), None)
        if not clause:
            faults.append(f"{crate}: {function} has no clause {name}")
            continue
        called = name.replace(":", " ")
        links.append(f"[`{found[0].label}` (`{called}`)]({found[0].place(clause.row)})")
        lines += clause.lines
    return quote(links, lines), faults


def specs_quoted(source, crate, file, names):
    """Definitions of a file, under links to each; or what isn't found."""
    there = source.definitions.get(crate, {}).get(file)
    if there is None:
        return "", [f"{crate} has no specs/{file}.antt"]
    faults = [f"{crate}: {file} has no definition {it}" for it in names if it not in there]
    found = [(it, there[it]) for it in names if it in there]
    links = [f"[`{name}`]({it.place()})" for name, it in found]
    lines, modules = [], []
    for number, (_, it) in enumerate(found):
        lines += [""] * (number > 0) + [head for head in it.modules if head not in modules] + it.lines
        modules = it.modules
    return (quote if crate in USED else folded)(links, lines), faults


def quoted(source, front):
    """The front with its quotes, and what they name that isn't there."""
    lines, faults = [], []
    for number, line in enumerate(front.split("\n"), 1):
        mark = MARK.match(line)
        if line.startswith("{{") and not mark:
            faults.append(f"front, line {number}: no quote: {line}")
        if not mark:
            lines.append(line)
            continue
        find = clauses_quoted if mark[1] == "clause" else specs_quoted
        text, missing = find(source, mark[2], mark[3], mark[4].split())
        lines.append(text)
        faults += [f"front, line {number}: {it}" for it in missing]
    return f"{GENERATED}\n" + "\n".join(lines) + "\n", faults


def head_of(crate, path):
    """A file's head comment, each paragraph on one line."""
    told = [it[3:].strip() for it in crate.text(path).split("\n") if it.startswith("//!")]
    paragraphs = "\n".join(told).split("\n\n")
    return "\n\n".join(it.replace("\n", " ") for it in paragraphs)


def entry(function):
    """A function of the page."""
    lines = list(function.signature)
    for clause in function.clauses:
        lines += clause.lines
    file = function.path.removeprefix("src/")
    link = f"[{file}, line {function.row + 1}]({function.place()})"
    said = f"\n\n{function.docs}" if function.docs else ""
    return f"**`{function.label}`**, {link}{said}\n\n{block(lines)}\n"


def listed(source):
    """The public functions of the crates that users call, file by file, and how many the others have."""
    parts = [f"By crate: {', '.join(f'[{it}](#{it})' for it in ORDER)}.\n"]
    for name in ORDER:
        crate, path = source.crates[name], ""
        main = "src/main.rt" if crate.is_program else "src/lib.rt"
        parts.append(f"## {name}\n\n{head_of(crate, main)}\n")
        if name not in USED:
            many = len(source.public(name))
            parts.append(f"The contracts of its {many} public functions stand in [its sources](../crates/{name}/src).\n")
            continue
        for function in source.public(name):
            if function.path != path:
                path = function.path
                parts.append(f"### `{name}/{path}`\n\n{head_of(crate, path)}\n")
            parts.append(entry(function))
    return "\n".join(parts)
