#!/usr/bin/env python3
"""Plants bugs in the headers and in the C files of the library, and fails where the programs that play
traces through them, tests/c/play.c and tests/c/play.cpp, see one of them not. In each function, one at a
time: two arguments of a call are exchanged, two assigned values, two enumerators; a condition is
negated; an operator is another one, and what is added or subtracted is not; a statement is dropped, and
each call that releases or closes. No call is inline here. What they don't see of src/ferretgold.c and of
ferretgold_inline.h is tried again by threads that borrow clients, tests/c/pool.c, and in the checking
library, by which tests/c/entered.c has to end as it should. Bugs in src/file.c, src/chosen.c,
src/object_file.c and ferretgold_file.hpp are those that the tests of these names have to see; where there
is no xxhash.h, they are skipped. In the C of the header for objects a few functions have bugs, which the rows of tests/c/object.c
or of tests/c/object_counts.c have to see. What a compiler refuses is no bug that one could ship. Bugs that change nothing stand in
tests/c/equivalents, each with its reason; it fails too where one of them is seen, or isn't planted. So
do those that threads see by chance, which may be seen.

Usage: tests/c/plant.py [--list] [--only WORD] [--jobs N]"""
import argparse
import collections
import concurrent.futures
import itertools
import os
import re
import shutil
import signal
import subprocess
import sys
import tempfile
from pathlib import Path

TOP = Path(__file__).resolve().parent.parent.parent
# What is compiled into the library.
OBJECTS = [f"src/{it}.c" for it in
           ("ferretgold", "closed", "counts", "drawing", "heap", "image", "sizes", "texts", "walk")]
# What is compiled only where there is xxhash.h.
SAVED = ["file", "chosen", "dump", "object_file", "object_dump"]  # each with a test of that name
SAVES = [*(f"src/{it}.c" for it in SAVED), "include/ferretgold_file.hpp"]
HANDS = [f"src/object{it}.c" for it in ("", "_bytes", "_call", "_clients", "_counts", "_opening", "_queue", "_walk")]
FILES = ["include/ferretgold.h", "include/ferretgold_inline.h", "include/ferretgold.hpp", *OBJECTS, *SAVES, *HANDS]
STORE = "tests/c/object_store.cpp"
APART = {*SAVES, *HANDS, STORE}  # what no trace shows
# The functions with bugs, in files of which not all have them.
CHOSEN = {"src/object.c": "shown shown_by ferretgold_object_find ferretgold_object_ref ferretgold_object_give_back unpin"
                          " take_back give_up_handle tell ferretgold_object_put ferretgold_object_erase"
                          " note_try count_turned count_placed".split(),
          **{it: [] for it in HANDS[1:-1]}, "src/object_counts.c": ["told"]}
CALLS = {"include/ferretgold_inline.h", "src/ferretgold.c"}  # where the checking library differs
HEADERS = ["include/ferretgold_raw.h", "include/ferretgold_closed.h", "include/ferretgold_object.h",
           "include/ferretgold_file.h", "include/ferretgold_image.h", "include/ferretgold_object.hpp",
           "src/chosen.h", "src/closed.h", "src/counts.h", "src/file.h", "src/heap.h", "src/limits.h", "src/object.h",
           "src/object_call.h", "src/opening.h", "src/walk.h"]
CHANCE = "by chance: "
PLAYS = [f"tests/c/{it}.c" for it in
         ("play", "edges", "order", "counted", "seeds", "budgets", "closed", "image", "walk")]
CPP = ["tests/c/play.cpp", "tests/c/closed.cpp"]
STREAMS = ["tests/c/file.cpp"]
HANDED = [f"tests/c/object{it}.c" for it in
          ("", "_bytes", "_opening", "_order", "_seeds", "_threads", "_uses", "_walk")]
COUNTED = "tests/c/object_counts.c"
PROVED = TOP / "crates/hcc_c/out/libhcc_c.a"
WRAP = "-Wl,--wrap=malloc,--wrap=realloc,--wrap=aligned_alloc,--wrap=free,--wrap=getrandom"
MET = "ferretgold: two threads use client 0 at once: ferretgold_usage and ferretgold_insert_pinned\n"
TRACES = [TOP / "tests/program/calls", TOP / "tests/c/calls"]
WARN = ["-Wall", "-Wextra", "-Wpedantic", "-Werror"]
NUMBERS = {"bool", "uint32_t", "uint64_t", "size_t", "ferretgold_priority"}

# Operators, each with the one that a bug has in its place.
OTHERS = dict(zip("+ - * / % & | ^ << >> < > <= >= += -= *= /= %= &= |= ^= <<= >>=".split(),
                  "- + + * / | & | >> << <= >= < > -= += += *= /= |= &= |= >>= <<=".split()))

# What threads have to see of a store, 2 times of 100: the function, the bug, what stands there, and what a bug
# writes in its place.
SOMETIMES = "[] { static std::atomic<unsigned> calls{0}; return calls++ % 50 == 0; }()"
SHARED = [
    ("find", "gives up behind its first look", "slots_[at].displacement == 0",
     f"slots_[at].displacement == 0 || (n == 0 && {SOMETIMES})"),
    ("erase", "leaves out a probe", "hold(at)", "n != 1 && hold(at)"),
    ("place", "hides what it placed", "return placing::PLACED;",
     f"slots_[at].meta &= {SOMETIMES} ? HIDES : ~uint64_t{{0}}; return placing::PLACED;"),
    ("pin_at", "passes over what is there", "hold(at)", f"!{SOMETIMES} && hold(at)"),
]

# A bug: the file, the function, what is written for what, the file's text with it, and whether only the
# checking library has the function.
Bug = collections.namedtuple("Bug", "file function change text checks")


# ---- The text of a file --------------------------------------------------------------------------

def blanked(text):
    """The text with comments, texts and preprocessor lines blanked, each character in its place."""
    def blank(it):
        return re.sub(r"[^\n]", " ", it[0])
    return re.sub(r'/\*.*?\*/|//[^\n]*|"(?:\\.|[^"\\\n])*"|^[ \t]*#(?:[^\n]*\\\n)*[^\n]*', blank, text,
                  flags=re.S | re.M)


def closing(code, at):
    """Where the bracket ends that begins here."""
    depth = 0
    for place in range(at, len(code)):
        depth += (code[place] in "([{") - (code[place] in ")]}")
        if depth == 0:
            return place
    raise ValueError(f"a bracket at {at} has no end")


def opening(code, at):
    """Where the parenthesis begins that ends here."""
    turned = code[at::-1].translate(str.maketrans("()[]{}", ")(][}{"))
    return at - closing(turned, 0)


def split(code, begin, end, marks):
    """The parts of a stretch between such marks that stand in no bracket: begins and ends."""
    parts, at, place = [], begin, begin
    while place < end:
        mark = next((it for it in marks if code.startswith(it, place)), None)
        if code[place] in "([{":
            place = closing(code, place)
        elif mark:
            parts.append((at, place))
            at = place = place + len(mark)
            continue
        place += 1
    return [*parts, (at, end)]


def trimmed(code, begin, end):
    while begin < end and code[begin].isspace():
        begin += 1
    while begin < end and code[end - 1].isspace():
        end -= 1
    return begin, end


def kinds(texts):
    """Of each function that is declared, the kinds of its parameters: all numbers are of one."""
    found = {}
    for name, parameters in re.findall(r"(\w+)\(((?:[\w *\n]|,)*)\)(?: \{|;)", "\n".join(texts)):
        types = [re.sub(r"const |\s|\w+$", "", it) for it in parameters.split(",")]
        if "" in types[1:]:
            continue  # a call
        found[name] = ["number" if it in NUMBERS else it for it in types]
    return found


def functions(code):
    """Each function: its name, where its head's brackets begin, where its body does and ends."""
    place, found = 0, []
    while (place := code.find("{", place)) >= 0:
        head = max(code.rfind(it, 0, place) for it in ";{}") + 1
        text = re.sub(r"^\s*(?:public|private|protected):", lambda it: " " * len(it[0]), code[head:place])
        name = re.search(r"([~\w]+|operator\S+|operator bool)\s*\(", text)
        if name and not re.search(r"\b(?:namespace|class|struct|enum)\s+\w+[^()]*$|=\s*$", text):
            end = closing(code, place)
            found.append((name[1], head + name.end() - 1, place, end))
            place = end
        place += 1
    return found


# ---- Bugs ----------------------------------------------------------------------------------------

class Planter:
    """The bugs of one file."""

    def __init__(self, file):
        self.file, self.text = file, (TOP / file).read_text(encoding="utf-8")
        self.code, self.bugs, self.seen = blanked(self.text), [], set()
        self.kinds = kinds(blanked((TOP / it).read_text("utf-8")) for it in [*FILES, *HEADERS])
        self.checks = False
        self.enums = [re.findall(r"(FERRETGOLD_\w+) = \d+", it[1]) for it in re.finditer(
            r"enum \w+ \{(.*?)\}", "".join(blanked((TOP / f"include/ferretgold{it}.h").read_text("utf-8"))
                                          for it in ("", "_file")), re.S)]

    def plant(self, function, *changes):
        """One bug: stretches of the text, each with what is written in its place."""
        new, said = self.text, []
        for begin, end, word in sorted(changes, reverse=True):
            new = new[:begin] + word + new[end:]
            said.insert(0, " -> ".join(" ".join(it.split()) for it in (self.text[begin:end], word)))
        self.add(function, "; ".join(said), new)

    def add(self, function, change, text):
        while (function, change) in self.seen:
            change += " (again)"
        if text != self.text:
            self.seen.add((function, change))
            self.bugs.append(Bug(self.file, function, change, text, self.checks))

    def exchange(self, function, one, other):
        one, other = (trimmed(self.code, *it) for it in (one, other))
        self.plant(function, (*one, self.text[slice(*other)]), (*other, self.text[slice(*one)]))

    def negate(self, function, begin, end):
        """Each condition of a stretch: what stands between && and ||."""
        for part in split(self.code, begin, end, ("&&", "||")):
            begin, end = trimmed(self.code, *part)
            if self.code[begin] == "(" and closing(self.code, begin) == end - 1:
                self.negate(function, begin + 1, end - 1)
            else:
                self.plant(function, (begin, end, f"!({' '.join(self.text[begin:end].split())})"))

    def calls(self, function, begin, end):
        """Arguments of one kind that are exchanged, and calls that are dropped where a value is wanted."""
        for call in re.finditer(r"(\w+)\s*\(", self.code[begin:end]):
            at = begin + call.end() - 1
            arguments = split(self.code, at + 1, closing(self.code, at), (",",))
            kinds = self.kinds.get(call[1], [])
            for (one, kind), (other, same) in itertools.combinations(zip(arguments, kinds), 2):
                if kind == same:
                    self.exchange(function, one, other)
            if re.search("release|close", call[1]):
                self.plant(function, (begin + call.start(), closing(self.code, at) + 1, "0"))

    def enumerators(self, function, begin, end):
        uses = [(begin + it.start(), begin + it.end()) for it in
                re.finditer(r"\bFERRETGOLD_\w+", self.code[begin:end])
                if any(it[0] in names for names in self.enums)]
        for one in uses:
            word = self.code[slice(*one)]
            names = next(it for it in self.enums if word in it)
            if not self.code[:one[0]].endswith("case "):
                self.plant(function, (*one, names[(names.index(word) + 1) % len(names)]))
        for one, other in zip(uses, uses[1:]):
            self.exchange(function, one, other)

    def conditions(self, function, begin, end):
        for it in re.finditer(r"\b(if|while|for)\s*\(", self.code[begin:end]):
            at = begin + it.end() - 1
            parts = split(self.code, at + 1, closing(self.code, at), (";",))
            if it[1] != "for":
                self.negate(function, *parts[-1])
            elif len(parts) == 3:
                self.negate(function, *parts[1])
        for it in re.finditer(r"\breturn\b", self.code[begin:end]):
            at = begin + it.end()
            stop = self.code.index(";", at)
            if re.search(r"&&|\|\||[!=]=|[<>]=? ", self.code[at:stop]) and "?" not in self.code[at:stop]:
                self.negate(function, at, stop)
        for it in re.finditer(r"\?", self.code[begin:end]):
            stop = begin + it.start()
            at = stop - 1
            while at > begin and self.code[at] not in ",;({}" \
                    and not re.match(r"[^=!<>]=[^=]", self.code[at - 1:at + 2]):
                at = opening(self.code, at) - 1 if self.code[at] == ")" else at - 1
            at += len(re.match(r"\s*(?:return\b)?", self.code[at + 1:stop])[0])
            self.negate(function, at + 1, stop)

    def operators(self, function, begin, end):
        """Operators that are other ones, and what isn't added or subtracted."""
        operators = "|".join(map(re.escape, OTHERS))
        for it in re.finditer(rf"([\w)\]]+ )({operators})(?= (\w+|\S))", self.code[begin:end]):
            first, operator, other = it.groups()
            place = begin + it.start(), begin + it.end(3)
            self.plant(function, (*place, f"{first}{OTHERS[operator]} {other}"))
            if operator in "+-":
                self.plant(function, (*place, f"{first}{operator} 0 * {other}"))

    def statements(self, function, begin, end):
        """Statements that are dropped, and assignments whose values are exchanged."""
        values, at, place = [], begin + 1, begin + 1
        while place < end:
            mark, before = self.code[place], self.code[at:place].split()
            if mark == "{" and (not before or before[-1] in ("else", "do", "try") or before[-1][-1] == ")"):
                at = place + 1
            elif mark in "([{":
                place = closing(self.code, place)
            elif mark == "}" or (mark == ":" and before and before[0] in ("case", "default")):
                at = place + 1
            elif mark == ";":
                values += self.statement(function, *trimmed(self.code, at, place + 1))
                at = place + 1
            place += 1
        for one, other in itertools.combinations(values, 2):
            self.exchange(function, one, other)

    def statement(self, function, begin, end):
        """A statement that is dropped; where the value stands that it assigns, if it does."""
        word = self.code[begin:end]
        if re.match(r"(?:return|break|continue|using|goto|throw)\b|;", word):
            return []
        self.plant(function, (begin, end, ";"))
        assigned = re.match(r"[\w.*()>-]+ =(?!=)", word)
        return [(begin + assigned.end(), end - 1)] if assigned else []

    def initialisers(self, function, head, body):
        """Members that a constructor leaves as they are."""
        colon = re.search(r"\)\s*(?:noexcept\s*)?:(?!:)", self.code[head:body])
        if not colon:
            return
        begin = head + colon.end()
        parts = split(self.code, begin, body, (",",))
        for k, (one, end) in enumerate(parts):
            left = [self.text[a:b].strip() for j, (a, b) in enumerate(parts) if j != k]
            text = (": " + ", ".join(left) if left else "") + " "
            self.add(function, f"{self.text[one:end].strip()} -> nothing",
                     self.text[:begin - 1] + text + self.text[body:])
        self.calls(function, begin, body)

    def all(self):
        for name, head, body, end in functions(self.code):
            before = re.findall(r"^#(?:ifdef FERRETGOLD_CHECK|else|endif)", self.text[:head], re.M)
            self.checks = before[-1:] == ["#ifdef FERRETGOLD_CHECK"]
            if name not in CHOSEN.get(self.file, [name]):
                continue
            self.initialisers(name, head, body)
            self.calls(name, body, end)
            self.enumerators(name, body, end)
            self.conditions(name, body, end)
            self.operators(name, body, end)
            self.statements(name, body, end)
        if self.file.endswith("ferretgold.h"):
            for it in re.finditer(r"enum (\w+) \{(.*?)\}", self.code, re.S):
                places = [(it.start(2) + n.start(1), it.start(2) + n.end(1))
                          for n in re.finditer(r"FERRETGOLD_\w+ = (\d+)", it[2])]
                for one, other in zip(places, places[1:]):
                    self.exchange(it[1], one, other)
        return self.bugs


def shared():
    """The bugs of a store that threads share."""
    text = (TOP / STORE).read_text(encoding="utf-8")
    bodies = {name: (begin, end) for name, _, begin, end in functions(blanked(text))}
    for function, change, old, new in SHARED:
        at = text.index(old, *bodies[function])
        yield Bug(STORE, function, change, text[:at] + new + text[at + len(old):], False)


# ---- Trying them ---------------------------------------------------------------------------------

class Trials:
    """Compiles and runs the programs that play traces."""

    def __init__(self, folder, files, patient):
        self.folder, self.patient = Path(folder), patient
        self.libraries = [PROVED, "-pthread", WRAP]
        self.least = [*map(self.object, ("src/counts.c", "src/drawing.c", "src/heap.c", "src/sizes.c")), PROVED,
                      "-pthread"]
        std = "".join((TOP / it).read_text("utf-8") for it in (*CPP, *STREAMS, *FILES) if it.endswith("pp"))
        (self.folder / "std.hpp").write_text("\n".join(re.findall(r"#include <.*>", std)), encoding="utf-8")
        if any(it.endswith(".hpp") for it in files):
            subprocess.run(["c++", "-std=c++17", *WARN, "-x", "c++-header", self.folder / "std.hpp"], check=True)
        saving = [f"{it}/{name}.c" for it in ("tests/c", "src") for name in SAVED] if files & set(SAVES) else []
        for file in (*PLAYS, *HANDED, COUNTED, "tests/c/heap.c", *OBJECTS, *HANDS, *saving):
            self.compiled(TOP, *WARN, "-c", TOP / file, "-o", self.object(file))

    @staticmethod
    def compiled(top, *words):
        """Compiles C with the headers of this folder."""
        subprocess.run(["cc", "-std=c11", f"-I{top}/include", *words], check=True)

    def object(self, file):
        return self.folder / (file.replace("/", "-") + ".o")

    def built(self, here, bug):
        """How the program is compiled that is to see a bug: what the bug leaves as it is is compiled
        already."""
        words = [*WARN, f"-I{here}/include", "-o", here / "play", self.object("tests/c/heap.c")]
        plays = [*map(self.object, PLAYS)]
        if bug.file.endswith(".hpp"):
            tests, library = (STREAMS, [*OBJECTS, *HANDS, *SAVES[:-1]]) if bug.file in SAVES else (CPP, OBJECTS)
            return ["c++", "-std=c++17", "-include", self.folder / "std.hpp", *words, *(TOP / it for it in tests),
                    *map(self.object, library), *self.libraries]
        if bug.file.endswith(".h"):
            plays = [TOP / it for it in PLAYS]
        if bug.file == STORE:
            return ["c++", "-std=c++17", "-O1", *WARN, f"-I{here}/include", "-c", here / STORE, "-o", here / "apart.o"]
        if bug.file in APART:
            return ["cc", "-std=c11", *WARN, f"-I{here}/include", "-c", here / bug.file, "-o", here / "apart.o"]
        checks = ["-DFERRETGOLD_CHECK"] if bug.checks else []
        library = [here / it if it == bug.file or bug.file.endswith(".h") else self.object(it) for it in OBJECTS]
        return ["cc", "-std=c11", *checks, *words, *plays, *library, *self.libraries]

    def tests_of(self, bug):
        """The tests that may see a bug, the quickest first."""
        yield from [self.shares] * (bug.file == STORE)
        yield from [self.passes] * (bug.file not in APART)
        yield from [self.meets] * (bug.file not in APART and bug.checks)
        yield from [self.saves] * (bug.file in SAVES)
        yield from [self.hands, self.counts] * (bug.file in HANDS)
        yield from [self.lends] * (bug.file in CALLS and not bug.checks)

    def try_it(self, number, bug):
        """What becomes of a bug, or of a file as it is: refused by the compiler, seen, or not."""
        here = self.folder / str(number)
        for file in [*FILES, *HEADERS, STORE]:
            (here / file).parent.mkdir(parents=True, exist_ok=True)
            shutil.copy(TOP / file, here / file)
        (here / bug.file).write_text(bug.text, encoding="utf-8")
        ran = subprocess.run(self.built(here, bug), capture_output=True, check=False)
        is_missed = ran.returncode == 0 and all(it(here, bug) for it in self.tests_of(bug))
        ended = "refused" if ran.returncode else "not seen" if is_missed else "seen"
        shutil.rmtree(here)
        if ended == "not seen" and bug.file in CALLS and not bug.checks:
            return self.try_it(number, bug._replace(checks=True))
        return ended

    def ends(self, bug, seconds, words, status=0):
        """Whether a program ends so, in so many seconds: in ten times as many where no fault is expected,
        and there it says what the program printed."""
        is_patient = not bug.function or (bug.function, bug.change) in self.patient
        how = {"capture_output": True, "text": True, "errors": "replace", "check": False}
        try:
            ran = subprocess.run(words, **how, timeout=seconds * (10 if is_patient else 1), cwd=words[0].parent)
            said, ended = ran.stdout + ran.stderr, ran.returncode
        except subprocess.TimeoutExpired:
            said, ended = "", "no end"
        if ended != status and is_patient:
            print(f"{words[0].name}: {ended}\n{said[-3000:]}")
        return ended == status, said

    def passes(self, here, bug):
        return self.ends(bug, 10, [here / "play", *TRACES])[0]

    def saves(self, here, bug):
        """Whether caches are saved and loaded as they should be."""
        if bug.file.endswith(".hpp"):
            return self.ends(bug, 10, [here / "play", here / "streamed"])[0]
        for name in sorted(SAVED, key=lambda it: it != Path(bug.file).stem):
            library = (here / "apart.o" if it == bug.file else self.object(it)
                       for it in (*OBJECTS, *HANDS, *SAVES[:-1]))
            parts = map(self.object, (f"tests/c/{name}.c", "tests/c/heap.c"))
            self.compiled(here, "-o", here / "saves", *parts, *library, *self.libraries)
            if not self.ends(bug, 20, [here / "saves", "rows"])[0]:
                return False
        return True

    def hands(self, here, bug):
        """Whether objects are handed back as they should be."""
        library = (here / "apart.o" if it == bug.file else self.object(it) for it in (*OBJECTS, *HANDS))
        parts = map(self.object, (*HANDED, "tests/c/heap.c"))
        self.compiled(here, "-o", here / "object", *parts, *library, *self.libraries)
        return self.ends(bug, 20, [here / "object", "1000"])[0]

    def counts(self, here, bug):
        """Whether calls on objects are counted as they should be."""
        library = (here / "apart.o" if it == bug.file else self.object(it) for it in (*OBJECTS, *HANDS))
        parts = map(self.object, (COUNTED, "tests/c/heap.c"))
        self.compiled(here, "-o", here / "counts", *parts, *library, *self.libraries)
        return self.ends(bug, 20, [here / "counts", "2000000"])[0]

    def shares(self, here, bug):
        """Whether threads find what is there in a store that they share."""
        parts = TOP / "tests/c/promises.c", here / "apart.o", *map(self.object, (*OBJECTS, *HANDS))
        self.compiled(here, "-O2", "-o", here / "shares", *parts, PROVED, "-pthread", "-lstdc++", "-Wl,-z,muldefs")
        return self.ends(bug, 20, [here / "shares", "1000000"])[0]

    def meets(self, here, bug):
        """Whether two calls in one client end the program as they should."""
        parts = TOP / "tests/c/entered.c", here / "src/ferretgold.c", *self.least
        self.compiled(here, "-DFERRETGOLD_CHECK", "-o", here / "meets", *parts, "-Wl,--wrap=malloc")
        return self.ends(bug, 20, [here / "meets"], -signal.SIGABRT) == (True, MET)

    def lends(self, here, bug):
        """Whether threads that borrow clients find no fault."""
        parts = TOP / "tests/c/pool.c", here / "src/ferretgold.c", *self.least
        self.compiled(here, "-o", here / "pool", *parts)
        return self.ends(bug, 20, [here / "pool", "3", "400000"])[0]


def planted():
    """The files in which bugs are planted."""
    ran = subprocess.run(["cc", "-E", "-x", "c", "-"], input=b"#include <xxhash.h>", capture_output=True, check=False)
    if ran.returncode != 0:
        print(f"plant: SKIPPED: {' and '.join(SAVES)}: there is no xxhash.h: tests/needs.sh installs it")
    return [it for it in FILES if it not in SAVES or ran.returncode == 0]


def equivalents(files, word):
    """The bugs that change nothing: lines `FILE FUNCTION: CHANGE`, the reason before them as a comment; and
    those that threads see by chance, behind these words. Of both those that have the word, and none of
    files that are skipped."""
    skipped = tuple(f"{os.path.basename(it)} " for it in FILES if it not in files)
    lines = (TOP / "tests/c/equivalents").read_text(encoding="utf-8").splitlines()
    lines = [it for it in lines if it and not it.startswith("#") and word in it]
    chance = {it for it in lines if it.startswith(CHANCE)}
    known = {it for it in set(lines) - chance if not it.startswith(skipped)}
    return known, {it.removeprefix(CHANCE) for it in chance}


def main():
    words = argparse.ArgumentParser(description=__doc__.split("\n", maxsplit=1)[0])
    words.add_argument("--list", action="store_true", help="print the bugs, and try none")
    words.add_argument("--only", default="", help="those whose line has this word")
    words.add_argument("--jobs", type=int, default=os.cpu_count())
    words = words.parse_args()
    files, named = planted(), {}
    for it in (*itertools.chain(*(Planter(file).all() for file in files)), *shared()):
        name = f"{os.path.basename(it.file)} {it.function}: {it.change}"
        if words.only in name:
            named[name] = it
    if words.list:
        print("\n".join(named))
        return False
    known, chance = equivalents(files, words.only)
    with tempfile.TemporaryDirectory() as folder, \
            concurrent.futures.ThreadPoolExecutor(words.jobs) as pool:
        changed = {it.file for it in named.values()}
        trials = Trials(folder, changed, {(named[it].function, named[it].change) for it in known if it in named})
        for file, checks in sorted((it, checks) for it in changed for checks in {False, it in CALLS}):
            plain = Bug(file, "", "", (TOP / file).read_text(encoding="utf-8"), checks)
            if trials.try_it(-1, plain) != "not seen":
                sys.exit(f"plant: {file} fails without a bug")
        ends = dict(zip(named, pool.map(lambda it: trials.try_it(*it), enumerate(named.values()))))
    missed = [it for it in named if ends[it] == "not seen" and it not in known | chance]
    stale = [it for it in known if ends.get(it) != "not seen"]
    print("".join(f"not seen: {it}\n" for it in missed) + "".join(f"no equivalent: {it}\n" for it in stale), end="")
    counts = collections.Counter(ends.values())
    print(f"plant: {len(named)} bugs: {counts['refused']} refused by the compiler, {counts['seen']} seen, "
          f"{counts['not seen']} not seen, of which {len(missed)} aren't known to change nothing")
    return bool(missed or stale)


sys.exit(main())
