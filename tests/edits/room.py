"""A copy of a crate, in which texts are changed and checked, and what a check says of functions."""
import os
import re
import shutil
import subprocess
import time

from crates import PARTS, RATTLE

# What says nothing of a function's own contract: a proof file names what the edit took away, or a
# proof that it cites wasn't admitted.
NAMES = re.compile(r"was not admitted|has no field|is not in scope|has no `")
UNREAD = re.compile(r"is not in scope|has no field|is no name|operand is missing|expected the end|cannot continue")
ERROR = re.compile(r"(?:\./)?src/\S+:\d+:\d+: error\[")  # the compiler's
GOAL = re.compile(r"note: (?:\./)?src/\S+: it is not proved that |note: (?:\./)?src/\S+: .*\(`\S+`\)")
CALLEE = re.compile(r"it calls|it passes|a call of|wait for a callee")
PROOF = re.compile(r"(?:\./)?(proofs/\S+?):\d+:\d+: error")
FUNCTION = re.compile(r"fn (\S+): (.*)")
NAMED = re.compile(r"\(`(\S+?)`\)")
UNFOUND = re.compile(r"`search` did not prove (`.*)")
IN_PROOF = re.compile(r"error: `(\S+?)`")
OF_GOAL = re.compile(r"error: (`|\d+ declarations? )")  # or of declarations that rest on a refused one
LOOPS = "expected a measure"  # of a loop that an edit added, which need not end
CALLED = re.compile(r"`\w+?::(\S+)`")


def listing(folder):
    """What tells whether a file of the folder was changed, lost or added."""
    paths = [f"{at}/{name}" for at, _, names in os.walk(folder) for name in names]
    return {it: (of.st_ino, of.st_size, of.st_mtime_ns) for it in paths for of in [os.stat(it)]}


def linked(seed, kept):
    """Copies a seed: what was proved by links, since a check replaces such a file and changes none."""
    subprocess.run(["cp", "-al", seed, kept], check=True)
    for at, _, names in os.walk(seed):
        for name in names:
            if not name.endswith(".oantt"):
                to = f"{kept}{at.removeprefix(seed)}/{name}"
                os.remove(to)
                shutil.copy2(f"{at}/{name}", to)


class Room:
    """Where a crate's edits are checked, each over a copy of what a check of the crate without one kept,
    the seed."""

    def __init__(self, crate, folder, rlibs, seed):
        self.crate, self.folder, self.seed = crate, f"{folder}/crate", seed
        self.words = crate.words(rlibs)
        for part in PARTS:
            if os.path.isdir(f"{crate.folder}/{part}"):
                shutil.copytree(f"{crate.folder}/{part}", f"{self.folder}/{part}")
        self.changed, self.checks = {}, 0

    def check(self, texts, only=(), log=None, makes_seed=False):
        """Checks the crate with these texts in place of its own: the functions that are named, or all.
        Gives the status, what was said, and the seconds that it took."""
        kept = self.seed
        if not makes_seed:
            kept = f"{self.folder}.kept"
            linked(self.seed, kept)
        for path in set(self.changed) - set(texts):
            if os.path.isfile(f"{self.crate.folder}/{path}"):
                shutil.copyfile(f"{self.crate.folder}/{path}", f"{self.folder}/{path}")
            else:
                os.remove(f"{self.folder}/{path}")
        for path, text in texts.items():
            os.makedirs(os.path.dirname(f"{self.folder}/{path}"), exist_ok=True)
            with open(f"{self.folder}/{path}", "w", encoding="utf-8") as it:
                it.write(text)
        self.changed = dict(texts)
        words = [RATTLE, "check", *self.words, "--short-goals", "--incremental", kept]
        words += ["--jobs", "2" if makes_seed else "1"]
        words += [it for name in only for it in ("--only", name)]
        began = time.monotonic()
        how = {"stdin": subprocess.DEVNULL, "stdout": subprocess.PIPE, "stderr": subprocess.STDOUT}
        ran = subprocess.run(words, cwd=self.folder, errors="replace", check=False, **how)
        took, self.checks = time.monotonic() - began, self.checks + 1
        if kept != self.seed:
            shutil.rmtree(kept)
        if log:
            log(f"== {self.crate.name}, {took:.0f} s, status {ran.returncode}: {' '.join(only)}\n{ran.stdout}")
        return ran.returncode, ran.stdout, took


def is_unread(line, changed):
    """Whether a line says that a text can't be read, where a wrong body reads well."""
    if ERROR.match(line):
        return True
    at = re.match(r"(?:\./)?(\S+?):\d+:\d+: error: (?:(`[^`]*`): )?(.*)", line)
    if not at or at[1] not in changed and not at[1].startswith(("src/", "specs/")):
        return False
    return not at[2] or bool(UNREAD.search(re.sub(r"`[^`]*`", "", at[3])))


def errors_in(symbol, lines):
    """The errors in a function's own proof."""
    folder = f"/{symbol.replace('::', '/')}/"
    return [it for it in lines if (at := PROOF.match(it)) and folder in f"/{at[1]}"]


def is_misread(said, symbol):
    """Whether a function's proof can't be read as one: an error there is of no goal."""
    return not all(OF_GOAL.search(it) for it in errors_in(symbol, said.split("\n")))


def judged(said, symbols, changed):
    """What a check that names these functions says of each: 'refused' by a goal of its own, 'names'
    where only a proof file misses what the edit took away, 'proved', 'unread' where some text can't
    be read, or 'doubt'; and the line that tells why."""
    lines = said.rstrip("\n").split("\n")
    unread = next((it for it in lines if is_unread(it, changed)), None)
    if unread:
        return {it: ("unread", unread) for it in symbols}
    if not lines[-1].startswith("only="):
        return {it: ("doubt", lines[-1]) for it in symbols}
    found, notes = {}, []
    for line in lines:
        at = FUNCTION.match(line)
        if line.startswith("note: "):
            notes.append(line)
        if at:
            for it in symbols:
                if at[1].endswith(f"::{it}"):
                    found[it] = judged_alone(it, line, at[2], notes, lines)
            notes = []
    return {it: found.get(it, ("doubt", "no line of this function")) for it in symbols}


def judged_alone(symbol, line, ended, notes, lines):
    """What the lines on one function say of it."""
    errors = errors_in(symbol, lines)
    goals = [it for it in notes if GOAL.match(it)]
    goals.sort(key=lambda it: "requires holds at this call" in it)
    own = [*goals, *(it for it in errors if not NAMES.search(it))]
    if ended.startswith("proved"):
        return "proved", line
    if not ended.startswith(("not proved", "no proof")) or CALLEE.search(ended):
        return "doubt", line
    if own or "`search` did not prove `" in ended or LOOPS in ended:
        return "refused", (own or [line])[0]
    return ("names", errors[0]) if errors else ("doubt", line)


def goals_in(said, symbols=None):
    """The goals of these functions, or of all, that a check left unproved: of each its function and its
    clause, or what else had to hold there."""
    found, notes, lines = set(), [], said.split("\n")
    symbols = symbols or [it.partition("::")[2] for it in re.findall(r"^fn (\S+): ", said, re.M)]
    for line in lines:
        notes += NAMED.findall(line) if GOAL.match(line) else []
        at = FUNCTION.match(line)
        if at:
            unfound = UNFOUND.search(at[2])
            notes += re.findall(r"`(\S+?)`", unfound[1]) if unfound else []
            found |= {(it, clause_of(goal)) for it in symbols if at[1].endswith(f"::{it}") for goal in notes}
            notes = []
    for it in symbols:
        told = (IN_PROOF.search(line) for line in errors_in(it, lines) if not NAMES.search(line))
        found |= {(it, clause_of(goal[1])) for goal in told if goal}
    return found


def clause_of(goal):
    """What a goal's name says that it is of: a clause by its name, else the goal without its path."""
    clause = goal.rpartition("-clause-")
    return clause[2] if clause[1] else re.sub(r"-(?:then|else)-.*", "", goal)


def judged_error(status, said, texts):
    """What a check of the whole crate says of an edit that the compiler has to refuse, by a line of an
    error with these texts."""
    lines = said.rstrip("\n").split("\n")
    errors = [it for it in lines if ERROR.match(it)]
    told = [it for it in errors if all(text in it for text in texts)]
    if status and told:
        return "refused", told[0]
    return ("BAD EDIT", (errors or lines[-1:])[0]) if status else ("NOT REFUSED", "the crate is proved with it")


def judged_whole(status, said, changed):
    """What a check of the whole crate says of an edit, as rt must-fail judges it."""
    lines = said.rstrip("\n").split("\n")
    unread = next((it for it in lines if is_unread(it, changed)), None)
    if unread:
        return "BAD EDIT", unread
    if status == 0:
        return "NOT REFUSED", "the crate is proved with it"
    if status != 1 or not lines[-1].startswith("logic=not-proved"):
        return "BAD EDIT", " / ".join(lines[:3])
    told = [it for it in lines if re.match(r"(note: )?\S+:\d+:\d+:", it)]
    told = [it for it in told if ": error" in it or it.startswith("note: ")] or told
    own = [it for it in told if not (it.lstrip("./").startswith("proofs/") and NAMES.search(it))]
    if told and not own:
        return "names", told[0]
    return "refused", (own or [lines[-1]])[0]
