"""Checks of numbers that the crates have and texts repeat: limits, and bounds on atomic steps."""
import operator
import re

from functions import functions_of
from crates import crates
from texts import read, tracked

# ---- Limits ---------------------------------------------------------------------------------------

CONSTANTS = ("hcc_core/src/limits.rt", "hcc_rule/src/layout.rt", "hcc_cache/src/limits.rt")
# What repeats them: constants of C and Rust, by their names there.
REPEATED = {
    "src/limits.h": {it: it for it in ("FEWEST_SLOTS", "MOST_SLOTS", "MOST_SHARDS", "MOST_CLIENTS", "MOST_VALUE",
                                            "OCCUPANCY_PERCENT")},
    "include/ferretgold.h": {"FERRETGOLD_MOST_SERIALS": "STAMPS_PER_CLIENT"},
    "rust/src/config.rs": {"MOST_SERIALS": "STAMPS_PER_CLIENT"},
}
# And texts: words, and the limits that the numbers behind them are.
NUMBER = r"(2\^\d+|\d[\d,]*)"
SAID = [
    (rf"[Ss]lots\b[^;.|]{{0,40}}?power of two,? (?:from )?{NUMBER} to {NUMBER}", "FEWEST_SLOTS", "MOST_SLOTS"),
    (rf"[Ss]hards\b[^;.|]{{0,40}}?power of two,? (?:from )?{NUMBER} to {NUMBER}", "ONE", "MOST_SHARDS"),
    (rf"\b[Cc]lients\b(?: must be|;? +/\*|:| are not| there are,| the world has,) {NUMBER} to {NUMBER}", "ONE", "MOST_CLIENTS"),
    (rf"\b[Hh]andles\b(?: must be|;? +/\*|:| are not)[^0-9]{{0,30}} {NUMBER} to {NUMBER}", "ONE", "MOST_HANDLES"),
    (rf"\b[Rr]oom\b(?: must be|;? +/\*[^0-9]*|:| is not)[^0-9]{{0,50}} {NUMBER} to {NUMBER}", "ONE", "MOST_ROOM"),
    (rf"\b[Ss]erials\b(?: must be|;? +/\*[^0-9]*|:| of a client are not)[^0-9]{{0,40}} {NUMBER} to {NUMBER}", "ONE", "STAMPS_PER_CLIENT"),
    (rf"[Cc]apacity must be at most {NUMBER}", "MOST_CAPACITY"),
    (rf"values (?:of at most|up to) {NUMBER} bytes", "MOST_VALUE"),
    (rf"its length, at most {NUMBER}\b", "MOST_VALUE"),
    (rf"{NUMBER} to 65,?536 slots, {NUMBER} clients", "FEWEST_SLOTS", "MOST_CLIENTS"),
    (rf"1 to {NUMBER} shards of {NUMBER} to {NUMBER} slots", "MOST_SHARDS", "FEWEST_SLOTS", "MOST_SLOTS"),
]
PLACES = ("include/*.h", "include/*.hpp", "src/*.c", "rust/src/*.rs", "crates/hcc_play/src/*.rt", "crates/hcc_cache/src/*.rt",
          "README.md", "docs/GUIDE.md", "docs/DESIGN.md")


def value_of(text):
    """A number as code or a text has it: 65_536, 65,536, 0x40, 1 << 29 or 2^54."""
    words = re.findall(r"0x[\da-f]+|\d[\d_,]*|<<|\^", text.replace("UINT64_C", ""))
    first, *rest = (int(re.sub("[_,]", "", it), 0) for it in words if it[0].isdigit())
    return first << rest[0] if "<<" in words else first ** rest[0] if "^" in words else first


def limits_of_crates():
    """The limits that are numbers in the crates, by their names, and what C makes of them."""
    found = {"ONE": 1}
    for file in CONSTANTS:
        for name, text in re.findall(r"^pub const (\w+): \w+ = ([\d_ <+*()]+);", read(f"crates/{file}"), re.M):
            found[name] = value_of(text)
    found["MOST_VALUE"] = 8 * found["MOST_ROOM"]
    return found


def limits():
    """Limits that C, Rust or a text has otherwise than the crates."""
    has = limits_of_crates()
    for file, names in REPEATED.items():
        text = read(file)
        for name, of in names.items():
            found = re.search(rf"\b{name}\b(?:: \w+)?(?: =)? *([\w ()<]*\d[\w ()<]*)", text)
            if not found or value_of(found[1]) != has[of]:
                yield f"{file}: {name} is {found and found[1].strip()}, and the crates have {has[of]}"
    seen = set()
    for file in tracked(*PLACES):
        text = re.sub(r"\n *(?:\*|///?)? *", " ", read(file))
        for pattern, *of in SAID:
            for found in re.finditer(pattern, text):
                seen.add(pattern)
                for number, name in zip(found.groups(), of):
                    if value_of(number) != has[name]:
                        yield f"{file}: {found[0]!r}: {name} is {has[name]}"
    yield from (f"no text says {it}" for it, *_ in SAID if it not in seen)


# ---- Bounds ---------------------------------------------------------------------------------------

# Sizes at which bounds are compared: slots of a shard, payload words, shards.
SIZES = [(8, 1, 1), (64, 3, 2), (8192, 512, 64), (65536, 100, 7)]
# What C makes of several calls: it has the sum of their bounds.
SUMS = {"get_part": ("lookup", "read_part", "release")}
# What C calls otherwise than Rattle.
IN_RATTLE = {"insert_pinned": "insert_pinned_copy"}
DEFINED = {"hcc_table": "Steps", "hcc_charge": "Evicted", "hcc_shard": "Inserted"}
VARIABLES = {"self.now.geometry.slots": "L", "self.now.geometry.room": "W", "length self.now.shards.items": "S",
             "words_for result": "W", "words_for len": "W", "words_across offset result.given": "W",
             "words_across offset part.given": "W", "(v w.": "("}
OPERATORS = {"+": operator.add, "-": operator.sub, "*": operator.mul, "/": operator.floordiv}
TERM = re.compile(r"\s*([A-Za-z_]\w*|\d+|[-+*/()])")
DEFINITION = r"^(%s)((?: \w+)*) = ([^\n]+)$"


class Terms:
    """Sums and products of clauses and definitions, read as functions of L, W and S."""

    def __init__(self):
        self.defined = dict(re.findall(r"^pub const (SLOTS_PER_TURN): \w+ = (\d+);", read(f"crates/{CONSTANTS[0]}"), re.M))
        for crate, file in DEFINED.items():
            for name, words, text in re.findall(DEFINITION % r"[a-z_]+", read(f"crates/{crate}/specs/{file}.antt"), re.M):
                self.defined[name] = (words.split(), text)

    def value(self, text, names):
        """What a term comes to, where these names have these values."""
        words = TERM.findall(text)
        if "".join(words) != re.sub(r"\s", "", text):
            raise ValueError(text)
        value, rest = self.joined(words, names)
        if rest:
            raise ValueError(text)
        return value

    def joined(self, words, names, signs=("+-", "*/")):
        """The value of a sum, or of a product, and the words behind it."""
        if not signs:
            return self.applied(words, names)
        left, words = self.joined(words, names, signs[1:])
        while words and words[0] in signs[0]:
            sign, (right, words) = words[0], self.joined(words[1:], names, signs[1:])
            left = OPERATORS[sign](left, right)
        return left, words

    def applied(self, words, names):
        head, words = words[0], words[1:]
        if head == "(":
            value, words = self.joined(words, names)
            return value, words[1:]
        if head.isdigit():
            return int(head), words
        if head in names:
            return names[head], words
        of = self.defined[head]
        if isinstance(of, str):
            return int(of), words
        given = {}
        for name in of[0]:
            given[name], words = self.applied(words, names)
        return self.value(of[1], given), words


def clause_bound(function):
    """The bound that a function's clause 'steps' says, as a term; None where it has no such clause."""
    text = next((" ".join(it.lines) for it in function.clauses if it.name == "steps"), "")
    text = re.sub(r"\s+", " ", text)
    found = re.search(r"TakesAtMost (.+?) client\.old", text)
    if found:
        return plain(found[1])
    found = re.search(r"TakesFor self\.now (\d+) \(λ v w\. (.+?)\) \(shard_in", text)
    return f"{found[1]} * L + {plain(found[2])}" if found else None


def plain(text):
    for word, name in VARIABLES.items():
        text = text.replace(word, name)
    return text.strip()


def said_in_header():
    """Each bound that the header says: of which call, and where."""
    text = read("include/ferretgold.h")
    last = ""
    for comment, calls in re.findall(r"/\*((?:[^*]|\*(?!/))*)\*/\n((?:[^/\n].*\n|\n(?!/))*)", text):
        bound = re.search(r"Bound: (.+?)\.(?:\s|$)", re.sub(r"\n *\*? *", " ", comment))
        if bound:
            last = last if bound[1] == "the same" else bound[1]
            names = re.findall(r"\bferretgold_(\w+)\(", calls)
            yield from (("include/ferretgold.h", IN_RATTLE.get(name, name), last) for name in names)


def said_in_guide():
    """Each bound of the guide's table of calls."""
    rows = re.findall(r"^\| (`\w+`(?:, `\w+`)*) \|.*\| ([^|]+) \|$", read("docs/GUIDE.md").split("| Bound |")[1].split("\n\n")[0], re.M)
    said = {name: bound for names, bound in rows for name in re.findall(r"\w+", names)}
    for name, bound in said.items():
        as_other = re.fullmatch(r"as `(\w+)`", bound)
        yield "docs/GUIDE.md", name, said[as_other[1]] if as_other else bound


def said_in_design():
    """Each bound of the design's table, with the slots that its column has."""
    table = read("docs/DESIGN.md").split("### Bounds on atomic steps")[1].split("\n\n")[2]
    head, _, *rows = table.split("\n")
    slots = [value_of(it.replace("L = ", "")) for it in head.split("|")[2:-1]]
    for row in rows:
        names, *bounds = row.strip("|").split("|")
        for name in re.findall(r"\w+", names):
            yield from (("docs/DESIGN.md", name, bound.strip(), at) for bound, at in zip(bounds, slots))


def bounds():
    """Bounds of the header, the guide and the design that aren't those of the clauses."""
    terms, has = Terms(), {}
    for it in functions_of(crates()["hcc_cache"]):
        bound = clause_bound(it)
        if it.owner == "Cache" and bound:
            has.setdefault(it.name, bound)
    for name, calls in SUMS.items():
        has[name] = " + ".join(f"({has[it]})" for it in calls)
    seen = set()
    for file, name, said, *at in [*said_in_header(), *said_in_guide(), *said_in_design()]:
        if name not in has:
            continue
        seen.add((file, name))
        term = re.sub(r"(?<=\d),(?=\d)", "", said).replace("·", "*")
        for slots, words, shards in SIZES:
            sizes = {"L": at[0] if at else slots, "W": words, "S": shards}
            if terms.value(term, sizes) != terms.value(has[name], sizes):
                yield f"{file}: {name}: {said}; the clause 'steps' has {has[name]}"
                break
    for file, most in (("include/ferretgold.h", 13), ("docs/GUIDE.md", 13), ("docs/DESIGN.md", 7)):
        if (many := sum(it[0] == file for it in seen)) < most:
            yield f"{file}: only {many} bounds were found"
