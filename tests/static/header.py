"""Checks of what the headers repeat: of the library's structs and numbers, and of the headers' calls in
C++ and in Rust."""
import re
import subprocess
from pathlib import Path

from texts import read

TOP = Path(__file__).resolve().parent.parent.parent
CRATE = TOP / "crates/hcc_c/src"
# The structs that cross, as the library and as C call them.
STRUCTS = {"Key": "key", "CHandle": "handle", "CConfig": "config", "Stats": "stats", "Totals": "totals",
           "Counts": "outcomes", "Entry": "entry", "CHeldEntry": "held_entry", "CPart": "part",
           "CObject": "object_value", "CHeldObject": "held_object", "CObjectConfig": "object_config"}
SIZES = {"bool": 1, "u16": 2, "u32": 4, "u64": 8, "usize": 8, "Key": 16, "CObject": 16, "CHandle": 24}
RUST = TOP / "rust/src"
PLAIN = {"uint16_t": "u16", "uint32_t": "u32", "uint64_t": "u64", "size_t": "usize", "bool": "bool",
         "void": "c_void", "char": "c_char", "ferretgold_status": "u32", "ferretgold_priority": "u32",
         "ferretgold_inserted": "u32", "ferretgold_file_status": "u32"}
FIELDS = ("config", "handle", "key", "stats", "counts", "totals", "fit", "held_entry", "entry", "loaded",
          "object_config", "object_handle")
HEADERS = tuple(TOP / f"include/ferretgold{it}.h" for it in ("", "_closed", "_image", "_file", "_object"))
IN_CPP = {"ferretgold.hpp": HEADERS[:3], "ferretgold_file.hpp": HEADERS[3:4],
          "ferretgold_object.hpp": HEADERS[4:]}
# For which C++ and Rust have types, and what neither has.
ONLY_IN_C = ("ferretgold_walk", "ferretgold_visit",
             *(f"ferretgold_object_{it}" for it in ("free_bytes", "insert_bytes", "bytes", "find", "give_back",
                                                    "put", "walk", "visit", "save", "load")))
# By which name a function is linked.
LINKED = r"FERRETGOLD_LINKED\((\w+)\)"
# Functions of the caller's, which the library calls.
GIVEN = tuple(f"ferretgold_{it}" for it in ("write", "read", "deleter", "meant", "object_size", "object_copy",
                                            "object_make"))


def source(name):
    """A file of the crate without its comments."""
    return re.sub(r"//.*", "", read(CRATE / name))


def structs():
    """What C's struct has to be, of each #[repr(C)] struct."""
    text = source("shapes.rt") + source("object_shapes.rt")
    found = re.findall(r"#\[repr\(C\)\]\s*pub struct (\w+) \{(.*?)\n\}", text, re.S)
    if {name for name, _ in found} != set(STRUCTS):
        raise ValueError(f"structs in shapes.rt and object_shapes.rt: {[name for name, _ in found]}")
    for name, body in found:
        at, widest = 0, 1
        for field, kind in re.findall(r"pub (\w+): (\w+),", body):
            size = SIZES[kind]
            step = min(size, 8)
            at += -at % step
            c = f"ferretgold_{STRUCTS[name]}"
            yield f"offsetof({c}, {field}) == {at}"
            yield f"sizeof((({c} *)0)->{field}) == {size}"
            at, widest = at + size, max(widest, step)
        yield f"sizeof({c}) == {at + -at % widest}"


def library_numbers():
    """The numbers of refusals, priorities and outcomes, and how many statuses there are."""
    def upper(name):
        return "FERRETGOLD_" + re.sub(r"(?<!^)(?=[A-Z])", "_", name).upper()
    text = source("refusal.rt")
    refusals = re.findall(r"Refusal::(\w+) => (\d+),", text)
    priorities = re.findall(r"number == (\d+) \{\s*Some\(Priority::(\w+)\)", text)
    outcomes = re.findall(r"Inserted::(\w+) => (\d+),", text)
    if (len(refusals), len(priorities), len(outcomes)) != (28, 3, 3):
        raise ValueError("refusal.rt isn't as it was")
    for name, number in refusals + [(b, a) for a, b in priorities] + outcomes:
        yield f"{upper(name)} == {number}"


def layout():
    """Structs and numbers of the header that aren't the library's. What the library has is read of its
    source, and a C compiler compares it with the header; then it compiles tests/c/layout.c, which has
    the numbers of both."""
    asserts = [*structs(), *library_numbers()]
    lines = [f'_Static_assert({it}, "the library has {it}");' for it in asserts]
    headers = "".join(f'#include "ferretgold_{it}.h"\n' for it in ("closed", "object", "raw"))
    text = headers + "\n".join(lines) + "\n"
    words = ["cc", "-std=c11", "-Wall", "-Wextra", "-Werror", "-fsyntax-only", f"-I{TOP}/include"]
    how = {"text": True, "check": False, "capture_output": True}
    for ran in (subprocess.run([*words, "-x", "c", "-"], input=text, **how),
                subprocess.run([*words, f"{TOP}/tests/c/layout.c"], **how)):
        yield from (it for it in ran.stderr.split("\n") if "error" in it)
        if ran.returncode and "error" not in ran.stderr:
            yield ran.stderr


def code_of(path):
    """A header without comments, preprocessor lines and names by which it links functions."""
    text = re.sub(r"/\*.*?\*/|//[^\n]*|^[ \t]*#(?:[^\n]*\\\n)*[^\n]*", " ", read(path), flags=re.S | re.M)
    return re.sub(rf"\s+{LINKED}", "", text)


def rust_name(name):
    return "".join(it.capitalize() for it in name.removeprefix("ferretgold_").split("_"))


def rust_of(kind):
    """A type of C as Rust has it."""
    is_const, name, stars = re.fullmatch(r"(const )?(?:struct )?(\w+) ?(\**)", kind).groups()
    rust = PLAIN.get(name) or rust_name(name)
    for _ in stars[name in GIVEN:]:
        rust, is_const = f"*{'const' if is_const else 'mut'} {rust}", None
    return rust


def split(parameter):
    """A parameter's or a field's name and type."""
    kind, name, many = re.fullmatch(r"(.*?)(\w+)(?:\[(\d+)\])?", " ".join(parameter.split())).groups()
    return name, f"[{rust_of(kind.strip())}; {many}]" if many else rust_of(kind.strip())


def declared(code):
    """Each function of a header, as the crate has to declare it, and each type of functions."""
    code = re.sub(r"\(\*(ferretgold_\w+)\)", r"\1", code)
    found = re.findall(r"([\w *]+?)\b(ferretgold_\w+)\s*\(([^()]*)\)\s*[;{]", code)
    for kind, name, parameters in found:
        if not re.search("static|return", kind) and kind.strip() and "_raw_" not in name:
            listed = [] if parameters.strip() == "void" else [split(it) for it in parameters.split(",")]
            kind = " ".join(re.sub(r"\b(extern|inline|typedef|FERRETGOLD_INLINE)\b", "", kind).split())
            yield name, (listed, "" if kind == "void" else rust_of(kind))


def crate_declares():
    raw = read(RUST / "raw.rs")
    found = re.findall(r"pub (?:fn (\w+)|type (\w+) =\s+unsafe extern \"C\" fn)\((.*?)\)(?:\s+-> ([^;]+))?;", raw, re.S)
    snake = lambda it: re.sub("(?<!^)(?=[A-Z])", "_", it).lower()
    return {name or f"ferretgold_{snake(given)}":
            ([tuple(it.strip().split(": ")) for it in parameters.split(",") if it.strip()], kind)
            for name, given, parameters, kind in found}


def linked():
    """The functions that have a name with the version's numbers, and that name, in C and in the crate."""
    version = re.search(r'FERRETGOLD_VERSION "(\d+)\.(\d+)', read(HEADERS[0]))
    names = re.findall(rf"(\w+)\([^()]*\)\s+{LINKED};", "".join(map(read, HEADERS)))
    in_c = {name: f"{label}_{version[1]}_{version[2]}" for name, label in names}
    found = re.findall(r'#\[link_name = "(\w+)"\]\s+pub fn (\w+)', read(RUST / "raw.rs"))
    return in_c, {name: label for label, name in found}


def fields(kind, code, crate):
    """The fields of a struct in C and in the crate."""
    inner = re.search(r"typedef struct ferretgold_%s \{(.*?)\}" % kind, code, re.S)[1]
    in_c = [split(it) for it in inner.split(";") if it.strip()]
    inner = re.findall(r"#\[repr\(C\)\][^{}]*pub struct %s \{(.*?)\n\}" % rust_name(kind), crate, re.S)
    return in_c, re.findall(r"^    pub (\w+): ([\w* ]+|\[\w+; \d+\]),", "".join(inner), re.M)


def numbers(kind, mark, constant, code, crate):
    """The statuses of both: those that refuse."""
    inner = "".join(re.findall(r"enum (?:ferretgold_%s )?\{(.*?)\}" % kind, code, re.S))
    both = (re.findall(rf"{mark}(\w+) = (\d+)", inner), re.findall(constant, crate, re.M))
    return [{name: int(it) for name, it in found if int(it) > 1} for found in both]


def wrappers():
    """What the wrappers for C++ and Rust lack of the headers, or have otherwise: calls, fields of structs,
    the numbers of statuses, the version."""
    code, crate = "".join(map(code_of, HEADERS)), "".join(map(read, sorted(RUST.glob("*.rs"))))
    has = {name: it for name, it in declared(code) if name not in ONLY_IN_C}
    raw = crate_declares()
    for wrapper, headers in IN_CPP.items():
        calls = code_of(TOP / "include" / wrapper)
        for name, _ in declared("".join(map(code_of, headers))):
            if name not in GIVEN + ONLY_IN_C and not re.search(rf"\b{name}\s*\(", calls):
                yield f"{wrapper} doesn't call {name}"
    for name, it in has.items():
        if name not in GIVEN and not re.search(rf"raw::{name}\b", crate):
            yield f"the crate doesn't call {name}"
        if raw.get(name) != it:
            yield f"the crate has {name} as {raw.get(name)}, not {it}"
    yield from (f"the header has no {it}" for it in raw if it not in has)
    for kind in FIELDS:
        in_c, in_rust = fields(kind, code, crate)
        if in_c != in_rust:
            yield f"the crate's {kind} has {in_rust}, not {in_c}"
    for it in (("status", "FERRETGOLD_", r'^    ([A-Z_]+) = (\d+): "'),
               ("file_status", "FERRETGOLD_FILE_", r"^const ([A-Z]+): u32 = (\d+);")):
        in_c, in_rust = numbers(*it, code, crate)
        if in_c != in_rust:
            yield f"the crate's numbers of {it[0]} differ: {sorted(in_c.items() ^ in_rust.items())}"
    in_c, in_rust = linked()
    if in_c != in_rust:
        yield f"the crate links {in_rust}, not {in_c}"
    version = re.search(r'FERRETGOLD_VERSION "(.*)"', read(HEADERS[0]))[1]
    if f'\nversion = "{version}"\n' not in read(TOP / "rust/Cargo.toml"):
        yield f"the crate hasn't version {version}"
