"""The crates of the repository: what crates.txt says of them, and how rattle is called for one."""
import os
import re
import shutil

RATTLE = os.path.realpath(shutil.which("rattle") or "/usr/local/bin/rattle")
KIT = os.path.dirname(os.path.dirname(RATTLE))
PARTS = ("src", "specs", "proofs")
FOLDERS = ("edits", "must-fail")  # tried by tests/edits/try.py; tried by rt ci


class Crate:
    """A crate: its folder, and the libraries of the repository and of the kit below it."""

    def __init__(self, name, listed):
        self.name, self.folder = name, os.path.realpath(f"crates/{name}")
        words, uses = listed[name]
        self.is_static = "staticlib" in words
        self.is_program = os.path.isfile(f"{self.folder}/src/main.rt")
        self.uses = [it for it in uses if it in listed]
        self.of_kit = ["std"] + [it for it in uses if it not in listed]
        self.below = []
        todo = list(self.uses)
        while todo:
            it = todo.pop(0)
            if it not in self.below:
                self.below.append(it)
                todo += [dep for dep in listed[it][1] if dep in listed]

    def words(self, rlibs):
        """What rattle is told of this crate, with the libraries of the repository in this folder."""
        words = ["--crate-name", self.name, f"src/{'main' if self.is_program else 'lib'}.rt"]
        for it in self.of_kit:
            words += ["--extern", f"{it}={KIT}/rlibs/{it}.rlib"]
        for it in self.uses:
            words += ["--extern", f"{it}={rlibs}/{it}.rlib"]
        words += ["-L", f"dependency={KIT}/rlibs", "-L", f"dependency={rlibs}"]
        words += ["--antt-project", f"{KIT}/rattle/logic/antt-project.json"]
        words += ["--logic-built", f"{KIT}/logic_built", "--links", f"{self.name}="]
        return words + (["--crate-type", "staticlib"] if self.is_static else [])

    def files(self, *endings):
        """The crate's own files but those of its tests, as paths in it: in the order of their names."""
        found = []
        for part in PARTS:
            for at, folders, names in os.walk(f"{self.folder}/{part}"):
                folders[:] = sorted(it for it in folders if it != "tests")
                paths = (os.path.relpath(f"{at}/{it}", self.folder) for it in sorted(names))
                found += [it for it in paths if it.endswith(endings) and not it.endswith("/tests.rt")]
        return found

    def text(self, path):
        with open(f"{self.folder}/{path}", encoding="utf-8") as it:
            return it.read()


def crates():
    """The crates of crates.txt by their names, lowest first."""
    listed = {}
    with open("crates.txt", encoding="utf-8") as it:
        for row in it:
            head, _, uses = row.partition("#")[0].strip().partition(":")
            if head:
                name, *words = head.split()
                listed[name] = (words, uses.split())
    found = [Crate(name, listed) for name in listed]
    return {it.name: it for it in sorted(found, key=lambda it: len(it.below))}


FUNCTION = re.compile(
    r"^(\s*)(?:pub(?:\([^)]*\))? )?(?:final |const |unsafe |extern \"C\" )*fn (\w+)"
)


def owner_in(head):
    """The type whose functions an impl has, by its first line; of a trait's impl type and trait, as
    rattle names them, which leaves the impl's own type parameters out. None where it is no impl."""
    found = re.match(r"(?:unsafe )?impl(?:<.*?>)? (?:(.*) for )?&?(?:'\w+ )?(\w+)", head)
    if not found:
        return None
    of_one = re.match(r"impl (\w+)<(\w+)>(?! for )", head)
    if of_one:
        return f"{of_one[1]}+{of_one[2]}"
    trait = re.sub(r"'\w+", "", found[1] or "")
    return found[2] + "".join(re.findall(r"\w{2,}", trait))


def module_of(path):
    """The module that a file of src/ is, as a path."""
    words = path.removeprefix("src/").removesuffix(".rt").split("/")
    if words in (["lib"], ["main"]):
        return ""
    return "::".join(words[:-1] if words[-1] == "mod" else words)


def symbol_of(owner, path, name):
    """A function as rattle names it: a method is found where its type stands, and not its impl."""
    return f"{owner}::{name}" if owner else "::".join(filter(None, [module_of(path), name]))
