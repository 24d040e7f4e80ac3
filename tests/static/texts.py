"""Checks of texts: lines' widths, the words of pages, and where pages lead."""
import os
import re
import subprocess

COLUMNS = 100
MADE_PAGE = "docs/GUARANTEES.md"  # made of doc comments
# Words in a sense that the field doesn't know, each with the one to write.
WORDS = [
    (r"\bbut for\b", "except"),
    (r"\bjust (?:as|by|if|then|when|where)\b", "exactly"),
    (r"\btold\b|\btelling\b", "returned, reported, said"),
    (r"\btells\b", "returns, reports, says"),
    (r"\bof [\w ]{1,20} alone\b|\bby [\w ]{1,20} alone\b|\bunder strict alone\b", "only"),
    (r"\ba count at its end\b", "saturates"),
    (r"(?<!compare-)(?<!compare and )\bexchanges?\b", "compare-exchange"),
    (r"\bthat there (?:isn't|aren't)\b", "unknown"),
    (r"\bfor want of\b", "for lack of"),
    (r"\btakes? (?:no )?memory\b|\bmemory is taken\b", "allocates"),
]
LISTED = [(re.compile(word, re.I), better) for word, better in WORDS]
TOPS = r"(?:\.ci|bench|crates|docs|examples|include|rust|tests|tools)"
LINK = re.compile(r"\[[^\]]*\]\(([^)\s]+)\)|^\s*\[[^\]]+\]: (\S+)", re.M)
PATH = re.compile(rf"`({TOPS}/[\w./+-]+)`")
# What checks leave behind, which no checkout has.
MADE = re.compile(r"/(out|build)(/|$)")


def read(path):
    with open(path, encoding="utf-8") as it:
        return it.read()


def tracked(*patterns):
    """The files of the repository of these patterns."""
    words = ["git", "ls-files", "--", *patterns]
    found = subprocess.run(words, capture_output=True, text=True, check=True).stdout.split()
    return [it for it in found if os.path.exists(it)]


def columns():
    """Lines of code, clauses, comments there, definitions and proofs that are too long. Imports may be:
    no layout breaks them."""
    for file in tracked("crates/*.rt", "crates/*.antt"):
        for number, line in enumerate(read(file).split("\n"), 1):
            if len(line) > COLUMNS and not line.lstrip().startswith(("use ", "ghost use ", "pub use ")):
                yield f"{file}:{number}: {len(line)} columns"


def plain(text):
    """The text with its code blanked, line by line."""
    text = re.sub(r"^```.*?^```", lambda it: "\n" * it[0].count("\n"), text, flags=re.M | re.S)
    text = re.sub(r"^(?:    |\{\{).*$", "", text, flags=re.M)
    return re.sub(r"`[^`\n]*`", "``", text)


def words():
    """Words of pages that a reader trips over."""
    for page in tracked("*.md"):
        for number, line in enumerate(plain(read(page)).split("\n"), 1) if page != MADE_PAGE else ():
            for word, better in LISTED:
                yield from (f"{page}:{number}: {it[0]!r}: write {better}" for it in word.finditer(line))


def anchors(page):
    """The anchors of a page's headings."""
    found = set()
    for heading in re.findall(r"^#+ (.+)$", read(page), re.M):
        text = re.sub(r"\[([^\]]*)\]\([^)]*\)", r"\1", heading).lower()
        found.add(re.sub(r"[^\w\- ]", "", text).replace(" ", "-"))
    return found | set(re.findall(r'<a (?:id|name)="([^"]+)"', read(page)))


def is_there(page, link):
    """Whether a link of a page leads somewhere in the repository."""
    path, _, anchor = link.partition("#")
    file = os.path.normpath(os.path.join(os.path.dirname(page), path)) if path else page
    if not os.path.exists(file):
        return False
    return not anchor or not file.endswith(".md") or anchor in anchors(file)


def links():
    """Links to a file or a heading, and paths of the repository in backquotes, that aren't there."""
    for page in tracked("*.md"):
        text, found = read(page), []
        for it in LINK.finditer(text):
            link = it[1] or it[2]
            if not re.match(r"[a-z]+:", link) and not is_there(page, link):
                found.append((it.start(), link))
        for it in PATH.finditer(text):
            if not MADE.search(it[1]) and not os.path.exists(it[1]):
                found.append((it.start(), it[1]))
        yield from (f"{page}:{text.count(chr(10), 0, at) + 1}: {what} isn't there" for at, what in found)
