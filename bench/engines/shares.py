"""What part of the processors' time is a cache's, by perf: samples in its functions, and those in
locks, whoever takes them. The main thread isn't counted: it opens databases and fills caches."""
import os
import re
import shutil
import subprocess

HERE = os.path.dirname(os.path.realpath(__file__))
LIBRARY = os.path.join(HERE, "../../src/out/libferretgold.a")
# Functions of the caches by their classes, as perf names them; those of the library have no class.
CLASSES = re.compile(r"\bferretgold::|\w*clock_cache::|\blru_cache::|\b(Sharded)?LRUCache\b"
                     r"|\bLRUHandle\b|\bHandleTable\b")
LOCKS = re.compile(r"mutex|lll_lock|futex|spin_lock")
AFTER = 1000  # milliseconds without samples: then databases are open, and caches full
SAMPLE = "perf", "record", "-q", "-e", "cpu-clock", "-F", "499"


def output(*words):
    return subprocess.run(words, capture_output=True, text=True, check=True).stdout


def can():
    """Whether there is perf, and it may sample."""
    words = *SAMPLE, "-o", "/dev/null", "true"
    if not shutil.which("perf"):
        return False
    return subprocess.run(words, capture_output=True, check=False).returncode == 0


class Recorded:
    """Samples of a program that is run through these words, in a file that goes."""

    def __init__(self, file):
        self.file = file
        self.words = [*SAMPLE, "-D", str(AFTER), "-o", file]

    def __enter__(self):
        return self

    def __exit__(self, *_):
        os.remove(self.file)

    def shares(self):
        """How many of a hundred samples were the cache's, and in locks."""
        text = output("perf", "script", "-i", self.file, "-F", "pid,tid,ip,sym")
        samples = re.findall(r"^\s*(\d+)/(\d+)\s+\S+ (.*)", text, re.M)
        names = [name.strip() for process, thread, name in samples if thread != process]
        library = set(re.findall(r" [tT] (.+)$", output("nm", "--defined-only", LIBRARY), re.M))
        of_cache = sum(it in library or bool(CLASSES.search(it)) for it in names)
        of_locks = sum(bool(LOCKS.search(it)) for it in names)
        return {name: round(100 * many / max(len(names), 1), 1)
                for name, many in (("share", of_cache), ("locks", of_locks))}
