"""Sees that the shared library exports what the header says, no more and no less, and calls it by
ctypes.

Usage: tests/install/shared.py PREFIX"""
import ctypes
import re
import shutil
import subprocess
import sys
import tempfile
from ctypes import POINTER, byref, c_bool, c_char_p, c_size_t, c_uint16, c_uint32, c_uint64, c_void_p
from pathlib import Path

PREFIX = Path(sys.argv[1])
LIBRARY = PREFIX / "lib/libferretgold.so"
HEADER = "".join((PREFIX / f"include/ferretgold{it}.h").read_text(encoding="utf-8") for it in ("", "_closed", "_image", "_inline", "_object"))
MISS, NO_HANDLE, TOO_SHORT, BAD_SIZE = 1, 17, 20, 40


class Config(ctypes.Structure):
    _fields_ = [(it, c_uint32) for it in ("slots", "room", "clients", "handles", "shards")] + [
        ("strict", c_bool), ("marks", c_bool), ("size", c_uint16)] + [
        (it, c_uint64) for it in ("capacity", "serials", "seed")]


class Key(ctypes.Structure):
    _fields_ = [("w0", c_uint64), ("w1", c_uint64)]


class Handle(ctypes.Structure):
    _fields_ = [("index", c_size_t), ("serial", c_uint64), ("client", c_uint32), ("cache", c_uint32)]


class Totals(ctypes.Structure):
    _fields_ = [(it, c_uint64) for it in ("usage", "occupied", "slot_charges", "slot_count")]


def named():
    """The functions that the header declares or calls, but its own and types of functions; also by the
    names by which it links them."""
    numbers = "_".join(version_of(HEADER)[1].split(".")[:2])
    linked = set(re.findall(r"FERRETGOLD_(?:LINKED|OF_VERSION)\((ferretgold_\w+)\)", HEADER))
    code = re.sub(r"/\*.*?\*/|//[^\n]*|^[ \t]*#(?:[^\n]*\\\n)*[^\n]*", " ", HEADER, flags=re.S | re.M)
    own = set(re.findall(r"\b(?:static inline|typedef) [^;{}]*?(ferretgold_\w+)\s*\(", code))
    return {f"{it}_{numbers}" for it in linked} | set(re.findall(r"\b(ferretgold_\w+)\s*\(", code)) - own


def exported():
    words = ["nm", "-D", "--defined-only", LIBRARY]
    lines = subprocess.run(words, capture_output=True, text=True, check=True).stdout.splitlines()
    return {re.sub("@.*", "", it[2]) for it in map(str.split, lines) if it[1] != "A"}


def version_of(header):
    numbers = re.findall(r"#define FERRETGOLD_VERSION_(?:MAJOR|MINOR|PATCH) (\d+)$", header, re.M)
    return ".".join(numbers), re.search(r'#define FERRETGOLD_VERSION "(.*)"', header)[1]


def called():
    """A cache that is opened, used and closed."""
    it = ctypes.CDLL(str(LIBRARY))
    it.ferretgold_version.restype = c_char_p
    version = it.ferretgold_version().decode()
    assert version_of(HEADER) == (version, version), version_of(HEADER)
    config, cache, client = Config(), c_void_p(), c_void_p()
    length, inserted, totals, key = c_size_t(), c_uint32(9), Totals(), Key(1, 2)
    it.ferretgold_config_for.argtypes = [c_uint64, c_size_t, c_uint32, POINTER(Config), c_void_p]
    assert it.ferretgold_config_for(1 << 20, 64, 2, byref(config), None) == 0
    assert config.size == ctypes.sizeof(Config) == 48 and config.clients == 2
    config.size = 56
    assert it.ferretgold_open(byref(config), byref(cache)) == BAD_SIZE
    config.size = 0
    assert it.ferretgold_open(byref(config), byref(cache)) == 0
    assert it.ferretgold_client_open(cache, byref(client)) == 0
    buffer = ctypes.create_string_buffer(16)
    reading = [client, byref(key), buffer, c_size_t(5), c_bool(True), byref(length)]
    assert it.ferretgold_get(*reading) == MISS
    writing = [client, byref(key), b"hello", c_size_t(5), c_uint32(7), c_uint32(1), byref(inserted)]
    assert it.ferretgold_insert(*writing) == 0 and inserted.value == 0
    assert it.ferretgold_get(*reading) == 0 and buffer.raw[:6] == b"hello\0" and length.value == 5
    reading[3] = c_size_t(4)
    assert it.ferretgold_get(*reading) == TOO_SHORT
    assert it.ferretgold_client_close(cache, client) == 0
    assert it.ferretgold_close(cache, byref(totals)) == 0
    assert [getattr(totals, name) for name, _ in Totals._fields_] == [7, 1, 7, 1]


def opened(library):
    """A cache, a client of it, and a handle on an entry of it."""
    config, cache, client, handle = Config(), c_void_p(), c_void_p(), Handle()
    assert library.ferretgold_config_for(c_uint64(1 << 20), c_size_t(8), c_uint32(1), byref(config), None) == 0
    assert library.ferretgold_open(byref(config), byref(cache)) == 0
    assert library.ferretgold_client_open(cache, byref(client)) == 0
    words = [client, byref(Key(1, 2)), b"a", c_size_t(1), c_uint32(1), c_uint32(1), None, byref(handle)]
    assert library.ferretgold_insert_pinned(*words) == 0
    return client, handle


def copied(folder):
    """Two copies of the library in one process: neither takes the other's handle, though both are the first of
    their caches' first clients."""
    copies = []
    for name in ("one.so", "other.so"):
        shutil.copy(LIBRARY, folder / name)
        copies.append(ctypes.CDLL(str(folder / name)))
    (client, handle), (_, other) = map(opened, copies)
    length = c_size_t()
    assert copies[0].ferretgold_value_len(client, handle, byref(length)) == 0
    assert copies[0].ferretgold_value_len(client, other, byref(length)) == NO_HANDLE
    assert (handle.index, handle.serial, handle.client) == (other.index, other.serial, other.client)


def main():
    for name in sorted(named() ^ exported()):
        print(f"{name}: only {'the header names it' if name in named() else 'the library exports it'}")
    called()
    with tempfile.TemporaryDirectory() as folder:
        copied(Path(folder))
    print(f"shared: {len(exported())} functions")
    return named() != exported()


sys.exit(main())
