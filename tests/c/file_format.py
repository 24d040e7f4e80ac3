#!/usr/bin/env python3
"""Reads or writes a file of a cache that was saved, by the format's description in
include/ferretgold_file.h alone; checksums are those of xxHash's own library.

Usage: file-format read FILE     prints its entries, a line each: KEY KEY CHARGE USES VALUE, as
                                 numbers and hexadecimal bytes, with the kind for the uses where they
                                 are objects; fails where the file isn't well
       file-format write FILE [VERSION]   writes the entries of such lines, read from standard input;
                                 objects where the version is 2"""
import ctypes
import struct
import sys

SUMS = ctypes.CDLL("libxxhash.so")
SUMS.XXH64.argtypes = [ctypes.c_char_p, ctypes.c_size_t, ctypes.c_uint64]
SUMS.XXH64.restype = ctypes.c_uint64
BEGIN, HEAD, OBJECT = (struct.Struct(it) for it in ("<8sIIQ", "<QQIIII", "<QQIHHQ"))
OBJECTS = 2


def xxh64(data, seed):
    return SUMS.XXH64(data, len(data), seed)


def must(is_so, what):
    if not is_so:
        sys.exit(f"file-format: {what}")


def summed(data, at, seed, rest=b""):
    """The checksum that stands there, if it is that of the bytes before and the rest."""
    return struct.unpack_from("<Q", data, at)[0] == xxh64(data[:at] + rest, seed)


def read_bytes(data, entries):
    """Prints so many entries of bytes; what stands behind them."""
    for number in range(1, entries + 1):
        w0, w1, charge, uses, length, zero = HEAD.unpack_from(data)
        value = data[40 : 40 + length]
        must(zero == 0 and charge > 0 and len(value) == length, f"entry {number} isn't well")
        must(summed(data[:40], 32, number, value), f"entry {number} was changed")
        print(w0, w1, charge, uses, value.hex())
        data = data[40 + length :]
    return data


def read_objects(data, entries):
    """Prints all objects, of which the file's begin doesn't say how many there are; what stands behind
    their end."""
    while True:
        number = entries + 1
        w0, w1, charge, kind, zero, length = OBJECT.unpack_from(data)
        must(zero == 0 and summed(data[:40], 32, number), f"the head of entry {number} was changed")
        if charge == 0:
            must((w0, w1, kind, length) == (0, 0, 0, entries), "the end isn't well")
            return data[40:]
        value = data[40 : 40 + length]
        must(len(value) == length and summed(data[40 : 48 + length], length, number), f"entry {number} was changed")
        print(w0, w1, charge, kind, value.hex())
        data, entries = data[48 + length :], number


def read(path):
    with open(path, "rb") as it:
        data = it.read()
    kind, version, zero, entries = BEGIN.unpack_from(data)
    must(kind == b"FERRETG1" and version in (1, OBJECTS) and zero == 0, "no such file")
    must(summed(data[:32], 24, 0), "the begin was changed")
    rest = (read_objects if version == OBJECTS else read_bytes)(data[32:], entries)
    must(not rest, "something stands behind the last entry")


def written(number, words, version):
    """An entry as it stands in a file."""
    w0, w1, charge, uses, length = *map(int, words[:4]), len(words[4]) // 2
    value = bytes.fromhex(words[4])
    if version == OBJECTS:
        return ended(OBJECT.pack(w0, w1, charge, uses, 0, length), number) + ended(value, number)
    head = HEAD.pack(w0, w1, charge, uses, length, 0)
    return head + struct.pack("<Q", xxh64(head + value, number)) + value


def ended(data, number):
    """Bytes with their checksum behind them."""
    return data + struct.pack("<Q", xxh64(data, number))


def write(path, version):
    lines = [line.rstrip("\n").split(" ") for line in sys.stdin]
    with open(path, "wb") as to:
        to.write(ended(BEGIN.pack(b"FERRETG1", version, 0, 0 if version == OBJECTS else len(lines)), 0))
        for number, words in enumerate(lines, 1):
            to.write(written(number, words, version))
        if version == OBJECTS:
            to.write(ended(OBJECT.pack(0, 0, 0, 0, 0, len(lines)), len(lines) + 1))


if len(sys.argv) == 3 and sys.argv[1] == "read":
    read(sys.argv[2])
elif len(sys.argv) in (3, 4) and sys.argv[1] == "write":
    write(sys.argv[2], int(sys.argv[3]) if len(sys.argv) == 4 else 1)
else:
    sys.exit(__doc__)
