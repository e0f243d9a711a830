#!/usr/bin/env python3
"""make.py OUTDIR: writes the inputs of the benchmark. They are the same bytes each time."""
import os
import struct
import sys
from array import array

HERE = os.path.dirname(os.path.abspath(__file__))
NO_FLAGS = 0
INT, STRING, BYTES, ARRAY, STRUCT, OBJECT = 4, 8, 9, 13, 14, 15
MIB = 1 << 20


def words(*numbers):
    return struct.pack("<%dI" % len(numbers), *numbers)


def little_endian(numbers):
    if sys.byteorder != "little":
        numbers.byteswap()
    return numbers.tobytes()


def pod(type_, body):
    """A whole pod: size, type, body and zeros up to a multiple of 8."""
    return words(len(body), type_) + body + bytes(-len(body) % 8)


def ints(count):
    """The pods of the Ints from 0 on, each of four words: size, type, number, padding."""
    made = array("I", [4, INT, 0, 0]) * count
    made[2::4] = array("I", range(count))
    return little_endian(made)


def array_of_ints(count):
    return pod(ARRAY, words(4, INT) + little_endian(array("I", range(count))))


def strings(count):
    """Texts of 0 to 60 bytes, ASCII and not, each with its NUL."""
    alphabet = "abcdefghijklmnopqrstuvwxyzäöü♫"
    texts = (("%d %s" % (n, alphabet * 3))[: n % 50].encode() for n in range(count))
    return b"".join(pod(STRING, text + b"\0") for text in texts)


def examples(count):
    """So many pods, going round the files of examples/ in order of their names."""
    folder = os.path.join(HERE, "..", "examples")
    files = sorted(name for name in os.listdir(folder) if name.endswith(".pod"))
    pods = [open(os.path.join(folder, name), "rb").read() for name in files]
    return b"".join(pods[n % len(pods)] for n in range(count))


def object_of_ints(count):
    return pod(OBJECT, words(5, 3) + b"".join(words(n, NO_FLAGS) + pod(INT, words(n)) for n in range(count)))


def nested(depth):
    """Structs inside each other, the innermost empty."""
    return b"".join(words(8 * (depth - 1 - level), STRUCT) for level in range(depth))


def dirty(pods, keyed=False):
    """These pods, or properties, with dirty padding, which is other bytes than zeros, at each depth."""
    made, at = bytearray(), 0
    while at < len(pods):
        if keyed:
            made += pods[at : at + 8]
            at += 8
        size, type_ = struct.unpack_from("<2I", pods, at)
        body = pods[at + 8 : at + 8 + size]
        if type_ == STRUCT:
            body = dirty(body)
        elif type_ == OBJECT:
            body = body[:8] + dirty(body[8:], keyed=True)
        made += words(size, type_) + body + b"\xa5" * (-size % 8)
        at += 8 + size + -size % 8
    return bytes(made)


INPUTS = [
    ("ints", lambda: ints(64 * MIB // 16)),
    ("struct-of-ints", lambda: pod(STRUCT, ints(1_000_000))),
    ("struct-of-strings", lambda: pod(STRUCT, strings(200_000))),
    ("array-of-ints", lambda: array_of_ints(1_000_000)),
    ("bytes", lambda: pod(BYTES, bytes(range(256)) * (64 * MIB // 256))),
    ("mixed", lambda: examples(100_000)),
    ("dirty-mixed", lambda: dirty(examples(100_000))),
    ("nested", lambda: nested(300) * 1000),
    ("object-of-ints", lambda: object_of_ints(10_000)),
]


def main():
    if len(sys.argv) != 2:
        sys.exit("usage: make.py OUTDIR")
    os.makedirs(sys.argv[1], exist_ok=True)
    for name, made in INPUTS:
        path = os.path.join(sys.argv[1], name + ".pod")
        with open(path, "wb") as out:
            out.write(made())
        print("%-18s %10d bytes" % (name, os.path.getsize(path)))


if __name__ == "__main__":
    main()
