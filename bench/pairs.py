#!/usr/bin/env python3
"""pairs.py keys|values: writes two objects for `meets` of meets.rt.txt. Of keys each has 100, with the same Ints, the second downwards;
of values each has an Enum of 502 Ints, of which both share the last."""
import sys

from make import INT, NO_FLAGS, OBJECT, pod, words

CHOICE, ENUM = 19, 3


def object_of(id_, properties):
    body = b"".join(words(key, NO_FLAGS) + value for key, value in properties)
    return pod(OBJECT, words(5, id_) + body)


def keys(id_, numbers):
    return object_of(id_, [(n, pod(INT, words(n))) for n in numbers])


def values(id_, numbers):
    return object_of(id_, [(1, pod(CHOICE, words(ENUM, NO_FLAGS, 4, INT, numbers[0], *numbers, 5001)))])


PAIRS = {
    "keys": lambda: keys(3, range(1, 101)) + keys(7, range(100, 0, -1)),
    "values": lambda: values(3, range(0, 1000, 2)) + values(7, range(1, 1001, 2)),
}


def main():
    if len(sys.argv) != 2 or sys.argv[1] not in PAIRS:
        sys.exit("usage: pairs.py keys|values")
    sys.stdout.buffer.write(PAIRS[sys.argv[1]]())


if __name__ == "__main__":
    main()
