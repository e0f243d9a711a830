#!/usr/bin/env python3
"""rewrites.py OUTDIR: writes the inputs of bench/rewrites.rt.txt, pods that aren't canonical."""
import os
import sys

from make import ARRAY, INT, NO_FLAGS, OBJECT, STRUCT, examples, dirty, pod, words

BOOL, CHOICE = 2, 19
NONE, RANGE, ENUM = 0, 1, 3


def choice(shape, flags, *numbers):
    return pod(CHOICE, words(shape, flags, 4, INT, *numbers))


def objects(count, values):
    """Objects of ten properties, going round these pods."""
    one = pod(OBJECT, words(262147, 3) + b"".join(words(key, NO_FLAGS) + values[key % len(values)] for key in range(10)))
    return one * count


# An object that gets 80 bytes shorter: each of its ten ranges has three surplus values.
SHRINKS = objects(1, [choice(RANGE, 0, 5, 1, 9, 9, 9, 9)])

INPUTS = {
    # 64,000 truth values that are 2, and 1000 arrays of 64 of them
    "bools": pod(ARRAY, words(4, BOOL) + words(2) * 64_000),
    "short-bools": pod(STRUCT, pod(ARRAY, words(4, BOOL) + words(2) * 64) * 1000),
    # objects of ranges with a surplus value, and of choices without alternatives that have flags and further values
    "surplus": objects(1000, [choice(RANGE, 0, 5, 1, 9, 9)]),
    "flags": objects(1000, [choice(NONE, 1, 5), choice(NONE, 0, 5, 6)]),
    # a struct of 1,000 Ints and one Bool that is 2 in their midst, 100 times
    "one-in-a-thousand": pod(STRUCT, pod(INT, words(7)) * 500 + pod(BOOL, words(2)) + pod(INT, words(7)) * 500) * 100,
    # structs of Bools that are 2: no member is canonical
    "none": pod(STRUCT, pod(BOOL, words(2)) * 1000) * 100,
    # what travels between real processes, and a struct of Ints, with dirty padding
    "dirty-mixed": dirty(examples(10_000)),
    "dirty-ints": dirty(pod(STRUCT, pod(INT, words(7)) * 100_000)),
    # with clean padding
    "mixed": examples(10_000),
    "ints": pod(STRUCT, pod(INT, words(7)) * 100_000),
    # such objects alone, and one before these
    "shrinks": SHRINKS * 1000,
    "shrinks-mixed": SHRINKS + examples(10_000),
    "shrinks-dirty-mixed": SHRINKS + dirty(examples(10_000)),
    # one behind pods with dirty padding
    "dirty-mixed-shrinks": dirty(examples(10_000)) + SHRINKS,
    "shrinks-ints": SHRINKS + pod(STRUCT, pod(INT, words(7)) * 100_000),
    # an Int and such a Bool in turn
    "in-turn": pod(STRUCT, (pod(INT, words(7)) + pod(BOOL, words(2))) * 500) * 100,
}


if __name__ == "__main__":
    if len(sys.argv) != 2:
        sys.exit(__doc__)
    os.makedirs(sys.argv[1], exist_ok=True)
    for name, made in INPUTS.items():
        with open(os.path.join(sys.argv[1], name + ".pod"), "wb") as file:
            file.write(made)
