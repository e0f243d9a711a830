#!/usr/bin/env python3
"""levels.py [PROGRAM]: from which depth on the calls that call themselves for each level overflow a stack of 8 MB.

PROGRAM is bench/library.rt.txt, built to bench/out/library. Structs in structs and objects in objects are read and dropped, and printed
by `{:?}`; and the same with a None behind each are compared by `==`, which takes no stack for a level that nothing follows. That is done at
depths between one that passes and one that doesn't, until these are a hundredth apart. A run passes where it prints its line: what it drops
at its end doesn't count.
"""

import struct
import subprocess
import sys

from deep import HERE, KEYED, NONE, TRUE, followed, limit_stack, objects, structs

MOST = 4_000_000


def followed_objects(levels, inner):
    """So many objects of two properties, of which the first holds the next one, or these bytes, and the second a None."""
    behind = struct.pack("<2I", 2, 0) + NONE
    step = KEYED + len(behind)
    sizes = range(step * (levels - 1) + KEYED - 8 + len(behind) + len(inner), len(inner), -step)
    return b"".join(struct.pack("<6I", size, 15, 5, 3, 1, 0) for size in sizes) + inner + behind * levels


def passes(program, work, given):
    """Whether one round of this work on these pods came to its end."""
    with subprocess.Popen([program, work, "1"], stdin=subprocess.PIPE, stdout=subprocess.PIPE, stderr=subprocess.DEVNULL, preexec_fn=limit_stack) as it:
        written, _ = it.communicate(given)
    return bool(written)


def most_levels(program, work, nest):
    """The most levels that pass, to a hundredth."""
    low, high = 1000, MOST
    while high - low > low // 100:
        middle = (low + high) // 2
        if passes(program, work, nest(middle, TRUE)):
            low = middle
        else:
            high = middle
    return low


def main(words):
    if not words and not (HERE / "out/library").is_file():
        sys.exit("levels.py: bench/out/library isn't built: that needs rt, the command of the Rattle kit; cargo's own tests nest deep, too")
    program = words[0] if words else HERE / "out/library"
    for work, nests in (("read", (structs, objects)), ("print", (structs, objects)), ("equal", (followed, followed_objects))):
        for nest in nests:
            print(work, nest.__name__, most_levels(program, work, nest), flush=True)


if __name__ == "__main__":
    sys.exit(main(sys.argv[1:]))
