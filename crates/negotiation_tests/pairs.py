#!/usr/bin/env python3
"""pairs.py: makes the rows of pairs drawn at random anew, behind the rows of stdin that were made otherwise, and their answers where they
stand in stdout, before those of formats.

What two values are filtered to is found here by the rules of docs/NEGOTIATION.md, "To filter", with what a value admits as a set
of a small domain: a second implementation of them. Ints go from -5 to 10, both numbers of a rectangle or a fraction from 0 to 3.
"""

import itertools
import math
import pathlib

HERE = pathlib.Path(__file__).resolve().parent

# Of each type: its number, the seed of its pairs, how many pairs are drawn, and its domain, in the order of the numbers drawn.
PAIRS = tuple(itertools.product(range(4), range(4)))
KINDS = {"Int": (4, 1, 1000, tuple(range(-5, 11))), "Rectangle": (10, 2, 500, PAIRS), "Fraction": (11, 3, 500, PAIRS)}

# The shapes by what is drawn, and of each the word of its choice and how many values it has.
DRAWN = ("Plain", "None", "Enum", "Enum", "Flags", "Range", "Range", "Range", "Step", "Step")
SHAPES = {"Plain": (None, 1), "None": (0, 1), "Range": (1, 3), "Step": (2, 4), "Enum": (3, 3), "Flags": (4, 1)}


def seeds(seed):
    """A sequence that looks random (Knuth's multiplier, of MMIX)."""
    while True:
        seed = (seed * 6364136223846793005 + 1442695040888963407) % 2**64
        yield seed


def drawn(domain, it):
    """A side: its shape, and its values with the default first."""
    four = [next(it) for _ in range(4)]
    shape = DRAWN[(four[2] >> 40) % 10]
    return shape, [domain[(seed >> 33) % 16] for seed in four][: SHAPES[shape][1]]


def is_at_most(kind, x, y):
    if kind == "Fraction":
        return x[1] > 0 and y[1] > 0 and x[0] * y[1] <= y[0] * x[1]
    return all(a <= b for a, b in zip(x, y)) if kind == "Rectangle" else x <= y


def is_multiple(kind, x, step):
    if kind == "Rectangle":
        return all(is_multiple("Int", a, b) for a, b in zip(x, step))
    return step != 0 and x % step == 0


def admits(kind, side, x):
    shape, values = side
    if shape in ("Range", "Step"):
        within = is_at_most(kind, values[1], x) and is_at_most(kind, x, values[2])
        return within and (shape == "Range" or is_multiple(kind, x, values[3]))
    if shape == "Flags":
        return x != 0 and x & values[0] == x
    return x in values


def is_supported(kind, shapes):
    if "Flags" in shapes and (kind != "Int" or not shapes.isdisjoint({"Range", "Step"})):
        return False
    return "Step" not in shapes or kind != "Fraction"


def bound(kind, first, second, is_least):
    """The greater of two minima, or the lesser of two maxima."""
    if kind == "Rectangle":
        return tuple(bound("Int", a, b, is_least) for a, b in zip(first, second))
    return second if is_at_most(kind, first, second) == is_least else first


def common_step(kind, sides):
    """The step of those that are Steps."""
    steps = [values[3] for shape, values in sides if shape == "Step"]
    if len(steps) == 1:
        return steps[0]
    return tuple(map(math.lcm, *steps)) if kind == "Rectangle" else math.lcm(*steps)


def filtered(kind, domain, a, b):
    """The side to which two sides are filtered, or the refusal."""
    shapes = {a[0], b[0]}
    if not is_supported(kind, shapes):
        return "Unsupported(1)"
    if shapes == {"Flags"}:
        bits = a[1][0] & b[1][0]
        return ("Flags", [bits]) if bits else "Disjoint(1)"
    both = [x for x in domain if admits(kind, a, x) and admits(kind, b, x)]
    if not both:
        return "Disjoint(1)"
    if shapes & {"Plain", "None"}:
        return "Plain", both
    defaults = [side[1][0] for side in (a, b) if side[1][0] in both]
    if "Enum" in shapes:
        left = [x for x in (a if a[0] == "Enum" else b)[1] if x in both]
        return "Enum", [(defaults + left)[0], *dict.fromkeys(left)]
    ends = [bound(kind, a[1][1], b[1][1], True), bound(kind, a[1][2], b[1][2], False)]
    if "Step" in shapes:
        return "Step", [(defaults + both)[0], *ends, common_step(kind, (a, b))]
    return "Range", [(defaults + ends)[0], *ends]


def pod_of(kind, side, identity):
    """The words of an object of type 5 that has the side's value under key 1."""
    word = SHAPES[side[0]][0]
    values = list(side[1] if kind == "Int" else itertools.chain(*side[1]))
    size = 4 if kind == "Int" else 8
    if word is None:
        value = [size, KINDS[kind][0], *values]
    else:
        value = [16 + 4 * len(values), 19, word, 0, size, KINDS[kind][0], *values]
    value += [0] * (len(value) % 2)
    return " ".join(str(it % 2**32) for it in (16 + 4 * len(value), 15, 5, identity, 1, 0, *value))


def answer(kind, domain, a, b, identity):
    found = filtered(kind, domain, a, b)
    return found if isinstance(found, str) else pod_of(kind, found, identity)


def rows():
    """Each row, and what is answered."""
    for kind, (_, seed, count, domain) in KINDS.items():
        it = seeds(seed)
        for number in range(1, count + 1):
            a, b = drawn(domain, it), drawn(domain, it)
            label = f"filter random {kind} {number}"
            yield (
                f"{label}: {pod_of(kind, a, 3)} | {pod_of(kind, b, 7)}",
                f"{label}: {answer(kind, domain, a, b, 3)} | {answer(kind, domain, b, a, 7)}",
            )


def main():
    for name, made in zip(("stdin", "stdout"), zip(*rows())):
        file = HERE / name
        kept = [row for row in file.read_text().splitlines() if not row.startswith("filter random ")]
        behind = [row for row in kept if name == "stdout" and row.startswith("format ")]
        file.write_text("\n".join((*kept[: len(kept) - len(behind)], *made, *behind)) + "\n")


if __name__ == "__main__":
    main()
