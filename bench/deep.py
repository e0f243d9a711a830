#!/usr/bin/env python3
"""deep.py [LEVELS]: makes each public call, and runs each word of the programs, on pods that are nested LEVELS deep, 1,000,000 if
nothing is said, and a tenth of that, on a stack of 2 MiB.

The pods are structs, objects, both in turn, and structs with a None behind each struct in them, with a truth value in the innermost.
The calls are those of bench/depth.rt.txt, which `bench/build depth none` proves and builds (with `none` it fails, which says nothing);
`rt run` in crates/podtool and crates/pod builds the programs. Each run must come to the number or to the output that is known, and
take at most 20 times as long as a tenth of the levels. Prints the best milliseconds of three runs, of a call without what comes before it,
of a program with its start; where these are too long, of twelve more. Last, many values are read and let go in memory that doesn't hold them all. Status 1 where a row is wrong.
"""

import pathlib
import resource
import struct
import subprocess
import sys
import tempfile
import time

HERE = pathlib.Path(__file__).resolve().parent
CALLS, PODTOOL, POD = HERE / "out/depth", HERE.parent / "crates/podtool/out/podtool", HERE.parent / "crates/pod/out/pod"
HEADER, KEYED = 8, 24
STACK = 2 << 20
TRUE, SEVEN, FALSE, UNKNOWN = (struct.pack("<4I", 4, type_, word, 0) for type_, word in ((2, 1), (2, 7), (2, 0), (21, 7)))
NONE = struct.pack("<2I", 0, 1)
# A tenth of the levels counts as LEAST ms where it takes fewer: so little may stand in caches, where ten times as much doesn't.
MOST, LEAST, ROUNDS, TRIES = 20, 0.25, 3, 5


def structs(levels, inner):
    """So many structs, each holding the next one, and the last one these bytes."""
    sizes = range(HEADER * (levels - 1) + len(inner), len(inner) - 1, -HEADER)
    return b"".join(struct.pack("<2I", size, 14) for size in sizes) + inner


def objects(levels, inner):
    """So many objects of one property, each holding the next one, and the last one these bytes."""
    sizes = range(KEYED * (levels - 1) + HEADER + HEADER + len(inner), len(inner), -KEYED)
    return b"".join(struct.pack("<6I", size, 15, 5, 3, 1, 0) for size in sizes) + inner


def both(levels, inner):
    """Structs and objects in turn, so many in all, which is an even number."""
    step = HEADER + KEYED
    sizes = range(step * (levels // 2 - 1) + KEYED + len(inner), len(inner), -step)
    return b"".join(struct.pack("<2I6I", size, 14, size - HEADER, 15, 5, 3, 1, 0) for size in sizes) + inner


def followed(levels, inner):
    """So many structs, each holding the next one and a None, and the last one these bytes and a None."""
    step = HEADER + len(NONE)
    sizes = range(step * (levels - 1) + len(NONE) + len(inner), len(inner), -step)
    return b"".join(struct.pack("<2I", size, 14) for size in sizes) + inner + NONE * levels


def text_of(nest, levels):
    """The text of these pods with a truth value in the innermost, as `pod json` writes it."""
    key = '{"type":"Long","id":3,"props":{"1":'
    begin, end = {structs: ("[", "]"), objects: (key, "}}"), both: ("[" + key, "}}]"), followed: ("[", ",null]")}[nest]
    count = levels // 2 if nest is both else levels
    return (begin * count + "true" + end * count + "\n").encode()


def calls(nest, levels):
    """The calls by name, each with its input and the number that it comes to."""
    whole, other, unknown = (nest(levels, inner) for inner in (TRUE, FALSE, UNKNOWN))
    size = len(whole)
    pods = 1 + levels * (2 if nest is followed else 1)
    keyed, member = objects(1, whole), structs(1, whole)
    rows = {
        "read": (whole, size),
        "struct": (member, len(member)),
        "skipped": (member, len(member)),
        "passed": (keyed, len(keyed)),
        "held": (whole, 0),
        "discard": (whole, 0),
        "clone": (whole, 0),
        "same": (whole + whole, 1),
        "same, innermost differs": (whole + other, 0),
        "print": (whole, None),
        "write": (whole, size),
        "member": (whole, len(member)),
        "device": (whole, size),
        "sized": (whole, size),
        "add_value": (whole, size),
        "fixed": (whole, 0),
        "rewrite": (whole, size),
        "rewrite, innermost isn't its own": (nest(levels, SEVEN), size),
        "rewrite_all": (whole, size),
        "rewrite_in_place": (nest(levels, SEVEN), size),
        "rewrite_into": (whole, None),
        "rewrite_leniently": (whole, size),
        "rewrite_all_leniently": (nest(levels, SEVEN), size),
        "rewrite_in_place_leniently": (nest(levels, SEVEN), size),
        "rewrite_into_leniently": (whole, size),
        "leniently": (whole, size),
        "counted": (whole, pods),
        "accept_all": (whole, size),
        "find_fault": (whole, size),
        "find_fault, innermost is unknown": (unknown, unknown.rindex(UNKNOWN)),
        "is_canonical": (whole, 1),
        "nests_within": (whole, 0),
        "any_depth": (whole, 1),
        "list_events": (whole, pods),
        "list_items": (whole, 0),
        "negotiate": (keyed + keyed, 1),
        "negotiate_pods": (keyed + keyed, len(keyed)),
        "filter": (keyed + keyed, 1),
        "filter_pods": (keyed + keyed, len(keyed)),
        "fixate": (keyed, len(keyed)),
        "views": (whole, levels),
    }
    if nest in (structs, followed):
        # A parser opens an object, and no further pod in it.
        rows["parser"] = (whole, levels)
    if nest is not followed:
        rows["builder"] = (whole, size)
    return rows


def pod_rows(nest, levels, room):
    """The runs of `pod` by what they are, as `program_rows` gives them. The files that are compared are written into the folder `room`."""
    whole, other, unknown = (nest(levels, inner) for inner in (TRUE, SEVEN, UNKNOWN))
    first, second = objects(1, whole), objects(1, nest(levels, FALSE))
    left, right = (room / f"{name}-{nest.__name__}-{levels}.pod" for name in ("left", "right"))
    left.write_bytes(first)
    right.write_bytes(second)
    return {
        "pod rewrite": ([POD, "rewrite"], other, (0, whole, b"")),
        "pod rewrite --lenient": ([POD, "rewrite", "--lenient"], other, (0, whole, b"")),
        "pod rewrite --stream": ([POD, "rewrite", "--stream"], other, (0, whole, b"")),
        "pod fixate": ([POD, "fixate"], other, (0, other, b"")),
        "pod check": ([POD, "check"], whole, (0, b"", b"")),
        "pod check, innermost is unknown": ([POD, "check"], unknown, (1, b"", None)),
        "pod check --keep-going, innermost is unknown": ([POD, "check", "--keep-going"], unknown, (1, b"", None)),
        "pod show": ([POD, "show"], whole, (0, None, b"")),
        "pod json": ([POD, "json"], whole, (0, text_of(nest, levels), b"")),
        "pod read --loose": ([POD, "read", "--loose"], text_of(nest, levels), (0, whole, b"")),
        "pod read": ([POD, "read"], text_of(nest, levels), (0, whole, b"")),
        "pod diff": ([POD, "diff", left, left], b"", (0, b"", b"")),
        "pod diff, innermost differs": ([POD, "diff", left, right], b"", (1, None, b"")),
        "pod filter": ([POD, "filter"], first + first, (0, first, b"")),
        "pod meet": ([POD, "meet"], first + first, (0, first, b"")),
        "pod meet, innermost differs": ([POD, "meet"], first + second, (1, b"", b"pod: standard input: no value for key 1 is in both\n")),
    }


def program_rows(nest, levels, room):
    """The runs of the programs by what they are, each with its words, its input, its status and what it writes and says; None is anything."""
    whole, other, unknown = (nest(levels, inner) for inner in (TRUE, SEVEN, UNKNOWN))
    refused = (1, b"", b"podtool: byte 0: InvalidType\n")
    return {
        "podtool rewrite": ([PODTOOL, "rewrite"], whole, (0, whole, b"")),
        "podtool rewrite, innermost isn't its own": ([PODTOOL, "rewrite"], other, (0, whole, b"")),
        "podtool rewrite, innermost is unknown": ([PODTOOL, "rewrite"], unknown, refused),
        "podtool fixate": ([PODTOOL, "fixate"], other, (0, other, b"")),
        "podtool fixate, innermost is unknown": ([PODTOOL, "fixate"], unknown, refused),
        "podtool show": ([PODTOOL, "show"], whole, (0, None, b"")),
    } | pod_rows(nest, levels, room)


def limit_stack():
    resource.setrlimit(resource.RLIMIT_STACK, (STACK, STACK))


def limit_memory():
    limit_stack()
    resource.setrlimit(resource.RLIMIT_AS, (256 << 20, 256 << 20))


def run(command, given, limit=limit_stack):
    """The status, what was written and said, and the milliseconds of a run."""
    before = time.monotonic()
    with subprocess.Popen(command, stdin=subprocess.PIPE, stdout=subprocess.PIPE, stderr=subprocess.PIPE, preexec_fn=limit) as it:
        written, said = it.communicate(given)
        spent = (time.monotonic() - before) * 1000
    return it.returncode, written, said, spent


def call_once(name, given, wanted, limit=limit_stack):
    """The milliseconds of a call, and whether it came to the wanted number."""
    status, written, _, _ = run([CALLS, name.split(",")[0]], given, limit)
    nanos, count = map(int, written.split()) if status == 0 else (0, -1)
    return nanos / 1e6, status == 0 and wanted in (None, count)


def program_once(words, given, wanted):
    """The milliseconds of a run, and whether it ended as it has to."""
    status, written, said, spent = run(words, given)
    ok = status == wanted[0] and wanted[2] in (None, said) and written in (written if wanted[1] is None else wanted[1],)
    return spent, ok and (wanted[1] is not None or written != b"")


def compare(few, many, once):
    """The best times of few and of many levels, and whether both came to what they have to, and the second in time. What other work slows
    down is timed again, TRIES times."""
    short, long, right = float("inf"), float("inf"), True
    for _ in range(TRIES):
        fewer, more = ([once(*row) for _ in range(ROUNDS)] for row in (few, many))
        short, long = (min(least, *(it[0] for it in runs)) for least, runs in ((short, fewer), (long, more)))
        right = right and all(it[1] for it in (*fewer, *more))
        if long <= MOST * max(short, LEAST):
            return short, long, right
    return short, long, False


def main(words):
    for it in (CALLS, PODTOOL, POD):
        if not it.is_file():
            sys.exit(f"deep.py: {it.relative_to(HERE.parent)} isn't built: that needs rt, the command of the Rattle kit; cargo's own tests nest deep, too")
    levels = int(words[0]) if words else 1_000_000
    found, nests = {}, {"structs": structs, "objects": objects, "in turn": both, "followed": followed}
    for what, nest in nests.items():
        few, many = calls(nest, levels // 10), calls(nest, levels)
        for name, row in many.items():
            found.setdefault(name, {})[what] = compare((name, *few[name]), (name, *row), call_once)
        with tempfile.TemporaryDirectory() as room:
            few, many = (program_rows(nest, count, pathlib.Path(room)) for count in (levels // 10, levels))
            for name, row in many.items():
                found.setdefault(name, {})[what] = compare(few[name], row, program_once)
    print(f"| {levels} levels, ms (times as long as a tenth of them) | {' | '.join(nests)} |\n|---|{'---|' * len(nests)}")
    for name, row in found.items():
        cells = (f"{it[1]:.1f} ({it[1] / max(it[0], 0.001):.1f}){'' if it[2] else ' WRONG'}" if it else "" for it in map(row.get, nests))
        print(f"| {name} | {' | '.join(cells)} |")
    many = structs(10_000, TRUE) * 400
    _, ok = call_once("read", many, len(many), limit_memory)
    print(f"400 values are let go one after another in 256 MiB{'' if ok else ', WRONG'}")
    return 0 if ok and all(it[2] for row in found.values() for it in row.values()) else 1


if __name__ == "__main__":
    sys.exit(main(sys.argv[1:]))
