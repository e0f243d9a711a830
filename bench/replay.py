#!/usr/bin/env python3
"""replay.py TABLE [N [REV]]: what each of the last N commits (90) up to REV (HEAD) that touched crates would cost with today's crates,
in processor minutes.
replay.py TABLE CRATE ..: what a change of these crates costs, each alone.

TABLE is what `.ci/seconds` prints or writes after a run from nothing. A change pays for the proof and the tests of each crate whose
files in src/, specs/ or proofs/, or whose rows, it changed, and of each crate above one of these, as crates.txt has them today. Files of
crates that were since cut up or renamed count for those that have them now (MOVED); those of other crates that are gone count
for none. The last line of a replay is the mean."""

import collections
import pathlib
import re
import subprocess
import sys

ROOT = pathlib.Path(__file__).resolve().parent.parent

# Where the tests of crates that were cut up are now: the beginning of a path, and the crates.
MOVED = {
    "crates/spa_command_tests/src/pods": ("podtool_tests",),
    "crates/spa_command_tests/src/meetings": ("pod_rows", "pod_tests"),
    "crates/spa_command_tests/src/texts": ("pod_rows", "pod_tests"),
    "crates/spa_command_tests/src/text": ("text_tests",),
    "crates/spa_command_tests/src/names": ("text_tests",),
    "crates/spa_command_tests": ("podtool_tests", "pod_tests"),
    "crates/spa_filter_tests": ("negotiation_tests",),
    "crates/libspa_tests/src/negotiation": ("negotiation_tests",),
    "crates/libspa_tests/src/builder": ("spa_builder_tests",),
    "crates/libspa_tests/src/parser": ("spa_view_tests",),
    "crates/spa_part_tests/src/values": ("spa_fixed_sized_tests", "text_tests"),
    "crates/spa_part_tests/src/viewing": ("spa_view_tests",),
    "crates/spa_part_tests": ("reading_rows", "spa_read_write_tests"),
    "crates/spa_read_tests/src/reading": ("reading_rows",),
    "crates/spa_read_tests/src/counting": ("reading_rows",),
    "crates/spa_read_tests/src/comparing": ("reading_rows",),
    "crates/spa_read_tests/": ("spa_read_write_tests",),
    "crates/spa_write_tests/": ("spa_read_write_tests",),
    "crates/error_tests/": ("spa_utils_tests",),
    "crates/spa_value_tests/": ("text_tests",),
    "crates/spa_parser_tests/": ("spa_view_tests",),
    "crates/spa_tests/": ("reading_rows",),
    "crates/spa_negotiate_pods/": ("spa_negotiate",),
    "crates/spa_negotiate_objects/": ("spa_negotiate",),
    "crates/spa_lenient_tests": ("reading_rows",),
    "crates/spa_leaf/": ("spa_bodies",),
    "crates/spa_fixed/": ("spa_fixed_sized",),
    "crates/spa_fixed_tests/": ("spa_fixed_sized_tests",),
    "crates/spa_room/": ("spa_spare_capacity",),
    "crates/spa_fronts/": ("spa_object_view",),
    "crates/spa_offers/": ("spa_filter_offers",),
    "crates/spa_steps/": ("spa_filter_elements",),
    "crates/spa_orders/": ("spa_filter_elements",),
    "crates/spa_filter_steps/": ("spa_filter_elements",),
    "crates/spa_filter_order/": ("spa_filter_elements",),
    "crates/spa_multiples/": ("spa_filter_elements",),
    "crates/spa_spelling/": ("test_bytes",),
    "crates/spa_uses/": ("example_types",),
    "crates/spa_callers/": ("example_calls",),
    "crates/example_tests/": ("spa_typed_tests",),
}


def crates():
    """What each crate stands on, by crates.txt."""
    found = {}
    for line in (ROOT / "crates.txt").read_text(encoding="utf-8").split("\n"):
        head, colon, names = line.partition("#")[0].partition(":")
        if colon:
            found[head.split()[0]] = names.split()
    return found


def costs(table):
    """The seconds of each crate's proof and of its tests."""
    rows = re.findall(r"^(\w+) +(\d+) +(\d+) +\d+ +\d+$", pathlib.Path(table).read_text(encoding="utf-8"), re.M)
    return {name: (int(proof), int(tests)) for name, proof, tests in rows if name != "all"}


def changed_in(commit, named):
    """Today's crates whose files the commit changed."""
    words = ["git", "show", "--name-only", "--no-renames", "--format=", commit]
    found = set()
    for path in subprocess.run(words, cwd=ROOT, stdout=subprocess.PIPE, check=True, text=True).stdout.split("\n"):
        part = re.match(r"crates/(\w+)/(?:src|specs|proofs|stdin|stdout)\b", path)
        if part:
            moved = [to for begin, to in MOVED.items() if path.startswith(begin)]
            found |= {*moved[0]} if moved else {part[1]} & {*named}
    return found


def above(touched, stands_on):
    """These crates, and those that stand on one of them."""
    size = 0
    while size < len(touched):
        size = len(touched)
        touched |= {it for it, below in stands_on.items() if touched & {*below}}
    return touched


def main():
    stands_on, cost = crates(), costs(sys.argv[1])
    sum_of = lambda names, at: sum(cost.get(it, (0, 0))[at] for it in names) / 60
    for name in [it for it in sys.argv[2:] if it in stands_on]:
        touched = above({name}, stands_on)
        print(f"{name:<24}{len(touched):>4} crates, {sum_of(touched, 0):>5.1f} minutes of proofs, {sum_of(touched, 1):>5.1f} of tests")
    if sys.argv[2:] and not sys.argv[2].isdigit():
        return
    wanted = int(sys.argv[2]) if len(sys.argv) > 2 else 90
    log = subprocess.run(["git", "log", "--format=%h", *sys.argv[3:], "--", "crates"], cwd=ROOT, stdout=subprocess.PIPE, check=True, text=True)
    seen, sums, proved_again = 0, [0.0, 0.0], collections.Counter()
    for commit in log.stdout.split():
        touched = changed_in(commit, stands_on)
        if not touched or seen == wanted:
            continue
        seen += 1
        touched = above(touched, stands_on)
        proved_again.update(touched)
        for at in (0, 1):
            sums[at] += sum_of(touched, at)
    for name, count in sorted(proved_again.items(), key=lambda it: -it[1] * sum(cost.get(it[0], (0, 0)))):
        print(f"{name:<24}{count:>4} times, {sum(cost.get(name, (0, 0))):>5} s each")
    proofs, tests = (it / max(seen, 1) for it in sums)
    print(f"{seen} commits: {proofs:.1f} minutes of proofs and {tests:.1f} of tests a commit, {proofs + tests:.1f} in all")


if __name__ == "__main__":
    main() if sys.argv[1:] else sys.exit(__doc__)
