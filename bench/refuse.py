#!/usr/bin/env python3
"""refuse.py programs [PROGRAM ..]: runs the built programs with each of their requests of memory refused in turn.
refuse.py tests [CRATE ..]: does so with each test of these crates, or of all, as `rt test` has built them. CRATE/START: of
those alone whose names begin so.
refuse.py rows [CRATE ..]: does so with these programs of rows, or all, as `rt run` has built them.
refuse.py within N: all three, as `rt ci` has built them. Of a test for which N processor seconds don't suffice, and of a program of rows for which
6 N don't, only some requests are refused: as many as half of the time holds, and then some of all that follow; it says how many are left.

Each word of podtool and pod runs on each pod of examples/, on all of them one after another, and on a list whose last pod is
short, `pod read` on what `json` makes of these; `pod`'s words meet and filter run on pairs of objects, of which some meet and some
don't, as one input and as two files. A run must end as it does with memory, or write nothing and say that it is out of memory; `pod
show` and `--stream`, which write as they go, may have written a beginning. Of a program's rows one may say so, and each other one must
have its answer. A test must pass, or end by an error that says so and by nothing else; those of RETRYING must pass. Status
1 where one doesn't, or where a test has more requests than could be refused in SECONDS seconds (from the environment, 600). JOBS
processes (from the environment, 1) share the requests of a test.
"""

import contextlib
import itertools
import os
import pathlib
import re
import struct
import subprocess
import sys
import tempfile
import time

HERE = pathlib.Path(__file__).resolve().parent
PROGRAMS = ("podtool", "pod")

# The words of pod that take one input, the printing one first, and those for a pair.
WORDS = (
    ("json",),
    ("json", "--pretty"),
    ("json", "--pw-dump"),
    ("show",),
    ("rewrite",),
    ("rewrite", "--lenient"),
    ("rewrite", "--keep-going"),
    ("rewrite", "--resync"),
    ("rewrite", "--stream"),
    ("fixate",),
    ("check",),
)
AGREEING = ("meet", "filter")
SECONDS = int(os.environ.get("SECONDS", "600"))
JOBS = int(os.environ.get("JOBS", "1"))
# How many requests of which tests weren't refused.
LEFT = {}
# Tests that make a refused call again: they pass whichever request is refused.
RETRYING = ("made_again::", "refused::")
# Has the C library keep all memory in pages of 2 MB, of which it asks for 32 at once: a process with much memory is copied in less time.
WIDE_PAGES = {"GLIBC_TUNABLES": "glibc.malloc.hugetlb=1:glibc.malloc.top_pad=67108864:glibc.malloc.mmap_threshold=4294967296"}

# An object of type 5 whose key 1 is a Range of Ints, and pods that follow it, by what they are.
RANGE = (56, 15, 5, 3, 1, 0, 28, 19, 1, 0, 4, 4, 5, 2, 10, 0)
OTHERS = {
    "an Enum of 12 and 4": (56, 15, 5, 7, 1, 0, 28, 19, 3, 0, 4, 4, 12, 12, 4, 0),
    "an Enum of 12 alone": (48, 15, 5, 7, 1, 0, 20, 19, 3, 0, 4, 4, 12, 0),
    "a Long": (32, 15, 5, 7, 1, 0, 8, 5, 5, 0),
    "a Step": (56, 15, 5, 7, 1, 0, 32, 19, 2, 0, 4, 4, 5, 2, 10, 1),
    "another Range": (56, 15, 5, 7, 1, 0, 28, 19, 1, 0, 4, 4, 20, 8, 20, 0),
    "another type": (8, 15, 6, 7),
    "another key": (48, 15, 5, 7, 2, 0, 24, 19, 3, 0, 4, 2, 1, 0),
    "a struct": (0, 14),
    "nothing": (),
}

# Functions that only empty nested values. That they end is proved, and no allocator is handed to them. A copy skips them: of a value 100,000
# levels deep they are nearly all of its time, and there is a copy for each request.
EMPTYING = (
    "spa_value::emptying::discard",
    "spa_value::nested_copies::Copies::give_up",
    "spa_read::nest::Nest::give_up",
    "spa_text_read::inside::Inside::give_up",
)

# How a test passes, and how one ends by an error that says that memory is wanting: 12 is the number of NOMEM.
PASSED = (0, b"\ntest result: ok\n")
WANTS_MEMORY = re.compile(
    rb"[Ee]rror: (AllocError|AllocFailed \{ \.\. \}|\"?OutOfMemory\"?|\"out of memory\"|Errno\(12\))\n"
    rb"the test failed: its result gives status 1\n"
)

# How a program of rows ends by such an error, and what a row's run says behind its label.
PROGRAM_WANTS_MEMORY = re.compile(rb"Error: .*(AllocError|OutOfMemory).*\n")
RUN_WANTS_MEMORY = re.compile(rb"(.*: )?1 \w+: (?:.*: )?out of memory\xe2\x8f\x8e \|(.*)")


def pairs():
    """Pairs of objects by name, each in both orders."""
    made = {}
    for name, words in OTHERS.items():
        for first, second, order in ((RANGE, words, "second"), (words, RANGE, "first")):
            both = first + second
            made[f"{name}, {order}"] = struct.pack(f"<{len(both)}I", *both)
    return made


def inputs():
    """Inputs of pods by name."""
    pods = {it.name: it.read_bytes() for it in sorted((HERE.parent / "examples").glob("*.pod"))}
    short = struct.pack("<10I", 16, 14, 4, 4, 3, 0, 8, 14, 4, 4)
    return {**pods, "all examples": b"".join(pods.values()), "a short pod": short}


def run(command, given, library=None, refused=0):
    """What a run ends with, and whether a request was refused in it."""
    ends, mark = os.pipe()
    env = {**os.environ, "LD_PRELOAD": library, "REFUSED": str(refused), "MARK": str(mark)} if library else None
    ran = subprocess.run(command, input=given, capture_output=True, env=env, pass_fds=(mark,))
    os.close(mark)
    with os.fdopen(ends, "rb") as it:
        return (ran.returncode, ran.stdout, ran.stderr), it.read() != b""


def runs_of(program, room):
    """Each command of the program, with the name and the bytes of its input; files that it is given lie in the room."""
    built = HERE.parent / f"crates/{program}/out/{program}"
    if program == "podtool":
        return [((built, word), name, it) for name, it in inputs().items() for word in ("rewrite", "fixate", "show")]
    found = []
    for number, (name, it) in enumerate(inputs().items()):
        files = files_of(room, f"input {number}", it, inputs()["props.pod"])
        found += [((built, *word), name, it) for word in (*WORDS, ("diff", *files))]
        text = subprocess.run([built, *WORDS[0]], input=it, stdout=subprocess.PIPE).stdout
        found += [((built, "read"), f"the text of {name}", text), ((built, "read"), f"a part of that of {name}", text[:-9])]
    for number, (name, it) in enumerate(pairs().items()):
        halves = (it[:64], it[64:]) if name.endswith("second") else (it[:-64], it[-64:])
        files = files_of(room, f"pair {number}", *halves)
        found += [((built, word, *more), name, it) for word in AGREEING for more in ((), files)]
    return found


def files_of(room, name, *parts):
    """Files in the room with these contents."""
    files = [room / f"{name}.{letter}" for letter in "ab"]
    for file, part in zip(files, parts):
        file.write_bytes(part)
    return files


def refuse_in_programs(library, programs, _limit):
    """Refuses each request of the programs, and returns how many there were and how many runs were wrong."""
    for it in programs:
        if not (HERE.parent / f"crates/{it}/out/{it}").is_file():
            sys.exit(f"refuse.py: {it} isn't built: ./{it} builds it with the Rattle kit; what cargo builds is tried by refuse in rust/beside")
    runs = wrong = 0
    with tempfile.TemporaryDirectory() as room:
        for command, name, given in (it for program in programs for it in runs_of(program, pathlib.Path(room))):
            program = command[0].name
            says = re.compile(rb"%b: (?:.*: )?out of memory\n" % program.encode())
            goes_on = program == "pod" and (command[1] == "show" or "--stream" in command)
            wanted, _ = run(command, given)
            for number in itertools.count(1):
                found, was_refused = run(command, given, library, number)
                runs += was_refused
                is_begun = found[1] == b"" or goes_on and wanted[1].startswith(found[1])
                if found != wanted and not (was_refused and found[0] == 1 and says.fullmatch(found[2]) and is_begun):
                    wrong += 1
                    print(f"{program} {' '.join(map(str, command[1:]))} of {name}, request {number}: {found}")
                if not was_refused:
                    break
    return runs, wrong


def copies(told):
    """What refuse.c told of copies of a test that ended alike: the number of the last one's request, how many they are, and how they ended."""
    at = 0
    while (end := told.find(b"\n", at)) >= 0:
        number, count, status, length = map(int, told[at:end].split())
        at = end + 1 + length
        yield number, count, (status, told[end + 1 : at])


def emptying(program):
    """The addresses of the program's functions that do nothing but empty nested values, as refuse.c takes them."""
    listed = subprocess.run(["nm", program], check=True, capture_output=True, text=True).stdout
    found = re.findall(r"^(\w+) [tT] (.*)$", listed, re.MULTILINE)
    return ",".join(address for address, name in found if name in EMPTYING)


def count_requests(library, command, given, passed):
    """How many requests a run of a command makes that ends so."""
    with tempfile.TemporaryFile() as mark:
        env = {**os.environ, **WIDE_PAGES, "LD_PRELOAD": library, "REFUSED": "none", "MARK": str(mark.fileno())}
        how = {"stdout": subprocess.PIPE, "stderr": subprocess.STDOUT, "pass_fds": (mark.fileno(),)}
        ran = subprocess.run(command, input=given, env=env, **how)
        mark.seek(0)
        return int(mark.read() or 0) if (ran.returncode, ran.stdout) == passed else 0


def refuse_each(library, command, given, passed, is_refused, limit):
    """Refuses each request of a command that ends so with memory, or, where there is a limit, as many as fit into so many processor seconds.
    Returns how many were refused, how many there are, and what is wrong."""
    total = count_requests(library, command, given, passed)
    runs, wrong = 0, []
    with contextlib.ExitStack() as files:
        started = []
        for part in range(1, JOBS + 1):
            mark, source, wrote = (files.enter_context(tempfile.TemporaryFile()) for _ in range(3))
            source.write(given)
            source.seek(0)
            told = {"REFUSED": "each", "SKIPPED": emptying(command[0]), "PART": f"{part}/{JOBS}", "MARK": str(mark.fileno())}
            if limit:
                told |= {"LIMIT": str(limit / JOBS), "TOTAL": str(total)}
            env = {**os.environ, **WIDE_PAGES, "LD_PRELOAD": library, **told}
            ran = subprocess.Popen(command, env=env, stdin=source, stdout=wrote, stderr=subprocess.STDOUT, pass_fds=(mark.fileno(),))
            started.append((ran, mark, wrote))
        ends_at = time.monotonic() + SECONDS
        for ran, mark, wrote in started:
            try:
                status = ran.wait(max(0, ends_at - time.monotonic()))
                wrote.seek(0)
                if (found := (status, wrote.read())) != passed:
                    wrong.append(f"with memory: {found}")
            except subprocess.TimeoutExpired:
                ran.kill()
                ran.wait()
                wrong.append(f"not all its requests were refused in {SECONDS} seconds")
            mark.seek(0)
            for number, count, ended in copies(mark.read()):
                runs += count
                if ended != passed and not is_refused(*ended):
                    wrong.append(f"request {number}, of {count} that end so: {ended}")
    if not limit and runs != total and not wrong:
        wrong.append(f"{runs} of {total} requests were refused")
    return runs, total, wrong


def report(name, runs, total, wrong):
    """Prints how many of its requests were refused, and what is wrong; returns these numbers. Notes what was left."""
    print(f"{name}: {runs}{f' of {total}' if runs != total else ''} requests", flush=True)
    if runs < total:
        LEFT[name] = total - runs
    for it in wrong:
        print(f"  {it}", flush=True)
    return runs, len(wrong)


def row_wants_memory(line, row):
    """Whether a line has the label of this row, or the end of it, and says that its run is out of memory, behind a beginning of what it writes."""
    said = RUN_WANTS_MEMORY.fullmatch(line)
    return said and (said[1] or b"") in row and row.partition(b"|")[2].startswith(said[2])


def refuse_in_rows(library, crates, limit):
    """Refuses requests of the programs of rows, all where there is no limit, and returns how many there were and how many ended wrongly."""
    runs = wrong = 0
    for crate in crates:
        home = HERE.parent / f"crates/{crate}"
        wanted = (home / "stdout").read_bytes()
        rows = wanted.split(b"\n")

        def is_refused(status, wrote):
            if status != 0:
                return PROGRAM_WANTS_MEMORY.fullmatch(wrote)
            # What was written before the request isn't the copy's: it begins with an end of a row, and one row is that whose request was refused.
            lines = wrote.split(b"\n")
            last = rows[max(0, len(rows) - len(lines)) :]
            apart = [(line, row) for line, row in zip(lines, last) if line != row and (row is not last[0] or not row.endswith(line))]
            return len(lines) == len(last) and (not apart or len(apart) == 1 and row_wants_memory(*apart[0]))

        command = [home / f"out/{crate}"]
        found = refuse_each(library, command, (home / "stdin").read_bytes(), (0, wanted), is_refused, 6 * limit)
        count, bad = report(crate, *found)
        runs, wrong = runs + count, wrong + bad
    return runs, wrong


def refuse_in_tests(library, crates, limit):
    """Refuses requests of each test of the crates, all where there is no limit, and returns how many there were and how many ended wrongly."""
    runs = wrong = 0
    for given in crates:
        crate, _, start = given.partition("/")
        program = HERE.parent / f"crates/{crate}/out/{crate}_tests"
        listed = subprocess.run([program, "--list"], check=True, capture_output=True, text=True).stdout
        for test in re.findall(rf"^({re.escape(start)}.*): test$", listed, re.MULTILINE):

            def is_refused(status, wrote):
                return status == 101 and not test.startswith(RETRYING) and WANTS_MEMORY.fullmatch(wrote)

            count, bad = report(f"{crate} {test}", *refuse_each(library, [program, test], b"", PASSED, is_refused, limit))
            runs, wrong = runs + count, wrong + bad
    return runs, wrong


def built(ending):
    """The crates of tests that are built: those with tests, where their programs end so, and else those with rows."""
    found = sorted(it.name for it in HERE.parent.glob("crates/*_*") if it.name.endswith(("_rows", "_tests")))
    found = [it for it in found if (HERE.parent / f"crates/{it}/out/{it}{ending}").is_file()]
    return found or sys.exit("refuse.py: no crate of these is built: rt ci of the Rattle kit does so; what cargo builds is tried by refuse in rust/beside")


def main(words):
    kinds = {
        "programs": (refuse_in_programs, lambda: PROGRAMS),
        "rows": (refuse_in_rows, lambda: built("")),
        "tests": (refuse_in_tests, lambda: built("_tests")),
    }
    limit = float(words[1]) if words[:1] == ["within"] else 0
    runs = wrong = 0
    with tempfile.TemporaryDirectory() as room:
        library = f"{room}/refuse.so"
        subprocess.run(["cc", "-O1", "-shared", "-fPIC", "-o", library, HERE / "refuse.c", "-ldl"], check=True)
        for kind in kinds if limit else words[:1]:
            refuse, all_of = kinds[kind]
            count, bad = refuse(library, words[1:] if not limit and words[1:] else all_of(), limit)
            runs, wrong = runs + count, wrong + bad
    for name, count in LEFT.items():
        print(f"left, for want of time: {count} requests of {name}")
    print(f"{runs} runs with a refused request, {wrong} of them wrong")
    return 1 if wrong or not runs else 0


if __name__ == "__main__":
    sys.exit(main(sys.argv[1:]))
