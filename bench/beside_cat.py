#!/usr/bin/env python3
"""beside_cat.py [INPUT ..]: processor time and memory of the programs beside `cat`.

Each command runs in turn, ROUNDS times (from the environment, 101), on inputs that make.py wrote to bench/out/inputs, or to the folder INPUTS; an
INPUT that ends in .pod is a file. A command reads standard input from the file, which is in memory by then, and writes into a pipe that another `cat`
empties, or with OUT=null to /dev/null. Counted is the processor time of its process alone, of the system's part too. A shared machine is disturbed for
seconds at a time, and now and then a `cat` alone is lucky with its caches: so medians are compared, and the best are printed beside them. Of what
writes as input comes, `peak` is the most memory that was resident, with the program's own text and the C library; `own` is what the process alone has
of it, stack and heap, when all is read. FILE among a command's words is the input's name, which `pod rewrite` reads twice, but holds where an input
such as /dev/null stands beside it. Programs run that are built: `./podtool`, `./pod`, and in bench/out `stream` by bench/build, `calls` of calls.c.
"""

import fcntl
import os
import pathlib
import statistics
import subprocess
import sys
import termios
import time

HERE = pathlib.Path(__file__).resolve().parent
CRATES = HERE.parent / "crates"
INPUTS = pathlib.Path(os.environ.get("INPUTS", HERE / "out" / "inputs"))
ROUNDS = int(os.environ.get("ROUNDS", "101"))
NAMES = ("array-of-ints", "bytes", "mixed", "dirty-mixed", "struct-of-ints", "struct-of-strings")
PROGRAMS = {it: pathlib.Path(os.environ.get(it.upper(), CRATES / it / "out" / it)) for it in ("pod", "podtool")}
PROGRAMS |= {it: HERE / "out" / it for it in ("stream", "calls")}
WORDS = (
    "cat",
    "stream",
    "podtool rewrite",
    "pod rewrite --stream",
    "pod json --stream",
    "pod show --stream",
    "calls debug 1",
    "pod rewrite FILE",
    "pod rewrite FILE /dev/null",
)
COMMANDS = [it.split() for it in WORDS if it == "cat" or PROGRAMS[it.split()[0]].exists()]

# As the script `podtool` sets it.
MALLOC = "glibc.malloc"
TUNABLES = f"{MALLOC}.hugetlb=1:{MALLOC}.mmap_threshold=4294967296:{MALLOC}.top_pad=262144"
ENVIRONMENT = {**os.environ, "GLIBC_TUNABLES": os.environ.get("GLIBC_TUNABLES", TUNABLES)}


def words_of(command, path):
    return [PROGRAMS.get(command[0], command[0]), *(path if it == "FILE" else it for it in command[1:])]


def milliseconds(command, path):
    """How long processors work for the command on this input."""
    to_pipe = os.environ.get("OUT") != "null"
    with open(path, "rb") as given, open(os.devnull, "wb") as nowhere:
        child = subprocess.Popen(words_of(command, path), stdin=given, stdout=subprocess.PIPE if to_pipe else nowhere, env=ENVIRONMENT)
        reader = subprocess.Popen(["cat"], stdin=child.stdout, stdout=nowhere) if to_pipe else None
        _, status, used = os.wait4(child.pid, 0)
        child.returncode = os.waitstatus_to_exitcode(status)
        if to_pipe:
            child.stdout.close()
            reader.wait()
    if child.returncode:
        sys.exit(f"beside_cat.py: {command} ended with {child.returncode}")
    return 1000 * (used.ru_utime + used.ru_stime)


def memory(command, path):
    """KiB that are resident at most, and those of them that are the process's own, once it waits for more input, or for its output to be read."""
    if "FILE" in command:
        return memory_before_output(command, path)
    with subprocess.Popen(words_of(command, path), stdin=subprocess.PIPE, stdout=subprocess.DEVNULL, env=ENVIRONMENT) as child:
        with open(path, "rb") as given:
            while piece := given.read(1 << 16):
                child.stdin.write(piece)
        child.stdin.flush()
        left = bytearray(4)
        while True:
            fcntl.ioctl(child.stdin, termios.FIONREAD, left)
            if not any(left) and waits(child):
                break
            time.sleep(0.01)
        found = memory_of(child)
        child.stdin.close()
    return found


def waits(child):
    return pathlib.Path(f"/proc/{child.pid}/stat").read_text(encoding="utf-8").rpartition(")")[2].split()[0] == "S"


def memory_of(child):
    lines = dict(line.split(":", 1) for line in pathlib.Path(f"/proc/{child.pid}/status").read_text(encoding="utf-8").splitlines())
    return [int(lines[it].split()[0]) for it in ("VmHWM", "RssAnon")]


def memory_before_output(command, path):
    """The same of a command that writes more than a pipe takes, once that is full and the command waits."""
    with subprocess.Popen(words_of(command, path), stdin=subprocess.DEVNULL, stdout=subprocess.PIPE, env=ENVIRONMENT) as child:
        left = bytearray(4)
        while not (any(left) and waits(child)):
            time.sleep(0.01)
            fcntl.ioctl(child.stdout, termios.FIONREAD, left)
        found = memory_of(child)
        child.kill()
    return found


def main():
    if len(COMMANDS) == 1:
        sys.exit("beside_cat.py: no program is built here: ./pod builds it with the Rattle kit; without, POD and PODTOOL name those that cargo built")
    for name in sys.argv[1:] or NAMES:
        path = pathlib.Path(name) if name.endswith(".pod") else INPUTS / f"{name}.pod"
        path.read_bytes()
        size = path.stat().st_size
        taken = [[milliseconds(it, path) for it in COMMANDS] for _ in range(ROUNDS)]
        print(f"{name}, {size / 1e6:.1f} MB, at a load of {os.getloadavg()[0]:.1f}")
        print(f"{'':27}{'ms: median':>10}{'best':>8}{'times cat: median':>20}{'best':>8}{'MB/s: best':>12}{'KiB: peak':>12}{'own':>8}")
        columns = list(zip(*taken))
        for command, times in zip(COMMANDS, columns):
            median, best = statistics.median(times), min(times)
            times_cat = median / statistics.median(columns[0]), best / min(columns[0])
            peak, own = memory(command, path) if command[-1] in ("cat", "stream", "--stream") or "FILE" in command else ("", "")
            print(f"{' '.join(command):27}{median:10.1f}{best:8.1f}{times_cat[0]:20.2f}{times_cat[1]:8.2f}{size / best / 1000:12.0f}{peak:12}{own:8}")


main()
