#!/usr/bin/env python3
"""What each phase of storage takes: measure_storage.py PROGRAM TRIPLES seconds|instructions. Each mode of the program
up to unite does what the one before it does and one thing more, and walk and lines go on from there over all keys, ten times, so a phase is the difference of two modes: the best of
some runs each, in seconds of the processor that the program itself had, or in instructions as valgrind counts them, which are the same in each run."""
import os
import re
import subprocess
import sys
import tempfile
import time

RUNS = 5
WALKS = 10
FEW_RUNS = 20_000
FEW_A_GRAPH = 50


def seconds(command):
    """The seconds of the processor, outside of the system, and what was printed."""
    reader, writer = os.pipe()
    child = os.posix_spawn(command[0], command, os.environ, file_actions=[(os.POSIX_SPAWN_DUP2, writer, 1)])
    os.close(writer)
    with os.fdopen(reader) as out:
        text = out.read()
    _, status, used = os.wait4(child, 0)
    if status != 0:
        sys.exit(f"{command} failed")
    return used.ru_utime, text.strip()


def instructions(command):
    """Instructions, and what was printed."""
    tool = ["valgrind", "--tool=callgrind", "--callgrind-out-file=/dev/null"]
    run = subprocess.run(tool + command, capture_output=True, text=True, check=True)
    return int(re.search(r"Collected : (\d+)", run.stderr).group(1)), run.stdout.strip()


def most_memory(command):
    """The most memory of a run, in bytes."""
    most = 0
    child = subprocess.Popen(command, stdout=subprocess.DEVNULL)
    while child.poll() is None:
        with open(f"/proc/{child.pid}/status") as status:
            for line in status:
                if line.startswith("VmHWM:"):
                    most = max(most, int(line.split()[1]) * 1024)
        time.sleep(0.002)
    return most


class Meter:
    """Measures the modes of a program. Those that are compared take turns, so that a slow minute of the machine is none of one alone."""

    def __init__(self, program, what):
        self.program = program
        self.measure = seconds if what == "seconds" else instructions
        self.runs = RUNS if what == "seconds" else 1
        # Seconds are printed as nanoseconds.
        self.scale, self.unit = (1e9, "ns") if what == "seconds" else (1, "instructions")

    def best(self, wordings):
        """Of each wording the least of some runs, and what was printed."""
        turns = [[self.measure([self.program] + [str(word) for word in words]) for words in wordings] for _ in range(self.runs)]
        return [(min(used for used, _ in runs) * self.scale, runs[0][1]) for runs in zip(*turns)]


def phases(meter, way, count):
    """What a triple takes in each phase, and what a line of the walk takes."""
    modes = ["make", "intern", "sort", "test", "unite", "walk", "lines"]
    found = dict(zip(modes, meter.best([[mode, way, count, WALKS] for mode in modes])))
    took, said = {mode: used for mode, (used, _) in found.items()}, found["lines"][1]
    least = {
        "intern": took["intern"] - took["make"],
        "sort": took["sort"] - took["intern"],
        "unite": took["unite"] - took["test"],
    }
    parts = ", ".join(f"{name} {used / count:.0f}" for name, used in least.items())
    print(f"{way}: {sum(least.values()) / count:.0f} {meter.unit} a triple ({parts})")
    print(f"{way}: making the terms {took['make'] / count:.0f}, the test before a union {(took['test'] - took['sort']) / count:.0f}")
    walked = (took["lines"] - took["unite"]) / WALKS
    size = int(re.search(r"(\d+) bytes", said).group(1))
    print(f"{way}: walk {(took['walk'] - took['unite']) / WALKS / count:.0f}, lines {walked / count:.0f} a line of {size / count:.0f} bytes", end="")
    print(f", {size / walked:.2f} GB/s" if meter.unit == "ns" else "")
    print(f"{way}: {said}")
    used = most_memory([meter.program, "unite", way, str(count)])
    print(f"{way}: {used / count:.1f} bytes a triple resident at most")


def few(meter, places, sizes):
    """What ten keys take that are united with a set, for each size, and the ratio."""
    words = [[f"{mode}-{places}", "sorted", count, FEW_RUNS // graphs, graphs] for count, graphs in sizes for mode in ("draw", "unite")]
    found, took = meter.best(words), []
    for (count, _), (without, _), (used, said) in zip(sizes, found[::2], found[1::2]):
        took.append((used - without) / FEW_RUNS)
        print(f"ten keys, {places}, onto {count}: {took[-1]:.0f} {meter.unit} ({said})")
    print(f"ten keys, {places}: {took[1] / took[0]:.1f} times")


def beside_sort(program, way, count):
    """The seconds of sort -u on the lines of the document."""
    with tempfile.NamedTemporaryFile() as lines:
        subprocess.run([program, "document", way, str(count)], stdout=lines, check=True)
        os.environ["LC_ALL"] = "C"
        command = ["/usr/bin/sort", "--parallel=1", "-S", "50%", "-u", lines.name, "-o", "/dev/null"]
        least = min(seconds(command)[0] for _ in range(RUNS))
        print(f"{way}: sort -u takes {least * 1e9 / count:.0f} ns a line")


def main():
    program, count, what = sys.argv[1], int(sys.argv[2]), sys.argv[3]
    meter = Meter(program, what)
    for way in ["sorted", "shuffled"]:
        phases(meter, way, count)
        if what == "seconds":
            beside_sort(program, way, count)
    for places in ["near", "apart"]:
        few(meter, places, [(1_000, FEW_RUNS // FEW_A_GRAPH), (count, 1)])


main()
