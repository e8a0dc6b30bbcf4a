#!/usr/bin/env python3
"""The median time of the runs of each reader: time_readers.py PROGRAM FILE TRIPLES [turtle|tokens|update TURTLE]."""
import os
import shutil
import subprocess
import sys
import time

RUNS = 5


def started(command, source):
    out = subprocess.PIPE if command[0].endswith("gs_bench") else subprocess.DEVNULL
    return subprocess.Popen(command, stdin=source, stdout=out)


def run(command, stdin):
    """Seconds, and the output's first line."""
    with open(stdin, "rb") as source:
        start = time.perf_counter()
        child = started(command, source)
        out = child.stdout.readline().decode().strip() if child.stdout else ""
        status = child.wait()
        seconds = time.perf_counter() - start
    if status != 0:
        sys.exit(f"{command[0]} failed")
    return seconds, out


def most_memory(command, stdin):
    """The most memory of one more run in KiB. What wait4 tells would be this program's own, where that is more."""
    most = 0
    with open(stdin, "rb") as source:
        child = started(command, source)
        while child.poll() is None:
            with open(f"/proc/{child.pid}/status") as status:
                for line in status:
                    if line.startswith("VmHWM:"):
                        most = max(most, int(line.split()[1]))
            time.sleep(0.002)
        if child.stdout:
            child.stdout.close()
    return most


def report(name, command, stdin, count, runs):
    """Prints what the runs took, and returns the median."""
    size = os.path.getsize(stdin)
    seconds = sorted(r[0] for r in runs)[len(runs) // 2]
    memory = most_memory(command, stdin)
    print(f"{name}: {seconds:.3f} s, {size / seconds / 1e6:.1f} MB/s, {count / seconds:.0f} triples/s, {memory} KiB at most {runs[0][1]}")
    return seconds


def alone(name, command, stdin, count):
    return report(name, command, stdin, count, [run(command, stdin) for _ in range(RUNS)])


def beside_turtle(program, file, count, turtle):
    """An update beside a document of Turtle with the same triples, in turns: given whole, as an update is, and in pieces."""
    readers = [
        ("gs_bench update", [program, "update"], file),
        ("gs_bench turtle-whole", [program, "turtle-whole"], turtle),
        ("gs_bench turtle 65536", [program, "turtle", "65536"], turtle),
    ]
    turns = [[run(command, stdin) for _, command, stdin in readers] for _ in range(3 * RUNS)]
    medians = [report(*reader, count, [turn[at] for turn in turns]) for at, reader in enumerate(readers)]
    for (name, _, _), seconds in zip(readers[1:], medians[1:]):
        print(f"ratio: {seconds / medians[0]:.2f} times the triples a second of {name}")


def main():
    program, file, count = sys.argv[1], sys.argv[2], int(sys.argv[3])
    mode = sys.argv[4:]
    if mode[:1] == ["update"]:
        beside_turtle(program, file, count, mode[1])
        return
    ours = alone("gs_bench", [program] + mode + ["65536"], file, count)
    if shutil.which("serdi") is None:
        print("serdi is not installed (Debian: apt-get install serdi)")
        return
    theirs = alone("serdi", ["serdi", "-i", "turtle" if mode else "ntriples", "-o", "ntriples", file], file, count)
    print(f"ratio: {theirs / ours:.2f} times the triples a second of serdi")


main()
