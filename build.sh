#!/bin/sh
# Proves a program (gsd where none is named) and the crates below it, as many at once as the machine has processors and memory for:
# build.sh [PROGRAM]. Afterwards `rt run` in crates/PROGRAM builds and starts it. A run of rt keeps others out of the crates that it
# works in and of those below, so each works in a copy, and rt takes from one copy what was proved in
# another, as far as it may keep work beside the kit.
set -eu
[ $# -le 1 ] || { echo "usage: build.sh [PROGRAM]" >&2; exit 2; }
command -v rt > /dev/null || { echo "build.sh wants rt, the toolchain's command" >&2; exit 2; }
here=$(cd "$(dirname "$0")" && pwd)
exec python3 - "$here" "${1:-gsd}" << 'END'
import os
import re
import shutil
import signal
import subprocess
import sys
import tempfile
import time

top, program = sys.argv[1:]
GIGABYTES_EACH = 4


def lines():
    """The lines of crates.txt, by the names of their crates."""
    texts = re.sub(r"#.*", "", open(f"{top}/crates.txt").read()).splitlines()
    return {text.split(":")[0].split()[0]: text for text in texts if ":" in text}


def closure(named, name):
    """A crate and all that it stands on."""
    found, left = set(), [name]
    while left:
        one = left.pop()
        if one in named and one not in found:
            found.add(one)
            left += named[one].split(":")[1].split()
    return found


def free_gigabytes():
    return int(re.search(r"MemAvailable:\s+(\d+)", open("/proc/meminfo").read())[1]) / 1e6


def length(name):
    """How many bytes of code, definitions and proofs a crate has: its check takes the longer, the more these are."""
    found = 0
    for kind in ("src", "specs", "proofs"):
        for folder, _, files in os.walk(f"{top}/crates/{name}/{kind}"):
            found += sum(os.path.getsize(f"{folder}/{it}") for it in files)
    return found


def height(names, below):
    """For each crate, the length of the longest way that begins with it, one upon the other: what is on it goes first."""
    known = {}

    def of(name):
        if name not in known:
            known[name] = length(name) + max((of(it) for it in names if name in below[it]), default=0)
        return known[name]
    return {name: of(name) for name in names}


def lay_out(copy, named, names):
    """Copies these crates, and no library that was built of them."""
    os.mkdir(copy)
    with open(f"{copy}/crates.txt", "w") as file:
        file.writelines(f"{named[name]}\n" for name in sorted(names))
    shutil.copy(f"{top}/HANDLES", copy)
    for name in names:
        shutil.copytree(f"{top}/crates/{name}", f"{copy}/crates/{name}", ignore=shutil.ignore_patterns("out"))


def end(children):
    """Ends these runs with all that they started, and waits until they are gone."""
    for child in children:
        os.killpg(child.pid, signal.SIGTERM)
    for child in children:
        child.wait()


def prove(copies, names, below, running):
    """Proves the libraries, each in a copy of the crates that has nothing else to do; and says so of each as it ends."""
    left, heights = set(names), height(names, below)
    start, done, many = time.time(), set(), len(names)
    while left or running:
        ready = sorted((it for it in left if done.issuperset(below[it])), key=lambda it: -heights[it])
        idle = [it for it in copies if it not in [copy for _, _, copy in running.values()]]
        # where the crates stand one upon the other, processors would be idle beside them
        few = 2 * len(ready) <= len(idle)
        for name, copy in zip(ready, idle):
            left.remove(name)
            log = tempfile.TemporaryFile("w+")
            words = ["rt", "lib", "--jobs", "2" if few else "1"]
            child = subprocess.Popen(words, cwd=f"{copy}/crates/{name}", stdin=subprocess.DEVNULL, stdout=log, stderr=log, start_new_session=True)
            running[name] = child, log, copy
        time.sleep(0.2)
        for name, (child, log, _) in list(running.items()):
            if child.poll() is None:
                continue
            del running[name]
            if child.returncode:
                log.seek(0)
                sys.exit(f"{log.read()}\nbuild.sh: {name} failed")
            done.add(name)
            print(f"[{len(done)}/{many}] {name}, {time.time() - start:.0f} s", flush=True)


def main():
    named = lines()
    if program not in named:
        sys.exit(f"build.sh: crates.txt has no crate {program}")
    names = closure(named, program)
    libraries = names - {program}
    below = {name: [it for it in named[name].split(":")[1].split() if it in named] for name in names}
    at_once = max(1, min(len(os.sched_getaffinity(0)), int(free_gigabytes() // GIGABYTES_EACH)))
    running = {}
    for number in (signal.SIGINT, signal.SIGHUP, signal.SIGTERM):
        signal.signal(number, lambda number, _: sys.exit(128 + number))
    with tempfile.TemporaryDirectory(prefix="build-") as folder:
        try:
            copies = [f"{folder}/{number}" for number in range(at_once)]
            for copy in copies:
                lay_out(copy, named, libraries)
            prove(copies, libraries, below, running)
            # the libraries of the copies are taken over here
            return subprocess.run(["rt", "check"], cwd=f"{top}/crates/{program}", stdin=subprocess.DEVNULL).returncode
        finally:
            end([child for child, _, _ in running.values()])


sys.exit(main())
END
