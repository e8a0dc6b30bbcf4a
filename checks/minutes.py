"""Adds up the processor time of a run of `rt ci`, by crate and by kind, from /proc alone: it looks each second at the
processes below the run, and changes nothing of it. Its arguments are a folder for the table and the number of the run's
process, or, after two hyphens, the words of a run that it begins itself. Ended early, it gives the table of what it saw.

The kind of a process is read from its command line: a proof has `--statements` or `-o`, tests have `--test`, the check that
edits begin with and the check after them are over a folder `seed`, an edit is over a folder with its number or stands in a
folder of its own, and what builds from a checked crate, or runs, belongs to programs or tests. A copy that a process makes
of itself, and a compiler that it calls, count with it."""

import contextlib
import os
import re
import signal
import sys
import time

TICKS = os.sysconf("SC_CLK_TCK")
KINDS = ("proof", "tests", "seed", "edits", "programs", "other")
# the table on disk is written anew after so many looks
LOOKS = 60


def read(path):
    try:
        with open(path, "rb") as file:
            return file.read()
    except OSError:
        return b""


def processes():
    """Gives, for each process, its parent, when it began and its processor time, in ticks."""
    found = {}
    for name in os.listdir("/proc"):
        if name.isdigit():
            said = read(f"/proc/{name}/stat").decode(errors="replace")
            if ")" in said:
                words = said[said.rindex(")") + 2 :].split()
                found[int(name)] = int(words[1]), int(words[19]), int(words[11]) + int(words[12])
    return found


def below(top, found):
    """Gives the processes below the top one, parents first."""
    children = {}
    for pid, (parent, _, _) in found.items():
        children.setdefault(parent, []).append(pid)
    order = [top]
    for pid in order:
        order += children.get(pid, [])
    return order


def peak(pid):
    """The most memory that the process has held, in KiB."""
    said = re.search(rb"VmHWM:\s*(\d+)", read(f"/proc/{pid}/status"))
    return int(said[1]) if said else 0


def task(pid):
    """Gives the crate, the kind and the name of what a process does, or None where its command line does not say."""
    words = [it.decode(errors="replace") for it in read(f"/proc/{pid}/cmdline").split(b"\0")]
    if os.path.basename(words[0]) != "rattle":
        made = re.fullmatch(r".*/crates/(\w+)/out/(\w+?)(_tests)?(-\w+)?", words[0])
        return (made[2], "tests" if made[3] else "programs", "run") if made else None
    if "--crate-name" not in words:
        return None
    crate = words[words.index("--crate-name") + 1]
    over = words[words.index("--incremental") + 1] if "--incremental" in words else ""
    if "rt-edit-" in os.path.realpath(f"/proc/{pid}/cwd"):
        last = os.path.basename(over)
        return (crate, "seed", "seed") if last == "seed" else (crate, "edits", last or "from nothing")
    if "--test" in words:
        return crate, "tests", "tests"
    if "--statements" in words or words[1] == "check":
        return crate, "proof", "proof"
    return crate, "programs" if "--crate-checked" in words else "proof", "build"


class Run:
    def __init__(self, top):
        self.top = top
        # by process and start: its crate, kind and name, the ticks and the peak
        self.seen = {}

    def look(self):
        """Looks once; gives whether the run goes on."""
        found = processes()
        if self.top not in found:
            return False
        for pid in below(self.top, found):
            parent, begun, ticks = found[pid]
            key = pid, begun
            known = self.seen.get(key)
            # a copy begins with its parent's command line, and then calls another program
            if not known or known[0] is None or known[2] < 200:
                above = self.seen.get((parent, found[parent][1])) if parent in found else None
                what = task(pid) or (above[0] if above else None)
            else:
                what = known[0]
            self.seen[key] = what, parent, ticks, max(peak(pid), known[3] if known else 0)
        return True

    def sums(self):
        """Gives, by crate and kind, the ticks, the number of tasks and the greatest peak, and the ticks of each edit."""
        rows, names, edits = {}, {}, {}
        for what, _, ticks, most in self.seen.values():
            crate, kind, name = what or ("", "other", "")
            has, top = rows.get((crate, kind), (0, 0))
            rows[crate, kind] = has + ticks, max(top, most)
            names.setdefault((crate, kind), set()).add(name)
            if kind == "edits":
                edits[crate, name] = edits.get((crate, name), 0) + ticks
        return {at: (ticks, len(names[at]), top) for at, (ticks, top) in rows.items()}, edits

    def table(self, whole=None):
        """The table as text: the dearest crates first. `whole` is what the system says of the run's processor time, in seconds."""
        rows, edits = self.sums()
        crates = {}
        for (crate, _), (ticks, _, _) in rows.items():
            crates[crate] = crates.get(crate, 0) + ticks
        lines = [f"{'crate':28}{'kind':10}{'minutes':>9}{'tasks':>7}{'peak, GB':>10}"]

        def row(crate, kind, ticks, tasks, top):
            lines.append(f"{crate:28}{kind:10}{ticks / TICKS / 60:9.2f}{tasks:7}{top / 1e6:10.2f}")

        for crate in sorted(crates, key=lambda it: -crates[it]):
            for kind in KINDS:
                if (crate, kind) in rows:
                    row(crate or "-", kind, *rows[crate, kind])
        for kind in KINDS:
            of = [rows[at] for at in rows if at[1] == kind]
            if of:
                row("all", kind, sum(it[0] for it in of), sum(it[1] for it in of), max(it[2] for it in of))
        seen = sum(crates.values())
        row("all", "", seen, sum(it[1] for it in rows.values()), max([it[2] for it in rows.values()], default=0))
        if whole is not None:
            lines.append(f"{'between two looks':38}{whole / 60 - seen / TICKS / 60:9.2f}")
        for crate, name in sorted(edits, key=lambda it: -edits[it])[:20]:
            lines.append(f"{edits[crate, name] / TICKS:7.0f} s  {crate}/{edit_of(crate, name)}")
        return "\n".join(lines) + "\n"


def edit_of(crate, name):
    """The edit of that number, in the order in which they are tried."""
    folder = os.path.join(os.path.dirname(os.path.abspath(__file__)), "..", "crates", crate, "must-fail")
    files = sorted(it for it in os.listdir(folder) if it.endswith(".edit")) if os.path.isdir(folder) else []
    return files[int(name)] if name.isdigit() and int(name) < len(files) else name


def save(folder, text):
    if folder:
        os.makedirs(folder, exist_ok=True)
        with open(f"{folder}/minutes.txt.new", "w", encoding="utf-8") as file:
            file.write(text)
        os.replace(f"{folder}/minutes.txt.new", f"{folder}/minutes.txt")


class Stopped(Exception):
    """It was asked to end."""


def stop(number, frame):
    raise Stopped


def watch(top, folder, goes_on):
    run = Run(top)
    with contextlib.suppress(Stopped):
        look_on(run, folder, goes_on)
    for number in (signal.SIGTERM, signal.SIGINT):
        signal.signal(number, signal.SIG_IGN)
    return run


def look_on(run, folder, goes_on):
    looks = 0
    for number in (signal.SIGTERM, signal.SIGINT):
        signal.signal(number, stop)
    while goes_on() and run.look():
        looks += 1
        if looks % LOOKS == 0:
            save(folder, run.table())
        time.sleep(1)


def running():
    """The one run of `rt ci` that goes on, if there is just one."""
    found = []
    for pid in processes():
        words = read(f"/proc/{pid}/cmdline").split(b"\0")
        if any(os.path.basename(it) == b"rt" and words[at + 1 : at + 2] == [b"ci"] for at, it in enumerate(words[:3])):
            found.append(pid)
    return found[0] if len(found) == 1 else None


def main(words):
    if words[:1] == ["--"] and words[1:]:
        import resource
        import subprocess

        ran = subprocess.Popen(words[1:])
        run = watch(ran.pid, "", lambda: ran.poll() is None)
        if ran.poll() is None:
            ran.terminate()
            ran.wait()
        used = resource.getrusage(resource.RUSAGE_CHILDREN)
        print(run.table(used.ru_utime + used.ru_stime), end="")
        return ran.returncode
    top = int(words[1]) if words[1:] and words[1].isdigit() else None if words[1:] else running()
    if len(words) not in (1, 2) or top not in processes():
        print("usage: minutes.sh FOLDER [PROCESS], beside one run of rt ci, or minutes.sh -- rt ci [NAME..]", file=sys.stderr)
        return 2
    run = watch(top, words[0], lambda: True)
    save(words[0], run.table())
    print(run.table(), end="")
    return 0


if __name__ == "__main__":
    sys.exit(main(sys.argv[1:]))
