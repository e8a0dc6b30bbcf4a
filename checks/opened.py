"""Says what a change of a body opens: for each crate that is named, the processor minutes of that crate and of all that stand
on it, and how many crates these are. Its arguments are a table that `checks/minutes.sh` printed, and names of crates; with no
name it takes those that are changed most. Standard library alone."""

import os
import re
import sys

OFTEN = ("gs_term", "gs_event", "gs_lex", "gs_tree", "gs_core", "gs_http", "gs_session", "gs_shared")


def libraries(path):
    """Gives, for each crate of the list, those that it names."""
    found = {}
    with open(path, encoding="utf-8") as file:
        for line in file:
            if ":" in line and not line.startswith("#"):
                name, used = line.split(":", 1)
                found[name.split()[0]] = used.split()
    return found


def above(name, uses):
    """Gives the crate and all that stand on it, directly or by others."""
    found = {name}
    while more := {it for it in uses if it not in found and not found.isdisjoint(uses[it])}:
        found |= more
    return found


def minutes(path):
    """Gives, by crate, the minutes of all kinds of work on it."""
    found = {}
    with open(path, encoding="utf-8") as file:
        for line in file:
            row = re.match(r"(gs\w+) +(?:proof|tests|seed|edits|programs) +([\d.]+) ", line)
            if row:
                found[row[1]] = found.get(row[1], 0) + float(row[2])
    return found


def main(words):
    if not words:
        print("usage: opened.py TABLE [CRATE..]", file=sys.stderr)
        return 2
    uses = libraries(os.path.join(os.path.dirname(os.path.abspath(__file__)), "..", "crates.txt"))
    spent = minutes(words[0])
    for name in words[1:] or OFTEN:
        crates = above(name, uses)
        print(f"{name:24}{sum(spent.get(it, 0) for it in crates):8.1f} minutes{len(crates):5} crates")
    return 0


if __name__ == "__main__":
    sys.exit(main(sys.argv[1:]))
