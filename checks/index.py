"""Compares the index of docs/DEFINITIONS.md with the tree: index.py.

Each row says of some words in which file of a crate's `specs/` they are defined, and which calls or definitions cite them. The
crates are those of the heading, or those that the row names beside the file. Each word has to be defined in one of these files, and
each name in the last column has to be one of the code or of a definition. What a row says of its words in brackets, or after "over",
is a note and is not looked at. Prints what does not agree, and ends with status 1 if there is any."""
import functools
import glob
import os
import re
import sys

TOP = os.path.join(os.path.dirname(os.path.abspath(__file__)), "..")
PAGE = "docs/DEFINITIONS.md"
# a definition, a constructor of a datatype, a field of a record
HEADS = (r" *(?:(?:abbrev|unfoldable) pub|pub (?:data|record)(?! *:)) (\S+)", r" +(\S+) : ", r" *pub (\S+) :")


def text(path):
    with open(os.path.join(TOP, path), encoding="utf-8") as file:
        return file.read()


@functools.cache
def defined_in(path):
    """The words that a file of definitions has."""
    lines = [it for it in text(path).splitlines() if not it.lstrip().startswith("--")]
    return {found[1] for line in lines for head in HEADS if (found := re.match(head, line))}


@functools.cache
def names():
    """Each word of the code, and each that is defined."""
    code = glob.glob(os.path.join(TOP, "crates/*/src/**/*.rt"), recursive=True)
    found = {word for path in code for word in re.findall(r"\w+", text(path))}
    return found.union(*(defined_in(path) for path in glob.glob(os.path.join(TOP, "crates/*/specs/*.antt"))))


def rows():
    """Each row of the index: the crates of its heading, and its four cells."""
    crates = []
    for line in re.search(r"(?ms)^## Index\n(.*?)^## ", text(PAGE))[1].splitlines():
        if line.startswith("### "):
            crates = re.findall(r"`(\w+)/specs`", line)
        elif line.startswith("| ") and not line.startswith("| Word "):
            yield crates, [it.strip() for it in line.strip("|").split("|")]


def words_in(cell):
    """The words of a cell, but for notes."""
    return re.findall(r"`([^`]+)`", re.sub(r"\([^)]*\)|\bover (?:`[^`]+`(?:, | and )?)+(?: of `\w+`)?", "", cell))


def files_in(cell):
    """The files and the crates of a cell."""
    return re.findall(r"`([^`]+)`", re.sub(r"\([^)]*\)|\bover `[^`]+` of `\w+`", "", cell))


def differences():
    """What is wrong with the index."""
    found = []
    for crates, cells in rows():
        if len(cells) != 4:
            found.append(f"{PAGE} has a row that is not of four cells: {' | '.join(cells)}")
            continue
        beside = [it for it in files_in(cells[1]) if os.path.isdir(os.path.join(TOP, "crates", it))]
        known = set()
        for file in (it for it in files_in(cells[1]) if it not in beside):
            paths = [path for it in crates + beside if os.path.isfile(os.path.join(TOP, path := f"crates/{it}/specs/{file}.antt"))]
            known = known.union(*(defined_in(path) for path in paths))
            found += [] if paths else [f"{PAGE} names the file {file}, which no crate of its row has: {cells[0]}"]
        found += [f"{PAGE} says that {cells[1]} defines {it}, which it does not" for it in words_in(cells[0]) if it not in known]
        for name in re.findall(r"`([^`]+)`", cells[3]):
            last = re.split(r"::|\.", name)[-1].split("<")[0]
            if last not in names() and not os.path.isdir(os.path.join(TOP, "crates", last)):
                found.append(f"{PAGE} says that {name} cites {cells[0]}: there is no {last}")
    return found


def main():
    wrong = differences()
    print("\n".join(wrong) or "the index agrees with the definitions")
    sys.exit(1 if wrong else 0)


if __name__ == "__main__":
    main()
