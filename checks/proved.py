"""Compares the table "What is proved, crate by crate" of docs/PROVED.md with the code.

Each crate of crates.txt that stands before the tests and measures has a row. The last column names calls, and after a colon the labels
of their clauses. Each label is that of a clause of one of these calls. Where "one clause" is said each call has exactly one, without a
label. A name that begins with a small letter is a function or a crate. Any other is a word of the crate's code or definitions. Whether
the second column is true no script can say, nor whether a clause is missing there.

It prints what does not agree, and ends with status 1 if anything does not."""

import functools
import glob
import os
import re
import sys

TOP = os.path.join(os.path.dirname(os.path.abspath(__file__)), "..")
PAGE = "docs/PROVED.md"
HEADING = "## What is proved, crate by crate\n"
# a name of the last column, which may be one that a clause cites; what is said of one clause; or a mark
PIECE = re.compile(r"(by |\()?`([^`]+)`|(one clause)|([:;])")
OWNERS = re.compile(r"(?:pub(?:\(\w+\))? )?(?:impl|trait)\b(.*)")
FUNCTION = re.compile(r"( *)(?:pub(?:\(\w+\))? )?(?:const )?fn (\w+)")
CLAUSE = re.compile(r"( *)ensures (\w*) ?\{")


def text(path):
    with open(os.path.join(TOP, path), encoding="utf-8") as file:
        return file.read()


def files(crate, pattern):
    return sorted(glob.glob(os.path.join(TOP, "crates", crate, pattern), recursive=True))


@functools.cache
def words(crate):
    """Each word of a crate's code and definitions."""
    paths = files(crate, "src/**/*.rt") + files(crate, "specs/**/*.antt")
    return {word for path in paths for word in re.findall(r"[A-Za-z_]\w*", text(path))}


@functools.cache
def functions(crate):
    """Each function: its owners (the names at the head of the block that it stands in, and its module), its name, and the labels of its
    clauses, where a clause without one has an empty label."""
    found = []
    for path in files(crate, "src/**/*.rt"):
        module, owners, clauses, depth = os.path.basename(path).removesuffix(".rt"), set(), [], 0
        for line in text(path).splitlines():
            if head := OWNERS.match(line):
                owners = set(re.findall(r"\w+", head[1]))
            elif line.startswith("}"):
                owners = set()
            elif head := FUNCTION.match(line):
                clauses = []
                found.append((owners | {module}, head[2], clauses))
                depth = len(head[1]) + 4
            elif (clause := CLAUSE.match(line)) and len(clause[1]) == depth:
                clauses.append(clause[2])
    return found


def called(crate, name):
    """The labels of each function that a name of the last column may mean."""
    owner, _, last = name.rpartition("::")
    return [clauses for owners, it, clauses in functions(crate) if it == last and (not owner or owner in owners)]


def groups(column):
    """What a last column says: the names of some calls, and the labels that stand after them, or `None` where one clause is said."""
    names, labels, is_after_colon = [], [], False
    # (`requires` is no label)
    pieces = [it.groups() for it in PIECE.finditer(column) if it[2] != "requires"]
    for (cited, name, one, mark), (*_, next_mark) in zip(pieces, pieces[1:] + [(None,)]):
        if cited:
            yield [name], []
        elif one or mark == ";" or (is_after_colon and name and next_mark == ":"):
            yield names, None if one else labels
            names, labels, is_after_colon = [name] if name else [], [], False
        elif mark == ":":
            is_after_colon = True
        else:
            (labels if is_after_colon else names).append(name)
    yield names, labels


def wrong_with(crate, names, labels):
    """What a group of a last column says that is not so."""
    found = [called(crate, it) for it in names]
    for name, clauses in zip(names, found):
        is_function = name.rpartition("::")[2][0].islower()
        if not clauses and (is_function or name not in words(crate)) and not files(name, "src"):
            yield f"there is no {name}"
        elif labels is None and clauses and [""] not in clauses:
            yield f"{name} has not one clause"
    there = {label for clauses in found for labels_of_one in clauses for label in labels_of_one} if any(found) else words(crate)
    yield from (f"{it} is no clause of {' or '.join(names)}" for it in labels or () if it not in there)


def rows():
    """The crate and the last column of each row."""
    crate, table = None, text(PAGE).split(HEADING)[1].split("\n## ")[0]
    for first, last in re.findall(r"(?m)^\| (?:`(\w+)` )?\|.*\| ?(.*?) ?\|$", table):
        crate = first or crate
        yield crate, last


def differences():
    """What is wrong with the table."""
    said = {crate for crate, _ in rows()}
    above = text("crates.txt").split("# Tests that cross crates")[0]
    found = [f"{PAGE} has no row of {it}" for it in re.findall(r"(?m)^(\w+)[^:#\n]*:", above) if it not in said]
    found += [f"{PAGE} has a row of {it}, which is no crate" for it in sorted(said) if not files(it, "src")]
    for crate, column in rows():
        found += [f"{PAGE} says of {crate}: {it}" for names, labels in groups(column) for it in wrong_with(crate, names, labels)]
    return found


if __name__ == "__main__":
    wrong = differences()
    print("\n".join(wrong) or "the table names what is there")
    sys.exit(1 if wrong else 0)
