"""Fills the tables of docs/WRONG_BODIES.md from the edits that must fail: wrong_bodies.py [--check].

The first table has the edits that the gate tries, in the crates' folders, the second those of `checks/edits`. An edit begins with the
promise that it breaks, in lines that begin with `# `; each table has that promise and the edit's crate, in the order of crates.txt and
then of names. What refuses the edit, the last column, is written in the page alone: the script keeps it, and leaves it empty for a new
edit. With `--check` it changes nothing, says where the page differs, which row has no last column, and which name of one is in no code
and no definition; of the edits that the gate does not try it says whose old text is gone. It ends with status 1 if there is any."""
import functools
import glob
import os
import re
import sys

import twins

TOP = os.path.join(os.path.dirname(os.path.abspath(__file__)), "..")
PAGE = "docs/WRONG_BODIES.md"
# where the edits of each table stand
FOLDERS = ("crates/{}/must-fail", "checks/edits/{}")
TABLE = re.compile(r"(?m)^(\| Edit \|.*\n\|[-|]+\n)(?:^\|.*\n)*")
ROW = re.compile(r"(?m)^\| `(\w+)` \| `(\w+)` \|.* \| ?(.*?) ?\|\n")


def text(path):
    with open(os.path.join(TOP, path), encoding="utf-8") as file:
        return file.read()


def promise(path):
    """What an edit's first lines say, as one sentence."""
    said = re.match(r"(?:#.*\n)+", text(path))
    words = " ".join(it.lstrip("#").strip() for it in said[0].splitlines()).rstrip(".") if said else ""
    return words[:1].upper() + words[1:]


def rows(page, folder):
    """The rows that the table of a folder has to have, each with what the page says in its last column."""
    refused_by = {(crate, edit): said for edit, crate, said in ROW.findall(page) if said}
    for crate in re.findall(r"(?m)^(\w+)[^:#\n]*:", text("crates.txt")):
        for path in sorted(glob.glob(os.path.join(TOP, folder.format(crate), "*.edit"))):
            edit = os.path.basename(path).removesuffix(".edit")
            said = refused_by.get((crate, edit), "")
            yield edit, crate, f"| `{edit}` | `{crate}` | {promise(path)} | {said} |\n".replace("|  |", "| |"), said


def filled(page):
    """The page with the tables as they have to be."""
    folders = iter(FOLDERS)
    return TABLE.sub(lambda table: table[1] + "".join(row for _, _, row, _ in rows(page, next(folders))), page)


@functools.cache
def names():
    """Each word of the code and of the definitions."""
    paths = glob.glob(os.path.join(TOP, "crates/*/src/**/*.rt"), recursive=True) + glob.glob(os.path.join(TOP, "crates/*/specs/*.antt"))
    return {word for path in paths for word in re.findall(r"[A-Za-z_]\w*", text(path))}


def stale():
    """What is wrong with the edits that the gate does not try, which nothing else looks at each day."""
    for path in sorted(glob.glob(os.path.join(TOP, "checks", "edits", "*", "*"))):
        crate, name = path.split(os.sep)[-2:]
        if not os.path.isdir(os.path.join(TOP, "crates", crate)) or not name.endswith(".edit"):
            yield f"checks/edits/{crate}/{name} is no edit of a crate"
            continue
        if os.path.exists(os.path.join(TOP, "crates", crate, "must-fail", name)):
            yield f"{name} of {crate} stands at both places"
        for file, old, _ in twins.pairs_of(text(path)):
            if text(f"crates/{crate}/{file}").count(old) != 1:
                yield f"the old text of checks/edits/{crate}/{name} does not stand once in {file}"


def differences():
    """What is wrong with the page."""
    page, found = text(PAGE), []
    wanted = filled(page)
    if page != wanted:
        there, right = page.splitlines(), wanted.splitlines()
        found += [f"{PAGE} lacks {it}" for it in right if it not in there] + [f"{PAGE} has {it}" for it in there if it not in right]
        found += [] if found else [f"{PAGE} has its rows in another order than crates.txt and the names of edits, or one twice"]
        found.append("python3 checks/wrong_bodies.py puts them right")
    for edit, crate, _, said in (row for folder in FOLDERS for row in rows(page, folder)):
        if not said:
            found.append(f"{PAGE} does not say what refuses {edit} of {crate}")
        for name in re.findall(r"`([^`]+)`", said):
            found += [f"{PAGE} says that {name} refuses {edit} of {crate}: there is no {it}" for it in re.findall(r"[A-Za-z_]\w*", name) if it not in names()]
    gate, beside = (len(list(rows(page, folder))) for folder in FOLDERS)
    said = f"{gate} of the {gate + beside} [wrong bodies]"
    found += [] if said in text("README.md") else [f"README.md does not say that the gate tries {said}"]
    return found + list(stale())


def main():
    if "--check" in sys.argv[1:]:
        wrong = differences()
        print("\n".join(wrong) or "the table is that of the edits")
        sys.exit(1 if wrong else 0)
    page = filled(text(PAGE))
    with open(os.path.join(TOP, PAGE), "w", encoding="utf-8") as file:
        file.write(page)


if __name__ == "__main__":
    main()
