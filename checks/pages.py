"""Compares the pages with the tree: each edit that must fail is a row of docs/WRONG_BODIES.md, and each row an edit, with the promise
that the edit names (wrong_bodies.py); the index in docs/DEFINITIONS.md is that of the definitions (index.py); the picture in
docs/ARCHITECTURE.md is that of crates.txt (picture.py); the calls and clauses that docs/PROVED.md names by crate are there (proved.py);
the plots in bench/README.md are those of its tables (bench/plots.py); each crate has a page of its own, a line of crates.txt, and a
place in docs/PROVED.md; each file and crate that a table of the pages names is there; and so is each file and heading that a link of
any page leads to. Prints what does not agree, and ends with status 1 if anything is wrong."""

import glob
import os
import re
import sys

sys.dont_write_bytecode = True
sys.path.append(os.path.join(os.path.dirname(os.path.abspath(__file__)), "..", "bench"))
import index
import picture
import plots
import proved
import wrong_bodies

os.chdir(os.path.join(os.path.dirname(os.path.abspath(__file__)), ".."))
wrong = []


def text(path):
    with open(path, encoding="utf-8") as file:
        return file.read()


def without_blocks(page):
    """The text of a page without its blocks of commands and output."""
    return re.sub(r"(?ms)^```.*?^```$", "", text(page))


def anchors(page):
    """The headings of a page as links name them."""
    return {re.sub(r"[^\w -]", "", it.lower()).replace(" ", "-") for it in re.findall(r"(?m)^#+ (.+)$", without_blocks(page))}


crates = re.findall(r"(?m)^(\w+)[^:#\n]*:", text("crates.txt"))
wrong += wrong_bodies.differences() + index.differences() + picture.differences() + proved.differences() + plots.differences()

for crate in crates:
    if not os.path.isfile(f"crates/{crate}/README.md"):
        wrong.append(f"{crate} has no page of its own")
    if not re.search(rf"\b{crate}\b", text("docs/PROVED.md")):
        wrong.append(f"docs/PROVED.md does not name {crate}")
wrong += [f"crates/{name} stands in no line of crates.txt" for name in sorted(os.listdir("crates")) if name not in crates]

for page in ("README.md", "CONTRIBUTING.md", "docs/PROVED.md", "docs/ARCHITECTURE.md", "docs/DECISIONS.md", "docs/DEFINITIONS.md", "docs/PROFILE.md"):
    for path in re.findall(r"`((?:gs_|gsd)\w*/(?:src|specs|proofs)/[\w/]+\.(?:rt|antt))`", text(page)):
        if not os.path.isfile(f"crates/{path}"):
            wrong.append(f"{page} names {path}, which is not there")

for page in sorted(glob.glob("*.md") + glob.glob("*/*.md") + glob.glob("crates/*/*.md")):
    for link in re.findall(r"\]\(([^)\s]+)\)", without_blocks(page)):
        path, _, heading = link.partition("#")
        if ":" in path:
            continue
        to = os.path.normpath(os.path.join(os.path.dirname(page), path)) if path else page
        if not os.path.exists(to):
            wrong.append(f"{page} links to {link}, which is not there")
        elif heading and heading not in anchors(to):
            wrong.append(f"{page} links to {link}, and there is no such heading")

print("\n".join(wrong) or "the pages agree with the tree")
sys.exit(1 if wrong else 0)
