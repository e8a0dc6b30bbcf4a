"""Draws the picture of the crates in docs/ARCHITECTURE.md from crates.txt: picture.py [--check].

A chapter is a group of crates.txt, named by its comment up to the first colon. An arrow goes from a chapter to each that one of its
crates names, unless it follows from other arrows. The picture stands in the page twice, between two comments: as Mermaid, with the
names of the crates, and as plain text, where each crate has the first sentence of its own page, or so much of it as a line holds.
With `--check` it changes nothing, says where the page differs, and ends with status 1 if it does."""
import os
import re
import sys

TOP = os.path.join(os.path.dirname(os.path.abspath(__file__)), "..")
PAGE = "docs/ARCHITECTURE.md"
BEGIN, END = "<!-- drawn by checks/picture.py from crates.txt -->", "<!-- end of what is drawn -->"
BOX, LINE = 64, 92  # the most characters of a row of names, and of what is said of a crate


def text(path):
    with open(os.path.join(TOP, path), encoding="utf-8") as file:
        return file.read()


def chapters():
    """Each group of crates.txt: its title, and its crates with those of the repository that they name."""
    found, heading = [], []
    for line in text("crates.txt").splitlines() + [""]:
        if line.startswith("#"):
            heading.append(line.lstrip("# "))
            continue
        if heading:
            found.append((" ".join(heading).split(":")[0], {}))
            heading = []
        if ":" in line:
            name, _, below = line.partition(":")
            found[-1][1][name.split()[0]] = below.split()
    return found


def arrows(of):
    """For each chapter, by number, the chapters that it stands on and that no other of these stands on."""
    home = {crate: number for number, (_, crates) in enumerate(of) for crate in crates}
    on = {number: {home[it] for below in crates.values() for it in below if it in home} - {number} for number, (_, crates) in enumerate(of)}
    under = {}

    def reach(number, above):
        if number in above:
            sys.exit(f"picture.py: the chapters {' and '.join(of[it][0] for it in above)} stand on one another")
        if number not in under:
            under[number] = on[number].union(*(reach(it, (*above, number)) for it in on[number]))
        return under[number]

    for number in on:
        reach(number, ())
    return {number: [it for it in sorted(below) if not any(it in under[other] for other in below)] for number, below in on.items()}


def rows(names):
    """Names in rows."""
    found = [""]
    for name in names:
        if found[-1] and len(found[-1]) + 1 + len(name) > BOX:
            found.append("")
        found[-1] += f" {name}" if found[-1] else name
    return found


def drawn(of, on):
    """The picture as Mermaid."""
    yield '%%{init: {"flowchart": {"wrappingWidth": 800}}}%%'
    yield "flowchart TD"
    for number, (title, crates) in enumerate(of):
        yield f'    c{number}["<b>{title}</b><br/>{"<br/>".join(rows(crates))}"]'
    for number, below in on.items():
        for it in below:
            yield f"    c{number} --> c{it}"


def said_of(crate):
    """The first sentence of a crate's page, or so much of it as a line holds: up to its colon, or to a comma."""
    path = f"crates/{crate}/README.md"
    if not os.path.isfile(os.path.join(TOP, path)):
        return ""
    paragraph = re.sub(r"\s+", " ", text(path).split("\n\n")[1].replace("`", ""))
    sentence = re.split(r"\.(?:\s|$)", re.sub(r" \([^)]*\)", "", paragraph))[0]
    if len(sentence) <= LINE:
        return sentence
    colon = re.match(rf".{{12,{LINE}}}?(?=:)", sentence)
    return (colon or re.match(rf".{{1,{LINE}}}(?=[,;])", sentence) or re.match(rf".{{1,{LINE}}}(?= )", sentence))[0]


def written(of, on):
    """The picture as plain text."""
    wide = max(len(crate) for _, crates in of for crate in crates)
    for number, (title, crates) in enumerate(of):
        below = "; ".join(of[it][0] for it in on[number])
        yield from [""] if number else []
        yield f"{title}{f'  (on: {below})' if below else ''}"
        for crate in crates:
            yield f"  {crate:{wide}}  {said_of(crate)}".rstrip()


def part():
    """What stands between the two comments."""
    of = chapters()
    on = arrows(of)
    names = "\n".join(drawn(of, on))
    lines = "\n".join(written(of, on))
    fold = "<details><summary>The same as plain text, with what each crate has</summary>"
    return f"{BEGIN}\n\n```mermaid\n{names}\n```\n\n{fold}\n\n```text\n{lines}\n```\n\n</details>\n\n{END}"


def parts_of_page():
    """The page before what is drawn, what is drawn, and the page after it."""
    page = text(PAGE)
    if page.count(BEGIN) != 1 or page.count(END) != 1 or page.index(BEGIN) > page.index(END):
        sys.exit(f"picture.py: {PAGE} has not both comments once, in their order")
    before, rest = page.split(BEGIN)
    there, after = rest.split(END)
    return before, f"{BEGIN}{there}{END}", after


def differences():
    """What the page does not have as crates.txt and the crates' pages say it."""
    there, wanted = parts_of_page()[1].splitlines(), part().splitlines()
    found = [f"{PAGE} lacks in its picture: {it.strip()}" for it in wanted if it not in there]
    found += [f"{PAGE} has in its picture, and crates.txt does not say: {it.strip()}" for it in there if it not in wanted]
    if there != wanted and not found:
        found = [f"{PAGE} has its picture in another order than crates.txt"]
    return found and [*found, "python3 checks/picture.py draws it anew"]


def main():
    if "--check" in sys.argv[1:]:
        wrong = differences()
        print("\n".join(wrong) or "the picture is that of crates.txt")
        sys.exit(1 if wrong else 0)
    before, _, after = parts_of_page()
    with open(os.path.join(TOP, PAGE), "w", encoding="utf-8") as file:
        file.write(before + part() + after)


if __name__ == "__main__":
    main()
