"""Lists what is out of proportion and will cost the gate, from the text of the crates and from what `rt check` built of them:
functions whose lowered code is large, as where a large value is dropped at many places; loops that take a constant table by
value in tests; and crates that hold code and tests of their own, whose code is proved once more with these. Its arguments
are names of crates, or none for all. It wants nothing built, but then sees no function."""

import json
import os
import re
import sys

HERE = os.path.join(os.path.dirname(os.path.abspath(__file__)), "..", "crates")
# a function is listed from so many kB on, or with so many kB for each of its lines from half of that on
LARGE = 40
A_LINE = 2


def text(path):
    with open(path, encoding="utf-8") as file:
        return file.read()


def sources(crate):
    for folder, _, names in sorted(os.walk(f"{HERE}/{crate}/src")):
        for name in sorted(names):
            if name.endswith(".rt"):
                yield f"{folder}/{name}"


def lines_of(crate, path):
    """How many lines the function of that path has, and 0 where they are not found."""
    words = path.split("::")
    for end in range(len(words) - 1, 0, -1):
        file = f"{HERE}/{crate}/src/{'/'.join(words[1:end])}.rt" if end > 1 else f"{HERE}/{crate}/src/lib.rt"
        if os.path.isfile(file):
            found = re.search(rf"(?ms)^( *)(?:pub(?:\([a-z]+\))? )?(?:const )?fn {re.escape(words[-1])}\b.*?^\1\}}", text(file))
            return found[0].count("\n") + 1 if found else 0
    return 0


def large(crate):
    """The functions with much lowered code: the kB of each, its lines and its path."""
    made = f"{HERE}/{crate}/out/rlib/{crate}.rlib/toolchain/mir.json"
    if not os.path.isfile(made):
        return
    for path, code in json.loads(text(made)):
        size, lines = len(json.dumps(code, separators=(",", ":"))) / 1000, lines_of(crate, path)
        if size >= LARGE or lines and size >= LARGE / 2 and size / lines >= A_LINE:
            yield size, lines, path


def tables_by_value(crate):
    """The loops over a constant that take its rows by value."""
    for path in sources(crate):
        for number, line in enumerate(text(path).split("\n"), 1):
            if re.search(r"\bfor .+ in (?:\w+::)*[A-Z][A-Z0-9_]+ \{", line):
                yield f"{os.path.relpath(path, HERE)}:{number}: {line.strip()}"


def proved_twice(crate):
    """How many functions of a crate are no tests, where it has tests too."""
    whole = "".join(text(it) for it in sources(crate))
    tests = whole.count("#[test]")
    apart = re.sub(r"(?ms)^( *)#\[cfg\(test\)\]\n\1mod \w+ \{.*?^\1\}", "", whole)
    others = len(re.findall(r"(?m)^ *(?:pub(?:\([a-z]+\))? )?fn \w+", re.sub(r"#\[test\]\s*(?:#\[.*?\]\s*)*fn", "", apart)))
    return (others, tests) if tests else None


def main(names):
    crates = names or sorted(os.listdir(HERE))
    lacking = [it for it in names if not os.path.isdir(f"{HERE}/{it}/out/rlib")]
    if lacking:
        print(f"not built: {' '.join(lacking)}", file=sys.stderr)
        return 2
    found = sorted((it for crate in crates for it in large(crate)), reverse=True)
    print(f"Functions with much lowered code, of {sum(os.path.isdir(f'{HERE}/{it}/out/rlib') for it in crates)} crates that are built: kB, lines")
    for size, lines, path in found:
        print(f"{size:7.0f} {lines or '-':>5}  {path}")
    print("\nTables that a loop takes by value")
    for crate in crates:
        for line in tables_by_value(crate):
            print(f"  {line}")
    print("\nCrates with tests beside other functions: others, tests")
    for crate in crates:
        both = proved_twice(crate)
        if both and both[0] > 0 and not crate.endswith("_tests"):
            print(f"{both[0]:7} {both[1]:5}  {crate}")
    return 0


if __name__ == "__main__":
    sys.exit(main(sys.argv[1:]))
