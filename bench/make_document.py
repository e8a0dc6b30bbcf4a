#!/usr/bin/env python3
"""Writes a deterministic document of N-Triples: make_document.py TRIPLES [accents] > FILE. With accents a quarter of its
lines has characters above 127."""
import sys

XSD = "http://www.w3.org/2001/XMLSchema#"
WORDS = "river stone harbour winter letter orchard signal marble copper garden window bridge".split()


def lines(count):
    seed = 12345
    for i in range(count):
        seed = (seed * 1103515245 + 12345) % 2**31
        subject = f"<http://example.org/resource/item{i // 5}>"
        predicate = f"<http://example.org/vocabulary/property{seed % 23}>"
        first, second = WORDS[seed % 12], WORDS[(seed >> 8) % 12]
        kind = i % 8
        if kind == 0:
            obj = f"<http://example.org/resource/item{seed % 100000}>"
        elif kind == 1:
            obj = f'"{seed % 10000}"^^<{XSD}integer>'
        elif kind == 2:
            obj = f'"the {first} and the {second} of number {i}"@en'
        elif kind == 3:
            obj = f'"line one: \\"{first}\\"\\nline two:\\t{second} \\u00E9"'
        elif kind == 4:
            obj = f"_:node{seed % 5000}"
        elif kind == 5:
            subject = f"_:node{seed % 5000}"
            obj = f'"{first} {second}"'
        elif kind == 6:
            obj = f'"a longer text about the {first}, the {second} and what lies between them, numbered {seed}"'
        else:
            obj = f'"2026-11-{1 + seed % 28:02d}T12:00:00Z"^^<{XSD}dateTime>'
        yield f"{subject} {predicate} {obj} .\n"


def accented(line):
    """With another letter in the articles of a text, which lines 2 and 6 of eight have."""
    return line.replace(' "the ', ' "th\u00e9 ').replace(" the ", " th\u00e9 ")


if __name__ == "__main__":
    sys.stdout.reconfigure(encoding="utf-8", newline="\n")
    made = lines(int(sys.argv[1]))
    sys.stdout.writelines(map(accented, made) if sys.argv[2:] == ["accents"] else made)
