#!/usr/bin/env python3
"""Writes a deterministic document of N-Triples as a program would that goes through its records: make_natural.py TRIPLES > FILE.
Six triples a subject, whose numbers are not in the order of their bytes. A third of the objects are literals, a ninth are
blank nodes, and so is one subject of nine."""
import random
import sys

WORDS = "river stone harbour winter letter orchard signal marble copper garden window bridge".split()
BASE = "http://example.org"
XSD = "http://www.w3.org/2001/XMLSchema#"


def value(draw, number):
    """An object: of nine three literals, one blank node and five IRIs."""
    kind = draw.randrange(9)
    if kind == 0:
        return f'"{draw.choice(WORDS)} {draw.choice(WORDS)} {number}"@en'
    if kind == 1:
        return f'"{draw.randrange(10_000)}"^^<{XSD}integer>'
    if kind == 2:
        return f'"the {draw.choice(WORDS)} of the {draw.choice(WORDS)}, {number}"'
    if kind == 3:
        return f"_:node{draw.randrange(1 + number // 18)}"
    return f"<{BASE}/resource/item{draw.randrange(1 + number // 6)}>"


def lines(count):
    draw = random.Random(20)
    for number in range(count):
        record = number // 6
        subject = f"_:node{record // 9}" if record % 9 == 8 else f"<{BASE}/resource/item{record}>"
        predicate = f"<{BASE}/vocabulary/property{(number % 6 + record % 4) % 9}>"
        yield f"{subject} {predicate} {value(draw, number)} .\n"


if __name__ == "__main__":
    sys.stdout.writelines(lines(int(sys.argv[1])))
