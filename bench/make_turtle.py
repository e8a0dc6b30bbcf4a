#!/usr/bin/env python3
"""Writes a deterministic document of Turtle: make_turtle.py TRIPLES [accents] > FILE. With accents a quarter of its
lines has characters above 127, otherwise one of eighteen."""
import sys

WORDS = "river stone harbour winter letter orchard signal marble copper garden window bridge".split()
HEAD = """@prefix ex: <http://example.org/resource/> .
@prefix v: <http://example.org/vocabulary/> .
PREFIX xsd: <http://www.w3.org/2001/XMLSchema#>
@base <http://example.org/base/> .
# A document with prefixes, lists, numbers, literals and collections.
"""


def draw(seed):
    return (seed * 1103515245 + 12345) % 2**31


def simple(seed, i):
    """A term, and one triple for it."""
    first, second = WORDS[seed % 12], WORDS[(seed >> 8) % 12]
    return [
        f"ex:item{seed % 100000}",
        f'"the {first} and the {second} of number {i}"@en',
        f"{seed % 10000}",
        f"-{seed % 1000}.{seed % 97:02d}",
        f'"2026-11-{1 + seed % 28:02d}T12:00:00Z"^^xsd:dateTime',
        f"<items/{first}#{seed % 5000}>",
        f'"line one: \\"{first}\\"\\nline two:\\t{second} \\u00E9"',
        f"_:node{seed % 5000}",
        f'"""a longer text about the {first},\nthe {second} and what "lies" between them, numbered {seed}"""',
        "true" if seed & 64 else "false",
        f"{seed % 100}.5e-{seed % 9}",
        f"'{first} \u00e9t\u00e9 {second}'",
    ][(seed >> 4) % 12]


def statements(count):
    """Statements of three to nine triples, until there are `count`."""
    seed, made, number = 12345, 0, 0
    yield HEAD
    while made < count:
        seed = draw(seed)
        number += 1
        left = count - made
        if left < 16:
            yield f"ex:item{number} v:property{seed % 23} {simple(seed, made)} .\n"
            made += 1
            continue
        kind = number % 4
        lines = [f"ex:item{number} a v:Class{seed % 7}"]
        made += 1
        for _ in range(3):
            seed = draw(seed)
            lines.append(f"    v:property{seed % 23} {simple(seed, made)}")
            made += 1
        if kind == 1:
            seed = draw(seed)
            lines.append(f"    v:several {seed % 100} , {simple(draw(seed), made)} , ex:item{seed % 1000}")
            made += 3
        elif kind == 2:
            seed = draw(seed)
            lines.append(f"    v:list ( {seed % 100} ex:item{seed % 1000} \"{WORDS[seed % 12]}\" )")
            made += 7
        elif kind == 3:
            seed = draw(seed)
            lines.append(f"    v:part [ v:name \"{WORDS[seed % 12]}\" ; v:size {seed % 1000}.25 ]")
            made += 3
        yield " ;\n".join(lines) + " .\n"


def accented(statement):
    """With another letter in the articles of a text, and in one of the words."""
    for one, other in ((' "the ', ' "th\u00e9 '), (" the ", " th\u00e9 "), ("\nthe ", "\nth\u00e9 "), ("orchard", "orch\u00e4rd")):
        statement = statement.replace(one, other)
    return statement


if __name__ == "__main__":
    sys.stdout.reconfigure(encoding="utf-8", newline="\n")
    made = statements(int(sys.argv[1]))
    sys.stdout.writelines(map(accented, made) if sys.argv[2:] == ["accents"] else made)
