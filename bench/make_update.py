#!/usr/bin/env python3
"""Writes an INSERT DATA with the triples of make_turtle.py: make_update.py TRIPLES > FILE."""
import re
import sys

from make_turtle import statements

DIRECTIVE = re.compile(r"^@(prefix|base) (.*) \.$", re.MULTILINE)


def update(count):
    """The directives as a prologue, and the statements as one block."""
    texts = statements(count)
    yield DIRECTIVE.sub(lambda it: f"{it[1].upper()} {it[2]}", next(texts))
    yield "INSERT DATA {\n"
    yield from texts
    yield "}\n"


if __name__ == "__main__":
    sys.stdout.reconfigure(encoding="utf-8", newline="\n")
    sys.stdout.writelines(update(int(sys.argv[1])))
