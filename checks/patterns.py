"""Compares what a DELETE WHERE leaves of a graph, as the built gsdrill has it, with a plain search over all triples, written
apart from SPARQL 1.1 Update (21 March 2013, section 3.1.3.3) and Query (section 18.3), on drawn graphs and patterns. Prints how
many agree, or the first that does not, and ends with status 1 then. Its arguments are the program, how many cases are drawn
(100,000), and the seed (1)."""

import collections
import itertools
import os
import random
import re
import subprocess
import sys

GRAPH = "<http://e/g>"
# a run of the program has cases with about so many triples
TRIPLES_A_RUN = 20_000
# a case with more solutions than these is drawn again
MOST_SOLUTIONS = 20_000
UNKNOWN = "<http://e/none>"
# a letter of a, b, c .. stands for a node, and one of p, q, r, s for a predicate
FORMS = [
    "a p b", "a p a", "a p b, b q c", "a p b, a q c", "a p b, c q b", "a p b, c q d", "a p b, b p a", "a p b, b p c, c p d",
    "a p b, b p c, c p a", "a p b, a q c, a r d", "a p b, c p b, b q d", "a p b, b q c, d r e", "a p b, b p c, c p d, d p e",
    "a p b, b p c, c p d, d p a", "a p b, a q c, a r d, a s e", "a p b, a p c, d p b, d p c", "a p b, b p c, c p a, a p d",
    "a p b, c q b, c r d, e s d", "a p b, c q d, e r f, g s h", "a p b, b p c, d q e, e q d", "p q b, a p c",
]


def term(draw, node, place, kinds):
    """The term of a node: an IRI, or of some a blank node or, as an object, a literal."""
    kind = kinds[node % len(kinds)]
    if kind == "literal" and place == 2:
        return f'"{node}"'
    return f"_:n{node}" if kind == "blank" and place != 1 else f"<http://e/n{node}>"


def any_triples(draw, size):
    nodes, verbs = draw.randint(2, max(3, size // draw.randint(1, 8))), draw.randint(1, 4)
    return [(draw.randrange(nodes), draw.randrange(verbs), draw.randrange(nodes)) for _ in range(size)]


def chain(draw, size):
    """A chain of several verbs in turn, which may end where it begins."""
    verbs, ends = draw.randint(1, 3), draw.random() < 0.5
    return [(it, it % verbs, 0 if ends and it == size - 1 else it + 1) for it in range(size)]


def star(draw, size):
    """Some verbs for each subject, with objects that few or many subjects share."""
    verbs, objects = draw.randint(2, 4), draw.choice((1, 7, size))
    return [(it // verbs, it % verbs, draw.randrange(objects)) for it in range(size) if draw.random() < 0.9]


def hub(draw, size):
    """From some nodes to one, and from that to others."""
    middle = size // 2
    return [(it, 0, middle) if it < middle else (middle, draw.randrange(2), it) for it in range(size)]


def layers(draw, size):
    """Layers of nodes, most of one joined to most of the next; the last may be joined to the first."""
    many, share = draw.randint(3, 6), draw.choice((1, 1, 0.9, 0.5))
    wide, ring = max(2, round((size / many) ** 0.5)), draw.random() < 0.7
    edges = itertools.product(range(many if ring else many - 1), range(wide), range(wide))
    return [(at * wide + a, 0, (at + 1) % many * wide + b) for at, a, b in edges if draw.random() < share]


SHAPES = (any_triples, any_triples, chain, star, hub, layers)


def drawn_size(draw):
    chance = draw.random()
    if chance < 0.0025:
        return draw.randint(1_025, 1_400)
    return draw.randint(40, 300) if chance < 0.05 else draw.randint(1, 40)


def graph(draw):
    """Triples, each once, in any order."""
    kinds = draw.choice((("iri",), ("iri", "iri", "blank"), ("iri", "iri", "iri", "literal", "blank")))
    size = drawn_size(draw)
    triples = draw.choice(SHAPES)(draw, size)
    if draw.random() < 0.3:
        triples += draw.choice(SHAPES)(draw, max(1, size // 4))
    # a few verbs are nodes, too
    shift = draw.choice((0, 0, 1_000))
    triples = {(term(draw, s, 0, kinds), f"<http://e/n{p + shift}>", term(draw, o, 2, kinds)) for s, p, o in triples}
    triples = sorted(triples) or [("<http://e/n0>", "<http://e/n0>", "<http://e/n0>")]
    draw.shuffle(triples)
    return triples


def known(draw, triples, place):
    """A term that a pattern may have at a place: no blank node, and most often one that the graph has there."""
    if draw.random() < 0.03:
        return UNKNOWN
    found = draw.choice(triples)[place if draw.random() < 0.9 else draw.choice((0, 2))]
    is_iri = found[0] == "<"
    return found if is_iri or place == 2 and found[0] == '"' else f"<http://e/n{draw.randrange(4)}>"


def formed(draw, triples):
    """Patterns of one of the forms, with terms for some of its letters."""
    terms, free = {}, draw.choice((0.6, 0.8, 0.95, 1))
    patterns = []
    for pattern in draw.choice(FORMS).split(", "):
        parts = []
        for place, letter in enumerate(pattern.split(" ")):
            is_free = draw.random() < (0.15 if letter in "pqrs" and place == 1 else free)
            parts.append(terms.setdefault(letter, f"?{letter}" if is_free else known(draw, triples, place)))
        patterns.append(tuple(parts))
    draw.shuffle(patterns)
    return patterns


def mixed(draw, triples):
    """One to four patterns of any parts."""
    part = lambda place: f"?{draw.choice('abcd')}" if draw.random() < 0.6 else known(draw, triples, place)
    return [tuple(map(part, range(3))) for _ in range(draw.randint(1, 4))]


def is_pattern(pattern):
    """Whether the grammar has it, with the kinds that a subject and a verb may have."""
    return pattern[0][0] in "?<" and pattern[1][0] in "?<"


def cases(seed):
    """Graphs with patterns, without an end."""
    draw = random.Random(seed)
    while True:
        triples = graph(draw)
        patterns = draw.choice((formed, formed, mixed))(draw, triples)
        if all(map(is_pattern, patterns)):
            yield triples, patterns


# What a DELETE WHERE takes away


def value(assigned, part):
    return assigned.get(part, part)


def extended(pattern, assigned, triples, at):
    """Each assignment that goes on from one, so that the pattern is among the triples."""
    fixed = [(place, value(assigned, part)) for place, part in enumerate(pattern)]
    tried = min((at.get(it, []) for it in fixed if it[1][0] != "?"), key=len, default=triples)
    for triple in tried:
        more = dict(assigned)
        if all(more.setdefault(part, it) == it if part[0] == "?" else part == it for part, it in zip(pattern, triple)):
            yield more


def variables(pattern):
    return {it for it in pattern if it[0] == "?"}


def groups(patterns):
    """The patterns by shared variables, each beside one before it, if it is not the first."""
    left = list(patterns)
    while left:
        group, names = [left.pop(0)], variables(patterns[0])
        names = variables(group[0])
        while more := [it for it in left if variables(it) & names]:
            left.remove(more[0])
            group.append(more[0])
            names |= variables(more[0])
        yield group


def instances(patterns, triples):
    """The triples that some solution of all patterns makes of a pattern; None where there are too many solutions to list.
    Patterns that share no variable with others have their solutions apart: all have some, or there is none."""
    at, gone = collections.defaultdict(list), set()
    for triple in triples:
        for it in enumerate(triple):
            at[it].append(triple)
    for group in groups(patterns):
        found = [{}]
        for pattern in group:
            more = itertools.chain.from_iterable(extended(pattern, it, triples, at) for it in found)
            found = list(itertools.islice(more, MOST_SOLUTIONS + 1))
            if len(found) > MOST_SOLUTIONS:
                return None
        if not found:
            return set()
        gone |= {tuple(value(it, part) for part in pattern) for it in found for pattern in group}
    return gone


# Runs of the program


def written(triples):
    return " . ".join(" ".join(it) for it in triples)


def lines_of(case):
    """The schedule of a case."""
    triples, patterns = case
    read = [f"0 pin {GRAPH}", f"0 piece {len(triples) + 1}"]
    upload = [f"0 open put {GRAPH}", f"0 feed ttl {written(triples)} .", "0 commit"]
    patch = [f"0 open patch {GRAPH}", f"0 patch DELETE WHERE {{ {written(patterns)} }}"]
    return upload + read + patch + read + ["reclaim 1000000"]


def output_of(program, batch):
    lines = [line for case in batch for line in lines_of(case)]
    done = subprocess.run([program], input="\n".join(lines) + "\n", capture_output=True, encoding="utf-8", check=False)
    if done.returncode:
        sys.exit(f"the program ended with status {done.returncode}: {done.stderr}")
    return iter(done.stdout.split("\n"))


def taken(output, *forms):
    """The lines of the output that have these forms."""
    found = []
    for form in forms:
        found.append(next(output))
        if not re.fullmatch(form, found[-1]):
            raise ValueError(f"the program printed {found[-1]!r}, not {form!r}")
    return found


def read_lines(output):
    """The lines of a graph that is read."""
    taken(output, "200")
    lines = list(itertools.takewhile(lambda it: it != "end", output))
    if len(set(lines)) != len(lines):
        raise ValueError("the program printed a line twice")
    return {tuple(it[:-2].split(" ", 2)) for it in lines}


def named(triples, request):
    """The triples with the names that the blank nodes of a request get."""
    names = {}
    name = lambda it: names.setdefault(it, f"_:b{request}_{len(names) + 1}") if it[:2] == "_:" else it
    return [tuple(map(name, it)) for it in triples]


def agrees(case, output):
    """Whether the program leaves what it should of a case; None where the case has too many solutions."""
    opened, *_ = taken(output, "opened [0-9]+", "fed", "20[14]")
    triples = named(case[0], opened.split(" ")[1])
    before = read_lines(output)
    taken(output, "opened [0-9]+", "204")
    after = read_lines(output)
    taken(output, "reclaimed [0-9]+ done")
    if before != set(triples):
        raise ValueError("the program reads another graph than it was given")
    gone = instances(case[1], triples)
    if gone is None:
        return None
    for name, wrong in (("left too much", after - (before - gone)), ("took too much", before - gone - after)):
        if wrong:
            raise ValueError(f"the program {name}, as {' '.join(min(wrong))} .")
    return bool(gone)


def batches(drawn):
    batch, triples = [], 0
    for case in drawn:
        batch.append(case)
        triples += len(case[0])
        if triples >= TRIPLES_A_RUN:
            yield batch
            batch, triples = [], 0


def main():
    program, count = os.path.abspath(sys.argv[1]), int(sys.argv[2]) if len(sys.argv) > 2 else 100_000
    counts = collections.Counter()
    for batch in batches(cases(int(sys.argv[3]) if len(sys.argv) > 3 else 1)):
        output = output_of(program, batch)
        for case in batch:
            try:
                answer = agrees(case, output)
            except ValueError as wrong:
                print("\n".join([*lines_of(case), str(wrong)]))
                sys.exit(1)
            counts[answer] += 1
            counts["large"] += len(case[0]) > 1_024 and answer is not None
            if counts[True] + counts[False] == count:
                break
        if counts[True] + counts[False] == count:
            break
    print(f"{count} agree, {counts[True]} of which lose triples, and {counts['large']} have more than 1,024")


if __name__ == "__main__":
    main()
