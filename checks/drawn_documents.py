"""Documents of N-Triples and of Turtle that a seeded generator draws: passages of passages.nt.txt and passages.ttl.txt, one
after another, with one of faults.nt.txt or faults.ttl.txt, brackets near the deepest and terms near the longest now and then,
changed here and there. And fixed ones: each passage, each fault, and each end of a range of characters in names."""

import os

from update_oracle import NAME_CHARS

HERE = os.path.dirname(os.path.abspath(__file__))
DEEPEST = 64
LONGEST_TERM = 65_535
XSD = "http://www.w3.org/2001/XMLSchema#"

# what may be put in anywhere: the grammars' alphabet, and short tokens, whole and cut short
PIECES = r"""
< > " ' \ . ; , [ ] ( ) # @ ^ ^^ : _ _: % - + e E 0 1 9 a Z u U t é · 😀 / ? & = ~ ! $ * { } | `
\u0041 \u00e9 \u12 \U0001F600 \uD800 \U00110000 \u0020 \u003c \t \\ \" \' \x \- \. %41 %4 @en @en-US @ @prefix @base
PREFIX BASE a true false 1.5 .5 1e1 1. -1 1e "x" 'x' "" '' <> <a> <a:b> [] () ;; .. :a a:b a: p: _:a _:a. //h ../ ./ ?q #f
"""
PIECES = [it.encode("utf-8") for it in PIECES.split() + ['"""', "'''", " ", "\t", "\n", "\r", "\r\n", "\0", "\x7f", "\ufeff"]]
# the ends of the ranges of characters, with their neighbours, and characters whose other case is a letter of ASCII
EDGES = [ord(it) + step for it in NAME_CHARS if not it.isascii() for step in (-1, 0, 1)]
EDGES = [chr(it).encode("utf-8") for it in EDGES + [0x131, 0x17F, 0x212A, 0x10FFFF] if not 0xD800 <= it < 0xE000]
BAD_BYTES = (b"\x80", b"\xbf", b"\xc0\x80", b"\xed\xa0\x80", b"\xf4\x90\x80\x80", b"\xff", b"\xc3", b"\xe2\x82", b"\xf0\x9f\x98")

# a long term, around what makes it long, with how many bytes of its canonical text stand besides
LONG_STRINGS = [('"{}"', 2), ('"{}"@en', 5), ('"{}" ^^ <d:t>', 9), ('"{}"^^<%sstring>' % XSD, 2)]
LONG_TERMS = [("<http://e/{}>", 11), ("<a:{}>", 4), ('"x"@{}', 4), ('"x"^^<http://e/{}>', 16), ("_:{}", 0)]
LONG_TURTLE_STRINGS = [("'{}'", 2), ('"""{}"""', 2), ("'''{}'''@en-US", 8), ('"{}"^^l:x', 24)]
LONG_TURTLE_TERMS = [("<{}>", 11), ("</{}#>", 12), ("l:{}", 20), ("l:a.{}", 22), ('"x"^^l:{}', 25), ("<l:{}>", 4)]
LONG_NUMBERS = [("{}", 47), ("-{}", 48), ("{}.5", 49), ("{}e1", 48), ("1.{}", 49)]
# what is repeated in a long string, with the bytes of its canonical text
UNITS = [("a", 1), ("é", 2), ("😀", 4), (r"\n", 2), (r"\u0041", 1), (r"\"", 2), (r"\\", 2), ("\t", 1), ("' ", 2)]
AFTER_LONG = ["", ".", " ;", "@", "@1 .", "@en-.", "\n@en .", "^", "^x", " ^^", "^^<a:b", "^^<b> .", "^^u:v .", "\n^^<a:b>."]
AFTER_LONG += [" }", '"', " <p:q>", " foo", " <a:b .", "\n.", " # c", "\0"]


# names with a character that may stand there or not
EDGE_NAMES = {"nt": ["_:{}", "_:{}a", "_:a{}", "_:a{}b"]}
EDGE_NAMES["ttl"] = EDGE_NAMES["nt"] + [":{}", ":{}a", ":a{}", ":a{}b", "{}:a", "{}b:a", "a{}:a", "a{}b:a"]
EDGE_TERMS = ["<a:{}>", '"a{}b"', '"x"@a{}', '"x"@a{}b']


def texts_of(kind, language):
    with open(os.path.join(HERE, f"{kind}.{language}.txt"), encoding="utf-8", newline="") as file:
        return file.read().replace("␍", "\r").split("--\n")


PASSAGES = {language: texts_of("passages", language) for language in ("nt", "ttl")}
FAULTS = {language: texts_of("faults", language) for language in ("nt", "ttl")}


def edge_passages(language):
    """A name with each of the edges at each place."""
    for edge in [it.decode("utf-8") for it in EDGES]:
        for form in EDGE_NAMES[language] + EDGE_TERMS:
            name = form.format(edge)
            head = f"@prefix {name.split(':')[0]}: <x> .\n" if language == "ttl" and ":" in name and name[0] not in '_<"' else ""
            yield f"{head}<a:b> <p:q> {name} .\n"


def spoilt_documents():
    """Three statements with bytes that are no UTF-8 at each place."""
    data = b'<a:b> <p:q> _:a .\n<a:b> <p:q> "x"@en . # c\n<a:b> <p:q> "x"^^<a:b> .\n'
    for at in range(len(data) + 1):
        for bad in BAD_BYTES:
            yield data[:at] + bad + data[at:]


def long_strings():
    """A string that is just too long, with what may come after it."""
    for after in AFTER_LONG:
        yield f'<a:b> <p:q> <a:b> .\n<a:b> <p:q> "{"a" * (LONGEST_TERM - 1)}"{after}'.encode("utf-8")


def fixed():
    """Documents that are not drawn, with their languages. A fault stands alone, and after each kind of statement."""
    for language in ("nt", "ttl"):
        before = ["", "<a:b> <p:q> <a:b> .\n", PASSAGES[language][-1]]
        texts = PASSAGES[language] + [it + fault for it in before for fault in FAULTS[language]]
        for it in [*texts, *edge_passages(language)]:
            yield language, it.encode("utf-8")
        for it in [*spoilt_documents(), *long_strings()]:
            yield language, it


def nested(random):
    """Brackets and collections in one another, near the deepest."""
    opened = random.choices(("[<p>", "[ a <t> ; <p> ", "(", "( 1 "), k=random.randint(DEEPEST - 3, DEEPEST + 2))
    closed = "".join("]" if it[0] == "[" else ")" for it in reversed(opened))
    inner = random.choice(("1", "[]", "()", "<o>", "[ ] ()", "_:a"))
    head, tail = random.choice((("<s> <p> ", " .\n"), ("<s> <p> 1, ", ", 2 .\n"), ("", " <p> <o> .\n")))
    return head + "".join(opened) + inner + closed + tail


def long_term(random, language):
    """A term near the longest."""
    size = LONGEST_TERM + random.choice((-1, 0, 0, 1, 1, 2, 5_000))
    strings, terms = LONG_STRINGS, LONG_TERMS
    if language == "ttl":
        strings, terms = strings + LONG_TURTLE_STRINGS, terms + LONG_TURTLE_TERMS
        if random.random() < 0.15:
            form, besides = random.choice(LONG_NUMBERS)
            kind = "double" if "e" in form else "decimal" if "." in form else "integer"
            return form.format("7" * (size - besides - len(kind) + 7))
    if random.random() < 0.5:
        form, besides = random.choice(terms)
        return form.format("a" * (size - besides))
    form, besides = random.choice(strings)
    unit, bytes_each = random.choice(UNITS)
    count, left = divmod(size - besides, bytes_each)
    return form.format(unit * count + "b" * left)


def long_passage(random, language):
    """A statement with a term near the longest, or what is left of one."""
    head = "@prefix l: <http://long.e/> .\n" if language == "ttl" else ""
    place = random.choice(("{} <p:q> <a:b>", "<a:b> {} <a:b>", "<a:b> <p:q> {}", "<a:b> <p:q> {}", "<a:b> <p:q> {}"))
    if language == "ttl" and random.random() < 0.2:
        place = random.choice(("@prefix n: {} . n:a <p:q> <>", "BASE {} <a> <a:b> n:a", "<a:b> <p:q> ( {} ), 1"))
    return head + place.format(long_term(random, language)) + random.choice((" .\n", random.choice(AFTER_LONG)))


def whole(random, language):
    """A document before it is changed."""
    texts = random.choices(PASSAGES[language], k=random.choice((1, 2, 2, 3, 3, 4, 5)))
    if random.random() < 0.1:
        texts.insert(random.randint(0, len(texts)), random.choice(FAULTS[language]))
    if language == "ttl" and random.random() < 0.04:
        texts.insert(random.randint(0, len(texts)), nested(random))
    return "".join(texts).encode("utf-8")


def long(random, language):
    """A document with a long term, changed near an end of that or not at all."""
    before, after = random.choices(PASSAGES[language] + [""], k=2)
    before, data = before.encode("utf-8"), long_passage(random, language).encode("utf-8")
    if random.random() < 0.3:
        near = random.randint(0, min(60, len(data)))
        data = random.choice(CHANGES)(random, data, random.choice((near, len(data) - near)))
    return before + data + after.encode("utf-8")


# Changes of a document at a place, which is within it or at its end


def dropped(random, data, at):
    return data[:at] + data[at + random.choice((1, 1, 1, 2, 3, 8)) :]


def doubled(random, data, at):
    end = at + random.choice((1, 1, 2, 5, 12))
    return data[:end] + data[at:]


def swapped(random, data, at):
    other = min(at + random.choice((1, 1, 2, 5)), len(data))
    return data[:at] + data[other : other + 1] + data[at + 1 : other] + data[at : at + 1] + data[other + 1 :]


def piece(random):
    return random.choice(PIECES if random.random() < 0.9 else EDGES)


def replaced(random, data, at):
    return data[:at] + piece(random) + data[at + 1 :]


def put_in(random, data, at):
    return data[:at] + piece(random) + data[at:]


def moved(random, data, at):
    end = at + random.randint(1, 30)
    rest = data[:at] + data[end:]
    to = random.randint(0, len(rest))
    return rest[:to] + data[at:end] + rest[to:]


def ended(_random, data, at):
    return data[:at]


def begun(_random, data, at):
    return data[at:]


def spoilt(random, data, at):
    return data[:at] + random.choice(BAD_BYTES) + data[at + random.choice((0, 1)) :]


CHANGES = [dropped] * 6 + [doubled] * 5 + [swapped] * 5 + [replaced] * 8 + [put_in] * 8 + [moved] * 4
CHANGES += [ended, begun, spoilt]


def changed(random, language):
    """A document that is changed at some places."""
    data = whole(random, language)
    if random.random() < 0.1:
        other = whole(random, language)
        data = data[: random.randint(0, len(data))] + other[random.randint(0, len(other)) :]
    for _ in range(random.choice((0, 1, 1, 1, 1, 2, 2, 3, 5))):
        data = random.choice(CHANGES)(random, data, random.randint(0, len(data)))
    return data


def drawn(random):
    """A language, and a document of it, or nearly one. Some lines of N-Triples are read as Turtle."""
    language = random.choice(("nt", "ttl", "ttl"))
    if random.random() < 0.01:
        return language, long(random, language)
    data = changed(random, language)
    return "ttl" if random.random() < 0.05 else language, data


def piece_size(random):
    """The size of the pieces in which a document comes."""
    return random.randint(1, random.choice((3, 20, 300)))
