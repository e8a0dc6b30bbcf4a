"""A plain reader of updates on a whole text, written from the rules of SPARQL 1.1 Update (21 March 2013) and Turtle
(25 February 2014), and from docs/PROFILE.md, apart from the crates. It finds a text's operations, or its first fault."""

import re

RDF = "http://www.w3.org/1999/02/22-rdf-syntax-ns#"
XSD = "http://www.w3.org/2001/XMLSchema#"
LONGEST_TERM = 65_535
DEEPEST = 64
MOST_PATTERNS = 4
# the bytes that the texts of triples, prefixes and bases may have, and for each byte of an update
FIRST_BYTES = 16_777_216
BYTES_FOR_ONE = 64
# so many triples of a statement are known to their operation before it is over
TOGETHER = 64

BASE_CHARS = (
    "A-Za-z\u00c0-\u00d6\u00d8-\u00f6\u00f8-\u02ff\u0370-\u037d\u037f-\u1fff\u200c-\u200d\u2070-\u218f\u2c00-\u2fef"
    "\u3001-\ud7ff\uf900-\ufdcf\ufdf0-\ufffd\U00010000-\U000effff"
)
NAME_CHARS = BASE_CHARS + "_0-9\u00b7\u0300-\u036f\u203f-\u2040-"
HEX = "[0-9A-Fa-f]"
UCHAR = rf"\\u{HEX}{{4}}|\\U{HEX}{{8}}"
ESCAPED = rf"""\\[tbnrf"'\\]|{UCHAR}"""
PLX = rf"%{HEX}{HEX}|\\[_~.\-!$&'()*+,;=/?#@%]"
PREFIX = rf"(?:[{BASE_CHARS}](?:[{NAME_CHARS}.]*[{NAME_CHARS}])?)?:"
LOCAL = rf"(?:[{BASE_CHARS}_:0-9]|{PLX})(?:(?:[{NAME_CHARS}.:]|{PLX})*(?:[{NAME_CHARS}:]|{PLX}))?"
EXPONENT = "[eE][+-]?[0-9]+"

# the terminals; the longest one at a place is its token
TERMINALS = {
    "iri": rf'<(?:[^\x00-\x20<>"{{}}|^`\\\udc80-\udcff]|{UCHAR})*>',
    "label": rf"_:[{BASE_CHARS}_0-9](?:[{NAME_CHARS}.]*[{NAME_CHARS}])?",
    "at": "@[a-zA-Z]+(?:-[a-zA-Z0-9]+)*",
    "string": rf"""(?!\"\"\"|''')(?:"(?:[^"\\\n\r\udc80-\udcff]|{ESCAPED})*"|'(?:[^'\\\n\r\udc80-\udcff]|{ESCAPED})*')""",
    "long string": rf"""\"\"\"(?:"{{0,2}}(?:[^"\\\udc80-\udcff]|{ESCAPED}))*\"\"\"|'''(?:'{{0,2}}(?:[^'\\\udc80-\udcff]|{ESCAPED}))*'''""",
    "integer": "[+-]?[0-9]+",
    "decimal": r"[+-]?[0-9]*\.[0-9]+",
    "double": rf"[+-]?(?:[0-9]+\.[0-9]*{EXPONENT}|\.[0-9]+{EXPONENT}|[0-9]+{EXPONENT})",
    "prefix": PREFIX,
    "name": PREFIX + LOCAL,
    "word": rf"[{BASE_CHARS}][{NAME_CHARS}]*",
    "variable": rf"[?$][{BASE_CHARS}_0-9][{BASE_CHARS}_0-9\u00b7\u0300-\u036f\u203f-\u2040]*",
    "mark": r"\^\^|[.;,\[\](){}]",
}
TERMINALS = {kind: re.compile(pattern) for kind, pattern in TERMINALS.items()}
SKIPPED = re.compile(r"(?:[ \t\r\n]|#[^\r\n\udc80-\udcff]*)*")
WORDS = "BASE PREFIX INSERT DELETE DATA WHERE GRAPH LOAD CLEAR DROP CREATE ADD MOVE COPY WITH".split()
OTHER_FORMS = "LOAD CLEAR DROP CREATE ADD MOVE COPY WITH".split()


class Fault(Exception):
    """The text breaks the grammar."""


class TooLong(Exception):
    """A term is too long."""


class TooMuch(Exception):
    """The texts of triples, prefixes and bases are too many for the text's bytes."""


class NotServed(Exception):
    """The text leaves what is served."""


def decoded(data):
    """The text up to the first byte that is not UTF-8, which a character stands for that no token has."""
    try:
        return data.decode("utf-8")
    except UnicodeDecodeError as error:
        return data[: error.start].decode("utf-8") + "\udc80"


def tokens(text, terminals=TERMINALS, words=WORDS):
    """The kinds, texts and ends of the tokens, up to the text's end or to the first place where none begins."""
    at = 0
    while True:
        at = SKIPPED.match(text, at).end()
        if at == len(text):
            yield "end", "", at
            return
        matches = ((kind, pattern.match(text, at)) for kind, pattern in terminals.items())
        found = max(((it.end(), kind) for kind, it in matches if it), default=(at, ""))
        kind, token = found[1], text[at : found[0]]
        if kind == "word" and token not in ("a", "true", "false"):
            token = "".join(it.upper() if it.isascii() else it for it in token)
            kind = "word" if token in words else ""
        if not kind:
            yield "none", "", at
            return
        at = found[0]
        yield kind, token, at


def character(escape):
    """The character that an escape by number stands for."""
    number = int(escape[2:], 16)
    if 0xD800 <= number < 0xE000 or number > 0x10FFFF:
        raise Fault
    return chr(number)


def unescaped(text):
    """A string's characters."""
    plain = dict(zip("tbnrf\"'\\", "\t\b\n\r\f\"'\\"))
    return re.sub(ESCAPED, lambda it: character(it[0]) if it[0][1] in "uU" else plain[it[0][1]], text)


def reference(text):
    """The characters of an IRIREF."""
    iri = re.sub(UCHAR, lambda it: character(it[0]), text[1:-1])
    if re.search(r'[\x00-\x20<>"{}|^`\\]', iri):
        raise Fault
    return iri


def quoted(lexical):
    """The canonical text of a string."""
    for plain, escape in (("\\", "\\\\"), ('"', '\\"'), ("\n", "\\n"), ("\r", "\\r")):
        lexical = lexical.replace(plain, escape)
    return f'"{lexical}"'


def made(term):
    """A term, if its canonical text is not too long."""
    if len(term.encode("utf-8")) > LONGEST_TERM:
        raise TooLong
    return term


def parts(iri):
    """Scheme, authority, path, query and fragment; None where a part is undefined (RFC 3986, section 3)."""
    scheme = re.match(r"([A-Za-z][A-Za-z0-9+.-]*):", iri)
    rest = iri[scheme.end() :] if scheme else iri
    it = re.fullmatch(r"(?://([^/?#]*))?([^?#]*)(?:\?([^#]*))?(?:#(.*))?", rest, re.S)
    return (scheme[1] if scheme else None, *it.groups())


def without_dots(path):
    """RFC 3986, section 5.2.4."""
    out = []
    while path:
        if path.startswith("../"):
            path = path[3:]
        elif path.startswith("./"):
            path = path[2:]
        elif path.startswith("/./") or path == "/.":
            path = "/" + path[3:]
        elif path.startswith("/../") or path == "/..":
            path = "/" + path[4:]
            out = out[:-1]
        elif path in (".", ".."):
            path = ""
        else:
            end = path.find("/", 1)
            end = len(path) if end < 0 else end
            out.append(path[:end])
            path = path[end:]
    return "".join(out)


def resolved(iri, base):
    """RFC 3986, sections 5.2.2 and 5.3, strict."""
    scheme, authority, path, query, fragment = parts(iri)
    of_base = parts(base)
    if scheme is not None or authority is not None:
        path = without_dots(path)
    elif not path:
        path, query = of_base[2], of_base[3] if query is None else query
    elif path.startswith("/"):
        path = without_dots(path)
    elif of_base[1] is not None and not of_base[2]:
        path = without_dots("/" + path)
    else:
        path = without_dots(of_base[2][: of_base[2].rfind("/") + 1] + path)
    if scheme is None:
        authority = of_base[1] if authority is None else authority
        scheme = of_base[0]
    text = scheme + ":" + ("" if authority is None else "//" + authority) + path
    return text + ("" if query is None else "?" + query) + ("" if fragment is None else "#" + fragment)


def length(text):
    return len(text.removeprefix("?").encode("utf-8"))


class Reader:
    def __init__(self, text, base, request):
        self.tokens, self.ahead = tokens(text), None
        self.base, self.request, self.prefixes = base, request, {}
        self.nodes, self.labels, self.old_labels = 0, {}, set()
        self.operations, self.last_end, self.offset = [], 0, 0
        self.form, self.triples, self.depth = "", [], 0
        self.waiting, self.terms, self.known = 0, [], set()
        self.used, self.most = 0, FIRST_BYTES + BYTES_FOR_ONE * len(text.encode("utf-8", "surrogateescape"))

    # Tokens

    def peek(self):
        if self.ahead is None:
            self.ahead = next(self.tokens)
        return self.ahead[:2]

    def take(self):
        token = self.peek()
        if token[0] in ("end", "none"):
            raise Fault
        self.offset, self.ahead = self.ahead[2], None
        return token

    def is_next(self, *texts):
        kind, text = self.peek()
        return kind in ("word", "mark") and text in texts

    def want(self, *texts):
        if not self.is_next(*texts):
            raise Fault
        return self.take()[1]

    def want_kind(self, kind):
        if self.peek()[0] != kind:
            raise Fault
        return self.take()[1]

    # Terms

    def iri(self):
        kind, text = self.take()
        if kind == "iri":
            return f"<{resolved(reference(text), self.base)}>"
        if kind not in ("prefix", "name"):
            raise Fault
        prefix, local = text.split(":", 1)
        if prefix not in self.prefixes:
            raise Fault
        return "<" + self.prefixes[prefix] + re.sub(r"\\(.)", r"\1", local) + ">"

    def literal(self):
        kind, text = self.take()
        if kind in ("integer", "decimal", "double"):
            return made(f'"{text}"^^<{XSD}{kind}>')
        if kind == "word":
            return made(f'"{text}"^^<{XSD}boolean>')
        lexical = quoted(unescaped(text[1:-1] if kind == "string" else text[3:-3]))
        if self.peek()[0] == "at":
            return made(lexical + self.take()[1].lower())
        if self.is_next("^^"):
            self.take()
            datatype = self.iri()
            if datatype != f"<{XSD}string>":
                return made(f"{lexical}^^{datatype}")
        return made(lexical)

    def new_node(self):
        self.nodes += 1
        return f"_:b{self.request}_{self.nodes}"

    def label(self):
        text = self.take()[1]
        if self.form != "insert" or text in self.old_labels:
            raise Fault
        if text not in self.labels:
            self.labels[text] = self.new_node()
        return self.labels[text]

    def variable(self):
        if self.form != "where":
            raise Fault
        return "?" + self.take()[1][1:]

    # Triples

    def count(self, *texts):
        """Counts the bytes of texts, of variables without their mark."""
        self.used += sum(map(length, texts))
        if self.used > self.most:
            raise TooMuch

    def counted(self, text):
        self.count(text)
        return text

    def append(self, triple, counted):
        """A triple more, of which these texts count until its operation knows them."""
        self.triples.append(" ".join(triple) + " .")
        if self.form == "where" and len(self.triples) > MOST_PATTERNS:
            raise NotServed
        self.count(*counted)
        self.terms += counted
        self.waiting += 1
        if self.waiting == TOGETHER:
            self.settle()

    def settle(self):
        """The texts of the triples so far are known to their operation: each counts once, but for those of patterns."""
        if self.form != "where":
            self.used -= sum(map(length, self.terms)) - sum(map(length, set(self.terms) - self.known))
            self.known |= set(self.terms)
        self.waiting, self.terms = 0, []

    def state(self, *triple):
        self.append(triple, list(triple))

    def deeper(self):
        self.depth += 1
        if self.depth > DEEPEST:
            raise Fault

    def bracket(self):
        """A blank node in brackets, and whether it has verbs."""
        self.want("[")
        self.deeper()
        if self.form != "insert":
            raise Fault
        node = self.new_node()
        has_verbs = not self.is_next("]")
        if has_verbs:
            self.verbs(node)
        self.want("]")
        self.depth -= 1
        return node, has_verbs

    def collection(self):
        """A collection, and whether it has an object."""
        self.want("(")
        self.deeper()
        first = last = None
        while not self.is_next(")"):
            if self.form != "insert":
                raise Fault
            cell = self.new_node()
            value = self.object()
            self.append((cell, f"<{RDF}first>", value), [value])
            if last:
                self.append((last, f"<{RDF}rest>", cell), [])
            first, last = first or cell, cell
        self.want(")")
        self.depth -= 1
        if last:
            self.append((last, f"<{RDF}rest>", f"<{RDF}nil>"), [])
        return first or f"<{RDF}nil>", first is not None

    def object(self):
        kind, text = self.peek()
        if self.is_next("["):
            return self.bracket()[0]
        if self.is_next("("):
            return self.collection()[0]
        if kind in ("string", "long string", "integer", "decimal", "double") or self.is_next("true", "false"):
            return self.literal()
        return self.node()

    def node(self):
        """An IRI, a label or a variable."""
        kind = self.peek()[0]
        if kind == "label":
            return self.label()
        if kind == "variable":
            return self.variable()
        return made(self.iri())

    def verb(self):
        if self.is_next("a"):
            self.take()
            return f"<{RDF}type>"
        if self.peek()[0] == "label":
            raise Fault
        return self.node()

    def verbs(self, subject):
        while True:
            verb = self.verb()
            self.state(subject, verb, self.object())
            while self.is_next(","):
                self.take()
                self.state(subject, verb, self.object())
            if not self.is_next(";"):
                return
            while self.is_next(";"):
                self.take()
            if self.is_next(".", "]", "}"):
                return

    def same_subject(self):
        """The triples of one subject, which brackets with verbs or a collection with an object may be alone."""
        may_end = False
        if self.is_next("["):
            subject, may_end = self.bracket()
        elif self.is_next("("):
            subject, may_end = self.collection()
        else:
            subject = self.node()
        if not (may_end and self.is_next(".", "}")):
            self.verbs(subject)

    # Updates

    def block(self, form):
        self.form, self.triples, self.known = form, [], set()
        self.want("{")
        while not self.is_next("}"):
            if self.is_next("GRAPH"):
                raise NotServed
            self.same_subject()
            self.settle()
            if not self.is_next("}"):
                self.want(".")
        self.take()
        if form == "where" and not self.triples:
            raise NotServed
        self.operations.append((form, self.triples))
        self.last_end = self.offset
        self.old_labels |= set(self.labels)

    def operation(self):
        if self.is_next(*OTHER_FORMS):
            raise NotServed
        word = self.want("INSERT", "DELETE")
        if self.is_next("{"):
            raise NotServed
        if word == "INSERT":
            self.want("DATA")
            self.block("insert")
        else:
            self.block({"DATA": "delete", "WHERE": "where"}[self.want("DATA", "WHERE")])

    def declaration(self, word):
        """What stands after the word of a prefix or a base."""
        prefix = self.want_kind("prefix")[:-1] if word == "PREFIX" else None
        iri = resolved(reference(self.want_kind("iri")), self.base)
        if prefix is None:
            self.base = self.counted(iri)
        else:
            self.prefixes[prefix] = self.counted(iri)

    def prologue(self):
        while self.is_next("PREFIX", "BASE"):
            self.declaration(self.take()[1])

    def update(self):
        while True:
            self.prologue()
            if self.peek()[0] == "end":
                return
            self.operation()
            if self.peek()[0] == "end":
                return
            self.want(";")


def read(data, base, request=1):
    """("update", its operations), each a form and its triples as canonical lines; or ("broken", the number of bytes up
    to the end of the last operation before the fault), ("long",), ("much",) or ("out",)."""
    text = decoded(data)
    reader = Reader(text, base, request)
    try:
        reader.update()
    except Fault:
        return "broken", len(text[: reader.last_end].encode("utf-8"))
    except TooLong:
        return ("long",)
    except TooMuch:
        return ("much",)
    except NotServed:
        return ("out",)
    return "update", reader.operations
