"""Plain readers of whole documents of N-Triples and of Turtle, written from the Recommendations (25 February 2014) and from
docs/PROFILE.md, apart from the crates. They find a document's triples, or its first fault. What Turtle shares with updates,
tokens, terms and triples, is in update_oracle.py."""

import re

from update_oracle import BASE_CHARS, ESCAPED, NAME_CHARS, TERMINALS, UCHAR, XSD
from update_oracle import Fault, Reader, TooLong, decoded, made, quoted, reference, tokens, unescaped

TURTLE_TERMINALS = {kind: pattern for kind, pattern in TERMINALS.items() if kind not in ("variable", "mark")}
TURTLE_TERMINALS["mark"] = re.compile(r"\^\^|[.;,\[\]()]")
TURTLE_WORDS = ("PREFIX", "BASE")

# the terminals of N-Triples, where they are not Turtle's: a colon may stand in labels
IRIREF = TERMINALS["iri"]
TAG = TERMINALS["at"]
STRING = re.compile(rf'"(?:[^"\\\n\r\udc80-\udcff]|{ESCAPED})*"')
LABEL = re.compile(rf"_:[{BASE_CHARS}_:0-9](?:[{NAME_CHARS}:.]*[{NAME_CHARS}:])?")
BLANKS = re.compile(r"[ \t]*")
COMMENT = re.compile(r"(?:#[^\r\n\udc80-\udcff]*)?")
LINE = re.compile(r"[^\r\n]+")
ABSOLUTE = re.compile(r"[A-Za-z][A-Za-z0-9+.-]*:")


class TurtleReader(Reader):
    """A reader of a whole document of Turtle, with the blocks of INSERT DATA for its triples."""

    def __init__(self, text, base, request):
        super().__init__(text, base, request)
        self.tokens = tokens(text, TURTLE_TERMINALS, TURTLE_WORDS)
        self.form = "insert"

    def same_subject(self):
        """The triples of one subject; only brackets with verbs may be alone."""
        may_end = False
        if self.is_next("["):
            subject, may_end = self.bracket()
        elif self.is_next("("):
            subject = self.collection()[0]
        else:
            subject = self.node()
        if not (may_end and self.is_next(".")):
            self.verbs(subject)

    def statement(self):
        if self.peek() in (("at", "@prefix"), ("at", "@base")):
            self.declaration(self.take()[1][1:].upper())
            self.want(".")
        elif self.is_next("PREFIX", "BASE"):
            self.declaration(self.take()[1])
        else:
            self.same_subject()
            self.want(".")

    def document(self):
        while self.peek()[0] != "end":
            self.statement()
            self.last_end = self.offset


class NTriplesReader:
    """A reader of a whole document of N-Triples."""

    def __init__(self, text, request):
        self.text, self.request = text, request
        self.at = self.line_end = self.last_end = 0
        self.labels, self.triples = {}, []

    def found(self, terminal):
        """A terminal after blanks, if it begins there."""
        self.at = BLANKS.match(self.text, self.at, self.line_end).end()
        it = terminal.match(self.text, self.at, self.line_end)
        self.at = it.end() if it else self.at
        return it[0] if it else None

    def mark(self, mark):
        return self.found(re.compile(re.escape(mark)))

    def iri(self):
        text = self.found(IRIREF)
        if text is None:
            return None
        iri = reference(text)
        if not ABSOLUTE.match(iri):
            raise Fault
        return f"<{iri}>"

    def label(self):
        text = self.found(LABEL)
        if text is None:
            return None
        return self.labels.setdefault(text, f"_:b{self.request}_{len(self.labels) + 1}")

    def literal(self):
        text = self.found(STRING)
        if text is None:
            return None
        lexical = quoted(unescaped(text[1:-1]))
        if self.mark("^^"):
            datatype = wanted(self.iri())
            return lexical if datatype == f"<{XSD}string>" else f"{lexical}^^{datatype}"
        tag = self.found(TAG)
        return lexical + tag.lower() if tag else lexical

    def triple(self):
        subject = made(wanted(self.iri() or self.label()))
        predicate = made(wanted(self.iri()))
        self.triples.append((subject, predicate, made(wanted(self.iri() or self.label() or self.literal()))))
        wanted(self.mark("."))
        self.last_end = self.at

    def line(self):
        """At most one triple, and at most one comment."""
        if not self.is_ended():
            self.triple()
        if not self.is_ended():
            raise Fault

    def is_ended(self):
        """Whether only blanks and a comment are left of the line, which are skipped then."""
        at = BLANKS.match(self.text, self.at, self.line_end).end()
        return COMMENT.match(self.text, at, self.line_end).end() == self.line_end

    def document(self):
        for it in LINE.finditer(self.text):
            self.at, self.line_end = it.span()
            self.line()
        self.triples = [" ".join(it) + " ." for it in self.triples]


def wanted(token):
    if token is None:
        raise Fault
    return token


def read(language, data, base="http://e/", request=1):
    """("document", its triples), each as its canonical line, as often as it stands there; or ("broken", the number of bytes
    up to the end of the last statement before the fault), or ("long",)."""
    text = decoded(data)
    reader = TurtleReader(text, base, request) if language == "ttl" else NTriplesReader(text, request)
    try:
        reader.document()
    except Fault:
        return "broken", len(text[: reader.last_end].encode("utf-8"))
    except TooLong:
        return ("long",)
    return "document", reader.triples
