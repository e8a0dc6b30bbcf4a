"""A plain reader of Turtle on a whole text, for the schedules of gs_schedule_tests."""
import re
from urllib.parse import urljoin

RDF = "http://www.w3.org/1999/02/22-rdf-syntax-ns#"
XSD = "http://www.w3.org/2001/XMLSchema#"
NAME = r"[A-Za-z_](?:[\w.-]*[\w-])?"
TOKEN = re.compile(
    r"(?P<space>\s+|#[^\n\r]*)"
    r'|(?P<iri><[^\x00-\x20<>"{}|^`\\]*>)'
    r"|(?P<long>'''(?:'{0,2}[^'\\])*'''|\"\"\"(?:\"{0,2}[^\"\\])*\"\"\")"
    r"|(?P<string>(?!'''|\"\"\")(?:'[^'\\\n\r]*'|\"[^\"\\\n\r]*\"))"
    rf"|(?P<label>_:{NAME})|(?P<at>@[A-Za-z]+(?:-[A-Za-z0-9]+)*)"
    r"|(?P<double>[+-]?(?:\d+\.?\d*|\.\d+)[eE][+-]?\d+)|(?P<decimal>[+-]?\d*\.\d+)|(?P<integer>[+-]?\d+)"
    rf"|(?P<name>(?:[A-Za-z](?:[\w.-]*[\w-])?)?:(?:[\w:](?:[\w.:-]*[\w:-])?)?)|(?P<variable>[?$]\w+)|(?P<word>[A-Za-z]+)|(?P<mark>\^\^|[.;,\[\](){{}}])"
)


class Fault(Exception):
    """The text has a fault, however it goes on."""


class Unfinished(Exception):
    """The text ends within a statement."""


def tokens(text):
    """The kinds and texts of the tokens; a last string or IRI that has not ended is left out."""
    found, at = [], 0
    while at < len(text):
        it = TOKEN.match(text, at)
        if not it:
            if text.startswith(("'''", '"""'), at):
                return found
            return found + [("fault", text[at])]
        if it.lastgroup != "space":
            found.append((it.lastgroup, it[0]))
        at = it.end()
    return found


class Reader:
    def __init__(self, text, base, request):
        self.tokens, self.at = tokens(text), 0
        self.base, self.request, self.prefixes = base, request, {}
        self.labels, self.nodes, self.lines = {}, 0, []

    def peek(self):
        if self.at == len(self.tokens):
            raise Unfinished
        return self.tokens[self.at]

    def next(self):
        token = self.peek()
        self.at += 1
        return token

    def want(self, text):
        if self.next()[1] != text:
            raise Fault

    def resolved(self, reference):
        if not reference:
            return self.base.split("#")[0]
        return urljoin(self.base, reference) + ("#" if reference.endswith("#") else "")

    def node(self):
        self.nodes += 1
        return f"_:b{self.request}_{self.nodes}"

    def state(self, *triple):
        self.waiting.append(" ".join(triple) + " .")

    def iri(self, kind, text):
        if kind == "iri":
            return f"<{self.resolved(text[1:-1])}>"
        prefix, local = text.split(":", 1) if kind == "name" else (None, None)
        if prefix not in self.prefixes:
            raise Fault
        return f"<{self.prefixes[prefix]}{local}>"

    def term(self):
        kind, text = self.next()
        if kind in ("integer", "decimal", "double"):
            return f'"{text}"^^<{XSD}{kind}>'
        if kind == "word" and text in ("true", "false"):
            return f'"{text}"^^<{XSD}boolean>'
        if kind in ("string", "long"):
            return self.literal(text[1:-1] if kind == "string" else text[3:-3])
        if text in ("[", "("):
            return self.brackets() if text == "[" else self.collection()
        return self.labelled(text) if kind == "label" else self.iri(kind, text)

    def labelled(self, text):
        if text not in self.labels:
            self.labels[text] = self.node()
        return self.labels[text]

    def literal(self, lexical):
        for plain, escape in (("\\", "\\\\"), ('"', '\\"'), ("\n", "\\n"), ("\r", "\\r")):
            lexical = lexical.replace(plain, escape)
        if self.peek()[0] == "at":
            return f'"{lexical}"{self.next()[1].lower()}'
        if self.peek()[1] != "^^":
            return f'"{lexical}"'
        self.next()
        datatype = self.iri(*self.next())
        return f'"{lexical}"' if datatype == f"<{XSD}string>" else f'"{lexical}"^^{datatype}'

    def brackets(self):
        node = self.node()
        if self.peek()[1] != "]":
            self.verbs(node)
        self.want("]")
        return node

    def collection(self):
        first = last = None
        while self.peek()[1] != ")":
            cell = self.node()
            thing = self.term()
            if last:
                self.state(last, f"<{RDF}rest>", cell)
            self.state(cell, f"<{RDF}first>", thing)
            first, last = first or cell, cell
        self.next()
        if last:
            self.state(last, f"<{RDF}rest>", f"<{RDF}nil>")
        return first or f"<{RDF}nil>"

    def verbs(self, subject):
        while True:
            kind, text = self.next()
            verb = f"<{RDF}type>" if (kind, text) == ("word", "a") else self.iri(kind, text)
            self.state(subject, verb, self.term())
            while self.peek()[1] == ",":
                self.next()
                self.state(subject, verb, self.term())
            if self.peek()[1] != ";":
                return
            while self.peek()[1] == ";":
                self.next()
            if self.peek()[1] in (".", "]", "}"):
                return

    def directive(self, word, has_dot):
        if word == "prefix":
            kind, name = self.next()
            if kind != "name" or not name.endswith(":"):
                raise Fault
        kind, text = self.next()
        if kind != "iri":
            raise Fault
        if word == "prefix":
            self.prefixes[name[:-1]] = self.resolved(text[1:-1])
        else:
            self.base = self.resolved(text[1:-1])
        if has_dot:
            self.want(".")

    def statement(self):
        self.waiting = []
        kind, text = self.peek()
        if text in ("@prefix", "@base") or kind == "word" and text.lower() in ("prefix", "base"):
            self.next()
            self.directive(text.lower().lstrip("@"), text.startswith("@"))
            return
        if kind not in ("iri", "name", "label") and text not in ("[", "("):
            raise Fault
        subject = self.term()
        if text != "[" or self.peek()[1] != ".":
            self.verbs(subject)
        self.want(".")
        self.lines += self.waiting


def statements(text, base, request):
    """The lines of the complete statements, and whether the text is a document, unfinished, or has a fault."""
    reader = Reader(text, base, request)
    try:
        while reader.at < len(reader.tokens):
            reader.statement()
    except Fault:
        return reader.lines, "fault"
    except Unfinished:
        return reader.lines, "unfinished"
    return reader.lines, "document"
