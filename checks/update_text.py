"""A plain reader of updates on a whole text, and what their operations leave of a graph, for the schedules of gs_schedules."""
from turtle_text import Fault, Reader, Unfinished

OUTSIDE = ("LOAD", "CLEAR", "DROP", "CREATE", "ADD", "MOVE", "COPY", "WITH")
MOST_PATTERNS = 4


class Outside(Exception):
    """The text is an update that is not served."""


class Update(Reader):
    def __init__(self, text, base, request):
        super().__init__(text, base, request)
        self.operations, self.form, self.old = [], "", set()

    def is_at(self, *words):
        kind, text = self.peek()
        return kind == "word" and text.upper() in words

    def state(self, *triple):
        if self.form == "WHERE" and len(self.waiting) == MOST_PATTERNS:
            raise Outside
        self.waiting.append(triple)

    def term(self):
        kind, text = self.peek()
        if kind == "variable":
            if self.form != "WHERE":
                raise Fault
            self.next()
            return f"?{text[1:]}"
        if self.form != "INSERT" and (kind == "label" or text in ("[", "(")):
            self.next()
            if text != "(" or self.next()[1] != ")":
                raise Fault
            self.at -= 2
        return super().term()

    def iri(self, kind, text):
        if kind == "variable" and self.form == "WHERE":
            return f"?{text[1:]}"
        return super().iri(kind, text)

    def labelled(self, text):
        if text in self.old:
            raise Fault
        return super().labelled(text)

    def block(self, form):
        """The triples or patterns between the braces."""
        self.form, self.waiting, self.old = form, [], set(self.labels)
        self.want("{")
        while self.peek()[1] != "}":
            if self.is_at("GRAPH"):
                raise Outside
            _, text = self.peek()
            subject = self.term()
            stands_alone = text == "[" or text == "(" and subject.startswith("_:")
            if not stands_alone or self.peek()[1] not in (".", "}"):
                self.verbs(subject)
            if self.peek()[1] != ".":
                break
            self.next()
        self.want("}")
        if form == "WHERE" and not self.waiting:
            raise Outside
        self.operations.append((form, self.waiting))

    def operation(self):
        if self.is_at(*OUTSIDE):
            raise Outside
        if not self.is_at("INSERT", "DELETE"):
            raise Fault
        first = self.next()[1].upper()
        if self.peek()[1] == "{":
            raise Outside
        if not self.is_at("DATA", "WHERE") or first == "INSERT" and self.is_at("WHERE"):
            raise Fault
        second = self.next()[1].upper()
        self.block("WHERE" if second == "WHERE" else first)

    def update(self):
        while self.at < len(self.tokens):
            if self.is_at("PREFIX", "BASE"):
                self.directive(self.next()[1].lower(), False)
                continue
            self.operation()
            if self.at < len(self.tokens):
                self.want(";")


def operations(text, base, request):
    """The operations of an update, or the fault that a schedule prints for its text."""
    reader = Update(text, base, request)
    try:
        reader.update()
    except (Fault, Unfinished):
        return "fault 400"
    except Outside:
        return "fault 422"
    return reader.operations


def solutions(patterns, triples, assigned):
    """Each assignment under which all patterns are among the triples."""
    if not patterns:
        return [assigned]
    found = []
    for triple in triples:
        more = dict(assigned)
        if all(more.setdefault(part, term) == term if part.startswith("?") else part == term for part, term in zip(patterns[0], triple)):
            found += solutions(patterns[1:], triples, more)
    return found


def patched(lines, done):
    """The lines of a graph after some operations."""
    triples = {tuple(line[:-2].split(" ", 2)) for line in lines}
    for form, given in done:
        if form == "INSERT":
            triples |= set(given)
        elif form == "DELETE":
            triples -= set(given)
        else:
            triples -= {tuple(it.get(part, part) for part in pattern) for it in solutions(given, triples, {}) for pattern in given}
    return {" ".join(triple) + " ." for triple in triples}
