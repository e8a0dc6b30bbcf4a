"""Puts the graphs of a file into a server: restore.py [--body BYTES] [--ready URL] SERVER FILE.

FILE is N-Quads, as save.sh keeps them or from elsewhere; SERVER is an address as http://localhost:8080. Each graph of the file replaces the
graph of its name. Graphs that the file has no line of stay as they are.

The file is read twice. First each line is checked, and where one is wrong nothing is sent. That a term has more than 65,535 bytes is found
by the server alone. A line ends with LF or CR LF, and not with CR alone. Then the lines are sent in bodies of BYTES at most (67,108,864 where
none is said, the most that a server takes): of each graph a PUT, and POSTs where there is more. A label of a blank node is one node within
one body alone. So lines that share labels, directly or through other lines, go into one body, wherever they stand. The file is refused where
they are longer than a body, and where a label stands in two graphs. A file whose graphs stand in runs of lines takes the fewest requests. One
without a triple takes none, also where no server is there.

URL is the address of a graph that says that all is there, SERVER/store?graph=NAME. It is taken away first, and written last, with the time.
Its lines in the file are left out. Where no URL is said, a file that has such a graph is refused. Where one is, SERVER has to be one server,
and no balancer of several.

The status is 0 where all is in, 1 where the server refused something or was not there, and 2 where the file or the arguments are wrong. It is
1 too where another client wrote a graph between two of its bodies, and with URL where the server was started again meanwhile. What was sent
before a refusal stays in the server. It wants Python 3.9 or later, and nothing else."""
import argparse
import array
import datetime
import http.client
import io
import os
import re
import select
import sys
import time
import urllib.parse

MOST_BODY_BYTES = 67_108_864
MOST_NAME_BYTES = 2_048

# A body is sent in pieces of this size, so that none is held whole.
PIECE_BYTES = 65_536

# The file is read in blocks of about this size.
BLOCK_BYTES = 16_384

# The largest update may keep the server from answering for minutes.
PATIENCE_SECONDS = 600

N_TRIPLES = "application/n-triples"

# The triple that says that all is there: the name of its graph, and the time between these two.
READY_BEGIN = b' <http://purl.org/dc/terms/available> "'
READY_END = b'Z"^^<http://www.w3.org/2001/XMLSchema#dateTime> .\n'

# What a status says that a restore has no other reason for.
REASONS = {201: ", since the graph was gone", 412: ", since another client wrote the graph meanwhile"}

FAILURES = (OSError, http.client.HTTPException)

# N-Quads (25 February 2014), section 4. Each IRI is absolute, though escapes may stand in its scheme.
SPACE = r"[ \t]*"
ESCAPE = r"\\(?:u[0-9A-Fa-f]{4}|U[0-9A-Fa-f]{8})"
IRI_CHARACTER = r"[^\x00-\x20<>\"{}|^`\\]"
IRI = rf"<(?=[A-Za-z\\][A-Za-z0-9+.\\-]*:){IRI_CHARACTER}*(?:{ESCAPE}{IRI_CHARACTER}*)*>"
FIRST = (
    "A-Za-z\u00c0-\u00d6\u00d8-\u00f6\u00f8-\u02ff\u0370-\u037d\u037f-\u1fff\u200c-\u200d\u2070-\u218f\u2c00-\u2fef"
    "\u3001-\ud7ff\uf900-\ufdcf\ufdf0-\ufffd\U00010000-\U000effff_:0-9"
)
LATER = FIRST + "\u00b7\u0300-\u036f\u203f-\u2040-"
LABEL = rf"_:[{FIRST}](?:[{LATER}.]*[{LATER}])?"
STRING_ESCAPE = r"\\(?:[tbnrf\"'\\]|u[0-9A-Fa-f]{4}|U[0-9A-Fa-f]{8})"
STRING = rf"\"[^\"\\\r\n]*(?:{STRING_ESCAPE}[^\"\\\r\n]*)*\""
LITERAL = rf"{STRING}(?:{SPACE}(?:\^\^{SPACE}{IRI}|@[a-zA-Z]+(?:-[a-zA-Z0-9]+)*))?"
TRIPLE = rf"((?:{IRI}|({LABEL})){SPACE}{IRI}{SPACE}(?:{IRI}|({LABEL})|{LITERAL}))"
# No label begins within another one: so a long one that is wrong is not tried in two parts at each of its characters.
LINE = re.compile(rf"{SPACE}(?:{TRIPLE}{SPACE}(?:(?:({IRI})|(?<=[ \t>\"])({LABEL})){SPACE})?\.{SPACE})?(?:#[^\r\n]*)?\r?\n?")
# As most lines are, so that many are checked at once.
PLAIN = re.compile(rf"(?:{IRI} {IRI} (?:{IRI}|{LITERAL}) {IRI} \.\n)+")

# The parts of a line in their order, and what is wrong where one is missing.
PARTS = [
    (re.compile(rf"(?:{IRI}|{LABEL}){SPACE}"), "no absolute IRI and no blank node as the subject"),
    (re.compile(rf"{IRI}{SPACE}"), "no absolute IRI as the predicate"),
    (re.compile(rf"(?:{IRI}|{LABEL}|{LITERAL}){SPACE}"), "no absolute IRI, blank node or literal as the object"),
    (re.compile(rf"(?:(?:{IRI}|{LABEL}){SPACE})?"), ""),
    (re.compile(rf"\.{SPACE}"), "neither the name of a graph, an absolute IRI, nor a dot after the object"),
]
# The terms of a triple that may have escapes.
TERM = re.compile(rf"{IRI}|{STRING}")
NAME = re.compile(rf"[A-Za-z][A-Za-z0-9+.-]*:(?:(?![\ud800-\udfff]){IRI_CHARACTER})*")


class Stop(Exception):
    """What ends the run: its status, and the words for it."""

    def __init__(self, status, words):
        super().__init__(words)
        self.status = status


def say(words, end="\n"):
    """Writes a line on standard error; on a terminal over the one that was not ended."""
    begin, width = ("\r", 70) if sys.stderr.isatty() else ("", 0)
    print(f"{begin}restore.py: {words}".ljust(width), end=end, file=sys.stderr, flush=True)


class Progress:
    """How far the run is, on standard error: in place on a terminal, and else by a line every ten seconds."""

    def __init__(self, size):
        self.size, self.is_in_place = max(size, 1), sys.stderr.isatty()
        self.seconds = 0.2 if self.is_in_place else 10
        self.due = time.monotonic() + self.seconds

    def say(self, doing, line, offset):
        if time.monotonic() >= self.due:
            self.due = time.monotonic() + self.seconds
            say(f"{doing}, {100 * offset // self.size} %, line {line}", "" if self.is_in_place else "\n")


class Graph:
    """A graph of the file: its name, or None; where it is in the server; whether a body of it was sent; and the number of the last one's commit,
    or 0."""

    def __init__(self, name):
        self.name = name
        self.target = "/store?default" if name is None else "/store?graph=" + urllib.parse.quote(name, safe=":/")
        self.is_begun, self.commit = False, 0

    def __str__(self):
        return "the default graph" if self.name is None else f"<{self.name}>"


def character_of(escape):
    """The character of an escape of its number; where it has none, one that is in no text."""
    number = int(escape[0][2:], 16)
    return chr(number) if number < 0x110000 else "\ud800"


def has_characters(term):
    """Whether the escapes of an IRI or a string stand for characters that may be there."""
    text = re.sub(STRING_ESCAPE, lambda it: character_of(it) if it[0][1] in "uU" else " ", term)
    return bool(NAME.fullmatch(text[1:-1])) if term[0] == "<" else not re.search("[\ud800-\udfff]", text)


class Graphs:
    """The graphs of the file, by their names."""

    def __init__(self):
        self.by_text, self.by_name = {None: Graph(None)}, {}

    def all(self):
        return [self.by_text[None], *self.by_name.values()]

    def named(self, name):
        if name not in self.by_name:
            self.by_name[name] = Graph(name)
        return self.by_name[name]

    def of(self, text, line):
        """The graph whose name stands so in a line; None is the default graph."""
        graph = self.by_text.get(text)
        if graph is None:
            name = re.sub(ESCAPE, character_of, text[1:-1])
            if not NAME.fullmatch(name):
                raise Stop(2, f"line {line}: the name of the graph has an escape for what no IRI has")
            if len(name.encode()) > MOST_NAME_BYTES:
                raise Stop(2, f"line {line}: the name of the graph has more than {MOST_NAME_BYTES} bytes")
            graph = self.by_text[text] = self.named(name)
        return graph


def fault_of(text):
    """What is wrong with a line, in a few words."""
    at = len(text) - len(text.lstrip(" \t"))
    for part, words in PARTS:
        found = part.match(text, at)
        if not found:
            return f"{words} (column {at + 1})"
        at = found.end()
    return f"something stands after the dot (column {at + 1})"


def is_plain(block):
    """Whether each line is a triple without blank nodes and escaped numbers in a graph with a name, with single spaces."""
    try:
        return not re.search(rb"\\[uU]", block) and PLAIN.fullmatch(block.decode()) is not None
    except UnicodeDecodeError:
        return False


def triple_of(data, line):
    """The triple as a line of N-Triples, its labels of blank nodes, and the name of its graph as it is written; None where there is no triple."""
    if len(data) > MOST_BODY_BYTES:
        raise Stop(2, f"line {line}: it is too long for any body")
    try:
        text = data.decode()
    except UnicodeDecodeError as error:
        raise Stop(2, f"line {line}: bytes that are not UTF-8 (byte {error.start + 1})") from None
    found = LINE.fullmatch(text)
    if not found:
        raise Stop(2, f"line {line}: {fault_of(text)}")
    triple, subject, value, name, label = found.groups()
    if label:
        raise Stop(2, f"line {line}: the graph is named by a blank node, {label}, and a server has no such graphs")
    if triple and ("\\u" in triple or "\\U" in triple) and not all(map(has_characters, TERM.findall(triple))):
        raise Stop(2, f"line {line}: an escape for no character, or for one that no IRI has")
    return triple and (triple.encode() + b" .\n", [it for it in (subject, value) if it] if subject or value else (), name)


class Source:
    """The file, and what stands in its lines."""

    def __init__(self, file, graphs):
        self.file, self.graphs = file, graphs
        self.progress = Progress(os.fstat(file.fileno()).st_size)
        # Of each block, whether it is plain. The second reading has the same blocks.
        self.plain = []

    def blocks(self):
        """The bytes of the file, in blocks of whole lines."""
        self.file.seek(0)
        while block := self.file.read(BLOCK_BYTES):
            yield block + (b"" if block.endswith(b"\n") else self.file.readline(MOST_BODY_BYTES))

    def common_end(self, block, place):
        """The end of each line of a plain block, from the space before the name of their graph on; None of any other block."""
        end = block[block.rfind(b" <"):]
        if place == len(self.plain):
            is_common = end.endswith(b"> .\n") and block.count(end) == block.count(b"\n")
            self.plain.append(is_common and is_plain(block))
        return end if self.plain[place] else None

    def lines(self, doing):
        """Of each line with a triple: its number, its triple as a line of N-Triples, its graph and its labels. Of one with labels also where it
        is in the file, and how long."""
        line, offset = 1, 0
        for place, block in enumerate(self.blocks()):
            self.progress.say(doing, line, offset)
            end = self.common_end(block, place)
            if end:
                graph = self.graphs.of(end[1:-3].decode(), line)
                for data in io.BytesIO(block.replace(end, b" .\n")):
                    yield line, data, graph, (), None, None
                    line += 1
                offset += len(block)
                continue
            for data in io.BytesIO(block):
                found = triple_of(data, line)
                if found:
                    triple, labels, name = found
                    yield line, triple, self.graphs.of(name, line), labels, offset, len(data)
                line += 1
                offset += len(data)

    def triple_at(self, offset, size, line):
        return triple_of(os.pread(self.file.fileno(), size, offset), line)[0]


class Groups:
    """The lines with blank nodes, in groups: lines that share a label are in one group, and a group goes into one body."""

    def __init__(self):
        # Of each label, by its number, in the order in which they come: its graph and its first line; and the parent in the tree of its group.
        self.numbers, self.graphs = {}, []
        self.first_lines, self.parents = array.array("Q"), array.array("Q")
        # Of each group, at the label that is the root of its tree: its least label, its bytes, and its first and last place in the next lists.
        self.leasts, self.bytes, self.heads, self.tails = (array.array("q") for _ in range(4))
        # Of each line in its group: where it is, and the place of the next one of the group, or -1.
        self.lines, self.offsets, self.sizes, self.nexts = (array.array("q") for _ in range(4))

    def root(self, number):
        parents = self.parents
        while parents[number] != number:
            parents[number] = number = parents[parents[number]]
        return number

    def number_of(self, label, graph, line):
        number = self.numbers.get(label)
        if number is None:
            number = self.numbers[label] = len(self.graphs)
            self.graphs.append(graph)
            self.first_lines.append(line)
            self.parents.append(number)
            for list_of, value in ((self.leasts, number), (self.bytes, 0), (self.heads, -1), (self.tails, -1)):
                list_of.append(value)
        elif self.graphs[number] is not graph:
            before = f"{self.graphs[number]} (line {self.first_lines[number]})"
            raise Stop(2, f"line {line}: {label} stands in {graph} and in {before}; one body writes one graph, so they would be two nodes")
        return number

    def link(self, root, head, tail):
        """Puts a list of lines after those of a group."""
        if self.heads[root] < 0:
            self.heads[root] = head
        else:
            self.nexts[self.tails[root]] = head
        self.tails[root] = tail

    def join(self, one, other):
        """The root of both groups, which are one from here on."""
        if one == other:
            return one
        if self.bytes[one] < self.bytes[other]:
            one, other = other, one
        self.parents[other] = one
        self.leasts[one] = min(self.leasts[one], self.leasts[other])
        self.bytes[one] += self.bytes[other]
        if self.heads[other] >= 0:
            self.link(one, self.heads[other], self.tails[other])
        return one

    def add(self, labels, graph, line, offset, size, many):
        """A line with these labels, which is so long in the file, and has so many bytes in a body."""
        root = self.root(self.number_of(labels[0], graph, line))
        if len(labels) == 2:
            root = self.join(root, self.root(self.number_of(labels[1], graph, line)))
        place = len(self.lines)
        for list_of, value in ((self.lines, line), (self.offsets, offset), (self.sizes, size), (self.nexts, -1)):
            list_of.append(value)
        self.link(root, place, place)
        self.bytes[root] += many

    def refuse_larger(self, limit):
        large = [self.leasts[it] for it in range(len(self.parents)) if self.parents[it] == it and self.bytes[it] > limit]
        if large:
            number = min(large)
            label = next(text for text, it in self.numbers.items() if it == number)
            many = self.bytes[self.root(number)]
            raise Stop(2, f"line {self.first_lines[number]}: in {self.graphs[number]} the lines that hang together by blank nodes from {label} "
                          f"on have {many} bytes, and a body has {limit}")

    def take(self, label):
        """The bytes of the label's group, and where its lines are in the file, once; None where they were taken."""
        root = self.root(self.numbers[label])
        place, found = self.heads[root], []
        self.heads[root] = -1
        while place >= 0:
            found.append((self.offsets[place], self.sizes[place], self.lines[place]))
            place = self.nexts[place]
        return (self.bytes[root], sorted(found)) if found else None


class Server:
    """One connection to a server, which is kept from request to request."""

    def __init__(self, url):
        parts = urllib.parse.urlsplit(url)
        if parts.scheme not in ("http", "https") or not parts.hostname or "@" in parts.netloc or parts.query or parts.fragment:
            raise ValueError(url)
        kind, port = (http.client.HTTPSConnection, 443) if parts.scheme == "https" else (http.client.HTTPConnection, 80)
        self.connection = kind(parts.hostname, parts.port or port, timeout=PATIENCE_SECONDS)
        self.path = parts.path
        # The number of the last reply, and whether any was lower than it can be.
        self.commit, self.is_another = 0, False

    def begin(self, method, graph, fields):
        """Begins a request. A kept connection that the server has ended since can be read from, and is made anew."""
        kept = self.connection.sock
        if kept and select.select([kept], [], [], 0)[0]:
            self.connection.close()
        self.connection.putrequest(method, self.path + graph.target, skip_accept_encoding=True)
        for name, value in fields.items():
            self.connection.putheader(name, value)
        if method == "POST" and graph.commit:
            self.connection.putheader("If-Store-Commit", graph.commit)
        self.connection.endheaders()

    def send(self, data):
        self.connection.send(data)

    def status(self):
        """The status of the reply, which is read whole."""
        reply = self.connection.getresponse()
        reply.read()
        # A write has a greater number than all before it. A server that was started again counts from 0.
        number = int(reply.getheader("Store-Commit", "0"))
        least = self.commit + 1 if number and reply.status in (201, 204) else self.commit
        self.commit, self.is_another = number, self.is_another or number < least
        return reply.status

    def ask(self, method, graph, data=None):
        """The status of a request that is sent at once."""
        self.begin(method, graph, {} if data is None else {"Content-Type": N_TRIPLES, "Content-Length": str(len(data))})
        if data:
            self.send(data)
        return self.status()

    def do(self, work, what, *statuses):
        """Does the work, which gives one of these statuses where all went well. Else the run ends, and tells what failed."""
        try:
            status = work()
        except FAILURES as error:
            # A server may refuse a body before its end: it says so, and ends the connection.
            try:
                status = self.status() if self.connection.sock else None
            except FAILURES:
                status = None
            if status is None:
                raise Stop(1, f"{what} failed: {error or type(error).__name__}") from None
        if status not in statuses:
            raise Stop(1, f"{what} is answered {status}{REASONS.get(status, '')}")


class Bodies:
    """Sends lines in bodies. One goes on as long as lines of its graph come and have room in it."""

    def __init__(self, server, limit):
        self.server, self.limit = server, limit
        self.graph, self.many, self.lines = None, 0, 0

    def __str__(self):
        return f"{self.graph}, lines {self.first_line} to {self.last_line}: the {self.method}"

    def room(self, graph, size):
        """Sees that the body is of this graph and has room for so many bytes: else the body ends, and another one begins."""
        if self.graph is not graph or self.size + size > self.limit:
            self.end()
            self.graph, self.method = graph, "POST" if graph.is_begun else "PUT"
            self.size, self.held, self.held_bytes, self.is_sent = 0, [], 0, False
            self.first_line, self.last_line = sys.maxsize, 0
            graph.is_begun = True

    def add(self, data, line):
        self.held.append(data)
        self.held_bytes += len(data)
        self.size += len(data)
        self.lines += 1
        self.first_line, self.last_line = min(self.first_line, line), max(self.last_line, line)
        if self.held_bytes >= PIECE_BYTES:
            self.server.do(self.send_piece, self, None)

    def send_piece(self):
        if not self.is_sent:
            self.is_sent = True
            self.server.begin(self.method, self.graph, {"Content-Type": N_TRIPLES, "Transfer-Encoding": "chunked"})
        self.server.send(b"%x\r\n%b\r\n" % (self.held_bytes, b"".join(self.held)))
        self.held, self.held_bytes = [], 0

    def finish(self):
        """The status of the whole body. A short one is sent with its length, and not in pieces."""
        if not self.is_sent:
            return self.server.ask(self.method, self.graph, b"".join(self.held))
        if self.held:
            self.send_piece()
        self.server.send(b"0\r\n\r\n")
        return self.server.status()

    def end(self):
        if self.graph:
            self.server.do(self.finish, self, *((201, 204) if self.method == "PUT" else (204,)))
            self.graph.commit = self.server.commit
            self.graph, self.many = None, self.many + 1


def checked(source, ready, limit):
    """The groups of the file, once each line of it was found right."""
    groups = Groups()
    for line, data, graph, labels, offset, size in source.lines("checking"):
        if len(data) > limit:
            raise Stop(2, f"line {line}: its triple has {len(data)} bytes, and a body has {limit}")
        if not ready and data.endswith(READY_END) and data.startswith(str(graph).encode() + READY_BEGIN):
            raise Stop(2, f"line {line}: {graph} says that all is there, and so it is written last: say --ready with its address")
        if labels and graph is not ready:
            groups.add(labels, graph, line, offset, size, len(data))
    groups.refuse_larger(limit)
    return groups


def send(source, groups, ready, bodies):
    """Sends all lines in their order, and a group of lines where its first one stands."""
    for line, data, graph, labels, _, _ in source.lines("sending"):
        if graph is ready:
            continue
        if not labels:
            bodies.room(graph, len(data))
            bodies.add(data, line)
            continue
        group = groups.take(labels[0])
        if group:
            bodies.room(graph, group[0])
            for offset, size, number in group[1]:
                bodies.add(source.triple_at(offset, size, number), number)
    bodies.end()


def restore(server, file, limit, ready_name):
    graphs = Graphs()
    ready = graphs.named(ready_name) if ready_name else None
    source = Source(file, graphs)
    groups = checked(source, ready, limit)
    bodies = Bodies(server, limit)
    if ready:
        server.do(lambda: server.ask("DELETE", ready), f"{ready}: the DELETE", 204, 404)
    send(source, groups, ready, bodies)
    if ready:
        server.do(lambda: server.ask("HEAD", ready), f"{ready}: the HEAD", 200, 404)
        if server.is_another:
            raise Stop(1, "the server was started again meanwhile, and not all is in")
        now = datetime.datetime.now(datetime.timezone.utc).strftime("%Y-%m-%dT%H:%M:%S.%f")
        triple = str(ready).encode() + READY_BEGIN + now.encode() + READY_END
        server.do(lambda: server.ask("PUT", ready, triple), f"{ready}: the PUT", 201, 204)
    begun = sum(it.is_begun for it in graphs.all())
    say(f"lines {bodies.lines}, graphs {begun}, requests {bodies.many}")


def arguments():
    """What was asked for, the server, and the name of the graph that is written last."""
    parser = argparse.ArgumentParser(prog="restore.py", description="Puts the graphs of a file of N-Quads into a server.")
    parser.add_argument("--body", type=int, default=MOST_BODY_BYTES, metavar="BYTES", help="what a body has at most (default %(default)s)")
    parser.add_argument("--ready", metavar="URL", help="SERVER/store?graph=NAME: a graph that is taken away first, and written last")
    parser.add_argument("server", metavar="SERVER", help="the address of a server, as http://localhost:8080")
    parser.add_argument("file", metavar="FILE", help="a file of N-Quads")
    given = parser.parse_args()
    if not 1 <= given.body <= MOST_BODY_BYTES:
        parser.error(f"--body is not 1 to {MOST_BODY_BYTES}")
    url = given.server.rstrip("/")
    url = url if "://" in url else "http://" + url
    try:
        server = Server(url)
    except (ValueError, http.client.InvalidURL):
        parser.error(f"{given.server} is no address of a server")
    name, begin = None, url + "/store?graph="
    if given.ready is not None:
        name = urllib.parse.unquote(given.ready[len(begin):])
        if not given.ready.startswith(begin) or not NAME.fullmatch(name):
            parser.error(f"--ready is not {begin}NAME, where the name is an absolute IRI")
    return given, server, name


def main():
    given, server, name = arguments()
    words, status = "", 0
    try:
        with open(given.file, "rb") as file:
            if not file.seekable():
                raise Stop(2, f"{given.file} is read twice, so it has to be a file")
            restore(server, file, given.body, name)
    except Stop as stop:
        words, status = str(stop), stop.status
    except OSError as error:
        words, status = str(error), 2
    except KeyboardInterrupt:
        words, status = "ended from outside, and not all is in", 1
    if status:
        say(words)
    return status


if __name__ == "__main__":
    sys.exit(main())
