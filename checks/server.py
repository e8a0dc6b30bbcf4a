"""Checks a gsd that listens: server.py PROGRAM [SECONDS]. With SECONDS, under load (server_load.py)."""
import http.client
import re
import socket
import subprocess
import sys

import rdflib
import rdflib.compare
import requests

import server_load
from serving import Server

TURTLE = "text/turtle"
N_TRIPLES = "application/n-triples"
N_QUADS = "application/n-quads"
UPDATE = "application/sparql-update"
GRAPH_METHODS = "GET, HEAD, PUT, POST, DELETE, PATCH"

TWO = '@prefix e: <http://e/> . e:s e:p 1 , "x"@EN .'
ONE = '<http://e/s> <http://e/p> "1"^^<http://www.w3.org/2001/XMLSchema#integer> .\n'
X = '<http://e/s> <http://e/p> "x"@en .\n'
Y = '<http://e/t> <http://e/p> "y" .\n'
CLASS = "<http://e/s> <http://www.w3.org/1999/02/22-rdf-syntax-ns#type> <http://e/C> .\n"

# The words of curl, a target, what is sent, and the status, the fields and the body that must come.
CASES = [
    # The first request that opens is number 1, and names the first graph that the store makes up.
    ("POST", "/store", ["Content-Type: text/turtle"], "<http://e/s> a <http://e/C> .", 201, {"location": "http://localhost/graphs/n1-0", "content-length": "0"}, ""),
    ("GET", "/graphs/n1-0", ["Accept: text/turtle"], None, 200, {"content-type": TURTLE, "transfer-encoding": "chunked"}, CLASS),
    ("GET", "/graphs/n1-0", ["Accept: text/turtle;q=0.5, application/n-triples;q=0"], None, 200, {"content-type": TURTLE}, CLASS),
    ("GET", "/store?default", [], None, 200, {"content-type": N_TRIPLES}, ""),
    # Both ways of naming one graph, both types, with a length and in chunks.
    ("GET", "/graphs/a", [], None, 404, {"content-length": "0"}, ""),
    ("HEAD", "/graphs/a", [], None, 404, {}, ""),
    ("DELETE", "/graphs/a", [], None, 404, {}, ""),
    ("PATCH", "/graphs/a", ["Content-Type: application/sparql-update"], "", 404, {}, ""),
    ("PUT", "/graphs/a", ["Content-Type: text/turtle"], TWO, 201, {"content-length": "0"}, ""),
    ("GET", "/graphs/a", [], None, 200, {"content-type": N_TRIPLES}, ONE + X),
    ("GET", "/store?graph=http%3A%2F%2Flocalhost%2Fgraphs%2Fa", [], None, 200, {"content-type": N_TRIPLES}, ONE + X),
    ("GET", "/store?graph=http://localhost/graphs/a", ["Accept: */*;q=0.1"], None, 200, {"content-type": N_TRIPLES}, ONE + X),
    ("HEAD", "/graphs/a", [], None, 200, {"content-type": N_TRIPLES}, ""),
    ("PUT", "/store?graph=http://localhost/graphs/a", ["Content-Type: text/turtle", "Transfer-Encoding: chunked"], TWO, 204, {}, ""),
    ("POST", "/graphs/a", ["Content-Type: application/n-triples", "Transfer-Encoding: chunked"], Y, 204, {}, ""),
    ("GET", "/graphs/a", [], None, 200, {}, ONE + X + Y),
    ("PATCH", "/graphs/a", ["Content-Type: application/sparql-update"], "DELETE DATA { <http://e/s> <http://e/p> 1 } ; INSERT DATA { <http://e/t> <http://e/p> 1 }", 204, {}, ""),
    ("GET", "/graphs/a", [], None, 200, {}, X + ONE.replace("e/s", "e/t") + Y),
    ("PATCH", "/graphs/a", ["Content-Type: application/sparql-update"], "DELETE WHERE { <http://e/t> ?p ?o }", 204, {}, ""),
    ("GET", "/graphs/a", [], None, 200, {}, X),
    # A wrong body changes nothing.
    ("PUT", "/graphs/a", ["Content-Type: text/turtle"], "<http://e/s> <http://e/p> .", 400, {"content-length": "0"}, ""),
    ("POST", "/graphs/a", ["Content-Type: application/n-triples", "Transfer-Encoding: chunked"], Y + "<a> <b> <c> .\n", 400, {}, ""),
    ("PATCH", "/graphs/a", ["Content-Type: application/sparql-update"], "CLEAR ALL", 422, {}, ""),
    ("PATCH", "/graphs/a", ["Content-Type: application/sparql-update"], "INSERT DATA {", 400, {}, ""),
    ("PUT", "/graphs/a", ["Content-Type: application/json"], "{}", 415, {}, ""),
    ("GET", "/graphs/a", ["Accept: application/json"], None, 406, {}, ""),
    ("GET", "/graphs/a", [], None, 200, {}, X),
    # Targets and methods.
    ("OPTIONS", "/graphs/a", [], None, 405, {"allow": GRAPH_METHODS}, ""),
    ("PUT", "/store", ["Content-Type: text/turtle"], TWO, 405, {"allow": "GET, HEAD, POST", "connection": "close"}, ""),
    ("DELETE", "/store", [], None, 405, {"allow": "GET, HEAD, POST"}, ""),
    ("GET", "/store", ["Accept: application/n-triples"], None, 406, {"content-length": "0"}, ""),
    ("GET", "/x", [], None, 404, {}, ""),
    ("GET", "/store?graph=x", [], None, 400, {}, ""),
    ("GET", "/store?other", [], None, 400, {}, ""),
    ("DELETE", "/graphs/a", [], None, 204, {}, ""),
    ("GET", "/graphs/a", [], None, 404, {}, ""),
    # The default graph is always there.
    ("PUT", "/store?default", ["Content-Type: application/n-triples"], Y, 204, {}, ""),
    ("GET", "/store?default=", [], None, 200, {}, Y),
    # All graphs: the default graph first, then n1-0, which the first request made.
    ("GET", "/store", [], None, 200, {"content-type": N_QUADS, "transfer-encoding": "chunked"}, Y + CLASS.replace(" .", " <http://localhost/graphs/n1-0> .")),
    ("GET", "/store", ["Accept: application/n-quads"], None, 200, {"content-type": N_QUADS}, Y + CLASS.replace(" .", " <http://localhost/graphs/n1-0> .")),
    ("HEAD", "/store", [], None, 200, {"content-type": N_QUADS}, ""),
    ("DELETE", "/graphs/n1-0", [], None, 204, {}, ""),
    ("DELETE", "/store?default", [], None, 204, {}, ""),
    ("GET", "/store?default", [], None, 200, {}, ""),
    ("GET", "/store", [], None, 200, {"content-type": N_QUADS}, ""),
]

failures = []


def check(name, got, want):
    if got != want:
        failures.append(name)
        print(f"{name}: {got!r} in place of {want!r}")


def curl(*words, sent=None):
    """The status, the fields and the body of each reply, `100 Continue` too."""
    command = ["curl", "-s", "-S", "-i", "--globoff", "--max-time", "30", *words]
    rest = subprocess.run(command, input=sent, capture_output=True, timeout=60, check=True).stdout.decode()
    replies = []
    while rest:
        head, rest = rest.split("\r\n\r\n", 1)
        line, *fields = head.split("\r\n")
        status = int(re.fullmatch(r"HTTP/1\.1 ([0-9]{3}) .*", line)[1])
        body, rest = ("", rest) if status == 100 else (rest, "")
        replies.append((status, {name.lower(): value for name, value in (field.split(": ", 1) for field in fields)}, body))
    return replies


def check_cases(server):
    """Each case by curl, on a connection of its own."""
    for method, target, fields, sent, status, wanted, body in CASES:
        words = ["--head"] if method == "HEAD" else ["-X", method]
        for field in fields:
            words += ["-H", field]
        if sent is not None:
            words += ["-H", "Expect:", "--data-binary", "@-"]
        name = f"{method} {target} {sent or ''}"
        replies = curl(*words, server.url + target, sent=None if sent is None else sent.encode())
        check(name, len(replies), 1)
        got_status, got_fields, got_body = replies[-1]
        check(name, (got_status, got_body), (status, body))
        check(name, {field: got_fields.get(field) for field in wanted}, wanted)
    print(f"curl: {len(CASES)} requests")


def check_continue(server):
    """A client that waits for it gets `100 Continue` before its body is read, and none where it is refused."""
    words = ["-X", "PUT", "-H", "Expect: 100-continue", "-H", "Content-Type: text/turtle", "--data-binary", "@-"]
    statuses = [reply[0] for reply in curl(*words, server.url + "/graphs/waits", sent=TWO.encode())]
    check("Expect: 100-continue", statuses, [100, 201])
    with socket.create_connection(("127.0.0.1", server.port), timeout=30) as connection:
        head = "PUT /graphs/waits HTTP/1.1\r\nHost: a\r\nContent-Type: a/b\r\nExpect: 100-continue\r\nContent-Length: 9\r\n\r\n"
        connection.sendall(head.encode())
        check("a refused body", read_all(connection), b"HTTP/1.1 415 Unsupported Media Type\r\nContent-Length: 0\r\nConnection: close\r\n\r\n")
    print("100 Continue: a body that is taken, and one that is refused")


def read_all(connection):
    """What comes until the server ends the connection."""
    parts = []
    while part := connection.recv(65536):
        parts.append(part)
    return b"".join(parts)


def last_commit(server):
    """The number that a reply reports."""
    return int(requests.head(server.url + "/store?default", timeout=30).headers["Store-Commit"])


def check_pipeline(server):
    """A hundred requests at once on one connection, and one that closes it."""
    sent, wanted = [], []
    first = last_commit(server) + 1
    for number in range(50):
        line = f'<http://e/s> <http://e/p> "{number}" .\n'
        put = f"PUT /graphs/p{number} HTTP/1.1\r\nHost: a\r\nContent-Type: {N_TRIPLES}\r\nContent-Length: {len(line)}\r\n\r\n{line}"
        sent += [put, f"GET /graphs/p{number} HTTP/1.1\r\nHost: a\r\n\r\n"]
        commit = f"Store-Commit: {first + number}\r\n\r\n"
        head = f"HTTP/1.1 200 OK\r\nContent-Type: {N_TRIPLES}\r\nTransfer-Encoding: chunked\r\n{commit}"
        wanted += [f"HTTP/1.1 201 Created\r\nContent-Length: 0\r\n{commit}", f"{head}{len(line):x}\r\n{line}\r\n0\r\n\r\n"]
    sent.append("DELETE /graphs/none HTTP/1.1\r\nHost: a\r\nConnection: close\r\n\r\n")
    wanted.append(f"HTTP/1.1 404 Not Found\r\nContent-Length: 0\r\nStore-Commit: {first + 49}\r\nConnection: close\r\n\r\n")
    with socket.create_connection(("127.0.0.1", server.port), timeout=30) as connection:
        connection.sendall("".join(sent).encode())
        check("a pipeline", read_all(connection).decode(), "".join(wanted))
    print(f"pipeline: {len(sent)} requests on one connection")


def check_keep_alive(server):
    """One connection serves request after request."""
    connection = http.client.HTTPConnection("127.0.0.1", server.port, timeout=30)
    connection.connect()
    port = connection.sock.getsockname()
    for number in range(20):
        connection.request("PUT", "/graphs/kept", f'<http://e/s> <http://e/p> "{number}" .\n', {"Content-Type": N_TRIPLES})
        check("keep-alive, PUT", connection.getresponse().read(), b"")
        connection.request("GET", "/graphs/kept")
        check("keep-alive, GET", connection.getresponse().read().decode(), f'<http://e/s> <http://e/p> "{number}" .\n')
        check("keep-alive, the connection", connection.sock and connection.sock.getsockname(), port)
    connection.close()
    print("keep-alive: 40 requests on one connection")


def check_requests(server):
    """A thousand lines in chunks by requests, which come back sorted, in pieces."""
    lines = [f'<http://e/s{number:04}> <http://e/p> "{number}" .\n' for number in range(1000)]
    with requests.Session() as session:
        halves = ("".join(lines[500:]).encode(), "".join(lines[:500]).encode())
        answer = session.put(server.url + "/store", params={"graph": "http://e/g"}, data=iter(halves), headers={"Content-Type": N_TRIPLES}, timeout=30)
        check("requests, PUT", answer.status_code, 201)
        answer = session.get(server.url + "/store", params={"graph": "http://e/g"}, timeout=30)
        check("requests, GET", (answer.status_code, answer.text), (200, "".join(lines)))
        check("requests, HEAD", session.head(server.url + "/store", params={"graph": "http://e/g"}, timeout=30).status_code, 200)
        check("requests, DELETE", session.delete(server.url + "/store", params={"graph": "http://e/g"}, timeout=30).status_code, 204)
    print("requests: a graph of 1,000 lines")


def check_rdflib(server):
    """What rdflib writes as Turtle is, read back by rdflib, the same graph, blank nodes and all."""
    text = '@prefix e: <http://e/> . e:s e:p ( 1 "a" [ e:q "x"@en , "1.5"^^e:t ] ) ; e:q _:b . _:b e:p e:s , _:b .'
    graph = rdflib.Graph().parse(data=text, format="turtle")
    check("rdflib, its own graph", len(graph), 12)
    answer = requests.put(server.url + "/graphs/r", data=graph.serialize(format="turtle").encode(), headers={"Content-Type": TURTLE}, timeout=30)
    check("rdflib, PUT", answer.status_code, 201)
    for form in ("turtle", "nt"):
        read = rdflib.Graph().parse(server.url + "/graphs/r", format=form)
        check(f"rdflib, {form}", rdflib.compare.isomorphic(read, graph), True)
    print("rdflib: a graph with a list and blank nodes, as Turtle and as N-Triples")


def talk(server, text):
    """What is said to this, to the end of the connection."""
    with socket.create_connection(("127.0.0.1", server.port), timeout=30) as connection:
        connection.sendall(text.encode())
        return read_all(connection).decode()


def check_base_and_pieces(server):
    """Names are made up under another base, and a chunk has two lines."""
    lines = [f'<http://e/s> <http://e/p> "{number}" .\n' for number in range(3)]
    body = "".join(lines)
    fields = f"Host: a\r\nConnection: close\r\nContent-Type: {N_TRIPLES}\r\nContent-Length: {len(body)}"
    made = "HTTP/1.1 201 Created\r\nContent-Length: 0\r\nLocation: http://a.example:80/graphs/n1-0\r\nStore-Commit: 1\r\nConnection: close\r\n\r\n"
    check("--base", talk(server, f"POST /store HTTP/1.1\r\n{fields}\r\n\r\n{body}"), made)
    head = f"HTTP/1.1 200 OK\r\nContent-Type: {N_TRIPLES}\r\nTransfer-Encoding: chunked\r\nStore-Commit: 1\r\nConnection: close\r\n\r\n"
    pieces = "".join(f"{len(piece):x}\r\n{piece}\r\n" for piece in (lines[0] + lines[1], lines[2], ""))
    check("--piece", talk(server, "GET /graphs/n1-0 HTTP/1.1\r\nHost: a\r\nConnection: close\r\n\r\n"), head + pieces)
    print("options: names under another base, and pieces of two lines")


def check_one_worker(server):
    """While one client is served a second waits; it is answered once the first has left, in the middle of an upload."""
    head = f"PUT /graphs/half HTTP/1.1\r\nHost: a\r\nContent-Type: {N_TRIPLES}\r\nContent-Length: 99\r\n\r\n{X}"
    first = socket.create_connection(("127.0.0.1", server.port), timeout=30)
    first.sendall(head.encode())
    with socket.create_connection(("127.0.0.1", server.port), timeout=1) as second:
        second.sendall(b"GET /graphs/half HTTP/1.1\r\nHost: a\r\nConnection: close\r\n\r\n")
        try:
            check("a second client of one worker", second.recv(65536), "nothing")
        except TimeoutError:
            pass
        first.close()
        second.settimeout(20)
        check("a second client of one worker", read_all(second), b"HTTP/1.1 404 Not Found\r\nContent-Length: 0\r\nStore-Commit: 1\r\nConnection: close\r\n\r\n")
    print("one worker: a second client waits until the first leaves in the middle of an upload")


def check_conversations(program):
    with Server(program) as server:
        for part in (check_cases, check_continue, check_pipeline, check_keep_alive, check_requests, check_rdflib):
            part(server)
        check("the server", server.is_running(), True)
    with Server(program, "--base", "http://a.example:80", "--piece", "2", "--workers", "1") as server:
        for part in (check_base_and_pieces, check_one_worker):
            part(server)
        check("the server of one worker", server.is_running(), True)


def main(program, seconds=None):
    if seconds is None:
        check_conversations(program)
    else:
        failures.extend(server_load.failures_of(program, float(seconds)))
    if failures:
        raise SystemExit(f"wrong: {', '.join(failures)}")


if __name__ == "__main__":
    main(*sys.argv[1:])
