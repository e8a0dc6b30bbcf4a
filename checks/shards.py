"""Three gsd behind HAProxy beside one gsd: shards.py PROGRAM SECONDS. The status is 0 only where all was right."""
import contextlib
import http.client
import os
import pathlib
import re
import socket
import subprocess
import sys
import tempfile
import time
import urllib.parse

import server
from serving import Server

CONFIGURATION = pathlib.Path(__file__).parent.parent / "examples" / "haproxy" / "haproxy.cfg"
# The base of the rows of server.py.
BASE = "http://localhost"
OPTIONS = ("--base", BASE, "--workers", "64")
N_TRIPLES = "application/n-triples"
LINE = '<http://e/s> <http://e/p> "1" .\n'
# What a balancer says for itself, not for its servers.
HOP_BY_HOP = ("connection", "keep-alive")
FEW = [f"/graphs/f{number}" for number in range(12)]
MANY = 400

# Each row is one graph, under all the targets that name it.
SPELLINGS = [
    ("/graphs/a", "/store?graph=http://localhost/graphs/a", "/store?graph=http%3A%2f%2Flocalhost%2Fgraphs%2Fa", "/store?graph=http://localhost/graphs/%61"),
    ("/graphs/a%20b", "/store?graph=http://localhost/graphs/a%2520b"),
    ("/graphs/a+b", "/store?graph=http://localhost/graphs/a+b", "/store?graph=http://localhost/graphs/a%2Bb"),
    ("/graphs/a?b+c", "/store?graph=http://localhost/graphs/a?b+c", "/store?graph=http://localhost/graphs/a%3Fb%2bc"),
    ("/graphs/a;b", "/store?graph=http://localhost/graphs/a;b", "/store?graph=http://localhost/graphs/a%3Bb"),
    ("/graphs/50%", "/store?graph=http://localhost/graphs/50%", "/store?graph=http://localhost/graphs/50%25"),
    ("/graphs/5%0g", "/store?graph=http://localhost/graphs/5%0g", "/store?graph=http://localhost/graphs/5%250g"),
    ("/store?graph=urn:x:%C3%A9", "/store?graph=urn:x:%c3%a9", "/store?graph=urn%3Ax%3A%C3%a9"),
    ("/store?graph=http://e/a;b=c", "/store?graph=http://e/a%3Bb%3Dc"),
    ("/store?graph=http://e/graph=", "/store?graph=http://e/graph%3D"),
    ("/store?default", "/store?default="),
]


class Balancer:
    """HAProxy by this configuration before these servers, for as long as a with block."""

    def __init__(self, configuration, servers):
        with socket.create_server(("127.0.0.1", 0)) as free:
            self.port = free.getsockname()[1]
        self.url = f"http://127.0.0.1:{self.port}"
        said = {"GSD_FRONT": f"127.0.0.1:{self.port}", "GSD_BASE": BASE}
        said |= {f"GSD_{name}": f"127.0.0.1:{it.port}" for name, it in zip("ABCD", servers)}
        self.words, self.environment = ["haproxy", "-db", "-q", "-f", str(configuration)], os.environ | said

    def __enter__(self):
        self.process = subprocess.Popen(self.words, env=self.environment, stdin=subprocess.DEVNULL)
        for _ in range(400):
            with contextlib.suppress(OSError), socket.create_connection(("127.0.0.1", self.port), timeout=1):
                return self
            time.sleep(0.05)
        self.__exit__()
        raise SystemExit("haproxy does not answer")

    def __exit__(self, *_):
        self.process.terminate()
        self.process.wait(timeout=20)


def started_again(ended, program):
    """A server at the address of one that has ended."""
    again = Server(program, *OPTIONS)
    again.words[2] = f"127.0.0.1:{ended.port}"
    return again


def ask(to, method, target, body=None, fields=()):
    """One reply: its status, its fields but for those of the connection itself, its body."""
    words = ["--head"] if method == "HEAD" else ["-X", method]
    for field in fields or ([f"Content-Type: {N_TRIPLES}"] if body else []):
        words += ["-H", field]
    if body is not None:
        words += ["-H", "Expect:", "--data-binary", "@-"]
    replies = server.curl(*words, to.url + target, sent=None if body is None else body.encode())
    status, said, text = replies[-1]
    return status, {name: value for name, value in said.items() if name not in HOP_BY_HOP}, text


def status(to, method, target, body=None):
    connection = http.client.HTTPConnection("127.0.0.1", to.port, timeout=30)
    with contextlib.closing(connection):
        connection.request(method, target, body, {"Content-Type": N_TRIPLES} if body else {})
        return connection.getresponse().status


def without_numbers(reply):
    """The number of a request left out of the names that it makes, and that of a commit out of its field: each server has its own."""
    code, said, text = reply
    said = {name: re.sub(r"/graphs/n[0-9]+-", "/graphs/n-", value) for name, value in said.items()}
    if "store-commit" in said:
        said["store-commit"] = re.sub("[0-9]+", "N", said["store-commit"])
    return code, said, re.sub(r"_:b[0-9]+_", "_:b_", text)


def check_cases(front, alone):
    """Each row of server.py is answered as it says, and by both alike."""
    for method, target, fields, sent, code, wanted, body in server.CASES:
        name = f"{method} {target} {sent or ''}"
        got = ask(front, method, target, sent, fields)
        if target == "/store" and method in ("GET", "HEAD"):
            # three servers have no one moment, so the balancer reads no graphs of all
            server.check(name, got[0], 405)
            continue
        server.check(name, got[0::2], (code, body))
        wanted = {field: value for field, value in wanted.items() if field not in HOP_BY_HOP}
        server.check(name, {field: got[1].get(field) for field in wanted}, wanted)
        server.check(f"{name}, beside one server", without_numbers(got), without_numbers(ask(alone, method, target, sent, fields)))
    print(f"curl: {len(server.CASES)} requests, answered as one server answers them")


def check_blank_nodes(front, alone):
    """Labels of blank nodes have the number of a request, which is a server's own."""
    for to in (front, alone):
        ask(to, "PUT", "/graphs/blank", "_:x <http://e/p> _:y .\n")
    server.check("blank nodes", without_numbers(ask(front, "GET", "/graphs/blank")), without_numbers(ask(alone, "GET", "/graphs/blank")))


def said_to(to, sent):
    """What comes for these bytes, with names of fields in small letters, no field of the connection itself and no number of a commit."""
    with socket.create_connection(("127.0.0.1", to.port), timeout=30) as connection:
        connection.sendall(sent)
        said = server.read_all(connection).decode()
    said = re.sub(r"(?m)^([A-Za-z-]+):", lambda found: found[0].lower(), said)
    said = re.sub(r"(?m)^store-commit: [0-9]+\r\n", "store-commit: N\r\n", said)
    return re.sub(r"(?m)^connection: close\r\n", "", said)


def check_sockets(front, alone):
    """Many requests sent at once on one connection, and a body that is refused before it comes."""
    sent = []
    for number in range(50):
        line = LINE.replace('"1"', f'"{number}"')
        head = f"PUT /graphs/p{number} HTTP/1.1\r\nHost: a\r\nContent-Type: {N_TRIPLES}\r\nContent-Length: {len(line)}\r\n\r\n"
        sent += [head, line, f"GET /graphs/p{number} HTTP/1.1\r\nHost: a\r\n\r\n"]
    sent.append("DELETE /graphs/none HTTP/1.1\r\nHost: a\r\nConnection: close\r\n\r\n")
    pipeline = "".join(sent).encode()
    heard = said_to(alone, pipeline)
    server.check("a pipeline, replies", len(re.findall(r"(?m)^HTTP/1\.1 20[01] ", heard)), 100)
    server.check("a pipeline", said_to(front, pipeline), heard)
    # A balancer keeps the connection for the body that was announced; its client is free to leave.
    with socket.create_connection(("127.0.0.1", front.port), timeout=30) as connection:
        head = "PUT /graphs/waits HTTP/1.1\r\nHost: a\r\nContent-Type: a/b\r\nExpect: 100-continue\r\nContent-Length: 9\r\n\r\n"
        connection.sendall(head.encode())
        server.check("a refused body", connection.recv(65536)[:15], b"HTTP/1.1 415 Un")
    words = ["-X", "PUT", "-H", "Expect: 100-continue", "-H", "Content-Type: text/turtle", "--data-binary", "@-"]
    codes = [reply[0] for reply in server.curl(*words, front.url + "/graphs/waits", sent=b"<a> <b> <c> .")]
    server.check("Expect: 100-continue", codes, [100, 201])
    print("plain sockets: 101 requests on one connection, and a body that is refused")


def holders(servers, target):
    """The servers that have a graph."""
    return [number for number, it in enumerate(servers) if status(it, "HEAD", target) == 200]


def check_spellings(front, servers):
    """A graph is found by each of its names, and lies on one server."""
    for targets in SPELLINGS:
        is_default = "default" in targets[0]
        server.check(f"PUT {targets[0]}", status(front, "PUT", targets[0], LINE), 204 if is_default else 201)
        for target in targets:
            server.check(f"GET {target}", ask(front, "GET", target)[0::2], (200, LINE))
        if not is_default:
            server.check(f"{targets[0]}, servers", len(holders(servers, targets[0])), 1)
        server.check(f"DELETE {targets[-1]}", status(front, "DELETE", targets[-1]), 204)
        for target in targets if not is_default else ():
            server.check(f"GET {target}, deleted", status(front, "GET", target), 404)
    print(f"names: {len(SPELLINGS)} graphs under {sum(map(len, SPELLINGS))} targets")


def check_places(front, servers):
    """Graphs lie on each of the servers, each on one; those that the store names itself lie together."""
    for target in FEW:
        server.check(f"PUT {target}", status(front, "PUT", target, LINE), 201)
    places = {target: holders(servers, target) for target in FEW}
    server.check("each graph on one server", {len(it) for it in places.values()}, {1})
    server.check("servers with graphs", {it[0] for it in places.values()}, set(range(len(servers))))
    made = [ask(front, "POST", "/store", LINE)[1]["location"] for _ in range(6)]
    server.check("made names", len(set(made)), 6)
    for name in made:
        for target in (name.removeprefix(BASE), "/store?graph=" + urllib.parse.quote(name, safe="")):
            server.check(f"GET {target}", ask(front, "GET", target)[0::2], (200, LINE))
    server.check("servers with made names", len({holders(servers, name.removeprefix(BASE))[0] for name in made}), 1)
    counts = [sum(it == [number] for it in places.values()) for number in range(len(servers))]
    print(f"places: {len(FEW)} graphs lie {', '.join(map(str, counts))} on the servers, {len(made)} made ones on one")
    return {target: it[0] for target, it in places.items()}


def check_conditions(front):
    """Of two editors who read a graph at the same number, the second comes too late, whichever server has the graph."""
    for target in FEW:
        number = ask(front, "GET", target)[1]["store-commit"]
        fields = [f"Content-Type: {N_TRIPLES}", f"If-Store-Commit: {number}"]
        first, second = (ask(front, "PUT", target, line, fields) for line in (LINE, LINE.replace('"1"', '"2"')))
        server.check(f"PUT {target}, on condition", (first[0], second[0]), (204, 412))
        server.check(f"GET {target}, after a 412", ask(front, "GET", target)[2], LINE)
        again = [fields[0], f"If-Store-Commit: {ask(front, 'GET', target)[1]['store-commit']}"]
        server.check(f"PUT {target}, read again", ask(front, "PUT", target, LINE, again)[0], 204)
    print(f"on condition: the second of two editors is refused, of each of {len(FEW)} graphs, until it reads again")


def check_fourth(program, front, servers, room):
    """How many graphs another server takes over, and that all others stay where they are."""
    targets = [f"/graphs/m{number}" for number in range(MANY)]
    for target in targets:
        status(front, "PUT", target, LINE)
    longer = pathlib.Path(room, "four.cfg")
    lines = CONFIGURATION.read_text().rstrip("\n") + '\n    server d "${GSD_D}" id 4\n'
    longer.write_text(lines)
    with Server(program, *OPTIONS) as fourth, Balancer(longer, [*servers, fourth]) as wider:
        moved = [target for target in targets if status(wider, "HEAD", target) == 404]
        for target in moved:
            server.check(f"PUT {target}, moved", status(wider, "PUT", target, ask(front, "GET", target)[2]), 201)
            server.check(f"{target}, moved", status(fourth, "HEAD", target), 200)
        server.check("graphs after the move", {status(wider, "HEAD", target) for target in targets}, {200})
    server.check("a share of the graphs moves", MANY // 8 < len(moved) < MANY // 2, True)
    print(f"a fourth server: {len(moved)} of {MANY} graphs belong to it, all others stay")


def check_ended(program, front, servers, places):
    """The graphs of a server that ended are 503, read or written, the others are served; once it is back, it has none."""
    gone = places[FEW[0]]
    servers[gone].__exit__()
    for target, place in places.items():
        server.check(f"GET {target}, a server ended", status(front, "GET", target), 503 if place == gone else 200)
        server.check(f"PUT {target}, a server ended", status(front, "PUT", target, LINE), 503 if place == gone else 204)
    left = [it for number, it in enumerate(servers) if number != gone]
    server.check("graphs of the ended server elsewhere", [it for it, place in places.items() if place == gone and holders(left, it)], [])
    with started_again(servers[gone], program):
        for target, place in places.items():
            server.check(f"GET {target}, all back", status(front, "GET", target), 404 if place == gone else 200)
            server.check(f"PUT {target}, all back", status(front, "PUT", target, LINE), 201 if place == gone else 204)
    many = sum(place == gone for place in places.values())
    print(f"one server ended: {many} graphs are 503, {len(places) - many} are served; once it is back its graphs are 404, and can be put")


def spent(parts):
    """The processor seconds that these programs have taken."""
    ticks = 0
    for it in parts:
        fields = pathlib.Path(f"/proc/{it.process.pid}/stat").read_text().rsplit(")", 1)[1].split()
        ticks += int(fields[11]) + int(fields[12])
    return ticks / os.sysconf("SC_CLK_TCK")


def speed(to, parts, target, connections, seconds):
    """Requests a second by wrk, and the processor seconds of these programs for each."""
    before = spent(parts)
    words = ["wrk", "-t1", "--timeout", "30s", f"-c{connections}", f"-d{seconds}s", f"{to.url}{target}"]
    said = subprocess.run(words, capture_output=True, text=True, check=True).stdout
    if "Non-2xx" in said or "Socket errors" in said:
        raise SystemExit(f"wrk on {target}:\n{said}")
    return float(re.search(r"Requests/sec:\s*([\d.]+)", said)[1]), (spent(parts) - before) / int(re.search(r"(\d+) requests in", said)[1])


def measure(front, servers, alone, seconds):
    """How fast the balancer hands replies on, and at which price, beside one server that is asked directly, in turns."""
    large = "".join(LINE.replace('"1"', f'"{number:08}"') for number in range(100_000))
    for to in (front, alone):
        status(to, "PUT", "/graphs/large", large)
        status(to, "PUT", "/graphs/small", LINE)
    rows = (("GET of one line, 32 connections", "/graphs/small", 32), ("GET of 100,000 lines, 4 connections", "/graphs/large", 4))
    for title, target, connections in rows:
        sides = (front, [front, *servers]), (alone, [alone])
        rounds = [[speed(to, parts, target, connections, seconds) for to, parts in sides] for _ in range(3)]
        fast = [max(it[side][0] for it in rounds) for side in (0, 1)]
        price = [min(it[side][1] for it in rounds) for side in (0, 1)]
        print(f"speed: {title}: {fast[0] / fast[1]:.2f} of one server, {price[0] / price[1]:.2f} times its processor time, by the best of three rounds")


def main(program, seconds):
    with contextlib.ExitStack() as stack:
        room = stack.enter_context(tempfile.TemporaryDirectory())
        alone = stack.enter_context(Server(program, *OPTIONS))
        servers = [stack.enter_context(Server(program, *OPTIONS)) for _ in range(3)]
        front = stack.enter_context(Balancer(CONFIGURATION, servers))
        check_cases(front, alone)
        check_blank_nodes(front, alone)
        check_sockets(front, alone)
        for part in (server.check_keep_alive, server.check_requests, server.check_rdflib):
            part(front)
        check_spellings(front, servers)
        places = check_places(front, servers)
        check_conditions(front)
        check_fourth(program, front, servers, room)
        if int(seconds):
            measure(front, servers, alone, seconds)
        check_ended(program, front, servers, places)
    if server.failures:
        raise SystemExit(f"wrong: {', '.join(server.failures)}")


if __name__ == "__main__":
    main(*sys.argv[1:])
