"""Rows of what one client does, and what becomes of the others: hostile.py PROGRAM [ROUNDS]. Each row has a bar; the status is 0
only where each row holds its bar in one of its rounds, and all replies were right in each."""
import os
import socket
import sys
import threading
import time

from serving import Server

# Seconds after which a reply is given up.
PATIENCE = 60

P, Q, R, S = (f"<http://e/{name}>" for name in "pqrs")


def node(kind, number):
    """The IRI of a node; numbers stand in no order of their bytes."""
    return f"<http://e/{kind}{number}>"


def line(subject, verb, value):
    return f"{subject} {verb} {value} .\n"


class Client:
    """One connection. Requests are made up before they are timed."""

    def __init__(self, server, kept_small=False):
        self.socket = socket.socket()
        if kept_small:
            self.socket.setsockopt(socket.SOL_SOCKET, socket.SO_RCVBUF, 4096)
        self.socket.settimeout(PATIENCE)
        self.socket.connect(("127.0.0.1", server.port))
        self.socket.setsockopt(socket.IPPROTO_TCP, socket.TCP_NODELAY, 1)

    def send(self, data):
        self.socket.sendall(data)

    def reply(self):
        """The head of a reply without a body."""
        data = b""
        while not data.endswith(b"\r\n\r\n"):
            more = self.socket.recv(4096)
            if not more:
                raise SystemExit(f"the connection ended after {data!r}")
            data += more
        return data

    def status(self, data):
        """The status of the reply to a request."""
        self.send(data)
        return int(self.reply()[9:12])

    def lines(self, target):
        """The lines of a graph."""
        self.send(f"GET {target} HTTP/1.1\r\nHost: a\r\nConnection: close\r\n\r\n".encode())
        data = b""
        while more := self.socket.recv(65536):
            data += more
        head, _, rest = data.partition(b"\r\n\r\n")
        if not head.startswith(b"HTTP/1.1 200"):
            raise SystemExit(f"a GET of {target} is answered {head!r}")
        body = b""
        while True:
            size, _, rest = rest.partition(b"\r\n")
            many = int(size, 16)
            if not many:
                return body.decode().splitlines(keepends=True)
            body, rest = body + rest[:many], rest[many + 2:]

    def close(self):
        self.socket.close()


def request(method, target, media, body):
    data = body.encode()
    head = f"{method} {target} HTTP/1.1\r\nHost: a\r\nContent-Type: {media}\r\nContent-Length: {len(data)}\r\n\r\n"
    return head.encode() + data


def put(target, lines):
    return request("PUT", target, "application/n-triples", "".join(lines))


def post(target, lines):
    return request("POST", target, "application/n-triples", "".join(lines))


def delete_where(target, patterns):
    return request("PATCH", target, "application/sparql-update", f"DELETE WHERE {{ {patterns} }}")


def processor_seconds(server):
    """What the server has taken of the processors."""
    with open(f"/proc/{server.process.pid}/stat") as file:
        fields = file.read().rpartition(")")[2].split()
    return (int(fields[11]) + int(fields[12])) / os.sysconf("SC_CLK_TCK")


class Bystander:
    """A client that asks for a graph of one triple, again and again, and keeps the longest wait."""

    def __init__(self, server):
        self.longest = 0.0
        self.goes_on = True
        self.client = Client(server)
        self.thread = threading.Thread(target=self.run, daemon=True)

    def run(self):
        data = b"HEAD /graphs/one HTTP/1.1\r\nHost: a\r\n\r\n"
        while self.goes_on:
            start = time.perf_counter()
            try:
                is_right = self.client.status(data) == 200
            except OSError:
                is_right = False
            self.longest = max(self.longest, time.perf_counter() - start if is_right else float("inf"))
            time.sleep(0.0002)

    def __enter__(self):
        self.thread.start()
        time.sleep(0.05)
        self.longest = 0.0
        return self

    def __exit__(self, *_):
        self.goes_on = False
        self.thread.join(timeout=1)
        self.client.close()


def chain(many):
    """Pairs of lines, each object of the first verb having one value of the second."""
    return [it for i in range(many // 2) for it in (line(node("a", i), P, node("x", i)), line(node("x", i), Q, node("z", i)))]


def join(many):
    """Half of the lines have one object, which has all the values of the other half."""
    half = many // 2
    return [line(node("a", i), P, node("x", 0)) for i in range(half)] + [line(node("x", 0), Q, node("z", i)) for i in range(half)]


def layers(wide, many):
    """So many layers in a ring, each node linked to each of the next layer: each key has partners, and no circle is shorter than the ring."""
    return [line(node(f"l{k}n", i), P, node(f"l{(k + 1) % many}n", j)) for k in range(many) for i in range(wide) for j in range(wide)]


def star(many):
    """Subjects with four verbs each."""
    return [line(node("s", i), verb, node("o", i)) for i in range(many // 4) for verb in (P, Q, R, S)]


# What is asked, the lines of the graph, the patterns, whether all lines go or none, and in what time (seconds) it is wanted: until
# it is done, and that others wait at most.
PATTERNS = [
    ("four patterns that share no variable, 1,000 triples", lambda: chain(1_000),
     "?a ?b ?c . ?d ?e ?f . ?g ?h ?i . ?j ?k ?l", True, 2.0, 1.0),
    ("the same, 100,000 triples", lambda: chain(100_000),
     "?a ?b ?c . ?d ?e ?f . ?g ?h ?i . ?j ?k ?l", True, 5.0, 5.0),
    ("a chain with a second subject, 100,000 triples", lambda: chain(100_000),
     f"?a {P} ?x . ?x {Q} ?z . ?b {P} ?x", True, 2.0, 1.0),
    ("the same, all on one object", lambda: join(100_000),
     f"?a {P} ?x . ?x {Q} ?z . ?b {P} ?x", True, 2.0, 1.0),
    ("a circle of three, in a ring of four full layers of 100, 40,000 triples", lambda: layers(100, 4),
     f"?a {P} ?b . ?b {P} ?c . ?c {P} ?a", False, 4.0, 4.0),
    ("a circle of four, in a ring of five full layers of 40, 8,000 triples", lambda: layers(40, 5),
     f"?a {P} ?b . ?b {P} ?c . ?c {P} ?d . ?d {P} ?a", False, 1.0, 1.0),
    ("a star of four on a subject, 40,000 triples", lambda: star(40_000),
     f"?x {P} ?a . ?x {Q} ?b . ?x {R} ?c . ?x {S} ?d", True, 1.0, 1.0),
    ("a known subject written last, 100,000 triples", lambda: chain(100_000),
     f"?x {Q} ?z . {node('a', 7)} {P} ?x", None, 0.5, 0.5),
]


def pattern_row(program, row):
    """How long it takes, how long others wait, and whether what is left is right."""
    name, lines_of, patterns, goes, _, _ = row
    lines = lines_of()
    with Server(program) as server:
        client = Client(server)
        client.status(put("/graphs/one", [line(node("s", 1), P, node("o", 1))]))
        client.status(put("/graphs/many", lines))
        with Bystander(server) as bystander:
            start = time.perf_counter()
            try:
                status = client.status(delete_where("/graphs/many", patterns))
            except TimeoutError:
                server.process.kill()
                return float("inf"), float("inf")
            taken = time.perf_counter() - start
            time.sleep(0.05)
        left = len(Client(server).lines("/graphs/many"))
        wanted = {True: 0, False: len(set(lines)), None: len(set(lines)) - 2}[goes]
        if status != 204 or left != wanted:
            raise SystemExit(f"{name}: status {status}, {left} lines left in place of {wanted}")
        return taken, bystander.longest


def patterns(program, rounds):
    right = True
    for row in PATTERNS:
        runs = [pattern_row(program, row) for _ in range(rounds)]
        taken, waited = (min(run[k] for run in runs) for k in (0, 1))
        holds = taken <= row[4] and waited <= row[5]
        right = right and holds
        missed = "" if holds else ": MISSED"
        print(f"{row[0]}: done in {taken:.3f} s (at most {row[4]:g}), others waited {waited:.3f} s (at most {row[5]:g}){missed}", flush=True)
    return right


def stopped_reader(server):
    """A client that asks for the large graph, reads a little of it, and stops."""
    reader = Client(server, kept_small=True)
    reader.send(b"GET /graphs/many HTTP/1.1\r\nHost: a\r\n\r\n")
    if not reader.socket.recv(1000).startswith(b"HTTP/1.1 200"):
        raise SystemExit("the large graph is not there")
    return reader


def posts(client, first, many):
    """POSTs of one triple each: how long they took together, and the longest of them."""
    data = [post("/graphs/many", [line(node("more", i), Q, node("n", i))]) for i in range(first, first + many)]
    longest, start = 0.0, time.perf_counter()
    for one in data:
        before = time.perf_counter()
        if client.status(one) != 204:
            raise SystemExit("a POST is not answered 204")
        longest = max(longest, time.perf_counter() - before)
    return time.perf_counter() - start, longest


def posts_beside(program, readers, many):
    """POSTs a second onto 200,000 triples beside so many readers that have stopped, and their processor time."""
    with Server(program, "--workers", "4") as server:
        client = Client(server)
        client.status(put("/graphs/many", [line(node("s", i), P, node("o", i)) for i in range(200_000)]))
        posts(client, 1_000_000, 1_000)
        stopped = [stopped_reader(server) for _ in range(readers)]
        time.sleep(0.2)
        before = processor_seconds(server)
        taken, longest = posts(client, 0, many)
        processor = processor_seconds(server) - before
        for reader in stopped:
            reader.close()
        return many / taken, longest, processor / many * 1e6


def slow_reader(program, rounds, many=20_000, wanted=0.8):
    best = 0.0
    for _ in range(rounds):
        alone, beside = posts_beside(program, 0, many), posts_beside(program, 1, many)
        ratio = beside[0] / alone[0]
        best = max(best, ratio)
        print(f"POSTs beside a reader of 200,000 triples that has stopped: {beside[0]:,.0f} a second, {alone[0]:,.0f} without it, {ratio:.2f} of it"
              f" (processor: {beside[2]:.0f} and {alone[2]:.0f} µs each; longest wait {beside[1] * 1e3:.1f} and {alone[1] * 1e3:.1f} ms)", flush=True)
    holds = best >= wanted
    missed = "" if holds else ": MISSED"
    print(f"  the best of {rounds}: {best:.2f} (at least {wanted:g}){missed}")
    return holds


def readers_end(program, rounds, wanted=0.020):
    """The longest wait of a POST where two readers that have stopped end, one after the other, among 32,000 POSTs."""
    best = 1e9
    for _ in range(rounds):
        with Server(program, "--workers", "4") as server:
            client = Client(server)
            client.status(put("/graphs/many", [line(node("s", i), P, node("o", i)) for i in range(200_000)]))
            stopped = [stopped_reader(server) for _ in range(2)]
            time.sleep(0.2)
            _, first = posts(client, 0, 16_000)
            longest = 0.0
            for part, reader in enumerate(stopped):
                reader.close()
                longest = max(longest, posts(client, 20_000 + 8_000 * part, 8_000)[1])
            best = min(best, longest)
            print(f"two readers that have stopped end among POSTs: the longest wait {longest * 1e3:.1f} ms, before they end {first * 1e3:.1f} ms", flush=True)
    holds = best <= wanted
    missed = "" if holds else ": MISSED"
    print(f"  the best of {rounds}: {best * 1e3:.1f} ms (at most {wanted * 1e3:g}){missed}")
    return holds


def ended_names(program, rounds, many=20_000, wanted=0.050):
    """The longest wait of a POST while the records of so many deleted names are freed at once, since a reader that kept them ends. The
    names have 1,900 letters each, and differ at their end alone."""
    names = [f"/graphs/{'n' * 1_900}{number}" for number in range(many)]
    best = 1e9
    for _ in range(rounds):
        with Server(program, "--workers", "4") as server:
            client = Client(server)
            client.status(put("/graphs/many", [line(node("s", i), P, node("o", i)) for i in range(200_000)]))
            for name in names:
                client.status(put(name, []))
            reader = stopped_reader(server)
            for name in names:
                if client.status(f"DELETE {name} HTTP/1.1\r\nHost: a\r\n\r\n".encode()) != 204:
                    raise SystemExit("a DELETE is not answered 204")
            reader.close()
            longest = posts(client, 0, 8_000)[1]
            best = min(best, longest)
            print(f"a reader that kept {many} deleted names ends among POSTs: the longest wait {longest * 1e3:.1f} ms", flush=True)
    holds = best <= wanted
    missed = "" if holds else ": MISSED"
    print(f"  the best of {rounds}: {best * 1e3:.1f} ms (at most {wanted * 1e3:g}){missed}")
    return holds


HEAD = b"HEAD /store?default HTTP/1.1\r\nHost: a\r\n\r\n"


def silent_row(program, asks, many=64):
    """How long one more client waits beside so many that stay: they asked once and were answered, or said nothing at all."""
    with Server(program, "--workers", "4") as server:
        clients = [Client(server) for _ in range(many)]
        try:
            if asks:
                for client in clients:
                    client.send(HEAD)
                for client in clients:
                    client.reply()
            more = Client(server)
            start = time.perf_counter()
            is_right = more.status(HEAD) == 200
        except TimeoutError:
            server.process.kill()
            return float("inf")
        if not is_right:
            raise SystemExit("a HEAD of the default graph is not answered 200")
        return time.perf_counter() - start


def kept_row(program, many=64, seconds=10):
    """The longest wait of so many clients that each ask once a second over a connection that is kept."""
    longest = [float("inf")] * many

    def run(number, server, end):
        time.sleep(number / many)
        client, most = Client(server), 0.0
        while time.perf_counter() < end:
            start = time.perf_counter()
            if client.status(HEAD) != 200:
                return
            taken = time.perf_counter() - start
            most = max(most, taken)
            time.sleep(max(0.0, 1 - taken))
        longest[number] = most

    with Server(program, "--workers", "4") as server:
        end = time.perf_counter() + seconds
        threads = [threading.Thread(target=run, args=(number, server, end), daemon=True) for number in range(many)]
        for thread in threads:
            thread.start()
        for thread in threads:
            thread.join(timeout=end + PATIENCE - time.perf_counter())
    return max(longest)


def sends_on_row(program, many=4):
    """How long one more client waits beside so many that were told the end of their connections and go on sending."""
    last = HEAD.replace(b"\r\n\r\n", b"\r\nConnection: close\r\n\r\n")
    is_over = threading.Event()

    def run(client):
        while not is_over.wait(0.02):
            try:
                client.send(b"#")
            except OSError:
                return

    with Server(program, "--workers", "4") as server:
        clients = [Client(server) for _ in range(many)]
        for client in clients:
            client.send(last)
        for client in clients:
            client.reply()
        threads = [threading.Thread(target=run, args=(client,), daemon=True) for client in clients]
        for thread in threads:
            thread.start()
        try:
            more = Client(server)
            start = time.perf_counter()
            is_right = more.status(HEAD) == 200
            taken = time.perf_counter() - start
        except TimeoutError:
            server.process.kill()
            return float("inf")
        finally:
            is_over.set()
        if not is_right:
            raise SystemExit("a HEAD of the default graph is not answered 200")
        return taken


# What many clients do on four workers, and in what time (seconds) a reply is wanted.
MANY = [
    ("one more beside 64 clients that asked once and stay", lambda program: silent_row(program, True), 3.0),
    ("one more beside 64 clients that say nothing", lambda program: silent_row(program, False), 3.0),
    ("64 clients that ask once a second over connections that they keep", kept_row, 2.0),
    ("one more beside 4 clients that were told the end and send on", sends_on_row, 3.0),
]


def many_clients(program, rounds):
    right = True
    for name, row, wanted in MANY:
        waited = min(row(program) for _ in range(rounds))
        holds = waited <= wanted
        right = right and holds
        missed = "" if holds else ": MISSED"
        print(f"{name}: waited {waited:.3f} s (at most {wanted:g}){missed}", flush=True)
    return right


# The bytes of addresses that a server has for these texts, in what time (seconds) a reply to another client is wanted, with which
# status, and how many bytes the server may grow by.
ADDRESSES = 1_500_000_000
GROWTH = 100_000_000
LONG = "a" * 65_000
DEAR = [
    ("an update of 575 kB, a triple of three names of 65,000 bytes, with 170,000 objects: 33.2 GB are made", "PATCH", "application/sparql-update",
     f"PREFIX p: <http://e/{LONG}> INSERT DATA {{ p: p: {','.join(['p:'] * 170_000)} }}", 1.0, 204, 2),
    ("the same with 180,000 objects, for which 35.1 GB would be made", "PATCH", "application/sparql-update",
     f"PREFIX p: <http://e/{LONG}> INSERT DATA {{ p: p: {','.join(['p:'] * 180_000)} }}", 1.0, 503, 1),
    ("a body of 650 kB, a subject of 65,000 bytes with 100,000 objects", "PUT", "text/turtle",
     f"<http://e/{LONG}> {P} {','.join(map(str, range(100_000)))} .", 1.0, 204, None),
    ("a body of 165 kB, whose base of 65,000 bytes is set 12,500 times more", "PUT", "text/turtle",
     f"BASE <http://e/{LONG}>" + " BASE <>" * 12_500, 1.0, 503, 1),
    ("an update of 415 kB, 50,000 of whose terms leave nearly all of its base out", "PATCH", "application/sparql-update",
     f"BASE <http://e/{LONG}/z> INSERT DATA {{ <a:a> <a:b> {','.join(['<../y>'] * 50_000)} }}", 1.0, 204, 2),
    ("the same with 140,000", "PATCH", "application/sparql-update",
     f"BASE <http://e/{LONG}/z> INSERT DATA {{ <a:a> <a:b> {','.join(['<../y>'] * 140_000)} }}", 1.0, 503, 1),
    ("an update of 1,041 kB, each word of its patterns a prefix of 65,000 bytes", "PATCH", "application/sparql-update",
     f"PREFIX p: <http://e/{LONG}> " + ";".join([f"DELETE WHERE {{ {'p: p: p: . ' * 4}}}"] * 16_000), 1.0, 503, 1),
    ("a body of 2.1 MB, 200,000 objects by 200 prefixes of 5,000 bytes", "PUT", "text/turtle",
     "".join(f"PREFIX p{k}: <http://e/{'a' * 5_000}{k}> " for k in range(200)) + f"<a:a> <a:b> {','.join(f'p{k % 200}:' for k in range(200_000))} .", 0.5, 204, 200),
    ("a body of 970 kB, whose every term is another one of 65,000 bytes by its prefix", "PUT", "text/turtle",
     f"PREFIX p: <http://e/{LONG}> " + "".join(f"p:{3 * k} p:{3 * k + 1} p:{3 * k + 2} . " for k in range(35_000)), 1.0, 503, 1),
    ("an update of 1,011 kB, 86,000 times one triple of a prefix of 65,000 bytes", "PATCH", "application/sparql-update",
     f"PREFIX p: <http://e/{LONG}> INSERT DATA {{ {'p: p: p: . ' * 86_000} }}", 1.0, 204, 2),
    ("the same, deleted 85,000 times", "PATCH", "application/sparql-update",
     f"PREFIX p: <http://e/{LONG}> INSERT DATA {{ p: p: p: }} ; DELETE DATA {{ {'p: p: p: . ' * 85_000} }}", 1.0, 204, 1),
]


def dear_row(program, row):
    """How long it takes until such a text is answered, how long others wait, and how much the server grows; afterwards it serves as
    before."""
    name, method, media, text, _, wanted, lines = row
    with Server(program, addresses=ADDRESSES) as server:
        client = Client(server)
        for target in ("one", "many"):
            client.status(put(f"/graphs/{target}", [line(node("s", 1), P, node("o", 1))]))
        before = server.resident_bytes()
        with Bystander(server) as bystander:
            start = time.perf_counter()
            try:
                status = client.status(request(method, "/graphs/many", media, text))
            except TimeoutError:
                raise SystemExit(f"{name}: no answer within {PATIENCE} s") from None
            taken = time.perf_counter() - start
            time.sleep(0.05)
        grown = server.resident_bytes() - before
        # (where no number stands, so many lines would be gigabytes)
        left = len(Client(server).lines("/graphs/many")) if lines else None
        if status != wanted or left != lines:
            raise SystemExit(f"{name}: status {status}, {left} lines in place of {lines}")
        return taken, bystander.longest, grown


def dear_texts(program, rounds):
    right = True
    for row in DEAR:
        runs = [dear_row(program, row) for _ in range(rounds)]
        taken, waited, grown = (min(run[k] for run in runs) for k in range(3))
        holds = waited <= row[4] and grown <= GROWTH
        right = right and holds
        missed = "" if holds else ": MISSED"
        print(f"{row[0]}: {row[5]} in {taken:.3f} s, others waited {waited:.3f} s (at most {row[4]:g}), "
              f"{grown / 1e6:.1f} MB more (at most {GROWTH / 1e6:g}){missed}", flush=True)
    return right


def put_again(client, request, many, batch=100):
    """The same request so many times, some of them sent before their replies."""
    for _ in range(many // batch):
        client.send(request * batch)
        replies = b""
        while replies.count(b"\r\n\r\n") < batch:
            replies += client.socket.recv(65536)
        if replies.count(b"HTTP/1.1 20") != batch:
            raise SystemExit(f"a PUT was answered {replies[:40]!r}")


def empty_puts(program, rounds, warm=70_000, many=100_000, wanted=4_000_000):
    """How much memory PUTs of an empty graph take, each of which leaves a record to be freed; the first fill the page of what was
    asked."""
    grown = []
    for _ in range(rounds):
        with Server(program) as server:
            client = Client(server)
            put_again(client, put("/graphs/empty", []), warm)
            before = server.resident_bytes()
            put_again(client, put("/graphs/empty", []), many)
            grown.append(server.resident_bytes() - before)
    holds = min(grown) <= wanted
    print(f"{many} PUTs of an empty graph: {min(grown) / 1e6:.1f} MB more (at most {wanted / 1e6:g}){'' if holds else ': MISSED'}", flush=True)
    return holds


def small_puts(program, rounds, warm=1_000, many=20_000, wanted=48_000_000):
    """How much memory PUTs of 60 triples take in the page of what was asked: each triple has terms of 74 bytes, and takes some
    25 in its small form."""
    lines = [line(f"<http://example.org/s/{number}>", "<http://example.org/p>", f"<http://example.org/o/{number}>") for number in range(100, 160)]
    grown = []
    for _ in range(rounds):
        with Server(program) as server:
            client = Client(server)
            put_again(client, put("/graphs/small", lines), warm)
            before = server.resident_bytes()
            put_again(client, put("/graphs/small", lines), many)
            grown.append(server.resident_bytes() - before)
    holds = min(grown) <= wanted
    print(f"{many} PUTs of 60 triples: {min(grown) / 1e6:.1f} MB more (at most {wanted / 1e6:g}){'' if holds else ': MISSED'}", flush=True)
    return holds


# A name, and a PATCH of at most 1 MiB: what its operations are kept in is more than its bytes.
KEPT = [
    ("520,000 times one triple", f"INSERT DATA {{ <a:a> <a:b> {','.join(['1'] * 520_000)} }}"),
    ("65,000 operations of nothing", ";".join(["INSERT DATA {}"] * 65_000)),
    ("55,000 operations of one triple", "BASE <a:> " + ";".join(["INSERT DATA{<><>1}"] * 55_000)),
    ("68,000 patterns of short names", f"PREFIX p: <http://e/{'a' * 20}> " + ";".join([f"DELETE WHERE {{ {'p: p: p: . ' * 4}}}"] * 17_000)),
]


def same_patches(program, rounds, many=20, wanted=100_000_000):
    """The most memory that the page of what was asked keeps of PATCHes that come again and again. An operation counts 16 there, and a
    pattern eight times, and so does a triple of a patch of more than 1,024 operations; so a page keeps few of these."""
    right = True
    for name, text in KEPT:
        grown = []
        for _ in range(rounds):
            with Server(program) as server:
                client = Client(server)
                client.status(put("/graphs/one", [line(P, Q, R)]))
                before = server.resident_bytes()
                sizes = []
                for _ in range(many):
                    if client.status(request("PATCH", "/graphs/one", "application/sparql-update", text)) != 204:
                        raise SystemExit("a PATCH was not answered 204")
                    sizes.append(server.resident_bytes())
                grown.append(max(sizes) - before)
        holds = min(grown) <= wanted
        right = right and holds
        print(f"{many} PATCHes of {name}: at most {min(grown) / 1e6:.1f} MB more (at most {wanted / 1e6:g}){'' if holds else ': MISSED'}", flush=True)
    return right


def replaced_row(program, rounds, name, data, wanted=150_000_000):
    """How much memory a graph of 1,000 lines takes that is written 10,000 times, over 40 connections one after another, by 32 workers; and
    how much more after as many again."""
    grown, more = [], []
    for _ in range(rounds):
        with Server(program, "--workers", "32") as server:
            clients = [Client(server) for _ in range(32)]
            clients[0].status(put("/graphs/many", [line(P, Q, R)]))
            sizes = [server.resident_bytes()]
            for times in (10_000, 10_000):
                for _ in range(40):
                    client = clients.pop(0)
                    put_again(client, data, times // 40, 10)
                    client.close()
                    clients.append(Client(server))
                sizes.append(server.resident_bytes())
            grown.append(sizes[1] - sizes[0])
            more.append(sizes[2] - sizes[1])
    holds = min(grown) <= wanted and min(more) <= wanted / 10
    print(f"a graph of 1,000 lines that is {name} 10,000 times: {min(grown) / 1e6:.1f} MB more (at most {wanted / 1e6:g}), "
          f"and {min(more) / 1e6:.1f} MB after 20,000 (at most {wanted / 1e7:g}){'' if holds else ': MISSED'}", flush=True)
    return holds


def replaced(program, rounds):
    """The same for PUTs, and for PATCHes that insert what is there."""
    lines = [line(node("s", k // 5), P, f'"{k} of a thousand"') for k in range(1_000)]
    patch = request("PATCH", "/graphs/many", "application/sparql-update", "INSERT DATA { " + "".join(lines) + "}")
    rows = [("replaced", put("/graphs/many", lines)), ("patched", patch)]
    return all([replaced_row(program, rounds, name, data) for name, data in rows])


def said(name, right):
    print(f"{name}: {'right' if right else 'WRONG'}", flush=True)
    return right


def one_statement(program, rounds, many=4_000_000, wanted=640_000_000):
    """The most memory that a statement of so many objects takes, which are one and the same."""
    text = f"<a:a> <a:b> {'1,' * (many - 1)}1 ."
    grown = []
    for _ in range(rounds):
        with Server(program) as server:
            before = server.resident_bytes()
            if Client(server).status(request("PUT", "/graphs/one", "text/turtle", text)) != 201:
                raise SystemExit("a PUT was not answered 201")
            grown.append(server.peak_bytes() - before)
    holds = min(grown) <= wanted
    print(f"a statement of {many} times one object: at most {min(grown) / 1e6:.1f} MB more (at most {wanted / 1e6:g}){'' if holds else ': MISSED'}", flush=True)
    return holds


def repeats(program, rounds, many=4_100_000, batch=1_000):
    """A body that says one triple more often than a page of what was asked may have triples."""
    statement = f"<a:a> <a:b> {'1,' * (batch - 1)}1 .\n"
    with Server(program) as server:
        status = Client(server).status(request("PUT", "/graphs/one", "text/turtle", statement * (many // batch)))
        lines = Client(server).lines("/graphs/one")
    wanted = ['<a:a> <a:b> "1"^^<http://www.w3.org/2001/XMLSchema#integer> .\n']
    return said(f"a PUT that says one triple {many} times", status == 201 and lines == wanted)


def full_store(program, rounds, names=65_536, batch=128):
    """A store that has as many names as it may have still takes writes of these, and no other name."""
    with Server(program) as server:
        client = Client(server)
        for first in range(0, names, batch):
            client.send(b"".join(put(f"/graphs/{number}", []) for number in range(first, first + batch)))
            replies = b""
            while replies.count(b"\r\n\r\n") < batch:
                replies += client.socket.recv(65536)
            if replies.count(b"HTTP/1.1 201") != batch:
                raise SystemExit(f"a PUT of a new name was answered {replies[:40]!r}")
        known, new = (client.status(put(f"/graphs/{name}", [line(P, Q, R)])) for name in ("0", "new"))
    return said(f"a store of {names} names", (known, new) == (204, 507))


def count_replies(client, many, counted):
    """Counts the ends of replies in chunks until there are so many."""
    rest, found = b"", 0
    while found < many:
        data = rest + client.socket.recv(262144)
        found += data.count(b"\r\n0\r\n\r\n")
        rest = data[-6:]
    counted.set()


def send_in_parts(client, text, many, before):
    """Sends a text again and again, each time from its last byte on, and waits for all replies but the last."""
    counted = threading.Event()
    threading.Thread(target=count_replies, args=(client, many * text.count(b"GET") - (0 if before else 1), counted), daemon=True).start()
    for number in range(many):
        client.send((text[-1:] if before or number else b"") + text[:-1])
    if not counted.wait(PATIENCE):
        raise SystemExit("requests that were sent one upon the other were not all answered")


def pipelined(program, rounds, warm=70, many=400, wanted=4_000_000):
    """How much memory a client takes that never lets what it sends end with a request: what was answered may not stay. The first
    requests fill the page of what was asked."""
    text = b"GET /graphs/one HTTP/1.1\r\nHost: a\r\nX: abcdefghijklmnopqrstuv\r\n\r\n" * 1_000
    grown = []
    for _ in range(rounds):
        with Server(program) as server:
            client = Client(server)
            client.status(put("/graphs/one", [line(P, Q, R)]))
            send_in_parts(client, text, warm, False)
            before = server.resident_bytes()
            send_in_parts(client, text, many, True)
            grown.append(server.resident_bytes() - before)
    holds = min(grown) <= wanted
    print(f"{many * 1_000} GETs, sent so that a part of one is always left: {min(grown) / 1e6:.1f} MB more (at most {wanted / 1e6:g})"
          f"{'' if holds else ': MISSED'}", flush=True)
    return holds


def main():
    program, rounds = sys.argv[1], int(sys.argv[2]) if len(sys.argv) > 2 else 3
    rows = (patterns, slow_reader, readers_end, ended_names, many_clients, dear_texts, empty_puts, small_puts, same_patches, replaced, one_statement, repeats, full_store,
            pipelined)
    held = [row(program, rounds) for row in rows]
    sys.exit(0 if all(held) else 1)


if __name__ == "__main__":
    main()
