"""Reads of all graphs at one moment: dataset.py PROGRAM SECONDS. Four readers beside two writers see no write torn, and the memory of
the server stays once the writers have stopped. Then three ratios of speed, each in one run, and the time
in which graphs without a line are passed over. Ends with status 1 if anything is wrong."""
import http.client
import re
import socket
import statistics
import sys
import threading
import time

from serving import Server

N_TRIPLES = "application/n-triples"
N_QUADS = "application/n-quads"

READERS, WRITERS, LINES = 4, 2, 20

# Each write makes a version, and a term whose number the store keeps for good: so writers pause.
WRITER_PAUSE_SECONDS = 0.01

# The share of the time in which the writers write.
WRITING_SHARE = 0.75

# The entries of a page of the server's history. Its room is resident once it was filled for the first time.
PAGE_ENTRIES = 65_536
SETTLING_SECONDS = 1.5

# What the resident memory may grow by with no writer: some buffers of the C library, and no versions.
MAX_GROWTH_BYTES = 1_048_576

# The bars of the three ratios, and of the seconds in which graphs without a line are passed over.
LEAST_SHARE_OF_READING, MOST_FOR_A_NAME, LEAST_SHARE_OF_POSTS = 0.8, 2.0, 0.8
MOST_SECONDS_FOR_EMPTY_GRAPHS = 0.005


def graph_text(number, lines=LINES):
    return "".join(f'<http://e/s{line:06}> <http://e/p> "{number}" .\n' for line in range(lines))


def name_of(writer, graph):
    """The graph that a writer writes first stands first, so a reader that took each graph as it came to it would see the second one newer."""
    return f"http://localhost/graphs/w{writer}{'' if graph else '/first'}"


def quads_of(writer, graph, number):
    return graph_text(number).replace(" .\n", f" <{name_of(writer, graph)}> .\n")


def is_one_moment(text):
    """Whether these are the lines of the graphs of both writers, each whole, and of each writer the graph that it writes last
    lags behind the other by one write at most. The numbers are read off the lines, and all else is compared."""
    wanted = ""
    for writer in range(WRITERS):
        numbers = []
        for graph in (0, 1):
            found = re.search(rf'^<http://e/s000000> <http://e/p> "([0-9]+)" <{re.escape(name_of(writer, graph))}> \.$', text, re.M)
            if not found:
                return False
            numbers.append(int(found[1]))
            wanted += quads_of(writer, graph, numbers[-1])
        first, second = numbers
        if first - second not in (0, 1):
            return False
    return text == wanted


class Load:
    """What the threads share: when to stop, what went wrong, and how much was done."""

    def __init__(self, server):
        self.server = server
        self.writing, self.reading = threading.Event(), threading.Event()
        self.writing.set()
        self.reading.set()
        self.lock = threading.Lock()
        self.done = {"reads": 0, "writes": 0}
        self.wrong = []

    def count(self, what, is_right, shown):
        with self.lock:
            self.done[what] += 1
            if not is_right:
                self.wrong.append(f"{what}: {shown!r:.300}")

    def write(self, writer):
        """The same number into two graphs, one after the other."""
        connection = http.client.HTTPConnection("127.0.0.1", self.server.port, timeout=30)
        number = 1
        while self.writing.is_set():
            for graph in (0, 1):
                path = name_of(writer, graph).removeprefix("http://localhost")
                connection.request("PUT", path, graph_text(number), {"Content-Type": N_TRIPLES})
                answer = connection.getresponse()
                answer.read()
                self.count("writes", answer.status == 204, answer.status)
            number += 1
            time.sleep(WRITER_PAUSE_SECONDS)
        connection.close()

    def read(self, _):
        connection = http.client.HTTPConnection("127.0.0.1", self.server.port, timeout=30)
        while self.reading.is_set():
            connection.request("GET", "/store")
            answer = connection.getresponse()
            text = answer.read().decode()
            is_right = answer.status == 200 and answer.headers["Content-Type"] == N_QUADS and is_one_moment(text)
            self.count("reads", is_right, (answer.status, text))
        connection.close()

    def fill_page(self, seconds):
        """Waits, for so long at most, until there are as many entries as a page has; whether there are."""
        end = time.monotonic() + seconds
        while sum(self.done.values()) < PAGE_ENTRIES and time.monotonic() < end:
            time.sleep(0.1)
        return sum(self.done.values()) >= PAGE_ENTRIES

    def guarded(self, work, which):
        """A thread that fails is a failure of the check."""
        try:
            work(which)
        except Exception as error:  # whatever it is, it is shown
            with self.lock:
                self.wrong.append(f"{work.__name__} {which}: {error!r}")


def torn_reads(program, seconds):
    """What was wrong in so many seconds, or some more. Pieces of 7 lines make each read many events, and let writes come between them."""
    with Server(program, "--workers", str(READERS + WRITERS), "--piece", "7") as server:
        connection = http.client.HTTPConnection("127.0.0.1", server.port, timeout=30)
        for writer in range(WRITERS):
            for graph in (0, 1):
                connection.request("PUT", name_of(writer, graph).removeprefix("http://localhost"), graph_text(0), {"Content-Type": N_TRIPLES})
                connection.getresponse().read()
        load = Load(server)
        threads = [threading.Thread(target=load.guarded, args=(load.write, writer)) for writer in range(WRITERS)]
        threads += [threading.Thread(target=load.guarded, args=(load.read, reader)) for reader in range(READERS)]
        for thread in threads:
            thread.start()
        time.sleep(seconds * WRITING_SHARE)
        load.writing.clear()
        is_filled = load.fill_page(4 * seconds)
        time.sleep(SETTLING_SECONDS)
        before = server.resident_bytes()
        time.sleep(seconds * (1 - WRITING_SHARE))
        after = server.resident_bytes()
        load.reading.clear()
        for thread in threads:
            thread.join()
        if not is_filled:
            load.wrong.append("too few reads to say anything of memory: take more seconds")
        elif after > before + MAX_GROWTH_BYTES:
            load.wrong.append(f"memory grew from {before} to {after} bytes with no writer")
        if not (load.done["reads"] and load.done["writes"] and server.is_running()):
            load.wrong.append("the server or the clients did nothing")
        print(f"load: {load.done['reads']} reads of all graphs and {load.done['writes']} writes; {before} bytes, then {after}")
        return load.wrong[:10]


def open_socket(server):
    connection = socket.create_connection(("127.0.0.1", server.port), timeout=60)
    connection.setsockopt(socket.IPPROTO_TCP, socket.TCP_NODELAY, 1)
    return connection


def request(method, path, text=""):
    """The bytes of a request; a body is N-Triples."""
    fields = f"Content-Type: {N_TRIPLES}\r\nContent-Length: {len(text)}\r\n" if method in ("PUT", "POST") else ""
    return f"{method} {path} HTTP/1.1\r\nHost: a\r\n{fields}\r\n{text}".encode()


def send_all(server, requests, status):
    """Sends these on one connection, 100 at a time, and reads a reply without a body to each; its seconds. Another status ends the run."""
    with open_socket(server) as connection:
        replies, begun = connection.makefile("rb"), time.perf_counter()
        for at in range(0, len(requests), 100):
            some = requests[at : at + 100]
            connection.sendall(b"".join(some))
            for _ in some:
                line = replies.readline()
                if not line.startswith(b"HTTP/1.1 %d " % status):
                    sys.exit(f"a reply is {line!r}")
                while replies.readline() != b"\r\n":
                    pass
        return time.perf_counter() - begun


def read_seconds(server, path):
    """The seconds of one GET, and how many bytes came."""
    buffer = bytearray(1 << 20)
    with open_socket(server) as connection:
        begun, many, last = time.perf_counter(), 0, b""
        connection.sendall(request("GET", path))
        while not last.endswith(b"\r\n0\r\n\r\n"):
            got = connection.recv_into(buffer)
            if got == 0:
                sys.exit("a reply broke off")
            many += got
            last = (last + bytes(buffer[max(0, got - 7) : got]))[-7:]
        return time.perf_counter() - begun, many


def speed_of(server, path):
    """Bytes a second, the median of nine."""
    times = [read_seconds(server, path) for _ in range(9)]
    return statistics.median(many / seconds for seconds, many in times)


def reading_share(program):
    """All of 1,000 graphs of 100 lines beside one of 100,000 lines, in bytes a second."""
    with Server(program) as many, Server(program) as one:
        send_all(many, [request("PUT", f"/graphs/{number:04}", graph_text(number, 100)) for number in range(1000)], 201)
        send_all(one, [request("PUT", "/graphs/one", graph_text(1, 100_000))], 201)
        all_graphs, one_graph = speed_of(many, "/store"), speed_of(one, "/graphs/one")
    print(f"reading: all of 1,000 graphs {all_graphs / 1e6:.0f} MB/s, one graph {one_graph / 1e6:.0f} MB/s, share {all_graphs / one_graph:.2f}")
    return all_graphs / one_graph


def name_price(program):
    """A PUT of a new name onto 60,000 names, beside one onto 1,000: the medians of nine runs of 200, each of which is deleted again."""
    medians = []
    for names in (1_000, 60_000):
        with Server(program) as server:
            send_all(server, [request("PUT", f"/graphs/n{number}") for number in range(names)], 201)
            times = []
            for _ in range(9):
                times.append(send_all(server, [request("PUT", f"/graphs/n{number}x") for number in range(0, 1000, 5)], 201))
                send_all(server, [request("DELETE", f"/graphs/n{number}x") for number in range(0, 1000, 5)], 204)
            medians.append(statistics.median(times) / 200)
    print(f"a new name: {medians[0] * 1e6:.0f} microseconds onto 1,000, {medians[1] * 1e6:.0f} onto 60,000, ratio {medians[1] / medians[0]:.2f}")
    return medians[1] / medians[0]


def empty_seconds(program):
    """A GET of 60,000 graphs without a line, the least of nine: all of them are passed over in one event, which nobody else comes into."""
    with Server(program) as server:
        send_all(server, [request("PUT", f"/graphs/n{number}") for number in range(60_000)], 201)
        seconds = min(read_seconds(server, "/store")[0] for _ in range(9))
    print(f"60,000 graphs without a line: {seconds * 1e3:.1f} ms")
    return seconds


def posts_share(program):
    """POSTs of one triple to a graph of 200,000, beside a reader of all graphs that has stopped, and without it; in turns, medians of seven."""
    with Server(program) as server:
        send_all(server, [request("PUT", "/graphs/g", graph_text(0, 200_000))], 201)
        number, rates = 0, {False: [], True: []}
        for turn in range(14):
            is_read, reader = turn % 2 == 1, None
            if is_read:
                reader = open_socket(server)
                reader.sendall(request("GET", "/store"))
                reader.recv(1000)
            posts = [request("POST", "/graphs/g", f'<http://e/s{(number + it) * 7919 % 200_000:06}> <http://e/q> "{number + it}" .\n') for it in range(1000)]
            number += 1000
            rates[is_read].append(1000 / send_all(server, posts, 204))
            if reader:
                reader.close()
            time.sleep(0.2)
        alone, beside = statistics.median(rates[False]), statistics.median(rates[True])
    print(f"POSTs: {alone:.0f} a second alone, {beside:.0f} beside a reader of all graphs that has stopped, share {beside / alone:.2f}")
    return beside / alone


def main(program, seconds):
    wrong = torn_reads(program, float(seconds)) if float(seconds) else []
    if reading_share(program) < LEAST_SHARE_OF_READING:
        wrong.append("all graphs are read too slowly")
    if name_price(program) > MOST_FOR_A_NAME:
        wrong.append("a new name among many costs too much")
    if empty_seconds(program) > MOST_SECONDS_FOR_EMPTY_GRAPHS:
        wrong.append("graphs without a line hold the others up")
    if posts_share(program) < LEAST_SHARE_OF_POSTS:
        wrong.append("a reader that has stopped slows writers down")
    if wrong:
        raise SystemExit(f"wrong: {', '.join(wrong)}")


if __name__ == "__main__":
    main(*sys.argv[1:])
