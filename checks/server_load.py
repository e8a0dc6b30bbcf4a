"""Four readers and two writers on one gsd: no read is torn, and its memory stays once the writers have stopped."""
import http.client
import re
import threading
import time

from serving import Server

READERS, WRITERS, GRAPHS, LINES = 4, 2, 4, 40

# Each write makes a version, and a term whose number the store keeps for good: so writers pause.
WRITER_PAUSE_SECONDS = 0.05

# The share of the time in which the writers write.
WRITING_SHARE = 0.75

# The entries of a page of the server's history. Its room is resident once it was filled for the first time: a read is an entry,
# so memory is measured from then on, and a second after.
PAGE_ENTRIES = 65_536
SETTLING_SECONDS = 1.0

# What the resident memory may grow by with no writer: some buffers of the C library, and no versions.
MAX_GROWTH_BYTES = 1_048_576


def graph_text(number):
    return "".join(f'<http://e/s{line:02}> <http://e/p> "{number}" .\n' for line in range(LINES))


def is_whole(text):
    """Whether all lines are there, and carry the number of one writer."""
    found = re.match(r'<http://e/s00> <http://e/p> "([0-9]+)" \.\n', text)
    return bool(found) and text == graph_text(found[1])


class Load:
    """What the threads share: when to stop, what went wrong, and how much was done."""

    def __init__(self, server):
        self.server = server
        self.writing, self.reading = threading.Event(), threading.Event()
        self.writing.set()
        self.reading.set()
        self.lock = threading.Lock()
        self.done = {"reads": 0, "writes": 0}
        self.wrong = []

    def count(self, what, is_right, shown):
        with self.lock:
            self.done[what] += 1
            if not is_right:
                self.wrong.append(f"{what}: {shown!r}")

    def write(self, writer):
        """Writer 0 has the even numbers and writer 1 the odd ones."""
        connection = http.client.HTTPConnection("127.0.0.1", self.server.port, timeout=30)
        number = writer
        while self.writing.is_set():
            connection.request("PUT", f"/graphs/g{number // WRITERS % GRAPHS}", graph_text(number), {"Content-Type": "application/n-triples"})
            answer = connection.getresponse()
            answer.read()
            self.count("writes", answer.status in (201, 204), answer.status)
            number += WRITERS
            time.sleep(WRITER_PAUSE_SECONDS)
        connection.close()

    def read(self, reader):
        connection = http.client.HTTPConnection("127.0.0.1", self.server.port, timeout=30)
        graph = reader
        while self.reading.is_set():
            connection.request("GET", f"/graphs/g{graph % GRAPHS}")
            answer = connection.getresponse()
            text = answer.read().decode()
            self.count("reads", answer.status == 200 and is_whole(text), (answer.status, text))
            graph += 1
        connection.close()

    def fill_page(self, seconds):
        """Waits, for so long at most, until there are as many entries as a page has; whether there are."""
        end = time.monotonic() + seconds
        while sum(self.done.values()) < PAGE_ENTRIES and time.monotonic() < end:
            time.sleep(0.1)
        return sum(self.done.values()) >= PAGE_ENTRIES

    def guarded(self, work, which):
        """A thread that fails is a failure of the check."""
        try:
            work(which)
        except Exception as error:  # whatever it is, it is shown
            with self.lock:
                self.wrong.append(f"{work.__name__} {which}: {error!r}")


def make_graphs(server):
    """So that each read finds its graph."""
    connection = http.client.HTTPConnection("127.0.0.1", server.port, timeout=30)
    for graph in range(GRAPHS):
        connection.request("PUT", f"/graphs/g{graph}", graph_text(0), {"Content-Type": "application/n-triples"})
        connection.getresponse().read()
    connection.close()


def failures_of(program, seconds):
    """What was wrong in so many seconds. Pieces of 7 lines make each read six events, and let writes come between them."""
    with Server(program, "--workers", str(READERS + WRITERS), "--piece", "7") as server:
        make_graphs(server)
        load = Load(server)
        threads = [threading.Thread(target=load.guarded, args=(load.write, writer)) for writer in range(WRITERS)]
        threads += [threading.Thread(target=load.guarded, args=(load.read, reader)) for reader in range(READERS)]
        for thread in threads:
            thread.start()
        time.sleep(seconds * WRITING_SHARE)
        load.writing.clear()
        is_filled = load.fill_page(seconds)
        time.sleep(SETTLING_SECONDS)
        before = server.resident_bytes()
        time.sleep(seconds * (1 - WRITING_SHARE))
        after = server.resident_bytes()
        load.reading.clear()
        for thread in threads:
            thread.join()
        if not is_filled:
            load.wrong.append("too few reads to say anything of memory: take more seconds")
        elif after > before + MAX_GROWTH_BYTES:
            load.wrong.append(f"memory grew from {before} to {after} bytes with no writer")
        if not (load.done["reads"] and load.done["writes"] and server.is_running()):
            load.wrong.append("the server or the clients did nothing")
        print(f"load: {load.done['reads']} reads and {load.done['writes']} writes in {seconds} seconds; {before} bytes, then {after}")
        return load.wrong[:10]
