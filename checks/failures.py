"""Checks what a gsd that listens says where something fails: failures.py [PROGRAM]. It wants nothing but Python and Linux."""
import os
import re
import resource
import socket
import subprocess
import sys
import tempfile
import time

from serving import Server

HERE = os.path.dirname(os.path.abspath(__file__))

# Kilobytes of addresses and descriptors that a server may have here.
MOST_BYTES = 100_000 * 1024
MOST_FILES = 24

# A subject of 60,000 bytes with so many objects, each triple of which has a copy of it: more than that memory.
LONG = f"<a:{'x' * 60_000}> <a:a> {','.join('1' * 5_000)} ."


def wanted(name, got, want):
    if got != want:
        raise SystemExit(f"{name}: {got!r} in place of {want!r}")


def status(server, method, body=""):
    """The status of a reply that closes; None where there is none."""
    head = f"{method} /graphs/a HTTP/1.1\r\nHost: a\r\nConnection: close\r\nContent-Type: text/turtle\r\nContent-Length: {len(body)}\r\n\r\n"
    with socket.create_connection(("127.0.0.1", server.port), timeout=30) as connection:
        connection.sendall(head.encode() + body.encode())
        said = connection.makefile("rb").read()
    return int(said[9:12]) if said else None


def limited(said, closed=()):
    """A server with these limits, whose standard error is this, and which begins with these descriptors closed."""
    def limit():
        resource.setrlimit(resource.RLIMIT_NOFILE, (MOST_FILES, MOST_FILES))
        resource.setrlimit(resource.RLIMIT_AS, (MOST_BYTES, MOST_BYTES))
        for descriptor in closed:
            os.close(descriptor)
    return Server(program, preexec_fn=limit, stderr=said)


def check_lines():
    """A line at once, and then one a second at most, with the number of accepts since the last; a line for each of two requests."""
    with tempfile.TemporaryFile("w+") as said:
        with limited(said) as server:
            clients = [socket.create_connection(("127.0.0.1", server.port), timeout=30) for _ in range(2 * MOST_FILES)]
            time.sleep(2.5)
            for client in clients:
                client.close()
            wanted("a GET beside them", status(server, "GET"), 404)
            wanted("a request that takes too much", status(server, "PUT", LONG), 503)
            wanted("a request after it", status(server, "PUT", "<a:a> <a:a> 1 ."), 201)
            time.sleep(1.2)
            wanted("one more that takes too much", status(server, "PUT", LONG), 503)
            time.sleep(0.2)
        said.seek(0)
        lines = said.read().splitlines()
    counts = [re.fullmatch(r"gsd: ([1-9][0-9]*) accepts? failed", line) for line in lines[:-2]]
    wanted("the lines of requests", lines[-2:], ["gsd: no memory for 1 request"] * 2)
    wanted("the lines of accepts", all(counts), True)
    counts = [int(count[1]) for count in counts]
    if not 2 <= len(counts) <= 4 or counts[0] != 1 or not all(5 <= count <= 21 for count in counts[1:]):
        raise SystemExit(f"the numbers of accepts: {counts}")
    print(f"accepts that failed, as they were said: {counts}; and two requests for which there was no memory")


def check_silence():
    """Where standard error takes nothing the server goes on."""
    with open("/dev/full", "w", encoding="ascii") as full:
        with limited(full) as server:
            wanted("a request that takes too much", status(server, "PUT", LONG), 503)
            wanted("a request after it", status(server, "PUT", "<a:a> <a:a> 1 ."), 201)
    print("a standard error that takes nothing: the server goes on")


def fail(server):
    """Has accepts fail, and then a request for want of memory; the server goes on."""
    clients = [socket.create_connection(("127.0.0.1", server.port), timeout=30) for _ in range(2 * MOST_FILES)]
    time.sleep(0.5)
    for client in clients:
        client.close()
    wanted("a request that takes too much", status(server, "PUT", LONG), 503)
    wanted("a request after it", status(server, "PUT", "<a:a> <a:a> 1 ."), 201)


def check_full_pipe():
    """Where standard error is a pipe that is full, and that nobody reads, neither the accept loop nor a worker waits for it."""
    unread, full = os.pipe()
    os.set_blocking(full, False)
    try:
        while True:
            os.write(full, b"a")
    except BlockingIOError:
        os.set_blocking(full, True)
    with limited(full) as server:
        fail(server)
    os.close(full)
    os.close(unread)
    print("a standard error that nobody reads: the server goes on")


def check_closed():
    """Where standard error is closed its descriptor is the first client's: nothing is said to that one."""
    with limited(None, closed=(0, 2)) as server:
        with socket.create_connection(("127.0.0.1", server.port), timeout=30) as first:
            time.sleep(0.2)
            wanted("the descriptor of the first", os.path.exists(f"/proc/{server.process.pid}/fd/2"), True)
            fail(server)
            first.sendall(b"GET /graphs/b HTTP/1.1\r\nHost: a\r\nConnection: close\r\n\r\n")
            said = first.makefile("rb").read()
    wanted("what the first client reads", (said[:13], b"gsd:" in said), (b"HTTP/1.1 404 ", False))
    print("a standard error that is closed: nothing is said to the client who has its descriptor")


def check_first_line():
    """Where standard output takes nothing the server ends; where there is no memory for the threads nothing is written on it."""
    with open("/dev/full", "w", encoding="ascii") as full:
        ended = subprocess.run([program, "--listen", "127.0.0.1:0"], stdout=full, stderr=subprocess.PIPE, timeout=60, check=False)
    wanted("a first line that cannot be written", (ended.returncode, ended.stderr), (1, b"gsd: write failed\n"))

    def limit():
        resource.setrlimit(resource.RLIMIT_AS, (MOST_BYTES, MOST_BYTES))
    words = [program, "--listen", "127.0.0.1:0", "--workers", "256"]
    ended = subprocess.run(words, capture_output=True, timeout=60, preexec_fn=limit, check=False)
    wanted("no memory for the threads", (ended.returncode, ended.stdout, ended.stderr), (4, b"", b"gsd: no memory\n"))
    print("a first line that cannot be written, and threads for which there is no memory: the server ends")


program = sys.argv[1] if len(sys.argv) > 1 else f"{HERE}/../crates/gsd/out/gsd"
check_lines()
check_silence()
check_full_pipe()
check_closed()
check_first_line()
