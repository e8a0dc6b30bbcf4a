"""Times loading into a listening gsd: a nearly sorted document of N-Triples and the same as Turtle, in bodies of at most
sixty million bytes, in smaller ones, and as Turtle in one, beside serdi on the same text, with the server's resident memory; then POSTs of
ten triples onto a large graph and onto a small one. All on one machine."""
import http.client
import os
import pathlib
import statistics
import subprocess
import sys
import tempfile
import time

# A body may have 67,108,864 bytes.
MOST_BYTES = 60_000_000
SMALLER = (16_000_000, 4_000_000)
POSTS = 200


def iri(kind, number):
    """An IRI whose text has 47 bytes."""
    return f"<http://example.org/data/{kind}/{number:019d}>"


def line(number):
    """Two triples a subject, and one new term for two triples; neighbours change places here and there."""
    if number % 16 == 5:
        number += 6
    elif number % 16 == 11:
        number -= 6
    subject = iri("s", number // 2)
    return f"{subject} {iri('p', number % 2)} {iri('s', number // 2 ^ 1)} .\n"


def parts(triples, most):
    """The lines of the document, in parts of so many bytes at most."""
    texts, part, size = [], [], 0
    for number in range(triples):
        text = line(number)
        if size + len(text) > most:
            texts.append("".join(part))
            part, size = [], 0
        part.append(text)
        size += len(text)
    texts.append("".join(part))
    return texts


def documents(room, triples):
    """The files of the document: lines, and the same as Turtle, in parts that a body may have."""
    files = []
    for place, text in enumerate(parts(triples, MOST_BYTES)):
        lines, turtle = room / f"{place}.nt", room / f"{place}.ttl"
        lines.write_text(text)
        with turtle.open("w") as out:
            subprocess.run(["serdi", "-i", "ntriples", "-o", "turtle", str(lines)], stdout=out, check=True)
        files.append((lines, turtle))
    return files


def one_body(triples):
    """As many triples of such terms in one body of Turtle, sorted, with prefixes and two triples a subject."""
    def pair(number):
        other = f"s:{number ^ 1:019d}"
        return f"s:{number:019d} p:{0:019d} {other} ; p:{1:019d} {other} .\n"

    head = "".join(f"@prefix {kind}: <http://example.org/data/{kind}/> .\n" for kind in "sp")
    return head + "".join(pair(number) for number in range(triples // 2))


def serdi(language, files):
    """Seconds of serdi's reading and writing of the files."""
    begun = time.perf_counter()
    for file in files:
        subprocess.run(["serdi", "-i", language, "-o", "ntriples", str(file)], stdout=subprocess.DEVNULL, check=True)
    return time.perf_counter() - begun


def request(connection, method, path, kind, data):
    connection.request(method, path, data, {"Content-Type": kind})
    answer = connection.getresponse()
    answer.read()
    if answer.status not in (201, 204):
        sys.exit(f"{method} {path}: {answer.status}")


def load(port, path, kind, bodies):
    """Seconds of the bodies' loading, the first by PUT and the others by POST."""
    connection = http.client.HTTPConnection("127.0.0.1", port)
    begun = time.perf_counter()
    for place, data in enumerate(bodies):
        request(connection, "POST" if place else "PUT", path, kind, data)
    return time.perf_counter() - begun


def posts(port, path):
    """The median seconds of a POST of ten triples."""
    connection, taken = http.client.HTTPConnection("127.0.0.1", port), []
    for number in range(POSTS):
        data = "".join(f"{iri('s', number * 4_801)} {iri('q', 10 * number + k)} \"{k}\" .\n" for k in range(10))
        begun = time.perf_counter()
        request(connection, "POST", path, "application/n-triples", data.encode())
        taken.append(time.perf_counter() - begun)
    return statistics.median(taken)


def resident(process):
    for text in pathlib.Path(f"/proc/{process.pid}/status").read_text().splitlines():
        if text.startswith("VmRSS"):
            return int(text.split()[1]) * 1024
    return 0


def started(program):
    process = subprocess.Popen([program, "--listen", "127.0.0.1:0"], stdout=subprocess.PIPE, text=True)
    return process, int(process.stdout.readline().rsplit(":", 1)[1])


def loaded(program, kind, bodies):
    """Seconds of the bodies' loading into a new server, and the bytes that it keeps resident then."""
    process, port = started(program)
    before = resident(process)
    taken = load(port, "/store?graph=http://e/large", kind, bodies)
    kept = resident(process) - before
    process.kill()
    process.wait()
    return taken, kept


def report(what, triples, peer, taken, kept):
    speeds = f"{triples / taken:,.0f} triples/s, serdi {triples / peer:,.0f}; ratio {peer / taken:.2f}"
    print(f"{what}: {speeds}; {kept / triples:.1f} bytes resident a triple")


def best(language, files):
    """The least of three runs of serdi."""
    return min(serdi(language, files) for _ in range(3))


def time_posts(program, triples, bodies):
    """Prints how long a POST of ten triples takes onto the document, and onto its first 1,000 triples."""
    process, port = started(program)
    load(port, "/store?graph=http://e/large", "application/n-triples", bodies)
    small = "".join(line(number) for number in range(1_000)).encode()
    load(port, "/store?graph=http://e/small", "application/n-triples", [small])
    few, many = posts(port, "/store?graph=http://e/small"), posts(port, "/store?graph=http://e/large")
    print(f"POST of 10: {few * 1e6:.0f} us onto 1,000, {many * 1e6:.0f} us onto {triples:,}; ratio {many / few:.2f}")
    process.kill()
    process.wait()


def main():
    program, triples = sys.argv[1], int(sys.argv[2])
    with tempfile.TemporaryDirectory() as name:
        room = pathlib.Path(name)
        files = documents(room, triples)
        lines, turtles = [pair[0] for pair in files], [pair[1] for pair in files]
        peer = best("ntriples", lines)
        for most in (MOST_BYTES, *SMALLER):
            bodies = [text.encode() for text in parts(triples, most)]
            what = f"ntriples, {len(bodies)} bodies of at most {most / 1e6:.0f} MB"
            report(what, triples, peer, *loaded(program, "application/n-triples", bodies))
        bodies = [file.read_bytes() for file in turtles]
        report(f"turtle, {len(bodies)} bodies", triples, best("turtle", turtles), *loaded(program, "text/turtle", bodies))
        whole = room / "whole.ttl"
        whole.write_text(one_body(triples))
        data = whole.read_bytes()
        what = f"turtle, one body of {len(data) / 1e6:.0f} MB"
        report(what, triples, best("turtle", [whole]), *loaded(program, "text/turtle", [data]))
        time_posts(program, triples, [file.read_bytes() for file in lines])


os.environ["LC_ALL"] = "C"
if __name__ == "__main__":
    main()
