"""Checks that texts of which no graph has any more give their memory back, and that those stay which a read needs: terms.py PROGRAM."""
import http.client
import sys

from serving import Server

LINES = "application/n-triples"
# 400 MB of new texts, in graphs of 1 MB.
PUTS = 400
TEXTS = 50
TEXT_BYTES = 20_000
# The page of history has 128 MB of texts at most, and some memory more waits to be used again.
MOST_BYTES = 350_000_000


def graph(number):
    """50 lines whose objects nobody had before."""
    return [f'<http://e/s{k}> <http://e/p> "{number} {k} {"x" * TEXT_BYTES}" .' for k in range(TEXTS)]


def kept(stamp):
    """20 MB of lines of one stamp, more than the system keeps of a reply that nobody reads."""
    return sorted(f'<http://e/s{k}> <http://e/kept> "{stamp} {k} {"y" * 1_000}" .' for k in range(20_000))


class Client:
    def __init__(self, server):
        self.connection = http.client.HTTPConnection("127.0.0.1", server.port, timeout=60)

    def reply(self, method, name, lines=None):
        body = None if lines is None else "".join(f"{line}\n" for line in lines)
        self.connection.request(method, f"/store?graph=http://e/{name}", body, {"Content-Type": LINES} if body else {})
        return self.connection.getresponse()

    def get(self, path):
        self.connection.request("GET", path)
        return self.connection.getresponse()

    def write(self, method, name, lines=None):
        reply = self.reply(method, name, lines)
        reply.read()
        assert reply.status in (200, 201, 204), (method, name, reply.status)

    def lines(self, name):
        reply = self.reply("GET", name)
        return sorted(reply.read().decode().splitlines())


def main(program):
    with Server(program) as server:
        writer, reader, whole = Client(server), Client(server), Client(server)
        writer.write("PUT", "read", kept(0))
        slow, dataset = reader.reply("GET", "read"), whole.get("/store")
        begun, quads = slow.read(1_000), dataset.read(1_000)
        for number in range(PUTS):
            writer.write("PUT", "changes", graph(number))
            if number % 100 == 0:
                writer.write("PUT", "read", kept(number + 1))
        writer.write("DELETE", "read")
        resident = server.resident_bytes()
        assert resident < MOST_BYTES, f"{resident // 1_000_000} MB are resident"
        assert writer.lines("changes") == sorted(graph(PUTS - 1)), "the graph of now"
        read = sorted((begun + slow.read()).decode().splitlines())
        assert read == kept(0), "the read of the first version"
        read = sorted((quads + dataset.read()).decode().splitlines())
        assert read == sorted(line.replace(" .", " <http://e/read> .") for line in kept(0)), "the read of all graphs"
        print(f"{PUTS * TEXTS * TEXT_BYTES // 1_000_000} MB of texts came and went, and {resident // 1_000_000} MB are resident")


if __name__ == "__main__":
    main(sys.argv[1])
