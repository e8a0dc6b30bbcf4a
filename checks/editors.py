"""Eight editors of one graph: editors.py PROGRAM TIMES. Each reads the graph, adds a line of its own and writes it back on the condition
that nobody wrote it since, again and again until it was taken, so many times: all lines are there at the end. Then they do the same
without conditions, and lines are lost: so the first run is seen to show something. Ends with status 1 if anything is wrong."""
import http.client
import sys
import threading

from serving import Server

N_TRIPLES = "application/n-triples"
EDITORS = 8
GRAPH = "/graphs/edited"


def line_of(editor, number):
    return f'<http://e/editor{editor}> <http://e/p> "{number:05}" .\n'


class Editor(threading.Thread):
    """Adds its lines, one write each, and counts what it was answered."""

    def __init__(self, server, number, times, on_condition):
        super().__init__()
        self.server, self.number, self.times, self.on_condition = server, number, times, on_condition
        self.refused, self.wrong = 0, []

    def ask(self, method, body=None, fields=None):
        self.connection.request(method, GRAPH, body, fields or {})
        reply = self.connection.getresponse()
        return reply.status, reply.read().decode(), reply.getheader("Store-Commit")

    def read(self):
        status, lines, commit = self.ask("GET")
        if status != 200:
            self.wrong.append(f"GET {status}")
        return lines, commit

    def add(self, line):
        """Whether the graph with this line more was taken."""
        lines, commit = self.read()
        fields = {"Content-Type": N_TRIPLES} | ({"If-Store-Commit": commit} if self.on_condition else {})
        status, _, number = self.ask("PUT", lines + line, fields)
        if status == 204 and int(number) > int(commit):
            return True
        if status == 412 and self.on_condition and int(number) > int(commit):
            self.refused += 1
            return False
        self.wrong.append(f"PUT {status}, read at {commit}, {number} reported")
        return True

    def run(self):
        self.connection = http.client.HTTPConnection("127.0.0.1", self.server.port, timeout=60)
        for number in range(self.times):
            while not self.add(line_of(self.number, number)):
                pass
        self.connection.close()


def edited(program, times, on_condition):
    """The lines at the end, how often a write came too late, and what went wrong."""
    with Server(program, "--workers", str(EDITORS)) as server:
        first = http.client.HTTPConnection("127.0.0.1", server.port, timeout=60)
        first.request("PUT", GRAPH, "", {"Content-Type": N_TRIPLES})
        assert first.getresponse().read() == b""
        first.close()
        editors = [Editor(server, number, times, on_condition) for number in range(EDITORS)]
        for editor in editors:
            editor.start()
        for editor in editors:
            editor.join()
        last = http.client.HTTPConnection("127.0.0.1", server.port, timeout=60)
        last.request("GET", GRAPH)
        lines = last.getresponse().read().decode().splitlines(keepends=True)
        last.close()
        return lines, sum(it.refused for it in editors), [it for editor in editors for it in editor.wrong]


def main(program, times):
    wanted = sorted(line_of(editor, number) for editor in range(EDITORS) for number in range(times))
    lines, refused, wrong = edited(program, times, True)
    assert not wrong, wrong[:5]
    assert lines == wanted, (len(lines), len(wanted))
    print(f"on condition: all {len(lines)} lines of {EDITORS} editors are there; {refused} writes came too late and were made again")
    lines, _, wrong = edited(program, times, False)
    assert not wrong, wrong[:5]
    print(f"without conditions: {len(lines)} lines of {len(wanted)} are left")
    assert len(lines) < len(wanted), "no line was lost without conditions, so the run above shows nothing"


main(sys.argv[1], int(sys.argv[2]))
