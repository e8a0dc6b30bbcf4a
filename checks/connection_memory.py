"""Checks what a connection is answered where a request for memory is refused: connection_memory.py PROGRAM ROOM."""
import os
import re
import subprocess
import sys

UNAVAILABLE = "HTTP/1.1 503 Service Unavailable\nContent-Length: 0\nConnection: close\n\n"
# The first write of a conversation is commit 1, and the read after it reports that number.
NO_CONTENT = "HTTP/1.1 204 No Content\nStore-Commit: 1\n\n"
OK = "HTTP/1.1 200 OK\nContent-Type: application/n-triples\nTransfer-Encoding: chunked\nStore-Commit: 1\n\n"
GET = "GET /store?default HTTP/1.1\nHost: a\n\n"
ONE = '<http://e/s> <http://e/p> "1" .'
TWO = '<http://e/s> <http://e/p> "2" .'

# Requests with their replies, worked by hand; | is a line feed alone, and all others follow a CR.
CONVERSATIONS = {
    "a post of Turtle to the store, and a get of its graph": [
        (
            "POST /store HTTP/1.1\nHost: a\nContent-Type: text/turtle\nContent-Length: 29\n\n<http://e/s> a <http://e/C> .",
            "HTTP/1.1 201 Created\nContent-Length: 0\nLocation: http://localhost/graphs/n1-0\nStore-Commit: 1\n\n",
        ),
        (
            "GET /graphs/n1-0 HTTP/1.1\nHost: a\nAccept: text/turtle;q=0.5, application/n-triples;q=0\n\n",
            "HTTP/1.1 200 OK\nContent-Type: text/turtle\nTransfer-Encoding: chunked\nStore-Commit: 1\n\n"
            "4e\n<http://e/s> <http://www.w3.org/1999/02/22-rdf-syntax-ns#type> <http://e/C> .|\n0\n\n",
        ),
    ],
    "a put of two triples, and a get of them in two pieces": [
        (
            "PUT /store?default HTTP/1.1\nHost: a\nContent-Type: application/n-triples\nContent-Length: 64\n\n" + f"{ONE}|{TWO}|",
            NO_CONTENT,
        ),
        (GET, OK + f"20\n{ONE}|\n20\n{TWO}|\n0\n\n"),
    ],
    "a patch, and a get of what it inserts": [
        (
            "PATCH /store?default HTTP/1.1\nHost: a\nContent-Type: application/sparql-update\nContent-Length: 45\n\n"
            'INSERT DATA { <http://e/s> <http://e/p> "1" }',
            NO_CONTENT,
        ),
        (GET, OK + f"20\n{ONE}|\n0\n\n"),
    ],
}


def sent(text):
    return text.replace("\n", "\r\n").replace("|", "\n").encode()


def replies_of(exchanges):
    return [sent(reply) for _, reply in exchanges]


def ending(replies, status, out):
    """How a conversation ended: after so many replies, with a 503 in the place of the next, or within it."""
    assert status in (0, 4), (status, out)
    for count in range(len(replies) + 1):
        before = b"".join(replies[:count])
        if out == before + sent(UNAVAILABLE) and count < len(replies):
            return in_place_of(count + 1)
        if out == before:
            return f"{count} of {len(replies)} replies" if count < len(replies) else "whole"
        if count < len(replies) and len(out) < len(before + replies[count]) and (before + replies[count]).startswith(out):
            return f"a front of reply {count + 1}"
    raise AssertionError((status, out))


def in_place_of(number):
    return f"503 in the place of reply {number}"


def run_built(program, room, exchanges, refused, later=False):
    """The status and the output of a built program, and how many requests for memory it made."""
    variables = {"LD_PRELOAD": f"{room}/refuse.so", "COUNT": f"{room}/count", "REFUSED": str(refused)}
    variables |= {"LATER": "1"} if later else {}
    request = b"".join(sent(it) for it, _ in exchanges)
    ran = subprocess.run([program, "--once", "--piece", "1"], input=request, capture_output=True, env=os.environ | variables)
    return ran.returncode, ran.stdout, int(open(f"{room}/count").read())


def built_endings(program, room, exchanges):
    """How often each ending is seen where each request is refused in turn, alone and with all after it."""
    status, out, requests = run_built(program, room, exchanges, 0)
    replies = replies_of(exchanges)
    assert ending(replies, status, out) == "whole", (status, out)
    for refused in range(1, requests + 1):
        for later in (False, True):
            status, out, _ = run_built(program, room, exchanges, refused, later)
            yield later, status, ending(replies, status, out)


def check_built(program, room):
    for name, exchanges in CONVERSATIONS.items():
        counts = {}
        for later, status, end in built_endings(program, room, exchanges):
            key = ("with all after it" if later else "alone", end, status)
            counts[key] = counts.get(key, 0) + 1
        print(f"{name}:")
        for (manner, end, status), count in sorted(counts.items()):
            print(f"  {manner}: {end}, status {status}: {count}")
        for number in range(1, len(exchanges) + 1):
            assert ("alone", in_place_of(number), 0) in counts, f"{name}: no {in_place_of(number)}"


def tried(folder, cases, refused):
    """The status and the output of each conversation, as `rt try` has them, and how many requests were answered."""
    words = ["rt", "try", "--steps", "1", "--cases", cases, "--fail-alloc", str(refused), "--", "--once", "--piece", "1"]
    ran = subprocess.run(words, cwd=folder, capture_output=True)
    errors = ran.stderr.decode()
    ends = dict(re.findall(r"^case=(\d+) run=ended status=(\d+)", errors, re.M))
    outs = dict(re.findall(rb"^== (\d+)\n(.*?)(?=^== \d+\n|\Z)", ran.stdout, re.M | re.S))
    requests = max(map(int, re.findall(r"^allocations: (?:at least )?(\d+)$", errors, re.M)))
    return {int(it): (int(status), outs[it.encode()]) for it, status in ends.items()}, requests


def check_tried(folder, room):
    cases = f"{room}/cases"
    os.mkdir(cases)
    table = list(CONVERSATIONS.items())
    for number, (_, exchanges) in enumerate(table):
        with open(f"{cases}/{number}", "wb") as it:
            it.write(b"".join(sent(request) for request, _ in exchanges))
    refused, answered = 0, 0
    while refused <= answered + 1:
        refused += 1
        runs, answered = tried(folder, cases, refused)
        assert len(runs) == len(table), refused
        for number, (name, exchanges) in enumerate(table):
            status, out = runs[number]
            print(f"{refused}: {name}: {ending(replies_of(exchanges), status, out)}, status {status}", flush=True)


if __name__ == "__main__":
    (check_tried if os.path.isdir(sys.argv[1]) else check_built)(*sys.argv[1:])
