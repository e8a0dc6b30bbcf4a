"""Checks what is written on two connections where a request for memory is refused: world_memory.py PROGRAM ROOM."""
import ast
import os
import re
import subprocess
import sys

from connection_memory import ONE, TWO, UNAVAILABLE, ending, in_place_of, replies_of, sent

# What one connection is refused changes the commit numbers of the other, so these are left out.
CREATED = "HTTP/1.1 201 Created\nContent-Length: 0\nStore-Commit: N\n\n"
DELETED = "HTTP/1.1 204 No Content\nStore-Commit: N\n\n"
OK = "HTTP/1.1 200 OK\nContent-Type: application/n-triples\nTransfer-Encoding: chunked\nStore-Commit: N\n\n"


def put(graph, *lines):
    body = "".join(f"{it}|" for it in lines)
    head = f"PUT /graphs/{graph} HTTP/1.1\nHost: a\nContent-Type: application/n-triples\nContent-Length: {len(body)}\n\n"
    return head + body


def get(graph):
    return f"GET /graphs/{graph} HTTP/1.1\nHost: a\n\n"


# The requests of each connection with their replies, worked by hand. Each has a graph of its own, so what one is refused
# changes nothing for the other.
CONNECTIONS = [
    [(put("a", ONE, TWO), CREATED), (get("a"), OK + f"20\n{ONE}|\n20\n{TWO}|\n0\n\n")],
    [(put("b", ONE), CREATED), (get("b"), OK + f"20\n{ONE}|\n0\n\n"), ("DELETE /graphs/b HTTP/1.1\nHost: a\n\n", DELETED)],
]


def bytes_line(connection, text):
    line = sent(text).decode().replace("\r", "\\r").replace("\n", "\\n")
    return f"{connection} >+{line}\n"


def schedule():
    """The case, and the connection of each of its steps: the requests in turn, with some turns, and then as many as are ample."""
    lines, steps = ["= memory\n! shown\n! 1 lines a piece\n"], []
    for place in range(max(map(len, CONNECTIONS))):
        for connection, exchanges in enumerate(CONNECTIONS):
            if place < len(exchanges):
                lines.append(bytes_line(connection, exchanges[place][0]))
                steps.append(connection)
        for count in (2, 9):
            for connection in range(len(CONNECTIONS)):
                lines.append(f"{connection} turn {count}\n")
                steps += [connection] * count
    return "".join(lines) + "\n", steps


def shown(out):
    """The steps that were refused, and what was written on each connection."""
    text = out.decode()
    refused = [int(it) for it in re.findall(r"^memory: step (\d+) was refused$", text, re.M)]
    text = re.sub("Store-Commit: [0-9]+", "Store-Commit: N", text)
    written = {int(it): ast.literal_eval(said).encode() for it, said in re.findall(r'^memory: connection (\d+): (".*")$', text, re.M)}
    return refused, written


def judge(status, out, steps, is_alone):
    """How each connection ended, where one request was refused, or all from one on."""
    refused, written = shown(out)
    if set(written) != set(range(len(CONNECTIONS))):
        assert status != 0 or b"memory: no world" in out, (status, out)
    ends = {}
    for connection, said in written.items():
        replies = replies_of(CONNECTIONS[connection])
        end = ending(replies, 0, said)
        is_given_up = any(steps[it] == connection for it in refused)
        # One that is given up gets no reply that says so, unless it ended before.
        assert not is_alone or not is_given_up or sent(UNAVAILABLE) not in said, (refused, said)
        ends[connection] = (end, "given up" if is_given_up else "kept")
    others = [it for it in ends.values() if it != ("whole", "kept")]
    assert not is_alone or len(refused) <= 1 and len(others) <= 1, (refused, ends)
    return ends


def run_built(program, room, case, refused, later=False):
    """The status and the output of a built program, and how many requests for memory it made."""
    variables = {"LD_PRELOAD": f"{room}/refuse.so", "COUNT": f"{room}/count", "REFUSED": str(refused)}
    variables |= {"LATER": "1"} if later else {}
    ran = subprocess.run([program], input=case.encode(), capture_output=True, env=os.environ | variables)
    return ran.returncode, ran.stdout, int(open(f"{room}/count").read())


def add(counts, later, status, ends):
    for connection, (end, fate) in ends.items() or [("-", ("nothing shown", "-"))]:
        key = ("with all after it" if later else "alone", connection, end, fate, status)
        counts[key] = counts.get(key, 0) + 1


def report(counts):
    for (manner, connection, end, fate, status), count in sorted(counts.items(), key=str):
        print(f"{manner}: connection {connection}: {end}, {fate}, status {status}: {count}")
    for connection, exchanges in enumerate(CONNECTIONS):
        seen = {(end, fate) for manner, it, end, fate, _ in counts if manner == "alone" and it == connection}
        assert any(fate == "given up" for _, fate in seen), f"connection {connection} was never given up"
        for number in range(1, len(exchanges) + 1):
            assert (in_place_of(number), "kept") in seen, f"connection {connection}: no {in_place_of(number)}"


def check_built(program, room):
    case, steps = schedule()
    status, out, requests = run_built(program, room, case, 0)
    ends = judge(status, out, steps, True)
    assert status == 0 and set(ends.values()) == {("whole", "kept")}, (status, out)
    counts = {}
    for refused in range(1, requests + 1):
        for later in (False, True):
            status, out, _ = run_built(program, room, case, refused, later)
            add(counts, later, status, judge(status, out, steps, not later))
    report(counts)


# The number of the request that `rt try` refuses, which is one that the case alone does not come to; and so many lines stand before the
# case at most, each of which takes a request for itself, so that all requests of the case are refused in turn by one build.
TRIED = 300
LINES = 260


def tried(folder, cases):
    """The status and the output of each case, as `rt try` has them."""
    words = ["rt", "try", "--steps", "1", "--cases", cases, "--fail-alloc", str(TRIED)]
    ran = subprocess.run(words, cwd=folder, capture_output=True)
    ends = re.findall(rb"^case=(\d+) run=ended status=(\d+)", ran.stdout + b"\n" + ran.stderr, re.M)
    outs = dict(re.findall(rb"^== (\d+)\n(.*?)(?=^== \d+\n|\Z)", ran.stdout, re.M | re.S))
    return {int(it): (int(status), outs[it]) for it, status in ends}


def check_tried(folder, room):
    case, steps = schedule()
    cases = f"{room}/cases"
    os.mkdir(cases)
    for lines in range(LINES + 1):
        with open(f"{cases}/{lines}", "w", encoding="utf-8") as it:
            it.write("= before\n! shown\n! 0 connections\n" + "0 >+a\n" * lines + "\n" + case)
    runs = tried(folder, cases)
    assert len(runs) == LINES + 1, sorted(set(range(LINES + 1)) - set(runs))
    ends = {it: judge(status, out, steps, True) for it, (status, out) in runs.items()}
    assert set(ends[0].values()) == {("whole", "kept")} and not ends[LINES], (ends[0], ends[LINES])
    counts = {}
    for lines, end in ends.items():
        add(counts, False, runs[lines][0], end)
    report(counts)


if __name__ == "__main__":
    (check_tried if os.path.isdir(sys.argv[1]) else check_built)(*sys.argv[1:])
