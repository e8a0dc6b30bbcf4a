"""Checks what gsd does where a request for memory is refused: once.py PROGRAM FOLDER ROOM."""
import re
import resource
import subprocess
import sys

from connection_memory import ending

NO_MEMORY = b"gsd: no memory\n"
BAD = (2, b"", b"gsd: bad arguments\n")
CANNOT_LISTEN = (3, b"", b"gsd: cannot listen\n")

# The bytes of a body that is dropped, and the most bytes of the program's memory. It needs some four million.
DROPPED_BYTES = 60_000_000
MAX_MEMORY_BYTES = 32_000_000


def run(program, words, text, room, refused, later=False):
    """The status, the output and what is said."""
    variables = {"LD_PRELOAD": f"{room}/refuse.so", "COUNT": f"{room}/count", "REFUSED": str(refused)}
    if later:
        variables["LATER"] = "1"
    done = subprocess.run([program, *words], input=text, capture_output=True, env=variables, timeout=60)
    return done.returncode, done.stdout, done.stderr


def split(output):
    """The replies."""
    return re.split(rb"(?<=\n)(?=HTTP/1\.1 \d{3} )", output)


def is_right(got, want):
    """What is wanted, or want of memory: said, or answered with a 503 that ends the output, or by a reply that breaks off."""
    if got == want:
        return True
    status, output, said = got
    if not want[1].startswith(b"HTTP/"):
        return got == (4, b"", NO_MEMORY)
    return said == (NO_MEMORY if status == 4 else b"") and bool(ending(split(want[1]), status, output))


def bound_memory():
    resource.setrlimit(resource.RLIMIT_AS, (MAX_MEMORY_BYTES, MAX_MEMORY_BYTES))


def check_memory(program):
    """Memory does not grow with the bytes of a body that is dropped."""
    text = b"DELETE /graphs/h HTTP/1.1\r\nHost: a\r\nContent-Length: %d\r\n\r\n" % DROPPED_BYTES + bytes(DROPPED_BYTES)
    done = subprocess.run([program, "--once"], input=text, capture_output=True, preexec_fn=bound_memory, timeout=300)
    got = (done.returncode, done.stdout, done.stderr)
    assert got == (0, b"HTTP/1.1 404 Not Found\r\nContent-Length: 0\r\nStore-Commit: 0\r\n\r\n", b""), got
    print(f"a body of {DROPPED_BYTES} bytes that is dropped, in {MAX_MEMORY_BYTES} bytes of memory: its reply is 404")


def main(program, folder, room):
    text = open(f"{folder}/stdin", "rb").read()
    output = open(f"{folder}/stdout", "rb").read()
    help_text = run(program, [b"--help"], b"", room, 0)
    assert help_text[0] == 0 and not help_text[2], help_text
    lines = [
        ([b"--once"], (0, output, b"")),
        ([b"--once", b"--piece", b"0"], BAD),
        ([b"--once", b"more"], BAD),
        ([b"--once", b"\xff"], BAD),
        ([b"--listen", b"127.0.0.1:0", b"--once"], BAD),
        ([b"--listen", b"x"], CANNOT_LISTEN),
        ([], BAD),
        ([b"--help"], help_text),
    ]
    for words, want in lines:
        assert run(program, words, text, room, 0) == want, words
        requests = int(open(f"{room}/count").read())
        statuses = {}
        for refused in range(1, requests + 1):
            for later in (False, True):
                got = run(program, words, text, room, refused, later)
                assert is_right(got, want), (words, refused, later, got)
                statuses[got[0]] = statuses.get(got[0], 0) + 1
        name = b" ".join(words).decode(errors="backslashreplace") or "no words"
        print(f"{name}: {requests} requests, each refused in turn; statuses {statuses}")
    check_memory(program)


if __name__ == "__main__":
    main(*sys.argv[1:])
