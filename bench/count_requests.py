"""Instructions of a small request, by valgrind: count_requests.py PROGRAM.. counts what 300 requests take more than 100 by
`gsd --once`, for each of the 200. Each write brings ten new triples. A PATCH takes out those of the one before, too, and a POST
adds to the graph of all POSTs before it. Load does not change the counts."""
import re
import subprocess
import sys
import tempfile

FEW, MANY = 100, 300


def triples(number):
    """Ten triples of this number alone: IRIs and two kinds of literals, three of a subject, and one more."""
    base = "<http://example.org/"
    values = [f'"{number}"', f'"the value of number {number}"@en', f"{base}item{number}>"]
    return "".join(f"{base}s{number}-{place // 3}> {base}p{place}> {values[place % 3]} .\n" for place in range(10))


def request(method, kind="", body=""):
    head = f"{method} /graphs/ten HTTP/1.1\r\nHost: a\r\n"
    if body:
        head += f"Content-Type: application/{kind}\r\nContent-Length: {len(body)}\r\n"
    return head + "\r\n" + body


def patch(number):
    return f"DELETE DATA {{\n{triples(number - 1)}}} ;\nINSERT DATA {{\n{triples(number)}}}\n"


KINDS = {
    "GET of ten triples": lambda number: request("GET"),
    "PUT of ten": lambda number: request("PUT", "n-triples", triples(number)),
    "POST of ten": lambda number: request("POST", "n-triples", triples(number)),
    "PATCH that takes out ten and puts in ten": lambda number: request("PATCH", "sparql-update", patch(number)),
}


def instructions(program, text):
    """How many instructions the program takes for these requests."""
    with tempfile.TemporaryFile("w+") as source:
        source.write(text)
        source.seek(0)
        run = subprocess.run(
            ["valgrind", "--tool=callgrind", "--callgrind-out-file=/dev/null", program, "--once"],
            stdin=source,
            stdout=subprocess.PIPE,
            stderr=subprocess.PIPE,
            text=True,
            check=True,
        )
    told = re.findall(r"^HTTP/1.1 (\d+)", run.stdout, re.MULTILINE)
    wrong = [status for status in told if status not in ("200", "201", "204")]
    if wrong or len(told) != text.count("HTTP/1.1"):
        sys.exit(f"{program} answered {len(told)} requests, {len(wrong)} of them wrongly")
    return int(re.search(r"Collected : (\d+)", run.stderr).group(1))


def main():
    first = request("PUT", "n-triples", triples(0))
    for kind, make in KINDS.items():
        texts = [first + "".join(make(number) for number in range(1, count + 1)) for count in (FEW, MANY)]
        for program in sys.argv[1:]:
            few, many = (instructions(program, text) for text in texts)
            print(f"{program}: {kind}: {(many - few) / (MANY - FEW):,.0f} instructions", flush=True)


main()
