"""Compares the readers of N-Triples and of Turtle with plain ones, written apart, on drawn documents, each whole and in pieces
of one size: the triples, or the kind of the first fault and its place. Prints counts, and what does not agree; ends with
status 1 if anything is wrong. Its arguments are the built gs_reading_cases, or `try` for `rt try`, how many documents are
drawn (100,000), and the seed (1)."""

import collections
import itertools
import os
import random
import re
import subprocess
import sys
import tempfile

import document_oracle
import drawn_documents

HERE = os.path.dirname(os.path.abspath(__file__))
CRATE = os.path.join(HERE, "..", "crates", "gs_reading_cases")
# a run of the program has documents of about so many bytes; `rt try` gives no answer of more than 1 MiB
BYTES_A_RUN = 1_000_000
TRIED_BYTES = 120_000
SHOWN = 5


def answer_of(outcome):
    """What the program should print for an outcome of the plain reader."""
    if outcome[0] == "broken":
        return [b"fault syntax %d" % outcome[1]]
    if outcome[0] == "long":
        return [b"fault too-long"]
    return [b"ok %d" % len(outcome[1]), *sorted({it.encode("utf-8") for it in outcome[1]})]


def drawn(draw, count):
    """Drawn documents. Every other one that has a fault after its first statement ends before it."""
    for _ in range(count):
        language, data = drawn_documents.drawn(draw)
        outcome = document_oracle.read(language, data)
        if outcome[0] == "broken" and outcome[1] and draw.random() < 0.5:
            data = data[: outcome[1]]
        yield language, data


def documents(count, seed):
    """The fixed documents and so many drawn ones, with what the plain reader says of each, and a size of pieces."""
    draw = random.Random(seed)
    for language, data in itertools.chain(drawn_documents.fixed(), drawn(draw, count)):
        yield language, data, document_oracle.read(language, data), drawn_documents.piece_size(draw)


def cases_of(batch):
    """The program's input: each document whole, and in pieces."""
    lines = []
    for language, data, _, size in batch:
        lines += [f"{language} 0 {data.hex()}\n", f"{language} {size} {data.hex()}\n"]
    return "".join(lines).encode("ascii")


def output_of(program, batch):
    done = subprocess.run([program], input=cases_of(batch), capture_output=True, check=False)
    if done.returncode:
        sys.exit(f"the program ended with status {done.returncode}: {done.stderr.decode('utf-8', 'replace')}")
    return done.stdout


def outputs_of_try(batches):
    """What the program prints for each batch as `rt try` runs it."""
    with tempfile.TemporaryDirectory() as room:
        for at, it in enumerate(batches):
            with open(os.path.join(room, f"{at:06}"), "wb") as file:
                file.write(cases_of(it))
        command = ["rt", "try", "--seconds", "900", "--cases", room]
        done = subprocess.run(command, cwd=CRATE, capture_output=True, check=False)
    found = re.split(rb"(?m)^== [0-9]{6}\n", done.stdout)[1:]
    if len(found) != len(batches):
        sys.exit(done.stdout.decode("utf-8") + done.stderr.decode("utf-8"))
    return [it[: it.rindex(b"\n.\n") + 3] for it in found]


def batches_of(many, size):
    batch, bytes_so_far = [], 0
    for it in many:
        batch.append(it)
        bytes_so_far += len(it[1])
        if bytes_so_far >= size:
            yield batch
            batch, bytes_so_far = [], 0
    if batch:
        yield batch


def runs(program, many):
    """Batches of documents, with what the program prints for each."""
    if program == "try":
        parts = list(batches_of(many, TRIED_BYTES))
        return zip(parts, outputs_of_try(parts))
    return ((it, output_of(os.path.abspath(program), it)) for it in batches_of(many, BYTES_A_RUN))


def shown(data):
    """Bytes as an expression, with long runs as products."""
    pieces = re.split(rb"(?s)((.{1,4}?)\2{49,})", data)
    terms = [repr(it) for it in pieces[::3]]
    for at in range(len(pieces) // 3):
        run, unit = pieces[3 * at + 1], pieces[3 * at + 2]
        terms[at] += f" + {unit!r} * {len(run) // len(unit)}"
    return " + ".join(terms)


def report(language, data, size, wanted, found):
    """Prints an answer that does not agree."""
    print(f"{language}, {f'in pieces of {size}' if size else 'whole'}: {shown(data)}")
    for name, answer in (("plain reader", wanted), ("program", found)):
        print(f"  {name}: " + " / ".join(shown(it) for it in answer))


class Tally:
    """What was compared so far."""

    def __init__(self):
        self.counts, self.wrong, self.triples = collections.Counter(), 0, 0

    def add(self, language, data, outcome, size, answers):
        self.counts[language, outcome[0]] += 1
        self.counts["with statements"] += bool(outcome[1]) if len(outcome) > 1 else 0
        self.triples += len(outcome[1]) if outcome[0] == "document" else 0
        wanted = answer_of(outcome)
        for cut, answer in zip((0, size), answers):
            if answer.split(b"\n") != wanted:
                self.wrong += 1
                if self.wrong <= SHOWN:
                    report(language, data, cut, wanted, answer.split(b"\n"))

    def print(self):
        for language, name in (("nt", "N-Triples"), ("ttl", "Turtle")):
            whole, broken, long = (self.counts[language, it] for it in ("document", "broken", "long"))
            print(f"{name}: {whole} documents, {broken} texts that break the grammar, {long} with a term that is too long")
        print(f"{self.counts['with statements']} of them with complete statements or a document's triples, {self.triples} triples")
        print(f"each whole and in pieces: {self.wrong} answers that do not agree")


def main():
    count = int(sys.argv[2]) if len(sys.argv) > 2 else 100_000
    seed = int(sys.argv[3]) if len(sys.argv) > 3 else 1
    tally = Tally()
    for batch, output in runs(sys.argv[1], documents(count, seed)):
        answers = output.split(b"\n.\n")[:-1]
        if len(answers) != 2 * len(batch):
            sys.exit(f"{len(answers)} answers to {2 * len(batch)} cases")
        for at, (language, data, outcome, size) in enumerate(batch):
            tally.add(language, data, outcome, size, answers[2 * at : 2 * at + 2])
    tally.print()
    sys.exit(1 if tally.wrong else 0)


if __name__ == "__main__":
    main()
