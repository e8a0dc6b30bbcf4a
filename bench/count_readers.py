"""Instructions a triple of each reader: count_readers.py PROGRAM TRIPLES. Load does not change them. What a reader takes for an
empty document is not counted."""
import pathlib
import re
import subprocess
import sys
import tempfile

HERE = pathlib.Path(__file__).resolve().parent
PIECES = [65_536, 1_000]


def instructions(command, file):
    """How many instructions a run takes that reads the file."""
    tool = ["valgrind", "--tool=callgrind", "--callgrind-out-file=/dev/null"]
    with open(file, "rb") as source:
        run = subprocess.run(tool + command, stdin=source, stdout=subprocess.DEVNULL, stderr=subprocess.PIPE, text=True, check=True)
    return int(re.search(r"Collected : (\d+)", run.stderr).group(1))


def report(name, command, file, empty, triples):
    used = (instructions(command(file), file) - instructions(command(empty), empty)) / triples
    print(f"{name}: {used:,.0f} instructions a triple")


def main():
    program, triples = sys.argv[1], int(sys.argv[2])
    with tempfile.TemporaryDirectory() as name:
        empty = pathlib.Path(name, "empty")
        empty.touch()
        for language, maker, words in (("ntriples", "make_document.py", []), ("turtle", "make_turtle.py", ["turtle"])):
            for kind in ([], ["accents"]):
                file = pathlib.Path(name, "document")
                with open(file, "wb") as out:
                    subprocess.run([sys.executable, HERE / maker, str(triples), *kind], stdout=out, check=True)
                what = " ".join([language, *kind])
                for piece in PIECES:
                    report(f"{what}, pieces of {piece:,}", lambda _: [program, *words, str(piece)], file, empty, triples)
                report(f"{what}, serdi", lambda it: ["serdi", "-i", language, "-o", "ntriples", str(it)], file, empty, triples)


main()
