"""The most memory that a reader holds for each of some hostile texts: measure_hostile.py PROGRAM BYTES. Most are broken or have
a term that is too long, so what a reader says of them is not asked here, only what it holds until it says so."""
import pathlib
import subprocess
import sys
import tempfile
import time

PIECE = "65536"


def texts(size):
    """The name, the language and the bytes of each text."""
    subject = b"<http://e/s> <http://e/p> "
    prefix = b"@prefix a: <http://e/> .\n"
    return [
        ("dots after a name", "turtle", prefix + subject + b"a:b" + b"." * size),
        ("a boolean and a dot, again and again", "turtle", subject + b"true." * (size // 5)),
        ("an IRI", "turtle", subject + b"<http://e/" + b"i" * size),
        ("a string", "turtle", subject + b'"' + b"s" * size),
        ("a long string", "turtle", subject + b'"""' + b"s" * size),
        ("a label", "turtle", subject + b"_:" + b"l" * size),
        ("a comment", "turtle", b"#" + b"c" * size),
        ("one subject of 65,000 bytes, and objects of one", "turtle",
         b"<http://e/" + b"s" * 65_000 + b"> <http://e/p> " + b",".join([b"1"] * (size // 2_000)) + b" ."),
        ("one statement of objects of one byte", "turtle", subject + b",".join([b"1"] * (size // 20)) + b" ."),
        ("an IRI", "ntriples", subject + b"<http://e/" + b"i" * size),
        ("a string", "ntriples", subject + b'"' + b"s" * size),
        ("a label", "ntriples", subject + b"_:" + b"l" * size),
    ]


def most_memory(command, file):
    """The most memory of a run, in bytes, whatever it says of the text."""
    most = 0
    with open(file, "rb") as source:
        child = subprocess.Popen(command, stdin=source, stdout=subprocess.DEVNULL, stderr=subprocess.DEVNULL)
        while child.poll() is None:
            with open(f"/proc/{child.pid}/status") as status:
                for line in status:
                    if line.startswith("VmHWM:"):
                        most = max(most, int(line.split()[1]) * 1024)
            time.sleep(0.0005)
    return most


def main():
    program, size = sys.argv[1], int(sys.argv[2])
    with tempfile.TemporaryDirectory() as name:
        file = pathlib.Path(name, "text")
        for what, language, text in texts(size):
            file.write_bytes(text)
            words = ["turtle"] if language == "turtle" else []
            ours = most_memory([program, *words, PIECE], file)
            theirs = most_memory(["serdi", "-i", language, "-o", "ntriples", str(file)], file)
            print(f"{language}, {what}: {ours / 1e6:.1f} MB, serdi {theirs / 1e6:.1f} MB")


main()
