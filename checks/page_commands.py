"""Runs the commands that stand in the pages against a built gsd: page_commands.py PROGRAM.

A block that begins with three backquotes and `sh` is run by one shell a page, from top to bottom. The block `text` that follows it
is just what it must print, on either output, and one without such a block must print nothing. A block with the name of a file after
its language is saved under that name in the folder where the shell stands. Blocks without a language call the toolchain or
systemd, and are left out, but for the session of README: one with the commands, and one with what they print, against the server that the page
starts before it."""
import os
import pathlib
import re
import signal
import socket
import subprocess
import sys
import tempfile

TOP = pathlib.Path(__file__).resolve().parent.parent
PAGES = ("docs/USING.md", "docs/SCALING.md")
# Where the session of README begins.
FIRST_LINE = "cats=localhost:8080/graphs/cats"
# Where the pages listen: what another program has there is not to be written to.
PORTS = (8080, 8081, 8180, 8181, 8182, 8183, 8443)
SECONDS = 240
BLOCK = re.compile(r"(?ms)^```([^\n]*)\n(.*?)^```$")


def blocks(page):
    """Each block of a page: the line that it begins at, the words beside its backquotes, and its text."""
    text = (TOP / page).read_text(encoding="utf-8")
    return [(text.count("\n", 0, it.start()) + 1, it[1].split(), it[2]) for it in BLOCK.finditer(text)]


def steps(page):
    """What is to be done, in order: `run` with a script and what it prints, or `save` with a name and a text."""
    found, made = blocks(page), []
    for (line, words, text), (_, after, printed) in zip(found, found[1:] + [(0, [], "")]):
        if words == ["sh"]:
            made.append((line, "run", text, printed if after == ["text"] else ""))
        elif len(words) == 2:
            made.append((line, "save", words[1], text))
    return made


def readme_steps():
    """The session of README, with its server before it."""
    found = blocks("README.md")
    start = next(number for number, it in enumerate(found) if it[2].startswith(FIRST_LINE))
    options = next(it[2] for it in reversed(found[:start]) if "--listen" in it[2]).rsplit(" -- ", 1)[1].strip()
    line, _, commands = found[start]
    return [
        (line, "run", f"./crates/gsd/out/gsd {options} > listening.txt & server=$!\ncurl -s --retry 50 --retry-delay 1 --retry-connrefused localhost:8080\n", ""),
        (line, "run", commands, found[start + 1][2]),
        (line, "run", "kill $server\n", ""),
    ]


def tree_with(program, folder):
    """A folder that looks like this checkout with the given program built in it."""
    for name in ("docs", "examples", "README.md", "packaging"):
        (folder / name).symlink_to(TOP / name)
    out = folder / "crates" / "gsd" / "out"
    out.mkdir(parents=True)
    (out / "gsd").symlink_to(pathlib.Path(program).resolve())
    return folder


def script_of(made, room):
    """One script that does all the steps, and keeps what each prints."""
    lines = []
    for number, (_, kind, first, second) in enumerate(made):
        if kind == "save":
            (room / f"saved-{number}").write_text(second, encoding="utf-8")
            lines.append(f"cp {room}/saved-{number} {first}")
        else:
            (room / f"commands-{number}").write_text(first, encoding="utf-8")
            lines.append(f". {room}/commands-{number} > {room}/printed-{number} 2>&1 < /dev/null")
    return "\n".join(lines) + "\n"


def wrong_blocks(page, made, program):
    """Runs a page; the blocks that print what the page does not say."""
    wrong = []
    with tempfile.TemporaryDirectory() as name:
        room = pathlib.Path(name)
        room.chmod(0o755)
        (room / "tree").mkdir()
        tree = tree_with(program, room / "tree")
        environment = os.environ | {"LC_ALL": "C.UTF-8", "TMPDIR": name}
        # What the shell itself says, as of jobs that ended, is shown where a block is wrong.
        own = open(room / "own", "w+", encoding="utf-8")
        shell = subprocess.Popen(["bash"], cwd=tree, stdin=subprocess.PIPE, stderr=own, env=environment, start_new_session=True)
        try:
            shell.communicate(script_of(made, room).encode(), timeout=SECONDS)
        except subprocess.TimeoutExpired:
            wrong.append(f"{page}: not through after {SECONDS} seconds")
        finally:
            try:
                os.killpg(shell.pid, signal.SIGTERM)
            except ProcessLookupError:
                pass
        for number, (line, kind, commands, printed) in enumerate(made):
            path = room / f"printed-{number}"
            said = path.read_text(encoding="utf-8") if path.exists() else "(it was not run)\n"
            if kind == "run" and said != printed:
                wrong.append(f"{page}, line {line}: it prints\n{said}and the page says\n{printed}")
        own.seek(0)
        wrong += [f"the shell says\n{own.read()}"] if wrong else []
        own.close()
    return wrong


def taken(port):
    with socket.socket() as asking:
        return asking.connect_ex(("127.0.0.1", port)) == 0


def main(program):
    if not (os.path.isfile(program) and os.access(program, os.X_OK)):
        print(f"there is no program {program}")
        sys.exit(2)
    # ended early, it takes its folder and its shell along
    signal.signal(signal.SIGTERM, lambda *_: sys.exit(143))
    ports = [port for port in PORTS if taken(port)]
    if ports:
        print(f"other programs have the ports {', '.join(map(str, ports))}")
        sys.exit(2)
    wrong = []
    for page, made in [("README.md", readme_steps())] + [(page, steps(page)) for page in PAGES]:
        found = wrong_blocks(page, made, program)
        many = sum(it[1] == "run" for it in made)
        print(f"{page}: {many} blocks, {'wrong' if found else 'all right'}", flush=True)
        wrong += found
    print("\n".join(wrong), end="")
    sys.exit(1 if wrong else 0)


main(sys.argv[1])
