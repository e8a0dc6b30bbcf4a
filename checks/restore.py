"""What a server holds is saved and put back: restore.py PROGRAM TRIPLES. The largest graph has so many triples. Two files that are saved, one
before and one after, have the same lines but for the labels of blank nodes, and of these a change one to one is found. Then saves and restores
that end early, or have to be refused. Ends with status 1 if anything is wrong."""
import fcntl
import filecmp
import glob
import http.client
import itertools
import os
import re
import shutil
import signal
import stat
import subprocess
import sys
import tempfile
import time
import urllib.parse

from serving import Server

HERE = os.path.dirname(os.path.abspath(__file__))
SAVE = os.path.join(HERE, "..", "examples", "save.sh")
RESTORE = os.path.join(HERE, "..", "examples", "restore.py")
BASE = "http://localhost:8080"
N_TRIPLES = "application/n-triples"
READY = "urn:gsd:ready"

# Of the first restore: so that the largest graph and the one of blank nodes are cut into several bodies.
BODY_BYTES = 1_000_000

# A curl that reads no faster than this can be ended in the middle of a reply. What the sockets hold is far less than the dataset.
SLOW = f'#!/bin/sh\nexec {shutil.which("curl")} "$@" --limit-rate 10M\n'

GRAPHS, CHAINS, CHAIN_NODES, PAIRS = 1_000, 10, 100, 20_000
ODD_NAMES = (
    "/graphs/a%20b%C3%A9?x=1&y=%22two%22",
    "/graphs/a//b/../;c=d,(e)!",
    "/graphs/n1-0?",
)
ODD_OTHER_NAMES = ("http://e/100%", "http://e/é/日本/😀?q='a'+b&c=d#f;(e)[g]", "urn:x:%GG", "http://e/" + "n" * 2039)

wrong = []


def check(name, is_right, shown=""):
    if not is_right:
        wrong.append(name)
        print(f"wrong: {name} {shown}", flush=True)


class Client:
    def __init__(self, server):
        self.connection = http.client.HTTPConnection("127.0.0.1", server.port, timeout=60)

    def ask(self, method, target, body=None):
        """Status, body and commit number."""
        self.connection.request(method, target, body, {"Content-Type": N_TRIPLES} if body is not None else {})
        reply = self.connection.getresponse()
        return reply.status, reply.read(), int(reply.getheader("Store-Commit", "-1"))

    def write(self, method, target, text):
        status = self.ask(method, target, text.encode())[0]
        if status not in (201, 204):
            raise SystemExit(f"{method} {target[:80]} is answered {status}")


def target_of(name):
    return "/store?graph=" + urllib.parse.quote(name, safe="")


def large_lines(begin, end):
    integer = "<http://www.w3.org/2001/XMLSchema#integer>"
    return "".join(f'<http://e/subject/{it}> <http://e/a/property/with/a/longer/name> "{it}"^^{integer} .\n' for it in range(begin, end))


def chain_lines(number):
    """A chain that only its first node names; its nodes hang together through all its lines. An IRI points into its middle."""
    nodes = [f"_:chain{number}.{it}" for it in range(CHAIN_NODES)]
    lines = [f'{nodes[0]} <http://e/name> "chain {number % (CHAINS // 2)}" .\n']
    lines += [f"{one} <http://e/next> {other} .\n" for one, other in zip(nodes, nodes[1:])]
    return "".join([*lines, f"<http://e/chains> <http://e/has> {nodes[CHAIN_NODES // 2]} .\n"])


def pair_lines(number):
    """Two nodes that know each other; each fourth pair says what its neighbour says."""
    name = number // 4 * 4 if number % 4 == 1 else number
    return f'_:a{number} <http://e/knows> _:b{number} .\n_:b{number} <http://e/name> "{name}" .\n<http://e/s{number % 100}> <http://e/met> _:a{number} .\n'


def fill(client, triples):
    for number in range(GRAPHS):
        client.write("PUT", f"/graphs/g{number}", "".join(f'<http://e/s{it}> <http://e/p> "{it} of {number}\\n_:x <g> ." .\n' for it in range(20)))
    client.write("PUT", "/store?default", '<http://e/s> <http://e/p> <http://e/o> .\n_:x <http://e/p> "in the default graph" .\n_:x <http://e/q> _:x .\n')
    for name in ODD_NAMES:
        client.write("PUT", name, f'<http://e/s> <http://e/p> "{name}" .\n_:x <http://e/p> _:y .\n')
    for name in ODD_OTHER_NAMES:
        client.write("PUT", target_of(name), '<http://e/s> <http://e/p> "odd"@en .\n')
    client.write("PUT", "/graphs/blank", "".join(chain_lines(it) for it in range(CHAINS)) + "".join(pair_lines(it) for it in range(PAIRS)))
    for begin in range(0, triples, 250_000):
        client.write("POST", "/graphs/large", large_lines(begin, min(begin + 250_000, triples)))


def save(server, path, ready=None, **more):
    """A save, with what more is said in its environment."""
    words = [SAVE, server.url + "/store", path] + ([server.url + "/store?graph=" + READY] if ready else [])
    return subprocess.Popen(words, stderr=subprocess.PIPE, text=True, env=os.environ | more)


def ended(process):
    """Its status, and what it said on standard error."""
    said = process.communicate(timeout=900)[1]
    return process.returncode, said


def restore(server, path, *options):
    words = [sys.executable, RESTORE, *options, server.url, path]
    return subprocess.Popen(words, stderr=subprocess.PIPE, text=True)


def held(server, client, path, *options):
    """A restore that is held after its first commit, so that what follows is in the middle of it."""
    before = client.ask("HEAD", "/store")[2]
    process = restore(server, path, *options)
    while client.ask("HEAD", "/store")[2] == before and process.poll() is None:
        time.sleep(0.002)
    process.send_signal(signal.SIGSTOP)
    check("a restore is held in its middle", process.poll() is None)
    return process


def ready_options(server):
    return ["--ready", f"{server.url}/store?graph={READY}"]


def timed(what, process, path):
    begun = time.perf_counter()
    status, said = ended(process)
    seconds, many = time.perf_counter() - begun, os.path.getsize(path)
    check(what, status == 0, said)
    print(f"{what}: {many / 1e6:.0f} MB in {seconds:.1f} s, {many / 1e6 / seconds:.0f} MB/s", flush=True)
    return said


# A line of a saved file: the two terms that may be labels, and what is between and after them.
LINE = re.compile(r'(_:\S+|<[^>]*>)( <[^>]*> )(_:\S+|<[^>]*>|"(?:[^"\\]|\\.)*"(?:\^\^<[^>]*>|@[a-z0-9-]+)?)((?: <[^>]*>)? \.)\n')


def has_label(line):
    return line.startswith("_:") or line.split(" ", 3)[2].startswith("_:")


def parted(path):
    """The lines with labels, and a walk over the others in their order."""
    with open(path, encoding="utf-8", newline="\n") as lines:
        labelled = [LINE.fullmatch(line).groups() for line in lines if has_label(line)]

    def others():
        with open(path, encoding="utf-8", newline="\n") as lines:
            yield from (line for line in lines if not has_label(line))
    return labelled, others()


def groups_of(lines):
    """The lines in groups that share no label, each the lines that hang together: a walk from label to label."""
    at = {}
    for line in lines:
        for term in {line[0], line[2]}:
            if term.startswith("_:"):
                at.setdefault(term, []).append(line)
    seen, groups = set(), []
    for label in at:
        if label in seen:
            continue
        waiting, found = [label], set()
        seen.add(label)
        while waiting:
            for line in at[waiting.pop()]:
                found.add(line)
                for term in (line[0], line[2]):
                    if term.startswith("_:") and term not in seen:
                        seen.add(term)
                        waiting.append(term)
        groups.append(found)
    return groups


def form_of(group):
    """A text of the group that no label is in, and its labels in the order of that text. Each label is told from the others by what it is told of
    them, round by round; a group where that leaves two labels alike is one that this check does not make."""
    labels = sorted({term for line in group for term in (line[0], line[2]) if term.startswith("_:")})
    ranks = dict.fromkeys(labels, 0)
    while True:
        told = {label: [ranks[label]] for label in labels}
        for subject, verb, value, rest in group:
            if subject in ranks:
                told[subject].append(("has", verb, ranks.get(value, value), rest, subject == value))
            if value in ranks:
                told[value].append(("is of", verb, ranks.get(subject, subject), rest, subject == value))
        keys = {label: repr([it[0], *sorted(it[1:], key=repr)]) for label, it in told.items()}
        numbers = {key: number for number, key in enumerate(sorted(set(keys.values())))}
        after = {label: numbers[key] for label, key in keys.items()}
        if len(numbers) == len(set(ranks.values())):
            break
        ranks = after
    if len(set(ranks.values())) < len(labels):
        raise SystemExit(f"two labels are alike in a group of {len(group)} lines")
    text = sorted((f"_:{ranks[line[0]]}" if line[0] in ranks else line[0], line[1], f"_:{ranks[line[2]]}" if line[2] in ranks else line[2], line[3]) for line in group)
    return repr(text), sorted(labels, key=ranks.get)


def is_the_same(before, after):
    """Whether the second file is the first one under a change of labels, one to one: one is made up, and then looked at by itself."""
    (labelled, others), (labelled_after, others_after) = parted(before), parted(after)
    if any(one != other for one, other in itertools.zip_longest(others, others_after)):
        return False
    forms, forms_after = (sorted(form_of(it) for it in groups_of(lines)) for lines in (labelled, labelled_after))
    if [it[0] for it in forms] != [it[0] for it in forms_after]:
        return False
    renamed = {}
    for (_, labels), (_, labels_after) in zip(forms, forms_after):
        renamed.update(zip(labels, labels_after))
    mapped = {(renamed.get(one, one), verb, renamed.get(other, other), rest) for one, verb, other, rest in labelled}
    print(f"labels: {len(renamed)} in {len(forms)} groups, on {len(labelled)} lines", flush=True)
    return len(set(renamed.values())) == len(renamed) and mapped == set(labelled_after) and len(mapped) == len(labelled) == len(labelled_after)


def check_same(program, room, triples):
    """Save, start anew, put back, save: the same. The file that is left is that of the first save."""
    first, second = f"{room}/first.nq", f"{room}/second.nq"
    with Server(program, "--base", BASE) as server:
        fill(Client(server), triples)
        timed("a save", save(server, first), first)
    with Server(program, "--base", BASE) as server:
        said = timed(f"a restore in bodies of {BODY_BYTES} bytes", restore(server, first, "--body", str(BODY_BYTES)), first)
        lines, graphs, requests = map(int, re.search(r"lines (\d+), graphs (\d+), requests (\d+)", said).groups())
        with open(first, "rb") as saved:
            check("each line was sent once", lines == sum(1 for _ in saved), said)
        check("each graph was sent", graphs == GRAPHS + 3 + len(ODD_NAMES) + len(ODD_OTHER_NAMES), said)
        check("graphs were cut", requests > graphs + triples * 100 // BODY_BYTES, said)
        ended(save(server, second))
        check("the second save is the first one but for labels", is_the_same(first, second))
        for name in ODD_NAMES:
            check(f"GET {name}", Client(server).ask("GET", name)[0] == 200)
    with Server(program, "--base", BASE) as server:
        timed("a restore in bodies of 64 MiB", restore(server, first), first)
        ended(save(server, second))
        check("the same in large bodies", is_the_same(first, second))
    os.remove(second)
    return first


def in_the_middle(server, path, slow):
    """A save by the slow curl of that folder, of which a part is there."""
    process = save(server, path, PATH=f"{slow}:{os.environ['PATH']}")
    while process.poll() is None:
        if any(os.path.getsize(it) for it in glob.glob(f"{path}.*/dataset")):
            return process
        time.sleep(0.01)
    raise SystemExit(f"a save ended too early: {ended(process)}")


def check_ended_saves(program, room, first):
    """Saves that are ended, and whose server is ended."""
    path, slow = f"{room}/ended/dataset.nq", f"{room}/slow"
    for folder in (f"{room}/ended", slow):
        os.mkdir(folder)
    with open(f"{slow}/curl", "w", encoding="utf-8") as program_of_it:
        program_of_it.write(SLOW)
    os.chmod(f"{slow}/curl", 0o755)
    old = "<http://e/s> <http://e/p> <http://e/the/old/file> .\n"
    with open(path, "w", encoding="ascii") as file:
        file.write(old)

    def look(name, left):
        with open(path, encoding="ascii") as file:
            check(f"{name}: the old file stands", file.read() == old)
        found = os.listdir(f"{room}/ended")
        check(f"{name}: {left} beside it", len(found) == 1 + left, found)

    with Server(program, "--base", BASE) as server:
        check("a restore", ended(restore(server, first))[0] == 0)
        for name, number in (("SIGTERM", signal.SIGTERM), ("SIGHUP", signal.SIGHUP), ("SIGINT", signal.SIGINT)):
            process = in_the_middle(server, path, slow)
            process.send_signal(number)
            check(f"a save ended by {name}", ended(process)[0] == 128 + number)
            look(f"a save ended by {name}", 0)
        process = in_the_middle(server, path, slow)
        with open(f"/proc/{process.pid}/task/{process.pid}/children", encoding="ascii") as children:
            curl = int(children.read())
        process.kill()
        process.wait()
        os.kill(curl, signal.SIGTERM)
        process.stderr.close()
        look("a save ended by SIGKILL", 1)
        for folder in glob.glob(f"{path}.*"):
            for file in os.listdir(folder):
                os.remove(os.path.join(folder, file))
            os.rmdir(folder)
        process = in_the_middle(server, path, slow)
        server.process.kill()
        status, said = ended(process)
        check("a save whose server ends fails", status == 1 and "stays as it was" in said, (status, said))
        look("a save whose server ends", 0)
        status, said = ended(save(server, path))
        check("a save without a server fails", status == 1 and "stays as it was" in said, (status, said))
        look("a save without a server", 0)
        status, said = ended(restore(server, first))
        check("a restore without a server fails", status == 1 and "lines 1 to " in said, (status, said))
    print("saves that end early: the old file stands", flush=True)


def check_places(program, room):
    """What a save replaces, and what it keeps of it."""
    path, pipe, home = f"{room}/places/dataset.nq", f"{room}/places/pipe", f"{room}/home"
    for folder in (f"{room}/places", home):
        os.mkdir(folder)
    os.mkfifo(pipe)
    with open(f"{home}/.curlrc", "w", encoding="ascii") as settings:
        settings.write("include\n")
    with open(path, "wb"):
        os.chmod(path, 0o640)
    with Server(program, "--base", BASE) as server:
        client = Client(server)
        client.write("PUT", "/graphs/a", '<http://e/s> <http://e/p> "1" .\n')
        status, said = ended(save(server, pipe))
        check("a save never replaces a pipe", status == 1 and "no plain file" in said and stat.S_ISFIFO(os.stat(pipe).st_mode), (status, said))
        folder = os.open(f"{room}/places", os.O_RDONLY)
        fcntl.flock(folder, fcntl.LOCK_EX)
        process = save(server, path, HOME=home, CURL_HOME=home)
        time.sleep(0.3)
        check("a save waits for another one of its folder", process.poll() is None and os.path.getsize(path) == 0)
        os.close(folder)
        check("a save after another one", ended(process)[0] == 0)
        with open(path, "rb") as file:
            check("settings of the user's curl are not read", file.read() == client.ask("GET", "/store")[1])
        check("the mode of the file stays", stat.S_IMODE(os.stat(path).st_mode) == 0o640)
        check("nothing stays beside the file", sorted(os.listdir(f"{room}/places")) == ["dataset.nq", "pipe"])


REFUSED_FILES = (
    # Its name; the file; --body; what is said.
    ("a group larger than a body", ['<http://e/s> <http://e/p> "1" <http://e/g> .', "_:x <http://e/p> _:y <http://e/g> .", '_:z <http://e/p> "1" <http://e/g> .',
        "<http://e/s> <http://e/p> _:z <http://e/g> .", "_:y <http://e/p> _:z <http://e/g> ."], 80, ("line 2:", "<http://e/g>", "_:x")),
    ("a label in two graphs", ['_:x <http://e/p> "1" .', "", "<http://e/s> <http://e/p> _:x <http://e/g> ."], 1000, ("line 3:", "_:x", "line 1", "default")),
    ("a line that is no triple", ['<http://e/s> <http://e/p> "1" .', "# a comment", '<http://e/s> <http://e/p> "1 .'], 1000, ("line 3:", "object")),
    ("a predicate that is a literal", ['<http://e/s> "p" "1" .'], 1000, ("line 1:", "predicate")),
    ("an IRI that is relative", ['<http://e/s> <http://e/p> "1" <g> .'], 1000, ("line 1:", "graph")),
    ("a line without a dot", ['<http://e/s> <http://e/p> "1" <http://e/g>', '<http://e/s> <http://e/p> "2" .'], 1000, ("line 1:", "dot")),
    ("a graph named by a blank node", ['<http://e/s> <http://e/p> "1" .', '<http://e/s> <http://e/p> "1" _:g .'], 1000, ("line 2:", "_:g")),
    ("a triple larger than a body", ['<http://e/s> <http://e/p> "1" .', '<http://e/s> <http://e/p> "two" .'], 33, ("line 2:", "34")),
    ("an escape for what no IRI has", ['<http://e/s> <http://e/p> "1" <http://e/\\u0020> .'], 1000, ("line 1:", "escape")),
    *((f"an escape for what is not there: {it}", ['<http://e/s> <http://e/p> "1" .', f"{it} <http://e/g> ."], 1000, ("line 2:", "escape")) for it in (
        "<http://e/\\u0020> <http://e/p> _:x", "<http://e/s> <http://e/p> <http://e/\\u0020>", '<http://e/s> <http://e/p> "1"^^<http://e/\\u003e>',
        '<http://e/s> <http://e/p> "\\uD800"', '<http://e/s> <http://e/p> "\\U00110000"', "<\\u00e9:x> <http://e/p> <http://e/o>")),
    ("bytes that are not UTF-8", ['<http://e/s> <http://e/p> "1" .', '<http://e/s> <http://e/p> "\udcff" .'], 1000, ("line 2:", "UTF-8")),
)

TAKEN_FILE = (
    '# a file from elsewhere, whose graphs do not stand in runs\r\n'
    '<http://e/s><http://e/p>"1"<http://e/g>.\r\n'
    '\r\n'
    '_:x\t<http://e/p>  _:y. # in the default graph\n'
    '<http://e/s> <http://e/p> "a \\"quoted\\" \\u00e9 \\\\uD800 <http://e/h> ." <http://e/\\u00e9> .\n'
    '  <http://e/s> <http://e/p> "2"@en-GB <http://e/g> .\n'
    '_:y <http://e/p> _:é.1 .\n'
    '<http://e/s> <http://e/p> "3"^^<http://e/d> <http://e/é> .\n'
    '_:é.1 <http://e/p> "end" .'
)
TAKEN_GRAPHS = {
    "http://e/g": '<http://e/s> <http://e/p> "1" .\n<http://e/s> <http://e/p> "2"@en-gb .\n',
    "http://e/é": '<http://e/s> <http://e/p> "3"^^<http://e/d> .\n<http://e/s> <http://e/p> "a \\"quoted\\" é \\\\uD800 <http://e/h> ." .\n',
}


def check_small_files(program, room):
    """Files that are refused before anything is sent, one that is taken, and one that the server refuses."""
    path = f"{room}/small.nq"
    with Server(program, "--base", BASE) as server:
        client = Client(server)
        client.write("PUT", "/graphs/kept", '<http://e/s> <http://e/p> "kept" .\n_:x <http://e/p> "kept" .\n')
        client.write("PUT", target_of("http://e/g"), '<http://e/s> <http://e/p> "old" .\n')
        before = client.ask("GET", "/store")
        for name, lines, body, words in REFUSED_FILES:
            with open(path, "w", encoding="utf-8", errors="surrogateescape", newline="\n") as file:
                file.write("\n".join(lines) + "\n")
            status, said = ended(restore(server, path, "--body", str(body), *ready_options(server)))
            check(f"{name} is refused", status == 2 and all(it in said for it in words), (status, said))
            check(f"{name}: nothing was sent", client.ask("GET", "/store") == before)
        for options in (["--body", "0"], ["--body", "67108865"], ["--ready", server.url + "/graphs/ready"]):
            check(f"{options}", ended(restore(server, path, *options))[0] == 2)
        check("a file that is not there", ended(restore(server, path + ".none"))[0] == 2)
        check("wrong arguments or files: nothing was sent", client.ask("GET", "/store") == before)
        with open(path, "w", encoding="utf-8", newline="") as file:
            file.write(TAKEN_FILE)
        status, said = ended(restore(server, path))
        check("a file from elsewhere is taken", status == 0, said)
        for name, text in TAKEN_GRAPHS.items():
            check(f"the graph {name}", client.ask("GET", target_of(name))[1].decode() == text)
        labels = [it.split() for it in client.ask("GET", "/store?default")[1].decode().splitlines()]
        nexts = {it[0]: it[2] for it in labels}
        firsts = set(nexts) - set(nexts.values())
        check("a chain over lines that do not stand in a row", len(labels) == 3 and len(firsts) == 1 and nexts[nexts[nexts[firsts.pop()]]] == '"end"', labels)
        check("a graph that the file does not have stays", client.ask("GET", "/graphs/kept")[0] == 200)
        with open(path, "w", encoding="utf-8", newline="\n") as file:
            file.write('<http://e/s> <http://e/p> "1" .\n<http://e/s> <http://e/p> "1" <http://e/f> .\n<http://e/s> <http://e/p> "%s" <http://e/f> .\n' % ("x" * 65_535))
        status, said = ended(restore(server, path))
        check("what the server refuses", status == 1 and all(it in said for it in ("<http://e/f>", "400", "lines 2 to 3")), (status, said))
    print(f"files: {len(REFUSED_FILES)} are refused before anything is sent", flush=True)


def check_others(program, room):
    """What others do in the middle of a restore: they write its graph, or start the server again."""
    path = f"{room}/others.nq"
    with open(path, "w", encoding="ascii") as file:
        file.writelines(f'<http://e/s{it}> <http://e/p> "{it}" <http://e/g> .\n' for it in range(20_000))
    for method, text in (("DELETE", None), ("PUT", b'<http://e/s> <http://e/p> "foreign" .\n')):
        with Server(program, "--base", BASE) as server:
            client = Client(server)
            process = held(server, client, path, "--body", "1000", *ready_options(server))
            check(f"a foreign {method}", client.ask(method, target_of("http://e/g"), text)[0] == 204)
            after = client.ask("GET", "/store")
            process.send_signal(signal.SIGCONT)
            status, said = ended(process)
            check(f"a restore ends by a foreign {method}", status == 1 and all(it in said for it in ("<http://e/g>", "412", "another client")), (status, said))
            check(f"a restore changes nothing after a foreign {method}", client.ask("GET", "/store") == after)
    with open(path, "w", encoding="ascii") as file:
        file.writelines(f'<http://e/s> <http://e/p> "{it}" <http://e/g{it}> .\n' for it in range(3_000))
    with Server(program, "--base", BASE) as server:
        process = held(server, Client(server), path, *ready_options(server))
        server.process.kill()
        server.process.wait()
        with Server(program, "--base", BASE, port=server.port) as another:
            process.send_signal(signal.SIGCONT)
            status, said = ended(process)
            # Where it was held in the middle of a request, that one failed.
            check("a restore ends where the server was started again", status == 1 and ("started again" in said or "failed" in said), (status, said))
            check("a server that was started again is not ready", Client(another).ask("HEAD", "/store?graph=" + READY)[0] == 404)
    print("others in the middle of a restore: it ends with status 1", flush=True)


def check_ready(program, room, first):
    """The graph that is written last."""
    path = f"{room}/ready.nq"
    target = "/store?graph=" + READY
    with Server(program, "--base", BASE) as server:
        client = Client(server)
        process = held(server, client, first, *ready_options(server))
        check("in the middle of a restore the graph is missing", client.ask("HEAD", target)[0] == 404)
        status, said = ended(save(server, path, ready=True))
        check("a save in the middle of a restore is refused", status == 1 and "404" in said and not os.path.exists(path), (status, said))
        process.send_signal(signal.SIGCONT)
        statuses = []
        while not statuses or statuses[-1][0] != 200:
            statuses.append(client.ask("HEAD", target)[::2])
            if process.poll() not in (None, 0):
                break
            time.sleep(0.005)
        status, said = ended(process)
        check("a restore with the graph that is written last", status == 0, said)
        check("it was missing, and then there", {it[0] for it in statuses[:-1]} == {404} and statuses[-1][0] == 200, statuses[-3:])
        check("no write came after it", client.ask("HEAD", "/store")[2] == statuses[-1][1], statuses[-1])
        status, said = ended(save(server, path, ready=True))
        check("a save after it", status == 0, said)
        status, said = ended(save(server, f"{room}/gone.nq", ready=True))
        check("a save is the same again", status == 0 and filecmp.cmp(path, f"{room}/gone.nq", shallow=False))
        triple = client.ask("GET", target)[1].decode()
        check("it says when", re.fullmatch(rf'<{READY}> <http://purl.org/dc/terms/available> "[-0-9]+T[:.0-9]+Z"\^\^<\S+#dateTime> \.\n', triple), triple)
    with Server(program, "--base", BASE) as server:
        client = Client(server)
        client.write("PUT", target, '<http://e/s> <http://e/p> "from before" .\n')
        before = client.ask("GET", "/store")
        status, said = ended(restore(server, path))
        check("a file that has the graph wants --ready", status == 2 and READY in said and "--ready" in said, (status, said))
        check("without --ready nothing was sent", client.ask("GET", "/store") == before)
        status, said = ended(restore(server, path, *ready_options(server)))
        check("a restore of a file that has the graph", status == 0, said)
        after = client.ask("GET", target)[1].decode()
        check("its lines in the file are left out", after.count("\n") == 1 and after != triple, after)
    print("the graph that is written last: missing as long as anything is", flush=True)


def main(program, triples):
    with tempfile.TemporaryDirectory() as room:
        first = check_same(program, room, int(triples))
        check_ended_saves(program, room, first)
        check_places(program, room)
        check_small_files(program, room)
        check_others(program, room)
        check_ready(program, room, first)
    if wrong:
        raise SystemExit(f"wrong: {', '.join(wrong)}")
    print("all is right")


if __name__ == "__main__":
    main(*sys.argv[1:])
