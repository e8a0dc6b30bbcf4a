"""Checks what gsdrill prints where a request for memory is refused: memory.py PROGRAM CRATES FOLDER [each]."""
import concurrent.futures
import functools
import os
import re
import subprocess
import sys

from turtle_text import statements as turtle_statements
from update_text import operations, patched

LAST_NUMBER = 999_999_999_999_999_999
LAST_COUNT = 18_446_744_073_709_551_615
MOST_LINES = 4_294_967_295
NO_MEMORY = "refused NoMemory"
# The most nodes that one triple takes into use where it comes to a graph or goes from it.
MOST_FOR_TRIPLE = 260
CODE = r"\\u[0-9A-Fa-f]{4}|\\U[0-9A-Fa-f]{8}"
IRI = rf'<([A-Za-z][A-Za-z0-9+.-]*:(?:[^\x00-\x20<>"{{}}|^`\\]|{CODE})*)>'
LABEL = r"_:(\w(?:[\w.-]*[\w-])?)"
LITERAL = rf'"((?:[^"\\\n\r]|\\[tbnrf"\'\\]|{CODE})*)"(?:[ \t]*@([A-Za-z]+(?:-[A-Za-z0-9]+)*)|[ \t]*\^\^[ \t]*{IRI})?'
B = r"[ \t]*"
STATEMENT = re.compile(rf"{B}(?:{IRI}|{LABEL}){B}{IRI}{B}(?:{IRI}|{LABEL}|{LITERAL}){B}\.")
EMPTY = re.compile(rf"{B}(?:#.*)?")
EXCLUDED = r'[\x00-\x20<>"{}|^`\\]'
NAMED = re.compile(r"(?m)^\d+ (?:open (?:put|post|patch)|pin|head|delete) (<[^>]*>)(?: since \d+)?$")
LETTERS = {"t": "\t", "b": "\b", "n": "\n", "r": "\r", "f": "\f"}


def decoded(text, excluded=None):
    """What a text with escapes means; `chr` and `encode` refuse what is no character."""
    meant = re.sub(r"\\(?:[uU]([0-9A-Fa-f]+)|(.))", lambda it: chr(int(it[1], 16)) if it[1] else LETTERS.get(it[2], it[2]), text)
    meant.encode()
    if excluded and re.search(excluded, meant):
        raise ValueError
    return meant


def iri(text):
    return f"<{decoded(text, EXCLUDED)}>"


def written(text):
    for plain, escape in (("\\", "\\\\"), ('"', '\\"'), ("\n", "\\n"), ("\r", "\\r")):
        text = text.replace(plain, escape)
    return text


def statements(text, request):
    """The lines of the complete statements of an N-Triples text, and whether it is a document."""
    lines, labels = [], {}

    def node(name, label):
        if label is not None:
            return f"_:b{request}_{labels.setdefault(label, len(labels) + 1)}"
        return iri(name)

    for line in re.split(r"[\r\n]", text):
        if EMPTY.fullmatch(line):
            continue
        found = STATEMENT.match(line)
        if not found:
            return lines, False
        subject, label, predicate, thing, other, lexical, tag, datatype = found.groups()
        try:
            first = node(subject, label)
            last = f'"{written(decoded(lexical))}"' if lexical is not None else node(thing, other)
            last += f"@{tag.lower()}" if tag else f"^^{iri(datatype)}" if datatype else ""
            lines.append(f"{first} {iri(predicate)} {last} .")
        except (ValueError, OverflowError):
            return lines, False
        if not EMPTY.fullmatch(line[found.end():]):
            return lines, False
    return lines, True


def worked_schedules(path, name):
    """(name, input, output) of each row of a table of schedules."""
    source = open(path, encoding="utf-8").read()
    table = source[source.index(f"const {name}:"):]
    texts = re.findall(r'"((?:[^"\\]|\\.)*)"', table[:table.index("];")])
    quoted = re.compile(r"\\u\{([0-9A-Fa-f]+)\}|\\(.)")
    plain = {"n": "\n", "t": "\t"}
    texts = [quoted.sub(lambda it: chr(int(it[1], 16)) if it[1] else plain.get(it[2], it[2]), text) for text in texts]
    return [tuple(texts[i:i + 3]) for i in range(0, len(texts), 3)]


@functools.lru_cache(maxsize=256)
def read_text(language, text, target, request):
    """The lines that a text completes in its language, and whether it is a document, unfinished, or has a fault."""
    if language == "ttl":
        return turtle_statements(text, target[1:-1] if target.startswith("<") else "http://localhost/store", request)
    lines, is_document = statements(text, request)
    return lines, "document" if is_document else "fault"


class Nodes:
    """What is known of the nodes and records in use: how many at least and at most, and, where each commit so far gave a graph a
    tree of its own, the commits that made and ended each that no graph and no open upload or patch has. Of other commits only bounds are
    known."""

    def __init__(self):
        self.low = self.high = 0
        self.ended = []
        self.births = {}
        self.is_exact = True

    def grow(self, low, high):
        self.low, self.high = self.low + low, self.high + high

    def stage(self, seat, new, commit):
        self.grow(new, new)
        self.births.setdefault(seat, set()).add(commit + 1)

    def open(self):
        """An upload or a patch takes a record."""
        self.grow(1, 1)

    def put(self, seat, replaced, birth, commit):
        """The nodes and the record of a graph end by this commit, and the nodes of the upload were made for it, or for one before."""
        self.is_exact &= self.births.pop(seat, {commit}) == {commit}
        self.ended += [(birth, commit)] * replaced

    def drop(self, seat, count):
        """So many nodes and records of a seat are left that no version reached."""
        self.births.pop(seat, None)
        self.ended += [(0, 0)] * count

    def copy(self, seat, triples, staged=0):
        """The trees of a POST, a new graph or a patch share nodes: so many triples changed, and the nodes of so many that
        were staged may be given back."""
        self.births.pop(seat, None)
        self.is_exact = False
        self.grow(-staged, MOST_FOR_TRIPLE * triples)

    def show(self, line, least, triples):
        """The line of the counts, where there are at least so many nodes and records, and just so many triples."""
        words = re.fullmatch(r"nodes (\d+) triples (\d+)", line)
        assert words and int(words[2]) == triples, f"{line}, not {triples} triples"
        shown = int(words[1])
        assert max(self.low, least) <= shown <= self.high, f"{line}, not {max(self.low, least)} to {self.high} nodes"
        assert not self.is_exact or shown == least + len(self.ended), f"{line}, not {least} and {len(self.ended)} nodes"
        self.low = self.high = shown

    def reclaim(self, line, most, least, pins):
        """The line of a reclaim of so many nodes and records, where there are at least so many, and reads have these pins."""
        words = re.fullmatch(r"reclaimed (\d+) (more|done)", line)
        assert words, line
        freed, low, high = int(words[1]), max(0, self.low - least), self.high - least
        assert freed <= min(most, high) and (pins or freed >= min(most, low)), f"{line}, of {low} to {high}"
        if self.is_exact:
            free = [it for it in self.ended if not any(it[0] <= pin < it[1] for pin in pins)]
            assert freed == min(most, len(free)), f"{line}, of {len(free)} that no pin has"
            for it in free[:freed]:
                self.ended.remove(it)
        self.grow(-freed, -freed)
        self.low = max(self.low, least + (words[2] == "more"))
        self.high = self.high if words[2] == "more" else min(self.high, least)
        assert self.low <= self.high, f"{line}, where there are {low} to {high}"


class Store:
    """An abstract graph store: each write whole at its commit, each read whole at its pin."""

    def __init__(self, seats=4, commit=0, request=0):
        self.seats, self.commit, self.request = seats, commit, request
        self.graphs = {"default": set()}
        self.births = {"default": commit}
        self.removed = commit
        self.phases = {}
        self.fed = {}
        self.languages = {}
        self.nodes = Nodes()

    def triples(self):
        return sum(len(it) for it in self.graphs.values())

    def has_record(self, target):
        """Whether a record is kept of a graph: none of a missing one, nor of an empty default graph."""
        return target in self.graphs and (target != "default" or bool(self.graphs[target]))

    def kept(self, target):
        """The nodes and the record of a graph."""
        return len(self.graphs.get(target, ())) + self.has_record(target)

    def least(self):
        """The nodes and records of all graphs and of all seats: a node for each triple, and a record for each upload and patch."""
        opened = sum(1 + (len(it[4]) if it[0] == "writing" else 0) for it in self.phases.values() if it[0] in ("writing", "patching"))
        return sum(self.kept(it) for it in self.graphs) + opened

    def last_write(self, target):
        """The commit number of the last write on a target; of a missing name that of the last Delete of any name."""
        return self.births[target] if target in self.graphs else self.removed

    def is_late(self, target, since):
        """Whether a write that should come after no commit but those up to this number comes too late; None is any number."""
        return since is not None and self.last_write(target) > since

    def pins(self):
        return [it[2] for it in self.phases.values() if it[0] == "reading"]

    def stage(self, seat, lines):
        phase = self.phases[seat]
        both = phase[4] | set(lines)
        self.nodes.stage(seat, len(both) - len(phase[4]), self.commit)
        self.phases[seat] = phase[:4] + (both,) + phase[5:]

    def end(self, seat):
        """What the seat has open is given up."""
        phase = self.phases.get(seat, ("idle",))
        if phase[0] == "writing":
            self.nodes.drop(seat, len(phase[4]) + 1)
        if phase[0] == "patching":
            self.nodes.drop(seat, 1)
        self.phases[seat] = ("idle",)
        self.fed.pop(seat, None)

    def write(self, target, graph):
        """The graph that a write leaves; its record is not used where this is the default graph and has no triple then."""
        self.births[target] = self.commit
        self.graphs[target] = graph
        if not self.has_record(target):
            self.nodes.drop(None, 1)

    def lines(self, scope):
        """The lines of a graph, where it is there, or of all graphs."""
        if scope == "all":
            names = sorted(set(self.graphs) - {"default"})
            return sorted(self.graphs["default"]) + [f"{line[:-1]}{name} ." for name in names for line in sorted(self.graphs[name])]
        return sorted(self.graphs[scope]) if scope in self.graphs else None

    def may_want_memory(self, seat, words):
        phase = self.phases.get(seat, ("idle",))
        return {
            "open": phase[0] == "idle",
            "stage": phase[0] == "writing",
            "commit": phase[0] == "writing" and not (phase[1] == "put" and phase[2] in self.graphs) and not self.is_late(phase[2], phase[5]),
            "piece": phase[0] == "reading" and words[2:] != ["0"],
            "patch": phase[0] == "patching" and phase[1] in self.graphs and not self.is_late(phase[1], phase[3]),
        }.get(words[1], False)

    def new_name(self, request):
        k = 0
        while f"<http://localhost/graphs/n{request}-{k}>" in self.graphs:
            k += 1
        return f"<http://localhost/graphs/n{request}-{k}>"

    def read(self, seat, text):
        target, request = self.phases[seat][2:4]
        return read_text(self.languages.get(seat), text, target, request)

    def feed(self, seat, language, text, is_refused):
        """The line that a feed prints; where its Stage is refused, what it completed is dropped."""
        if seat >= self.seats:
            return "refused BadSeat"
        phase = self.phases.get(seat, ("idle",))
        if phase[0] != "writing":
            return "refused WrongPhase"
        before = self.fed.get(seat, "")
        if before is None:
            return "fed"
        self.languages[seat] = language
        reported, _ = self.read(seat, before)
        all_reported, ended = self.read(seat, before + text + "\n")
        self.fed[seat] = before + text + "\n"
        new = all_reported[len(reported):] if ended != "fault" else []
        if is_refused:
            assert new, "a feed that stages nothing"
            return NO_MEMORY
        if new:
            self.stage(seat, new)
        return "fed"

    def commit_upload(self, seat, kind, target, request, upload, since):
        """The status of a commit, and the name that was made up, or with 412 the number of the last write."""
        if self.is_late(target, since):
            return f"412 {self.last_write(target)}"
        if kind == "new":
            target = self.new_name(request)
        if self.commit == LAST_NUMBER:
            return "refused LastNumber"
        status = "204" if target in self.graphs else "201"
        self.commit += 1
        if kind == "put":
            self.nodes.put(seat, self.kept(target), self.births.get(target, 0), self.commit)
        else:
            self.nodes.copy(seat, len(upload), len(upload) if kind == "post" else 0)
        self.write(target, upload | self.graphs.get(target, set()) if kind == "post" else upload)
        return f"{status} {target[1:-1]}" if kind == "new" else status

    def patch(self, seat, text):
        """What the text of an update prints to a seat that patches."""
        _, target, request, since = self.phases[seat]
        done = operations(text, target[1:-1] if target.startswith("<") else "http://localhost/store", request)
        if isinstance(done, list) and target in self.graphs and self.is_late(target, since):
            self.end(seat)
            return f"412 {self.last_write(target)}"
        if isinstance(done, list) and target in self.graphs and self.commit == LAST_NUMBER:
            return "refused LastNumber"
        if not isinstance(done, list) or target not in self.graphs:
            self.end(seat)
            return "404" if isinstance(done, list) else done
        self.phases[seat] = ("idle",)
        self.commit += 1
        changed, graph = 0, self.graphs[target]
        for operation in done:
            before, graph = graph, patched(graph, [operation])
            changed += len(before ^ graph)
        self.nodes.copy(seat, changed)
        self.write(target, graph)
        return "204"

    def delete(self, target, since):
        if target not in self.graphs:
            return "404"
        if self.is_late(target, since):
            return f"412 {self.last_write(target)}"
        if self.commit == LAST_NUMBER:
            return "refused LastNumber"
        self.commit += 1
        self.nodes.put(None, self.kept(target), self.births.get(target, 0), self.commit)
        self.births[target] = self.commit
        if target == "default":
            self.graphs[target] = set()
        else:
            del self.graphs[target]
            self.removed = self.commit
        return "204"

    def step(self, seat, words, line):
        """The lines that the event prints where memory is there."""
        phase, action = self.phases.get(seat, ("idle",)), words[1]
        if seat >= self.seats:
            return ["refused BadSeat"]
        idle, writing, patching, reading = ["idle"], ["writing"], ["patching"], ["reading"]
        needed = {"open": idle, "pin": idle, "head": idle, "delete": idle, "stage": writing, "commit": writing, "patch": patching, "piece": reading}
        if phase[0] not in needed.get(action, ["writing", "patching", "reading"]) or words[1:] == ["piece", "0"]:
            return ["refused WrongPhase"]
        if action == "open":
            if self.request == LAST_NUMBER:
                return ["refused LastNumber"]
            self.request += 1
            self.nodes.open()
            since = int(words[5]) if words[4:5] == ["since"] else None
            if words[2] == "patch":
                self.phases[seat] = ("patching", words[3], self.request, since)
                return [f"opened {self.request}"]
            self.phases[seat] = ("writing", words[2], (words + [""])[3], self.request, set(), since)
            return [f"opened {self.request}"]
        if action == "stage":
            self.stage(seat, [line.split(" ", 2)[2]])
            return ["staged"]
        if action == "commit":
            if self.fed.get(seat) and self.read(seat, self.fed[seat])[1] != "document":
                self.end(seat)
                return ["fault 400"]
            reported = self.commit_upload(seat, *phase[1:])
            if reported.startswith("refused"):
                self.fed[seat] = None
            elif reported.startswith("412"):
                self.end(seat)
            else:
                self.phases[seat] = ("idle",)
                self.fed.pop(seat, None)
            return [reported]
        if action == "patch":
            return [self.patch(seat, "".join(line.split(" ", 2)[2:]))]
        if action == "delete":
            return [self.delete(words[2], int(words[4]) if words[3:4] == ["since"] else None)]
        if action in ("head", "pin"):
            lines = self.lines(words[2])
            if action == "pin" and lines is not None:
                self.phases[seat] = ("reading", lines, self.commit)
            return ["404" if lines is None else "200"]
        if action == "piece":
            reported, left = phase[1][:int(words[2])], phase[1][int(words[2]):]
            self.phases[seat] = ("reading", left, phase[2]) if left else ("idle",)
            return reported + ["more" if left else "end"]
        self.end(seat)
        return ["cancelled"]


def counted(schedule):
    """The schedule with the counts asked after each line, and at its end all seats cancelled, each graph that it names or makes
    read whole, and all of them, and all waste freed. The counts are asked twice where the schedule asks for them."""
    lines, seats = [], set()
    for line in schedule.split("\n"):
        words = line.split(" ")
        lines.append(line)
        if not line or line.startswith("#") or words[0] == "store":
            continue
        lines.append("counts")
        seats |= {words[0]} if words[0].isdigit() else set()
    opens = schedule.count(" open ") if " open new" in schedule else 0
    made = {f"<http://localhost/graphs/n{request}-{k}>" for request in range(1, opens + 1) for k in (0, 1)}
    targets = {"default", "all"} | set(NAMED.findall(schedule)) | made
    ends = [f"{it} cancel" for it in sorted(seats | {"0"})]
    reads = [line for it in sorted(targets) for line in (f"0 pin {it}", f"0 piece {MOST_LINES}", "0 cancel")]
    for line in ends + reads + [f"reclaim {LAST_COUNT}"]:
        lines += [line, "counts"]
    return "\n".join(lines) + "\n"


@functools.lru_cache(maxsize=1024)
def refusals(schedule, out):
    """How often memory was refused to an event, and whether the whole schedule was answered."""
    printed = out.split("\n")[:-1]
    store, count, at = Store(), 0, 0
    for line in schedule.split("\n"):
        words = line.split(" ")
        if not line or line.startswith("#"):
            continue
        if words[0] == "store":
            store = Store(*map(int, words[1:]))
            continue
        if words[0] == "cut":
            continue
        if at == len(printed):
            return count, False
        if words[0] in ("counts", "reclaim"):
            if words[0] == "counts":
                store.nodes.show(printed[at], store.least(), store.triples())
            else:
                store.nodes.reclaim(printed[at], int(words[1]), store.least(), store.pins())
            at += 1
            continue
        if words[1] == "feed":
            is_refused = printed[at] == NO_MEMORY
            want = [store.feed(int(words[0]), words[2], line.split(" ", 3)[3], is_refused)]
            count += is_refused
        elif printed[at] == NO_MEMORY:
            assert store.may_want_memory(int(words[0]), words), f"{line}: {NO_MEMORY}"
            want, count = [NO_MEMORY], count + 1
        else:
            want = store.step(int(words[0]), words, line)
        found = printed[at:at + len(want)]
        assert found == want, f"{line}: {found}, not {want}"
        at += len(want)
    assert at == len(printed), f"after the last answer: {printed[at:]}"
    return count, True


def run(program, schedule, room, refused, later=False):
    variables = {"LD_PRELOAD": f"{room}/refuse.so", "COUNT": f"{room}/count", "REFUSED": str(refused)}
    variables |= {"LATER": "1"} if later else {}
    ran = subprocess.run([program], input=schedule, capture_output=True, text=True, env=os.environ | variables)
    return ran.returncode, ran.stdout, ran.stderr


def check(program, schedule, room, refused, later):
    """The run ends for want of memory, or answers the whole schedule; nothing else ends it."""
    status, out, err = run(program, schedule, room, refused, later)
    count, is_whole = refusals(schedule, out)
    if status == 3:
        assert err == "gsdrill: no memory\n" and (later or count == 0), (refused, err)
    else:
        assert (status, err) == (0, "") and is_whole and (later or count <= 1), (refused, status, err)


def large():
    """A PUT of 1,000 triples, a read of them, a POST of 1,000 others between them, and the rest of the read."""
    def feeds(first):
        numbers = range(first, first + 2000, 2)
        for start in range(0, 1000, 100):
            yield "0 feed ttl " + " ".join(f'<http://e/s{it}> <http://e/p> "{it}" .' for it in numbers[start:start + 100])

    lines = ["0 open put <http://e/g>", *feeds(4000), "0 commit", "1 pin <http://e/g>", "1 piece 10"]
    lines += ["0 open post <http://e/g>", *feeds(4001), "0 commit", "1 piece 500", "reclaim 100", "1 piece 999", "reclaim 300"]
    return "\n".join(lines) + "\n"


def worked_rows(crates):
    tables = [("gs_schedules/src/rows.rt", "ROWS"), ("gs_schedules/src/datasets.rt", "DATASETS"), ("gs_schedules/src/conditions.rt", "CONDITIONS"), ("gs_schedules/src/patches.rt", "PATCHES"), ("gs_schedule_tests/src/feeds.rt", "FEEDS"), ("gs_schedule_tests/src/turtle.rt", "FEEDS")]
    return [row for file, table in tables for row in worked_schedules(f"{crates}/{file}", table)]


def requests_of(program, schedule, room):
    """How many requests for memory a run makes, which ends well and is right."""
    status, out, err = run(program, schedule, room, 0)
    assert (status, err) == (0, "") and refusals(schedule, out) == (0, True), (status, err)
    return int(open(f"{room}/count").read())


def requests_by_line(program, schedule, room):
    """For each line how many requests were made when it was done. What comes after it is made a comment of the same length, so
    that the input is read by the same requests."""
    lines, made = schedule.split("\n")[:-1], []
    for end in range(len(lines) + 1):
        part = lines[:end] + ["#" * len(it) for it in lines[end:]]
        run(program, "\n".join(part) + "\n", room, 0)
        made.append(int(open(f"{room}/count").read()))
    return list(zip(lines, made, made[1:]))


def spread(first, last, most):
    """At most so many numbers from first to last, the two among them."""
    count = last - first + 1
    if count <= most:
        return list(range(first, last + 1))
    return sorted({first + it * (count - 1) // (most - 1) for it in range(most)})


def some_requests(program, schedule, room, requests):
    """Some requests of each line, and more of each commit."""
    refused = set(spread(1, requests, 300))
    for line, before, after in requests_by_line(program, schedule, room):
        if not line.startswith("counts") and before < after:
            refused |= set(spread(before + 1, after, 100 if line.endswith("commit") else 6))
    return refused


def check_large(program, room, is_each):
    schedule = counted(large())
    requests = requests_of(program, schedule, room)
    refused = set(range(1, requests + 1)) if is_each else some_requests(program, schedule, room, requests)
    runs = [(program, schedule, room, it, later) for it in sorted(refused) for later in (False, True)]
    with concurrent.futures.ProcessPoolExecutor() as pool:
        list(pool.map(check, *zip(*runs), chunksize=50))
    print(f"a thousand triples are added to a thousand that are read: {requests} requests, {len(refused)} of them refused")
    return 2 * len(refused)


def check_built(program, crates, room, each=""):
    total = 0
    for name, schedule, want in worked_rows(crates):
        assert run(program, schedule, room, 0) == (0, want, ""), name
        requests = requests_of(program, counted(schedule), room)
        for refused in range(1, requests + 1):
            for later in (False, True):
                check(program, counted(schedule), room, refused, later)
        total += 2 * requests
        print(f"{name}: {requests} requests, each refused in turn, alone and with all after it")
    total += check_large(program, room, each == "each")
    print(f"{total} runs, and no wrong answer")


# `rt try` refuses the request of one number. So many lines stand before a schedule, each of which takes a request for the name in
# it, that this is one of the schedule's own: so one build refuses many.
BEFORE = "3 head <http://e/none>\n"


def tried(folder, cases, refused):
    """The status and the output of each case, as `rt try` has them."""
    words = ["rt", "try", "--steps", "1", "--seconds", "1500", "--cases", cases, "--fail-alloc", str(refused)]
    ran = subprocess.run(words, cwd=folder, capture_output=True)
    both = ran.stdout + b"\n" + ran.stderr
    others = [it for it in re.findall(rb"^case=.*", both, re.M) if b"run=ended" not in it]
    assert not others, f"{len(others)} cases did not end, such as {others[0]}"
    ends = re.findall(rb"^case=(\d+) run=ended status=(\d+)", both, re.M)
    outs = dict(re.findall(rb"^== (\d+)\n(.*?)(?=^== \d+\n|\Z)", ran.stdout, re.M | re.S))
    return {int(it): (int(status), outs[it].decode()) for it, status in ends}


def check_some(folder, room, name, schedules, refused):
    """Each of these schedules, where the request of this number is refused."""
    cases = f"{room}/{name.replace(' ', '_')}"
    os.mkdir(cases)
    for number, schedule in enumerate(schedules):
        with open(f"{cases}/{number}", "w", encoding="utf-8") as it:
            it.write(schedule)
    runs = tried(folder, cases, refused)
    assert len(runs) == len(schedules), f"{len(runs)} of {len(schedules)} cases ended"
    seen = {}
    for number, (status, out) in sorted(runs.items()):
        count, is_whole = refusals(schedules[number], out)
        assert count <= 1 and (status == 3 and count == 0 or status == 0 and is_whole), (number, status, count, is_whole)
        key = "cut short" if status else "an event refused" if count else "whole"
        seen[key] = seen.get(key, 0) + 1
    print(f"{name}: {', '.join(f'{key} {count}' for key, count in sorted(seen.items()))}")


def check_tried(folder, crates, room):
    rows = [schedule for _, schedule, _ in worked_rows(crates) if "store " not in schedule]
    schedules = [BEFORE * (300 - it) + counted(row) for row in rows for it in spread(1, 120, 25)]
    check_some(folder, room, "worked schedules", schedules, 300)
    schedules = [BEFORE * (30_000 - it) + counted(large()) for it in spread(1, 20_000, 40)]
    check_some(folder, room, "a thousand triples are added to a thousand that are read", schedules, 30_000)


if __name__ == "__main__":
    (check_tried if os.path.isdir(sys.argv[1]) else check_built)(*sys.argv[1:])
