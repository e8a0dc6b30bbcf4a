"""Compares the table of gs_update_examples with a plain reader of updates, written apart, and then the program with that
reader, on each text of the table ended after each of its bytes. Prints what does not agree, and ends with status 1 if
anything is wrong. Its argument is the built program, or `try` for `rt try`; without one only the table is compared."""

import hashlib
import os
import re
import subprocess
import sys
import tempfile

import update_oracle

HERE = os.path.dirname(os.path.abspath(__file__))
CRATE = os.path.join(HERE, "..", "crates", "gs_update_examples")
FORMS = ("insert", "delete", "where")
# longer texts are ended near both ends, and at so many places between; under `rt try`
# those that are longer than the second number are not ended at all
SHORT = 9_000
TRIED = 400
NEAR = 12
BETWEEN = 40
CASES_A_RUN = 600


class Case:
    def __init__(self):
        self.name, self.base, self.text, self.wanted = "", "http://e/", "", []


def expanded(text):
    """The bytes that a text of the table stands for."""
    text = re.sub("«([^«»]*)\\*([0-9]+)»", lambda it: it[1] * int(it[2]), text)
    pieces = re.split("‹([0-9A-F]{2})›", text)
    return b"".join(bytes([int(it, 16)]) if at % 2 else it.encode("utf-8") for at, it in enumerate(pieces))


def shown(data):
    """A text of the table that stands for these bytes: long runs as repeats, and bytes that a line cannot show."""
    text = data.decode("utf-8", "surrogateescape")
    text = re.sub("[«»‹›\\x00-\\x1f\\x7f-\\xa0\\u2028\\u2029\\udc80-\\udcff]", hidden, text)
    return re.sub(r"(‹..›|[^«»‹›*])\1{99,}", lambda it: f"«{it[1]}*{len(it[0]) // len(it[1])}»", text)


def hidden(it):
    return "".join(f"‹{byte:02X}›" for byte in it[0].encode("utf-8", "surrogateescape"))


def taken(case, line):
    """Takes a line of a case; the outcome that is wanted, where it is the last one."""
    sign, rest = line[:1], line[1:]
    if sign == "=":
        case.name = rest[1:]
    elif line.startswith("base "):
        case.base = line[5:]
    elif sign in ("|", "\\"):
        case.text += rest + ("\n" if sign == "|" else "")
    elif line.split(" ")[0] in FORMS:
        form, _, count = line.partition(" ")
        case.wanted.append((form, int(count) if count else []))
    elif sign == ">":
        case.wanted[-1][1].append(expanded(rest).decode("utf-8"))
    elif sign == "!":
        return (rest,) if rest in ("long", "much", "out") else ("broken", int(rest))
    elif line == ".":
        return "update", case.wanted
    return None


def cases(lines):
    """The name, base, bytes and wanted outcome of each case."""
    case = Case()
    for line in lines:
        outcome = taken(case, line) if line and line[0] != "#" else None
        if outcome:
            yield case.name or case.text, case.base, expanded(case.text), outcome
            case = Case()


def settled(operations):
    """Operations as they are compared: data as a set, patterns in any order."""
    return [(form, sorted(lines if form == "where" else set(lines))) for form, lines in operations]


def agrees(found, wanted):
    if found[0] != "update" or wanted[0] != "update":
        return found == wanted
    return len(found[1]) == len(wanted[1]) and all(map(is_as_wanted, settled(found[1]), wanted[1]))


def is_as_wanted(found, wanted):
    """Whether an operation has the form and the lines that are wanted, or as many lines."""
    if isinstance(wanted[1], int):
        return found[0] == wanted[0] and len(found[1]) == wanted[1]
    return found == (wanted[0], sorted(wanted[1]))


def lines_of(name, base, data, outcome):
    """A case of the table."""
    lines = [f"= {name}", f"base {base}", "\\" + shown(data)]
    if outcome[0] != "update":
        return lines + ["!" + str(outcome[-1])]
    for form, triples in settled(outcome[1]):
        lines += [form] + [">" + shown(it.encode("utf-8")) for it in triples]
    return lines + ["."]


def ends(data):
    """The lengths at which a text is ended."""
    if len(data) <= SHORT:
        return range(len(data))
    near = {*range(5 * NEAR), *range(len(data) - NEAR, len(data))}
    near |= {len(data) * place // BETWEEN for place in range(BETWEEN)}
    return sorted(it for it in near if it < len(data))


def batches(table):
    """Each text ended at each place, with what the plain reader says of it, so many cases in each batch."""
    batch, count, known = [], 0, set()
    for _, base, data, _ in table:
        for length in [*ends(data), len(data)]:
            piece = data[:length]
            if length <= SHORT:
                key = hashlib.sha256(base.encode("utf-8") + b"\0" + piece).digest()
                if key in known:
                    continue
                known.add(key)
            batch.append(lines_of(f"{count}", base, piece, update_oracle.read(piece, base)))
            count += 1
            if len(batch) >= CASES_A_RUN or length > SHORT:
                yield batch
                batch = []
    if batch:
        yield batch


def written(batch):
    return "".join(line + "\n" for lines in batch for line in lines).encode("utf-8")


def outputs_of(program, inputs):
    """What a built program writes for each input."""
    return [subprocess.run([program], input=it, capture_output=True, check=True).stdout for it in inputs]


def outputs_of_try(inputs):
    """What the program writes for each input as `rt try` runs it."""
    with tempfile.TemporaryDirectory() as room:
        for at, it in enumerate(inputs):
            with open(os.path.join(room, f"{at:06}"), "wb") as file:
                file.write(it)
        command = ["rt", "try", "--seconds", "900", "--cases", room]
        done = subprocess.run(command, cwd=CRATE, capture_output=True, check=False)
    found = re.split(rb"(?m)^== [0-9]{6}\n", done.stdout)[1:]
    if len(found) != len(inputs):
        sys.exit(done.stdout.decode("utf-8") + done.stderr.decode("utf-8"))
    return found


def compare_cuts(program, table):
    """Ends each text at each place, and compares the program with the plain reader."""
    is_short = lambda case: program != "try" or len(case[2]) <= TRIED
    parts = list(batches(filter(is_short, table)))
    inputs = [written(it) for it in parts]
    outputs = outputs_of_try(inputs) if program == "try" else outputs_of(os.path.abspath(program), inputs)
    wrong = count = 0
    for batch, output in zip(parts, outputs):
        said = re.findall("(?m)^([0-9]+): not so$", output.decode("utf-8"))
        ended = re.search("(?m)^([0-9]+) updates, ([0-9]+) texts that are none$", output.decode("utf-8"))
        if not ended or int(ended[1]) + int(ended[2]) != len(batch):
            sys.exit(f"the program wrote {output[:400]}")
        count += len(batch)
        wrong += len(said)
        for lines in batch:
            if lines[0][2:] in said:
                print("not so: " + " / ".join(it[:200] for it in lines))
    print(f"{count} texts cut short or whole, {wrong} on which the program does not agree")
    return wrong


def main():
    with open(os.path.join(CRATE, "stdin"), encoding="utf-8") as file:
        table = list(cases(file.read().split("\n")))
    with open(os.path.join(CRATE, "stdout"), encoding="utf-8") as file:
        wrong_here = {line.removesuffix(": not so") for line in file.read().splitlines()[:-1]}
    wrong = 0
    for name, base, data, wanted in table:
        found = update_oracle.read(data, base)
        if agrees(found, wanted) == (name in wrong_here):
            wrong += 1
            print(f"{name[:200]}: the table wants {str(wanted)[:400]}, the plain reader finds {str(found)[:400]}")
    print(f"{len(table)} texts of the table, {wrong} on which the plain reader does not agree")
    if len(sys.argv) > 1:
        wrong += compare_cuts(sys.argv[1], table)
    sys.exit(1 if wrong else 0)


if __name__ == "__main__":
    main()
