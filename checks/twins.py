"""Tries the twins of the edits that must fail. A line `# twin: TEXT` of an edit, below its `old:`, has a harmless change of the
same shape as that of `new:`, with which the crate must still be proved: then an edit beside it is refused for what it
means, and not since a proof file names what any change takes away. Its arguments are names of crates, or none for all.

For a crate with twins it copies the crate, those below it and what `rt check` kept of them, puts the twins in the place of the
edits, and has `rt must-fail` try these, on two processors. Then it names the edits that stand in a function with a proof file
and have no twin. Ends with status 1 if a twin was refused, or not tried to an end."""

import os
import re
import shutil
import signal
import subprocess
import sys
import tempfile

TOP = os.path.join(os.path.dirname(os.path.abspath(__file__)), "..")
LANES = 2


def text(path):
    with open(path, encoding="utf-8") as file:
        return file.read()


def uses():
    """The crates, each with those that it names."""
    return {at: below.split() for at, below in re.findall(r"(?m)^(\w+)[^:#\n]*:(.*)$", text(f"{TOP}/crates.txt"))}


def below(name, named):
    """A crate and those below it."""
    found = [name]
    for it in found:
        found += [more for more in named[it] if more in named and more not in found]
    return found


def edits_in(folder):
    """The edits of a folder, by their names."""
    names = sorted(os.listdir(folder)) if os.path.isdir(folder) else []
    return {it.removesuffix(".edit"): text(f"{folder}/{it}") for it in names if it.endswith(".edit")}


def edits_beside(crate):
    """The edits of a crate that the gate does not try."""
    return edits_in(f"{TOP}/checks/edits/{crate}")


def edits_of(crate):
    """All edits of a crate, those of the gate and those beside it."""
    return edits_in(f"{TOP}/crates/{crate}/must-fail") | edits_beside(crate)


def pairs_of(edit):
    """The changes of an edit: the file of each, its old text, and its twin, or None."""
    file, pairs = "", []
    for line in edit.split("\n"):
        if line.startswith("file: "):
            file = line[len("file: ") :].strip()
        elif line.startswith("old: "):
            pairs.append([file, line[len("old: ") :], None])
        elif line.startswith("# twin: ") and pairs:
            twin = line[len("# twin: ") :]
            # what changes nothing shows nothing
            pairs[-1][2] = twin if twin.split() != pairs[-1][1].split() else None
    return pairs


def twin_of(edit):
    """The edit with its twins in the place of its new texts, or None where it has none."""
    changes = [it for it in pairs_of(edit) if it[2] is not None]
    return "".join(f"file: {file}\nold: {old}\nnew: {new}\n" for file, old, new in changes) or None


def proof_folders(crate):
    """The folders of a crate that have answers or invariants of a function, below proofs/."""
    top = f"{TOP}/crates/{crate}/proofs"
    found = [os.path.relpath(at, top) for at, _, names in os.walk(top) if "Answers.antt" in names or "Invariants.antt" in names]
    return {it.replace("+", ""): it for it in found}


def owner(front):
    """The type that the last `impl` or `trait` of a text is of, with the trait's name after it."""
    head = re.findall(r"(?m)^(?:pub )?(?:unsafe )?(?:impl|trait)\b[^{]*", front)[-1:]
    while head and re.search(r"<[^<>]*>", head[0]):
        head = [re.sub(r"<[^<>]*>", "", head[0])]
    words = re.search(r"(?:impl|trait)\s+(?:([\w:]+)\s+for\s+)?&?([\w:]+)", head[0] if head else "")
    return [it.split("::")[-1] for it in (words[2], words[1] or "")] if words else ["", ""]


def proof_file(crate, file, old):
    """The function that an old text stands in, if there are answers or invariants of it. A method's stand below its type's module."""
    source = text(f"{TOP}/crates/{crate}/{file}") if os.path.isfile(f"{TOP}/crates/{crate}/{file}") else ""
    front = source[: source.find(old)] if source.count(old) == 1 else ""
    heads = re.findall(r"(?m)^( *)(?:pub(?:\([a-z]+\))? )?(?:const )?fn (\w+)", front)
    if not heads:
        return None
    indent, name = heads[-1]
    module = re.sub(r"(^|/)(lib|main|mod)$", "", file.removeprefix("src/").removesuffix(".rt"))
    end = f"/{''.join(owner(front))}/{name}" if indent else f"{module}/{name}".lstrip("/")
    for it in proof_folders(crate):
        if f"/{it}".endswith(end) if indent else it == end:
            return it.replace("/", "::")
    return None


def link_or_copy(one, other):
    """Gives what was proved a second name, since a check replaces such a file and changes none, and copies the rest."""
    try:
        if one.endswith(".oantt") or "/out/rlib/" in one:
            return os.link(one, other)
    except OSError:
        pass
    return shutil.copy2(one, other)


def copied(crates, room):
    """Copies crates, without their edits, and what was kept of them."""
    for it in crates:
        at, to = f"{TOP}/crates/{it}", f"{room}/crates/{it}"
        shutil.copytree(at, to, ignore=shutil.ignore_patterns("out", "must-fail"))
        for part in ("rlib", "incremental"):
            if os.path.isdir(f"{at}/out/{part}"):
                shutil.copytree(f"{at}/out/{part}", f"{to}/out/{part}", copy_function=link_or_copy)
    shutil.copy2(f"{TOP}/HANDLES", room)
    with open(f"{room}/crates.txt", "w", encoding="utf-8") as file:
        file.writelines(f"{line}\n" for line in text(f"{TOP}/crates.txt").split("\n") if re.match(r"\w*", line)[0] in crates)


def tried(crate, edits, named):
    """Tries these edits of a crate in a copy: what was said of each."""
    with tempfile.TemporaryDirectory(prefix="edits-") as room:
        copied(below(crate, named), room)
        os.mkdir(f"{room}/crates/{crate}/must-fail")
        for name, edit in edits.items():
            with open(f"{room}/crates/{crate}/must-fail/{name}.edit", "w", encoding="utf-8") as file:
                file.write(edit)
        lanes = sorted(os.sched_getaffinity(0))[-LANES:]
        how = {"cwd": room, "stdin": subprocess.DEVNULL, "stdout": subprocess.PIPE, "stderr": subprocess.STDOUT, "errors": "replace"}
        ran = subprocess.run(["rt", "must-fail", crate], preexec_fn=lambda: os.sched_setaffinity(0, lanes), **how)
    said = dict(re.findall(rf"(?m)^(?:rt: )?must-fail {crate}/(\w+)\.edit: (.*)$", ran.stdout))
    for name in edits:
        if name not in said:
            print(ran.stdout[-2000:])
        yield name, said.get(name, "NOT TRIED")


def begun(script, names):
    """The crates with those that each names, where those of the command line are among them."""
    named = uses()
    lacking = [it for it in names if it not in named]
    if lacking:
        print(f"usage: {script} [NAME..]; crates.txt has no crate {lacking[0]}", file=sys.stderr)
        sys.exit(2)
    # ended early, it takes its copies along
    signal.signal(signal.SIGTERM, lambda *_: sys.exit(143))
    return named


def main(names):
    named = begun("twins.sh", names)
    accepted, refused, bare = 0, 0, []
    for crate in names or named:
        edits = edits_of(crate)
        twins = {name: twin for name, edit in edits.items() for twin in [twin_of(edit)] if twin}
        for name, what in tried(crate, twins, named) if twins else ():
            is_accepted = what.startswith("NOT REFUSED")
            print(f"{crate}/{name}: {'its twin is accepted' if is_accepted else f'its twin is not accepted: {what}'}", flush=True)
            accepted, refused = accepted + is_accepted, refused + (not is_accepted)
        for name, edit in edits.items():
            places = [proof_file(crate, file, old) for file, old, _ in pairs_of(edit)]
            if name not in twins and any(places):
                bare.append(f"  {crate}/{name}, in {next(filter(None, places))}")
    if bare:
        print("Edits with no twin in functions that have a proof file", *bare, sep="\n")
    print(f"{accepted} twins accepted, {refused} not")
    return 1 if refused else 0


if __name__ == "__main__":
    sys.exit(main(sys.argv[1:]))
