"""Counts the definitions that each promise rests on: definitions.py [--check].

The clauses of a promise's calls cite names, which their file has by `ghost use`. Each is a definition in a crate's `specs/` folder,
a type of the code, or a word of the kit. A definition cites names in turn, which its file has by `use` or defines itself; and so on
until nothing new is cited. Counted are the definitions, their lines without comments and blank lines, their files and their crates.
The types of the code that they name are counted apart, and not looked into. Words of the standard library are left out; of those of
the kit's other crates the crates are named.

It prints a table. With `--check` it says where docs/PROVED.md and README.md have other figures, and ends with status 1 if they do."""
import functools
import os
import re
import sys

TOP = os.path.join(os.path.dirname(os.path.abspath(__file__)), "..")
HOME = "docs/PROVED.md"

# Each promise by its heading in docs/PROVED.md, with the calls whose contract it is.
PROMISES = (
    ("The headline", ("gs_core::Store::run",)),
    (
        "In the words of the protocol",
        (
            "gs_protocol_laws::writes_are_read_back",
            "gs_protocol_laws::gets_give_their_lines",
            "gs_protocol_laws::all_graphs_are_read",
            "gs_protocol_laws::lines_of_a_dataset_are_in_order",
            "gs_protocol_laws::given_up_uploads_leave_nothing",
            "gs_protocol_laws::conditions_lose_nothing",
            "gs_protocol_laws::late_writes_were_late",
            "gs_protocol_laws::numbers_are_of_commits",
            "gs_protocol_laws::only_writes_change",
            "gs_protocol_laws::statuses_tell_what_was_there",
        ),
    ),
    ("Bytes to bytes, over many connections", ("gs_world::World::run",)),
    ("Bytes to bytes, for one connection", ("gs_session::serve",)),
    ("Shared trees freed under live readers", ("gs_reclaim::reclaim", "gs_tree_store::TreeStore::step")),
    (
        "A locked history that replays",
        (
            "gs_shared::Shared::end",
            "gs_shared::Shared::passes",
            "gs_shared::SharedStore::event",
            "gs_audit::Audited::event_with",
            "gs_audit::Audited::page",
        ),
    ),
)
# What a promise comes to, where much else of its contract says how.
PARTS = {"Bytes to bytes, over many connections": ("gs_world.specs.Worlds.ServesAll",)}

COMMENT = re.compile(r"(?m)^ *--.*\n")
HEAD = re.compile(r" *(?:(?:abbrev|unfoldable) pub|pub (?:data|record)(?! *:)) (\S+)")
USE = re.compile(r"(?m)^ *(?:pub |ghost )?use Rattle\.([\w.-]+?)(?:\.\{([^}]*)\}| as (\w+))")
WORD = re.compile(r'"[^"\n]*"|[^\s(){}\[\];,."λ]+|[(){}\[\];,.λ]')
MARKS = "(){}[];,.λ"


def text(path):
    with open(os.path.join(TOP, path), encoding="utf-8") as file:
        return file.read()


def uses_of(body):
    """What each name of a file means: the module that it is of and its name there, or, of a name for a module, no name."""
    found = {}
    for module, names, alias in USE.findall(body):
        path = tuple(module.split("."))
        if alias:
            found[alias] = (path, None)
        for part in filter(None, (it.strip() for it in names.split(","))):
            name, _, here = part.partition(" as ")
            found[(here or name).strip()] = (path, name.strip())
    return found


class Definition:
    """One definition: its file, its name, its lines, and the line of the module with parameters that it stands in, if it does."""

    def __init__(self, file, name, module, lines):
        self.file, self.name, self.module, self.lines = file, name, module, lines
        self.depth = len(lines[-1]) - len(lines[-1].lstrip())

    def clauses(self):
        """Its equations, or its head and what belongs to it, each as one text."""
        found = []
        for line in self.lines:
            if found and len(line) - len(line.lstrip()) > self.depth:
                found[-1] += "\n" + line
            else:
                found.append(line)
        return found

    def is_of(self, kind):
        return any(re.match(rf" *pub {kind} ", line) for line in self.lines)

    def constructs(self, name):
        return self.is_of("data") and any(re.match(rf" *{re.escape(name)} : ", line) for line in self.lines)


class Spec:
    """A file of definitions: what its names mean, and what defines each name of its own."""

    def __init__(self, path):
        body = text(path)
        self.path, self.uses, self.own = path, uses_of(body), {}
        module, before, current = None, [], None
        for line in COMMENT.sub("", body).split("\n"):
            inside = line.startswith(" ")
            if not line.strip() or re.match(r"(pub )?use |pub mod ", line):
                continue
            if line.startswith("module _ "):
                module = line
            elif re.match(r" *infix[lr]? ", line):
                before = [line]
            elif (found := HEAD.match(line)) and (not inside or module and not line.startswith("   ")):
                module = module if inside else None
                current = Definition(path, found[1], module, before + [line])
                self.own[found[1]], before = current, []
            else:
                current.lines.append(line)
                found = re.match(r" *(\S+) : ", line)
                if found and current.is_of("data"):
                    self.own.setdefault(found[1], current)


@functools.cache
def spec(path):
    return Spec(path)


def passed_on(crate, last):
    """The module of a crate below that this crate passes on under its last name."""
    found = re.search(rf"(?m)^pub use Rattle\.([\w.]+\.{last})$", text(f"crates/{crate}/specs/Lib.antt"))
    return tuple(found[1].split(".")) if found else sys.exit(f"definitions.py: {crate} has no {last}")


def meaning(module, name):
    """What a name of a module is: a definition, a type of the code as its crate and its name, or a crate of the kit."""
    crate = module[0]
    if not os.path.isdir(os.path.join(TOP, "crates", crate)):
        return crate
    if module[2:3] == ("declared",):
        return crate, next(it for it in (*module[3:], name) if it[:1].isupper())
    path = f"crates/{'/'.join(module)}.antt"
    if not os.path.exists(os.path.join(TOP, path)):
        return meaning(passed_on(crate, module[2]), name)
    file = spec(path)
    if name in file.own:
        return file.own[name]
    if name in file.uses:
        return meaning(*file.uses[name])
    sys.exit(f"definitions.py: {'.'.join(module)} has no {name}")


def bound_in(clause):
    """The names that a clause binds: by λ, with a type in brackets, and by let."""
    found = set()
    for names in re.findall(r"λ ((?:[^\s(){}.]+ ?)+)\.", clause) + re.findall(r"[({]((?:[^\s(){}\[\];,.]+ )+): ", clause):
        found.update(names.split())
    return found | set(re.findall(r"\blet (\S+) [=:] ", clause))


def bound_on_the_left(file, clause):
    """The variables of an equation's patterns: names in small letters that are no constructors."""
    equals = re.search(r"(?<=\s)=(?=\s)", clause)
    found = set()
    for name, dot in re.findall(r"(?<![.\w])([^\s(){},;.]+)(\.?)", clause[: equals.start()] if equals else ""):
        it = meaning_here(file, name) if not (dot and name in file.uses) else None
        is_constructor = isinstance(it, Definition) and it.constructs(file.uses.get(name, (None, name))[1])
        if name[:1].islower() and not (dot and name in file.uses) and not is_constructor:
            found.add(name)
    return found


def meaning_here(file, name, after=None):
    """What a name means in a file, or nothing where it is bound by the language or by a pattern."""
    for it in (name, f"◌{name}◌"):
        if it in file.uses:
            module, there = file.uses[it]
            if there is None:
                return meaning(module, after) if after else None
            return meaning(module, there)
        if it in file.own:
            return file.own[it]
    return None


def cited(file, clause, bound):
    """What the names of a text mean. A name after a dot is a field, and one before `=` in a record the field that is set."""
    words = [(it[0], it.start(), it.end()) for it in WORD.finditer(clause)]
    for number, (word, start, end) in enumerate(words):
        follows, precedes = clause[end : end + 1], clause[:start].rstrip()[-1:]
        is_field = clause[start - 1 : start] == "." and not clause[start - 2 : start - 1].isspace()
        is_set = precedes in ("{", ";") and words[number + 1 : number + 2] and words[number + 1][0] == "="
        if word[0] in MARKS + '"' or is_field or is_set or word in bound:
            continue
        rest = re.match(r"(?:\.[^\s(){}\[\];,.]+)+", clause[end:]) if follows == "." else None
        path = rest[0].split(".")[1:] if rest else []
        it = meaning(tuple(path[:-1]), path[-1]) if word == "Rattle" else meaning_here(file, word, path[0] if path else None)
        if it is not None:
            yield it


def cited_by(definition):
    """All that a definition cites."""
    file = spec(definition.file)
    around = bound_in(definition.module or "")
    found = list(cited(file, definition.module or "", around))
    if definition.is_of("record"):
        for line in definition.lines:
            field = re.match(r" *pub (\S+) :", line)
            if field and not HEAD.match(line):
                around.add(field[1])
                line = line[field.end() :]
            found += cited(file, line, around | bound_in(line))
            around |= bound_in(line) if HEAD.match(line) else set()
        return found
    for clause in definition.clauses():
        head = HEAD.match(clause)
        bound = around | bound_in(clause) | (set() if head else bound_on_the_left(file, clause) - {definition.name})
        found += cited(file, clause[head.end() :] if head else clause, bound)
    return found


def cited_by_call(call):
    """What the clauses of a public function cite, by the `ghost use` lines of its file and of its `impl`."""
    crate, *of, name = call.split("::")
    for folder, _, files in sorted(os.walk(os.path.join(TOP, "crates", crate, "src"))):
        for file in sorted(it for it in files if it.endswith(".rt")):
            body = text(os.path.join(folder, file))
            block = rf"(?ms)^impl(?:<[^{{]*?>)? {of[0]}(?:<[^{{]*?>)? \{{.*?^\}}" if of else rf"(?ms)^pub fn {name}\b.*?^\{{?\}}"
            for found in re.findall(block, body):
                function = re.search(rf"(?ms)^( *)pub fn {name}\b.*?^\1\{{", found)
                if function:
                    uses = uses_of("\n".join(re.findall(r"(?m)^ghost use .*", body))) | uses_of(found)
                    clauses = "\n".join(re.findall(r"(?ms)^ *(?:requires|ensures)\b.*?\}(?=\n *(?:requires|ensures|//|\{))", function[0]))
                    names = [it[0] for it in WORD.finditer(clauses) if clauses[it.start() - 1] != "."]
                    return [meaning(*uses[it]) for it in names if it in uses]
    sys.exit(f"definitions.py: there is no {call}")


def figures(left):
    """Lines, definitions, files, crates and types that these rest on, and the crates of the kit whose words they cite."""
    seen = set()
    while left:
        it = left.pop()
        if it not in seen:
            seen.add(it)
            left += cited_by(it) if isinstance(it, Definition) else []
    found = [it for it in seen if isinstance(it, Definition)]
    files = {it.file for it in found}
    lines = sum(len(it.lines) for it in found) + len({(it.file, it.module) for it in found if it.module})
    types = sum(isinstance(it, tuple) for it in seen)
    kit = sorted({it for it in seen if isinstance(it, str)} - {"std"})
    return (lines, len(found), len(files), len({it.split("/")[1] for it in files}), types), kit


def row(first, second, counts, kit):
    cells = [first, second, *(f"{it:,}" for it in counts), ", ".join(f"`{it}`" for it in kit) or "none"]
    return f"| {' | '.join(cells)} |".replace("|  |", "| |")


def anchor(heading):
    return re.sub(r"[^\w -]", "", heading.lower()).replace(" ", "-")


def differences(heading, lines, rows):
    """Where the pages say something else of a promise."""
    proved = text(HOME)
    for it in rows:
        if it not in proved:
            yield f"{HOME} has no row\n{it}"
    section = re.search(rf"(?ms)^#+ {re.escape(heading)}$.*?(?=^#|\Z)", proved)
    for it in lines:
        if not section or not re.search(rf"(?<![\d,]){it:,}(?![\d,])", section[0]):
            yield f"{HOME} does not say {it:,} below the heading {heading}"
    link = f"{HOME}#{anchor(heading)}"
    if lines and not any(link in it and re.search(rf"(?<![\d,]){lines[0]:,}(?![\d,])", it) for it in text("README.md").split("\n")):
        yield f"README.md does not say {lines[0]:,} beside its link to {link}"


def main():
    rows, wrong, check = [], [], "--check" in sys.argv[1:]
    for heading, calls in PROMISES:
        counts, kit = figures([it for call in calls for it in cited_by_call(call)])
        own, lines = [row(heading, ", ".join(f"`{it}`" for it in calls), counts, kit)], [counts[0]]
        for name in PARTS.get(heading, ()):
            module, _, last = name.rpartition(".")
            counts, kit = figures([meaning(tuple(module.split(".")), last)])
            own.append(row("", f"of these `{last}`", counts, kit))
            lines.append(counts[0])
        rows += own
        wrong += differences(heading, lines, own) if check else []
    counts, kit = figures([it for _, calls in PROMISES for call in calls for it in cited_by_call(call)])
    rows.append(row("All together", "", counts, kit))
    wrong += differences("How much has to be believed", [], rows[-1:]) if check else []
    if check:
        print("\n".join(wrong) or "the pages have these figures")
        sys.exit(1 if wrong else 0)
    print("| Promise | Calls | Lines | Definitions | Files | Crates | Types | Other crates of the kit |")
    print("|---|---|---|---|---|---|---|---|")
    print("\n".join(rows))


main()
