"""Draws a plot for each table of bench/README.md: plots.py [--check].

The figures are those of the tables, which the page has once. Below each table the page shows an image `plots/NAME.svg`, and PLOTS
says by that name what is drawn of the table: bars by row, one for each series, with an axis from 0 and a mark where something was
wanted. A picture has no script and no font of its own, and follows the reader's choice of dark or light.
With `--check` it draws nothing, says which plot is older than its table, and ends with status 1 if any is."""
import math
import os
import re
import sys
from xml.sax.saxutils import escape

HERE = os.path.dirname(os.path.abspath(__file__))
NUMBER = r"\d[\d,]*(?:\.\d+)?"
WIDE, ROW, BAR, CHARACTER = 760, 24, 13, 6.8  # pixels
COLOURS = ("#0b6fb8", "#d98200")
STYLE = """@media (prefers-color-scheme: dark) {
.ground { fill: #0d1117 } .ink { fill: #e6edf3 } .faint { fill: #9aa4ae } .grid { stroke: #30363d } .wanted { stroke: #e6edf3 }
.s0 { fill: #4aa3e8 } .s1 { fill: #e8a33d } }"""


class Panel:
    """What is drawn of a table on one axis: the rows whose cells have a figure in this unit. A series is a column with a name: the
    one that is said here, or where that is None the column's own; one that stands alone has none, ""."""

    def __init__(self, title, axis, series, unit="", rows=None, wanted=None, ratio=None, aim="at least"):
        self.title, self.axis, self.series, self.unit = title, axis, series, unit
        self.rows = rows or (lambda label: True)  # which rows, by their label
        self.wanted = wanted  # by the heads of the columns, a row and the unit, what is wanted of each series
        self.ratio = ratio  # (series, other, column): the column says which ratio of the two is wanted, or a row above it does
        self.aim = aim

    def names(self, table):
        """What the series are called."""
        heads = [plain(it).split(", ")[0] for it in table[0]]
        return [heads[column][:1].lower() + heads[column][1:] if name is None else name for name, column in self.series]

    def bars(self, table):
        """For each row its label, and for each of its series the number, its text, and what is wanted."""
        found, last = [], None
        for row in table[1:]:
            figures = [figure(row[column], self.unit) for _, column in self.series]
            label = plain(row[0])
            if not any(figures) or not self.rows(label):
                continue
            wanted = self.wanted(table[0], row, self.unit) if self.wanted else [None] * len(figures)
            if self.ratio:
                series, other, column = self.ratio
                said = re.search(rf"({NUMBER})(?: at most)? wanted", row[column])
                last = number(said[1]) if said else last if "met" in row[column] else None
                wanted = [last * figures[other][0] if at == series and last else None for at in range(len(figures))]
            found.append((label, [(it, aim) for it, aim in zip(figures, wanted)]))
        return found


def number(text):
    return float(text.replace(",", ""))


def figure(cell, unit):
    """The number of a cell that stands before this unit, or, without a unit, at its beginning; and its text."""
    found = re.search(rf"({NUMBER}) {re.escape(unit)}(?!\w)", cell) if unit else re.match(rf"({NUMBER})(?=$|:)", cell)
    return (number(found[1]), found[1]) if found else None


def plain(cell):
    return re.sub(r"[*`]", "", cell)


def wanted_in_storage(heads, row, unit):
    """What the last column wants of nearly sorted and of shuffled triples."""
    found = [number(it) for it in re.findall(NUMBER, row[3].partition(unit)[0])] if unit in row[3] else []
    return (found * 2)[:2] if found and "nearly sorted" not in row[3] else [*found, None, None][:2]


def wanted_in_head(heads, row, unit):
    """What the head of the last column wants."""
    return [number(re.search(rf"({NUMBER}) wanted", heads[-1])[1])]


class Posts(Panel):
    """The last row of the table of loading: two times in one cell."""

    def bars(self, table):
        row = table[-1]
        large, small = re.findall(rf"({NUMBER}) µs", row[1])
        most = number(re.search(rf"({NUMBER}) at most wanted", row[3])[1])
        what, _, places = plain(row[0]).partition(", ")
        labels = [f"{what}, {it}" for it in places.split(" beside ")]
        return [(labels[0], [((number(large), large), most * number(small))]), (labels[1], [((number(small), small), None)])]


def programs(column_of_memory):
    """A table with a program a row."""
    speed = Panel("Speed", "triples a second", [("", column_of_memory - 1)])
    return speed, Panel("Most memory", "MB", [("", column_of_memory)], "MB")


BOTH = [(None, 1), (None, 2)]
PLOTS = {
    "ntriples": programs(4),
    "turtle": programs(4),
    "instructions": (
        Panel("N-Triples", "instructions a triple", [("gs_bench", 1), ("serdi", 2)]),
        Panel("Turtle", "instructions a triple", [("gs_bench", 3), ("serdi", 4)]),
    ),
    "updates": programs(3),
    "storage": (
        Panel("Time a triple", "µs", BOTH, "µs", wanted=wanted_in_storage, aim="at most"),
        Panel("Speed of a read", "GB/s", BOTH, "GB/s", wanted=wanted_in_storage),
        Panel("Memory a triple", "bytes", BOTH, "bytes", wanted=wanted_in_storage, aim="at most"),
    ),
    "commits": (Panel("Ten keys united", "µs", BOTH, "µs", ratio=(1, 0, 3), aim="at most"),),
    "storage_instructions": (
        Panel("A triple", "instructions", BOTH, rows=lambda label: "a line" not in label),
        Panel("A line", "instructions", BOTH, rows=lambda label: "a line" in label),
    ),
    "server": (
        Panel("Requests", "requests a second", BOTH, "a second", ratio=(0, 1, 3)),
        Panel("Bytes", "MB/s", BOTH, "MB/s", ratio=(0, 1, 3)),
    ),
    "loading": (
        Panel("Speed", "triples a second", BOTH, ratio=(0, 1, 3)),
        Panel("Resident memory of gsd", "bytes a triple", [("", 4)], wanted=wanted_in_head, aim="at most"),
        Posts("Time of a POST to gsd", "µs", [("", 1)], aim="at most"),
    ),
}


def scale(most):
    """The distance of two ticks: so that there are four to eight of them."""
    step = 10 ** math.floor(math.log10(most / 4))
    return next(step * it for it in (1, 2, 5, 10) if most / (step * it) <= 8)


def shown(value):
    return f"{value:,.10f}".rstrip("0").rstrip(".")


def text(x, y, what, kind="ink", anchor="start", size=12, weight=None):
    bold = ' font-weight="600"' if weight else ""
    fill = {"ink": "#1f2328", "faint": "#59636e"}[kind]
    return f'<text class="{kind}" x="{x:.1f}" y="{y:.1f}" fill="{fill}" font-size="{size}" text-anchor="{anchor}"{bold}>{escape(what)}</text>'


def legend(panel, names, wants, x, y):
    """Which colour is which series, and what the mark means."""
    for at, name in enumerate(it for it in names if it):
        yield f'<rect class="s{at}" x="{x:.1f}" y="{y - 10:.1f}" width="11" height="11" fill="{COLOURS[at]}"/>'
        yield text(x + 16, y, name)
        x += 16 + CHARACTER * len(name) + 18
    if wants:
        yield f'<path class="wanted" d="M{x + 4:.1f} {y - 12:.1f}v15" stroke="#1f2328" stroke-width="2"/>'
        yield text(x + 12, y, f"wanted {panel.aim}")


def drawn(panel, table, left, y):
    """A panel below y, and where it ends."""
    bars = panel.bars(table)
    if not bars:
        sys.exit(f"plots.py: no row of the table has a figure for the panel {panel.title!r}")
    values = [it for _, row in bars for shape, aim in row for it in (shape and shape[0], aim) if it]
    step = scale(max(values))
    most = step * math.ceil(max(values) / step - 1e-9)
    right = WIDE - 24 - CHARACTER * max(len(shape[1]) for _, row in bars for shape, _ in row if shape)
    across = (right - left) / most
    found = [text(16, y + 18, panel.title, weight=True, size=13)]
    wants = any(aim for _, row in bars for _, aim in row)
    names = panel.names(table)
    found += legend(panel, names, wants, left, y + 18)
    top = y + 32
    bottom = top + sum(max(ROW, BAR * len(row) + 10) for _, row in bars)
    for tick in range(round(most / step) + 1):
        x = left + tick * step * across
        found.append(f'<path class="grid" d="M{x:.1f} {top:.1f}V{bottom:.1f}" stroke="#d1d9e0"/>')
        found.append(text(x, bottom + 15, shown(tick * step), "faint", "middle", 11))
    found.append(text((left + right) / 2, bottom + 31, panel.axis, "faint", "middle", 11))
    at = top
    for label, row in bars:
        tall = max(ROW, BAR * len(row) + 10)
        found.append(text(left - 8, at + tall / 2 + 4, label, anchor="end"))
        above = at + (tall - BAR * len(row)) / 2
        for series, (shape, aim) in enumerate(row):
            colour = series if names[0] else int(label == "serdi")
            if shape:
                found.append(f'<rect class="s{colour}" x="{left:.1f}" y="{above + 1:.1f}" width="{max(shape[0] * across, 1):.1f}" height="{BAR - 2}" fill="{COLOURS[colour]}"/>')
                end = shape[0] * across + 6
                if aim and -8 < aim * across - end < CHARACTER * len(shape[1]) + 4:
                    end = aim * across + 6
                found.append(text(left + end, above + BAR - 3, shape[1], size=11))
            if aim:
                found.append(f'<path class="wanted" d="M{left + aim * across:.1f} {above - 1:.1f}v{BAR + 2}" stroke="#1f2328" stroke-width="2"/>')
            above += BAR
        at += tall
    return found, bottom + 40


def said(panel, table):
    """A panel in words, for who cannot see it."""
    rows = []
    for label, row in panel.bars(table):
        rows.append(f"{label}: " + ", ".join(f"{name} {shape[1]}".strip() for name, (shape, _) in zip(panel.names(table), row) if shape))
    return f"{panel.title}, {panel.axis}. {'; '.join(rows)}."


def picture(name, title, table):
    """The plot of a table as SVG."""
    panels = PLOTS[name]
    left = 30 + CHARACTER * max(len(it) for panel in panels for it in (panel.title, *(label for label, _ in panel.bars(table))))
    found, y = [], 6
    for panel in panels:
        part, y = drawn(panel, table, left, y)
        found += part
    words = " ".join(said(panel, table) for panel in panels)
    head = f'<svg xmlns="http://www.w3.org/2000/svg" width="{WIDE}" height="{y}" viewBox="0 0 {WIDE} {y}" role="img" font-family="system-ui, sans-serif">'
    ground = f'<rect class="ground" width="{WIDE}" height="{y}" rx="6" fill="#ffffff"/>'
    return "\n".join([head, f"<title>{escape(title)}</title>", f"<desc>{escape(words)}</desc>", f"<style>{STYLE}</style>", ground, *found, "</svg>", ""])


def tables():
    """Each table of the page, with the image that follows it: the name, the title and the rows of cells."""
    with open(os.path.join(HERE, "README.md"), encoding="utf-8") as file:
        page = file.read()
    for found in re.finditer(r"(?m)((?:^\|.*\n)+)\n?(?:!\[(.*)\]\(plots/(\w+)\.svg\))?", page):
        lines = [line.strip().strip("|") for line in found[1].splitlines()]
        rows = [[cell.strip() for cell in re.split(r"(?<!\\)\|", line)] for line in lines]
        yield found[3], found[2], [row for row in rows if not re.fullmatch(r"[-:]+", row[0])]


def differences():
    """Where the pictures are not those of the tables."""
    wanted, found = set(), []
    for name, title, table in tables():
        if name not in PLOTS:
            found.append(f"bench/README.md shows no known plot below its table {' | '.join(table[0])}")
            continue
        wanted.add(f"{name}.svg")
        path = os.path.join(HERE, "plots", f"{name}.svg")
        there = open(path, encoding="utf-8").read() if os.path.isfile(path) else None
        if there != picture(name, title, table):
            found.append(f"bench/plots/{name}.svg is {'older than its table' if there else 'not there'}: python3 bench/plots.py draws it")
    found += [f"bench/plots/{it} is of no table" for it in sorted(os.listdir(os.path.join(HERE, "plots"))) if it not in wanted]
    return found + [f"bench/README.md does not show plots/{it}.svg" for it in PLOTS if f"{it}.svg" not in wanted]


def main():
    if "--check" in sys.argv[1:]:
        wrong = differences()
        print("\n".join(wrong) or "the plots are those of the tables")
        sys.exit(1 if wrong else 0)
    os.makedirs(os.path.join(HERE, "plots"), exist_ok=True)
    for name, title, table in tables():
        if name not in PLOTS:
            sys.exit(f"plots.py: no image of PLOTS follows the table {' | '.join(table[0])}")
        with open(os.path.join(HERE, "plots", f"{name}.svg"), "w", encoding="utf-8") as file:
            file.write(picture(name, title, table))


if __name__ == "__main__":
    main()
