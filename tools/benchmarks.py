"""Table and plot of the benchmarks: benchmarks.py RESULTS DIR prints the table, writes it into DIR/BENCHMARKS.md between the two
marks of what is measured, and draws DIR/bench.svg. The rest of the page stands as it is."""

import math
import pathlib
import subprocess
import sys

# Operation and title.
OPERATIONS = [
    ("soundness", "Soundness of a book"),
    ("lookup", "Lookup"),
    ("call", "One call of a batch"),
    ("first", "Apply: first full notice"),
    ("full", "Apply: full notice"),
    ("partial", "Apply: partial notice"),
    ("update-all", "Apply: update of every code"),
    ("update-100", "Apply: update of 100 codes"),
    ("replacement", "Apply: replacement"),
    ("list", "Standing list"),
    ("cell-rising", "Cell: rising ranges"),
    ("cell-falling", "Cell: falling ranges"),
    ("cell-singles", "Cell: falling codes"),
    ("cell-repeats", "Cell: one code repeated"),
]
# What a size counts, where it is not the entries of the book.
SIZES = {"first": "lines of the notice", "cell-repeats": "entries of the cell"}
SIZES |= dict.fromkeys(("cell-rising", "cell-falling", "cell-singles"), "keys of the cell")
START, END = "<!-- measured -->", "<!-- end -->"

LIBRARY, PLAIN, INK, FAINT = "#1f5fa8", "#c8641e", "#222222", "#d9d9d9"
DASHES = ' stroke-dasharray="6 4"'
POWERS = ["1 ns", "10 ns", "100 ns", "1 µs", "10 µs", "100 µs", "1 ms", "10 ms", "100 ms", "1 s"]


def read(path):
    """The results by operation: size, library and plain; and the remarks."""
    results, remarks = {}, []
    for row in open(path):
        if row.startswith("#"):
            remarks.append(row[2:].strip())
        else:
            name, size, library, plain = row.rstrip("\n").split("\t")
            results.setdefault(name, []).append((int(size), float(library), float(plain)))
    return results, remarks


# The table.


def cost(ns):
    for unit, scale in (("ns", 1), ("µs", 1e3), ("ms", 1e6)):
        if ns < 1000 * scale or unit == "ms":
            digits = 0 if ns >= 100 * scale else 1 if ns >= 10 * scale else 2
            return f"{ns / scale:.{digits}f} {unit}"


def table(results):
    rows = [("Operation", "Size", "Library", "Plain C", "Library / plain")]
    for name, title in OPERATIONS:
        for size, library, plain in results[name]:
            rows.append((title, f"{size:,}", cost(library), cost(plain), f"{library / plain:.2f}"))
        if name == "soundness":
            size, library, plain = results[name][-1]
            million = (cost(time / size * 1e6) for time in (library, plain))
            rows.append((title + ", a million entries", f"from {size:,}", *million, f"{library / plain:.2f}"))
    return rows


def as_text(rows):
    widths = [max(len(row[i]) for row in rows) for i in range(5)]
    cells = ([row[0].ljust(widths[0]), *(cell.rjust(width) for cell, width in zip(row[1:], widths[1:]))] for row in rows)
    return "\n".join("  ".join(each) for each in cells)


def as_markdown(rows):
    lines = ["| " + " | ".join(row) + " |" for row in rows]
    return "\n".join([lines[0], "|---|---:|---:|---:|---:|", *lines[1:]])


def machine():
    """The processor, with its cores."""
    facts = {}
    told = subprocess.run(["lscpu"], capture_output=True, text=True, env={"LC_ALL": "C", "PATH": "/usr/bin:/bin"})
    for row in told.stdout.splitlines():
        field, _, value = row.partition(":")
        facts[field.strip()] = value.strip()
    return f"{facts.get('Model name', 'unknown processor')}, {facts.get('CPU(s)', '?')} cores"


def measured(rows, remarks):
    """The part of the page that is measured."""
    rounds, compared = remarks
    told = f"Machine of this run: {machine()}. {rounds}; {compared.split(';')[0]} before."
    return "\n\n".join([START, as_markdown(rows), "![Cost against size](bench.svg)", told, END])


# The plot.


class Panel:
    """One operation: a frame with both scales logarithmic, the costs of library and plain, and their ratios."""

    def __init__(self, left, top, width, height, points):
        self.left, self.top, self.width, self.height, self.points = left, top, width, height, points
        costs = [cost for _, *both in points for cost in both]
        self.low, self.high = math.floor(math.log10(min(costs))), math.ceil(math.log10(max(costs)))

    def x(self, size):
        low, high = math.log10(700), math.log10(95000)
        return self.left + (math.log10(size) - low) / (high - low) * self.width

    def y(self, cost):
        return self.top + self.height - (math.log10(cost) - self.low) / (self.high - self.low) * self.height

    def frame(self, title, x_label, y_label):
        left, top, width, height = self.left, self.top, self.width, self.height
        yield f'<text x="{left}" y="{top - 12}" class="title">{title}</text>'
        for decade in range(self.low, self.high + 1):
            at = self.y(10**decade)
            yield f'<line x1="{left}" y1="{at:.1f}" x2="{left + width}" y2="{at:.1f}" class="grid"/>'
            yield f'<text x="{left - 7}" y="{at + 4:.1f}" class="tick" text-anchor="end">{POWERS[decade]}</text>'
        for size, _, _ in self.points:
            at = self.x(size)
            yield f'<line x1="{at:.1f}" y1="{top}" x2="{at:.1f}" y2="{top + height}" class="grid"/>'
            yield f'<text x="{at:.1f}" y="{top + height + 17}" class="tick" text-anchor="middle">{size:,}</text>'
        yield f'<rect x="{left}" y="{top}" width="{width}" height="{height}" class="frame"/>'
        yield f'<text x="{left + width / 2}" y="{top + height + 37}" class="note" text-anchor="middle">{x_label}</text>'
        middle = top + height / 2
        turned = f'transform="rotate(-90 {left - 66} {middle})"'
        yield f'<text x="{left - 66}" y="{middle}" class="note" text-anchor="middle" {turned}>{y_label}</text>'

    def line(self, column, colour, dash):
        places = [(self.x(point[0]), self.y(point[column])) for point in self.points]
        path = " ".join(f"{x:.1f},{y:.1f}" for x, y in places)
        yield f'<polyline points="{path}" fill="none" stroke="{colour}" stroke-width="2"{dash}/>'
        yield from (mark(x, y, colour, not dash) for x, y in places)

    def ratios(self):
        for size, library, plain in self.points:
            at = self.y(max(library, plain)) - 10
            if at < self.top + 14:
                at = self.y(min(library, plain)) + 20
            yield f'<text x="{self.x(size):.1f}" y="{at:.1f}" class="ratio" text-anchor="middle">{library / plain:.2f}</text>'


def mark(x, y, colour, filled):
    if filled:
        return f'<circle cx="{x:.1f}" cy="{y:.1f}" r="4" fill="{colour}"/>'
    return f'<rect x="{x - 4:.1f}" y="{y - 4:.1f}" width="8" height="8" fill="white" stroke="{colour}" stroke-width="2"/>'


def legend(left):
    yield f'<text x="{left}" y="34" class="head">Cost of a call against the size of the book or cell</text>'
    for at, name, colour, dash in ((left, "library", LIBRARY, ""), (left + 120, "plain C", PLAIN, DASHES)):
        yield f'<line x1="{at}" y1="57" x2="{at + 40}" y2="57" stroke="{colour}" stroke-width="2"{dash}/>'
        yield mark(at + 20, 57, colour, not dash)
        yield f'<text x="{at + 48}" y="62" class="note">{name}</text>'
    yield (
        f'<text x="{left}" y="88" class="note">Medians of processor time, buffers warm; both scales are logarithmic. '
        "The small numbers are library divided by plain.</text>"
    )


def plot(results):
    columns, width, height, gap_x, gap_y, left, top = 3, 215, 165, 90, 100, 95, 135
    rows = math.ceil(len(OPERATIONS) / columns)
    total_x = left + columns * (width + gap_x) - gap_x + 30
    total_y = top + rows * (height + gap_y) - gap_y + 62
    out = [
        f'<svg xmlns="http://www.w3.org/2000/svg" viewBox="0 0 {total_x} {total_y}" width="{total_x}" height="{total_y}" '
        'font-family="DejaVu Sans, Verdana, Helvetica, Arial, sans-serif">',
        "<style>.title{font-size:14px;font-weight:bold}.tick{font-size:12px}.ratio{font-size:11px}.head{font-size:18px;font-weight:bold}"
        f".note{{font-size:13px}}text{{fill:{INK}}}.grid{{stroke:{FAINT};stroke-width:1}}.frame{{fill:none;stroke:#888888}}</style>",
        f'<rect width="{total_x}" height="{total_y}" fill="white"/>',
        *legend(left - 60),
    ]
    for i, (name, title) in enumerate(OPERATIONS):
        row, column = divmod(i, columns)
        panel = Panel(left + column * (width + gap_x), top + row * (height + gap_y), width, height, results[name])
        out += panel.frame(title, SIZES.get(name, "entries of the book"), "time a call" if column == 0 else "")
        out += [*panel.line(2, PLAIN, DASHES), *panel.line(1, LIBRARY, ""), *panel.ratios()]
    return "\n".join([*out, "</svg>"]) + "\n"


def main():
    path, folder = sys.argv[1], pathlib.Path(sys.argv[2])
    results, remarks = read(path)
    rows = table(results)
    print(as_text(rows))
    page = (folder / "BENCHMARKS.md").read_text()
    if not (page.count(START) == page.count(END) == 1 and page.index(START) < page.index(END)):
        sys.exit(f"BENCHMARKS.md needs the marks {START} and {END}, once each")
    before, after = page[: page.index(START)], page[page.index(END) + len(END) :]
    (folder / "BENCHMARKS.md").write_text(before + measured(rows, remarks) + after)
    (folder / "bench.svg").write_text(plot(results))


main()
