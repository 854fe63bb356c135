#!/usr/bin/env python3
"""Makes the pictures and the tables of docs/PERFORMANCE.md from results.csv.

    plot.py            writes growth.svg, ratio.svg and the page's marked parts
    plot.py --check    writes nothing; exits 1 unless they are what it would write

results.csv is what `make benchmark CSV=docs/performance/results.csv` writes.
"""

import csv
import math
import sys
from collections import namedtuple
from pathlib import Path
from xml.sax.saxutils import escape

HERE = Path(__file__).resolve().parent
PAGE = HERE.parent / "PERFORMANCE.md"

# ---- the results

# slots is None where there is no graph, plain and over_plain where there is no plain
# program; times are in nanoseconds.
Row = namedtuple("Row", "call slots proved second ratio plain over_plain")


NUMBERS = ("proved ns", "second ns", "ratio", "plain ns", "plain ratio")


def read_results(text):
    """What is known about the run by name, and its rows in order."""
    lines = text.splitlines()
    notes = [line[1:].split(":", 1) for line in lines if line.startswith("#")]
    facts = {name.strip(): value.strip() for name, value in notes}
    rows = []
    for cells in csv.DictReader(line for line in lines if not line.startswith("#")):
        slots = int(cells["slots"]) if cells["slots"] else None
        numbers = (cells.get(name) for name in NUMBERS)
        rows.append(Row(cells["call"], slots, *(float(number) if number else None for number in numbers)))
    return facts, rows


QUESTION = "read elsewhere"
# The operations of two words.
LONG_NAMES = (QUESTION, "write listing", "read listing")


def operation(call):
    """The first word of the call, as check, match or rewrite, or its two words."""
    named = [name for name in LONG_NAMES if call.startswith(name)]
    return named[0] if named else call.replace(":", " ").split()[0]


def operations(rows):
    return list(dict.fromkeys(operation(row.call) for row in rows))


def series(rows):
    """The rows of each call that was timed with growing graphs."""
    calls = {}
    for row in rows:
        if row.slots is not None:
            calls.setdefault(row.call, []).append(row)
    return calls


# ---- the page

def markdown_table(head, rows):
    """The first column has words, the others numbers."""
    rule = ["---"] + ["---:"] * (len(head) - 1)
    return "\n".join("| " + " | ".join(cells) + " |" for cells in [head, rule, *rows])


def times_table(rows, wanted):
    """With two columns more where there is a plain program."""
    rows = [row for row in rows if operation(row.call) == wanted]
    head = ("Call", "Slots", "Proved, ns", "Second, ns", "Ratio")
    cells = [
        (row.call, str(row.slots or "-"), f"{row.proved:.0f}", f"{row.second:.0f}", f"{row.ratio:.2f}")
        for row in rows
    ]
    if all(row.plain for row in rows):
        head += ("Plain C++, ns", "Ratio to it")
        cells = [(*line, f"{row.plain:.0f}", f"{row.over_plain:.2f}") for line, row in zip(cells, rows)]
    return markdown_table(head, cells)


# The parts of a question, each the time of one call less that of another with the same blocks.
PARTS = (
    ("Checks of both blocks", "no match", None),
    ("Test of the map", "no such vertex", "no match"),
    ("The answer, most places", "most places", "most places, no such vertex"),
)


def parts_table(rows):
    """What each part of a question takes in the proved library, by the number of slots."""
    times = {(row.call, row.slots): row.proved for row in rows}
    cells = []
    for slots in sorted({row.slots for row in rows if row.slots}):
        parts = [times[f"{QUESTION}: {whole}", slots] - times.get((f"{QUESTION}: {less}", slots), 0)
                 for _, whole, less in PARTS]
        cells.append((str(slots), *(f"{part:.0f}" for part in parts)))
    return markdown_table(("Slots", *(name for name, _, _ in PARTS)), cells)


def exponent(before, after, column):
    """e, where the time grows from the one row to the other as slots to the power e."""
    times = getattr(after, column) / getattr(before, column)
    return f"{math.log(times) / math.log(after.slots / before.slots):.2f}"


def exponents_table(rows):
    """All calls are timed with the same numbers of slots."""
    cells = []
    for call, steps in series(rows).items():
        pairs = list(zip(steps, steps[1:]))
        proved = [exponent(*pair, "proved") for pair in pairs]
        cells.append((call, *proved, exponent(*pairs[-1], "second")))
    sizes = sorted({row.slots for row in rows if row.slots})
    spans = [f"{before} to {after}" for before, after in zip(sizes, sizes[1:])]
    return markdown_table(("Call", *spans, f"Second, {spans[-1]}"), cells)


def run_sentences(facts, rows):
    worst = max(rows, key=lambda row: row.ratio)
    place = f" with {worst.slots} slots" if worst.slots else ""
    above = [sum(row.ratio > limit for row in rows) for limit in (1, 1.5)]
    return (
        f"Taken on {facts['date']} on {machine(facts)}; the second program was compiled by\n"
        f"{facts['compiler']}. Of {len(rows)} rows, {above[0]} have a ratio above 1 and "
        f"{above[1] or 'none'} above 1.5.\n"
        f"The worst ratio is {worst.ratio:.2f}, of *{worst.call}*{place}."
    )


def machine(facts):
    return f"{facts['processors']} processors {facts['processor']}"


def filled(page, parts):
    """The page with each part between its two marks."""
    for name, part in parts.items():
        begin, end = f"<!-- {name}: made by performance/plot.py -->", f"<!-- end of {name} -->"
        before, began, rest = page.partition(begin)
        _, ended, after = rest.partition(end)
        if not (began and ended):
            sys.exit(f"plot.py: {PAGE.name} has no marks for {name}")
        page = f"{before}{begin}\n\n{part}\n\n{end}{after}"
    return page


# ---- the pictures

# The calls about the look have a panel of their own: with them, match's has too many lines.
LOOK = "match: look"

# Okabe and Ito's colours, which the colour-blind can tell apart too.
COLOURS = {
    "check graph: a chain": "#0072B2",
    "check graph: one slot in all places": "#D55E00",
    "match: 1 output, last slot": "#0072B2",
    "match: 1 output, none": "#56B4E9",
    "match: 1 output, first slots": "#F0E442",
    "match: 1 output, first slots, read outside": "#999999",
    "match: 2 outputs, last pair": "#D55E00",
    "match: 2 outputs, none": "#E69F00",
    "match: attributes, last pair": "#CC79A7",
    "match: attributes, none": "#000000",
    "match: shared Const, last slot": "#009E73",
    "match: look, 1 output, no slot to look at": "#F0E442",
    "match: look, 1 output, none passes": "#CC79A7",
    "match: look, 1 output, one in ten": "#56B4E9",
    "match: look, 1 output, all pass": "#0072B2",
    "match: look, 2 outputs, no slot to look at": "#009E73",
    "match: look, 2 outputs, none passes": "#000000",
    "match: look, 2 outputs, one in ten": "#E69F00",
    "match: look, 2 outputs, all pass": "#D55E00",
    "rewrite: 1 output, last slot": "#0072B2",
    "rewrite: 2 outputs, last pair": "#D55E00",
    "rewrite: shared Const, last slot": "#CC79A7",
    "rewrite: to the end": "#009E73",
    "sweep: a dead chain": "#0072B2",
    "sweep: all live": "#D55E00",
    "sweep: all live, reversed": "#CC79A7",
    "sweep: every second slot Empty": "#009E73",
    "squeeze: a dead chain": "#0072B2",
    "squeeze: all live": "#D55E00",
    "squeeze: every second slot Empty": "#009E73",
    "import: a chain": "#0072B2",
    "import: a chain, reversed": "#CC79A7",
    "import: one slot in all places": "#D55E00",
    "read elsewhere: answered": "#0072B2",
    "read elsewhere: no such vertex": "#56B4E9",
    "read elsewhere: no match": "#F0E442",
    "read elsewhere: 2 outputs": "#D55E00",
    "read elsewhere: most places": "#009E73",
    "read elsewhere: most places, no such vertex": "#999999",
    "write listing: a chain": "#0072B2",
    "write listing: all Variables": "#D55E00",
    "write listing: a chain, just room": "#56B4E9",
    "write listing: all Variables, just room": "#E69F00",
    "read listing: a chain": "#0072B2",
    "read listing: all Variables": "#D55E00",
}
OTHER = "#009E73"
INK, GRID, FRAME, EQUAL, LIMIT = "#222222", "#E4E4E4", "#666666", "#444444", "#B22222"
WIDTH, LEFT, RIGHT, HEAD, GAP = 920, 90, 610, 120, 84
SOLID, DASHED, DOTTED = "", ' stroke-dasharray="7 4"', ' stroke-dasharray="2 3"'

# A line has a call, a dash and points; height and ticks are those of the
# vertical axis, and share is where a value stands on it, between 0 and 1.
Line = namedtuple("Line", "call dash points")
Tick = namedtuple("Tick", "value label colour")
Panel = namedtuple("Panel", "title axis height share ticks lines")


def panel_of(call):
    """The title of the panel that a call is drawn in."""
    return LOOK if call.startswith(LOOK) else operation(call)


def is_thin(call):
    """Whether a call has a thin line with open squares: it may run together with a thick one."""
    return "2 outputs" in call if panel_of(call) == LOOK else call.endswith(("none", "all live", "read outside", "no such vertex"))


def text(x, y, words, more=""):
    return f'<text x="{x:.1f}" y="{y:.1f}"{more}>{escape(words)}</text>'


def stroke(points, colour, more):
    places = " ".join(f"{x:.1f},{y:.1f}" for x, y in points)
    return f'<polyline points="{places}" fill="none" stroke="{colour}"{more}/>'


def mark(x, y, call):
    """A dot, or an open square on a thin line: both show where they meet."""
    colour = COLOURS.get(call, OTHER)
    if is_thin(call):
        box = f'x="{x - 4.5:.1f}" y="{y - 4.5:.1f}" width="9" height="9"'
        return f'<rect {box} fill="none" stroke="{colour}" stroke-width="1.6"/>'
    return f'<circle cx="{x:.1f}" cy="{y:.1f}" r="4" fill="{colour}"/>'


def drawn(points, line):
    """Where two lines run together, the thinner is seen upon the thicker. Dashes have no marks."""
    width = 1.2 if is_thin(line.call) else 3.6
    shown = stroke(points, COLOURS.get(line.call, OTHER), f' stroke-width="{width}"{line.dash}')
    return [shown] + [mark(x, y, line.call) for x, y in points if line.dash == SOLID]


def slots_axis(panel, top, across):
    bottom = top + panel.height
    parts = [text((LEFT + RIGHT) / 2, bottom + 38, "slots of the graph", ' text-anchor="middle"')]
    for slots in sorted({slots for line in panel.lines for slots, _ in line.points}):
        x = across(slots)
        parts.append(stroke([(x, top), (x, bottom)], GRID, ""))
        parts.append(text(x, bottom + 18, str(slots), ' text-anchor="middle"'))
    return parts


def value_axis(panel, down, top):
    middle = top + panel.height / 2
    turned = f' text-anchor="middle" transform="rotate(-90 22 {middle:.1f})"'
    parts = [text(22, middle, panel.axis, turned)]
    for tick in panel.ticks:
        y = down(tick.value)
        width = "" if tick.colour == GRID else ' stroke-width="1.6"'
        parts.append(stroke([(LEFT, y), (RIGHT, y)], tick.colour, width))
        parts.append(text(LEFT - 8, y + 4.5, tick.label, ' text-anchor="end"'))
    return parts


def legend(panel, top):
    """The solid lines' calls, in the order in which their lines end."""
    lines = [line for line in panel.lines if line.dash == SOLID]
    parts = []
    for place, line in enumerate(sorted(lines, key=lambda line: -line.points[-1][1])):
        y = top + 12 + 24 * place
        left = RIGHT + 24
        parts += drawn([(left, y), (left + 22, y), (left + 44, y)], line)
        name = line.call[len(panel_of(line.call)):].lstrip(":, ")
        parts.append(text(left + 56, y + 4.5, name))
    return parts


def drawn_panel(panel, top):
    sizes = [slots for line in panel.lines for slots, _ in line.points]
    first, last = math.log(min(sizes)), math.log(max(sizes))

    def across(slots):
        return LEFT + 20 + (RIGHT - LEFT - 40) * (math.log(slots) - first) / (last - first)

    def down(value):
        return top + panel.height * (1 - panel.share(value))

    parts = [text(LEFT, top - 12, panel.title, ' font-size="15" font-weight="bold"')]
    parts += slots_axis(panel, top, across) + value_axis(panel, down, top)
    bottom = top + panel.height
    corners = [(LEFT, top), (RIGHT, top), (RIGHT, bottom), (LEFT, bottom), (LEFT, top)]
    parts.append(stroke(corners, FRAME, ""))
    for line in panel.lines:
        parts += drawn([(across(slots), down(value)) for slots, value in line.points], line)
    return parts + legend(panel, top)


def picture(title, facts, key, panels):
    """An SVG; key has the words for strokes of the given colour and dash."""
    parts = [text(20, 30, title, ' font-size="19" font-weight="bold"')]
    parts.append(text(20, 52, f"{machine(facts)}, {facts['date']}"))
    x = 20
    for words, colour, dash in key:
        parts.append(stroke([(x, 70), (x + 40, 70)], colour, f' stroke-width="2"{dash}'))
        parts.append(text(x + 48, 74.5, words))
        x += 80 + 7 * len(words)
    top = HEAD
    for panel in panels:
        parts += drawn_panel(panel, top)
        top += panel.height + GAP
    size = f'width="{WIDTH}" height="{top - 24}" viewBox="0 0 {WIDTH} {top - 24}"'
    font = f'font-family="Helvetica, Arial, DejaVu Sans, sans-serif" font-size="13" fill="{INK}"'
    head = f'<svg xmlns="http://www.w3.org/2000/svg" {size} {font} role="img">'
    ground = f'<title>{escape(title)}</title>\n<rect width="100%" height="100%" fill="#fff"/>'
    return "\n".join([head, ground, *parts, "</svg>"]) + "\n"


def duration(exponent_of_ten):
    """10 to that power of nanoseconds, in words."""
    unit = ("ns", "µs", "ms", "s")[exponent_of_ten // 3]
    return f"{10 ** (exponent_of_ten % 3)} {unit}"


def growth_panel(title, calls):
    lines = [
        Line(call, dash, [(row.slots, getattr(row, column)) for row in rows])
        for call, rows in calls.items()
        for column, dash in (("plain", DOTTED), ("second", DASHED), ("proved", SOLID))
        if all(getattr(row, column) for row in rows)
    ]
    times = [time for line in lines for _, time in line.points]
    low, high = math.floor(math.log10(min(times))), math.ceil(math.log10(max(times)))
    ticks = [Tick(10 ** power, duration(power), GRID) for power in range(low, high + 1)]

    def share(time):
        return (math.log10(time) - low) / (high - low)

    return Panel(title, "time of a call", 64 * (high - low), share, ticks, lines)


def ratio_panel(title, calls, lowest, highest):
    lines = [Line(call, SOLID, [(row.slots, row.ratio) for row in rows]) for call, rows in calls.items()]
    low, high = min(4, math.floor(10 * lowest)), max(16, math.ceil(10 * highest))
    colours = {10: EQUAL, 15: LIMIT}
    ticks = [
        Tick(tenths / 10, f"{tenths / 10:.1f}", colours.get(tenths, GRID))
        for tenths in range(low, high + 1) if tenths % 2 == 0 or tenths in colours
    ]

    def share(ratio):
        return (10 * ratio - low) / (high - low)

    return Panel(title, "ratio", 18 * (high - low), share, ticks, lines)


def pictures(facts, rows):
    panels = {}
    for call, steps in series(rows).items():
        panels.setdefault(panel_of(call), {})[call] = steps
    ratios = [row.ratio for row in rows]
    growth = [growth_panel(title, calls) for title, calls in panels.items()]
    ratio = [ratio_panel(title, calls, min(ratios), max(ratios)) for title, calls in panels.items()]
    programs = [("proved library", INK, SOLID), ("second program", INK, DASHED)]
    if any(row.plain for row in rows):
        programs.append(("plain C++", INK, DOTTED))
    limits = [
        ("1.0: as fast as the second program", EQUAL, SOLID),
        ("1.5: what is slower has to be explained", LIMIT, SOLID),
    ]
    times = "Time of a call against the graph's slots, logarithmic axes"
    ratios_title = "Proved library's time over the second program's"
    return {
        HERE / "growth.svg": picture(times, facts, programs, growth),
        HERE / "ratio.svg": picture(ratios_title, facts, limits, ratio),
    }


# ---- the rest

def made():
    """Everything that is made from the results, by file."""
    facts, rows = read_results((HERE / "results.csv").read_text(encoding="utf-8"))
    parts = {f"times of {wanted}": times_table(rows, wanted) for wanted in operations(rows)}
    parts["run"] = run_sentences(facts, rows)
    parts["exponents"] = exponents_table(rows)
    parts["parts of a question"] = parts_table(rows)
    return {**pictures(facts, rows), PAGE: filled(PAGE.read_text(encoding="utf-8"), parts)}


def main(arguments):
    if arguments not in ([], ["--check"]):
        sys.exit("usage: plot.py [--check]")
    stale = []
    for file, content in made().items():
        if not arguments:
            file.write_text(content, encoding="utf-8")
        elif not file.exists() or file.read_text(encoding="utf-8") != content:
            stale.append(file.name)
    if stale:
        sys.exit(f"plot.py: not what results.csv gives: {', '.join(stale)}; run docs/performance/plot.py")


if __name__ == "__main__":
    main(sys.argv[1:])
