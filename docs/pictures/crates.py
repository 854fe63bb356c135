#!/usr/bin/env python3
"""Draws docs/pictures/crates.svg: the crates of crates.txt, and which cites which.

    crates.py            write the picture
    crates.py --check    exit 1 if the picture is not what this would write

A crate stands above all that it cites. An arrow that follows from others is
left out (transitive reduction), and so are all arrows to the crates of COMMON,
which nearly every crate cites. Lines that merge lead to the same crate. A crate's
group is the heading of crates.txt under which it stands; GROUPS has its colour.
"""

import functools
import re
import sys
from pathlib import Path

HERE = Path(__file__).resolve().parent
PICTURE = HERE / "crates.svg"
CRATES = HERE.parent.parent / "crates.txt"

# Each group of crates.txt: its fill, its line colour, and where its crates are
# pulled to (0 is the left edge, 1 the right one).
GROUPS = {
    "surface": ("#f0d8e8", "#8c3a70", 0.50),
    "operations": ("#f9d3c5", "#b83b00", 0.50),
    "matching": ("#cfeee2", "#00795c", 0.40),
    "rewriting": ("#fde2bd", "#b06200", 0.75),
    "graph": ("#fbf3b5", "#8a7500", 0.25),
    "rule": ("#e0dcf5", "#5b4bab", 0.10),
    "listing": ("#d9f0c4", "#3d7a00", 0.65),
    "variadic": ("#f9d9d9", "#a33a3a", 0.20),
    "ground": ("#e8e8e8", "#4d4d4d", 0.60),
    "meaning": ("#dcecf9", "#1f6fb2", 0.95),
}
HEADING = re.compile(r"# ---- (\w+)")
COMMON = ("definitions", "laws")

LEAST_WIDTH, MARGIN = 1250, 30  # the picture is as wide as its widest row wants
BOX_HEIGHT, ROW_HEIGHT, TOP = 34, 92, 132
LANE, GAP = 10, 20  # a passing line's width, the gap between two things of a row
FONT = "font-family=\"DejaVu Sans, Verdana, Arial, sans-serif\""


class Fault(Exception):
    """What keeps the picture from being drawn."""


# ---- the crates

def crate_lines():
    """The group, the name and the citations of each crate."""
    group = None
    for line in CRATES.read_text(encoding="utf-8").splitlines():
        heading = HEADING.match(line)
        if heading:
            group = heading[1]
        head, colon, rest = line.split("#")[0].partition(":")
        if colon:
            # Behind the name may stand what kind of crate it is, as staticlib.
            yield group, head.split()[0], rest.split()


def read_crates():
    """Each crate with the crates of the repository that it cites."""
    cites = {name: rest for _, name, rest in crate_lines()}
    return {name: {other for other in rest if other in cites} for name, rest in cites.items()}


@functools.cache
def groups():
    """The group of each crate."""
    found = {name: group for group, name, _ in crate_lines()}
    for name, group in found.items():
        if group is None:
            raise Fault(f"crates.txt: crate {name} has no group: it stands above the first heading")
        if group not in GROUPS:
            raise Fault(f"crates.txt: crate {name} is in the group {group}, which crates.py does not know: name it in GROUPS")
    return found


def look_of(name):
    """The look of a crate's group."""
    return GROUPS[groups()[name]]


def below(cites, name):
    """All that a crate cites, directly or not."""
    found = set()
    for other in cites[name]:
        found |= {other} | below(cites, other)
    return found


def reduced(cites):
    """Without COMMON, and without what follows from other citations."""
    kept = {name: rest - set(COMMON) for name, rest in cites.items() if name not in COMMON}
    return {
        name: sorted(o for o in rest if not any(o in below(kept, p) for p in rest if p != o))
        for name, rest in kept.items()
    }


# ---- rows: a crate above what it cites, lines as short as can be

def rows_of(cites):
    users = {name: [u for u in cites if name in cites[u]] for name in cites}
    row = {}

    def lowest(name):
        row[name] = 1 + max((lowest(o) for o in cites[name]), default=-1)
        return row[name]

    for name in cites:
        lowest(name)
    for _ in cites:
        for name in sorted(cites):
            least = 1 + max((row[o] for o in cites[name]), default=-1)
            most = min((row[u] for u in users[name]), default=row[name] + 1) - 1
            row[name] = most if len(users[name]) > len(cites[name]) else least
    return row


def points_of(cites, row):
    """The things of each row, crates and lanes, and the lines between neighbouring rows.

    A lane (target, row) is where lines to that target pass a row."""
    things, lines = [set() for _ in range(max(row.values()) + 1)], set()
    for name, rest in cites.items():
        things[row[name]].add(name)
        for target in rest:
            upper = name
            for level in range(row[name] - 1, row[target], -1):
                things[level].add((target, level))
                lines.add((upper, (target, level), target))
                upper = (target, level)
            lines.add((upper, target, target))
    return [sorted(level, key=str) for level in things], sorted(lines, key=str)


# ---- places in a row

def half(thing):
    return LANE / 2 if isinstance(thing, tuple) else box_width(thing) / 2


def box_width(name):
    return 22 + 8.6 * len(name)


def width_of(things):
    """A width in which each row has its things and gaps."""
    rows = (sum(2 * half(t) for t in level) + GAP * (len(level) - 1) for level in things)
    return max(LEAST_WIDTH, int(max(rows)) + 1 + 2 * MARGIN)


def pull(thing, width):
    """Where a thing's group wants it."""
    name = thing[0] if isinstance(thing, tuple) else thing
    return MARGIN + look_of(name)[2] * (width - 2 * MARGIN)


def spread(order, wish, width):
    """The places nearest to the wished ones that keep the order and the gaps."""
    offsets, at = [], 0.0
    for k, thing in enumerate(order):
        at += half(order[k - 1]) + GAP + half(thing) if k else 0
        offsets.append(at)
    groups = []
    for thing, offset in zip(order, offsets):
        groups.append([wish[thing] - offset, 1])
        while len(groups) > 1 and groups[-2][0] > groups[-1][0]:
            value, count = groups.pop()
            total = groups[-1][0] * groups[-1][1] + value * count
            groups[-1] = [total / (groups[-1][1] + count), groups[-1][1] + count]
    base = [value for value, count in groups for _ in range(count)]
    low = MARGIN + half(order[0])
    high = width - MARGIN - half(order[-1]) - offsets[-1]
    return {t: min(max(b, low), high) + o for t, b, o in zip(order, base, offsets)}


def neighbours(lines):
    near = {}
    for upper, lower, _ in lines:
        near.setdefault(upper, []).append(lower)
        near.setdefault(lower, []).append(upper)
    return near


def crossings(order, near, place, other):
    """How many lines cross between a row and those beside it."""
    count = 0
    for side in other:
        ends = [[place[n] for n in near.get(t, []) if n in side] for t in order]
        for i, left in enumerate(ends):
            for right in ends[i + 1:]:
                count += sum(a > b for a in left for b in right)
    return count


def untangle(order, near, place, other):
    """Exchanges neighbours of a row as long as that saves crossings."""
    best, again = crossings(order, near, place, other), True
    while again:
        again = False
        for k in range(len(order) - 1):
            tried = order[:k] + [order[k + 1], order[k]] + order[k + 2:]
            count = crossings(tried, near, place, other)
            if count < best:
                order, best, again = tried, count, True
    return order


def places(things, lines, width, rounds=60):
    """The middle of each thing, from left to right."""
    near = neighbours(lines)
    place = {thing: pull(thing, width) for level in things for thing in level}
    for turn in range(rounds):
        weight = 0.35 * (1 - turn / rounds)
        levels = range(len(things)) if turn % 2 else range(len(things) - 1, -1, -1)
        for k in levels:
            around = {t: [place[n] for n in near.get(t, [])] or [pull(t, width)] for t in things[k]}
            wish = {t: weight * pull(t, width) + (1 - weight) * sum(a) / len(a) for t, a in around.items()}
            order = sorted(things[k], key=lambda t: (wish[t], str(t)))
            if turn >= rounds // 2:
                order = sorted(things[k], key=lambda t: (place[t], str(t)))
                beside = [set(things[n]) for n in (k - 1, k + 1) if 0 <= n < len(things)]
                order = untangle(order, near, place, beside)
            place.update(spread(order, wish, width))
    return place


# ---- the drawing

def top_of(level, count):
    return TOP + (count - 1 - level) * ROW_HEIGHT


def box(name, middle, top, width=None):
    width = width or box_width(name)
    fill, line, _ = look_of(name)
    return (
        f'<rect x="{middle - width / 2:.1f}" y="{top}" width="{width:.1f}" height="{BOX_HEIGHT}" rx="5"'
        f' fill="{fill}" stroke="{line}" stroke-width="1.6"/>\n'
        f'<text x="{middle:.1f}" y="{top + 22}" text-anchor="middle" font-size="14">{name}</text>\n'
    )


def ports(lines, place):
    """Where each line leaves its upper end: a box's lines are spread over its lower edge."""
    leaving = {}
    for upper, lower, target in lines:
        leaving.setdefault(upper, []).append((place[lower], target))
    found = {}
    for upper, ends in leaving.items():
        step = min(26, 1.6 * half(upper) / max(1, len(ends)))
        for k, (_, target) in enumerate(sorted(ends)):
            found[upper, target] = place[upper] + (k - (len(ends) - 1) / 2) * step
    return found


def line_path(line, place, port, row, count):
    upper, lower, target = line
    start, end = port[upper, target], place[lower]
    level = lower[1] if isinstance(lower, tuple) else row[lower]
    y2 = top_of(level, count)
    y1 = y2 - ROW_HEIGHT + BOX_HEIGHT
    color = look_of(target)[1]
    path = f"M{start:.1f} {y1} C{start:.1f} {y1 + 30} {end:.1f} {y2 - 34} {end:.1f} {y2 - 8}"
    if isinstance(lower, tuple):
        path += f" V{y2 + BOX_HEIGHT}"
        return f'<path d="{path}" fill="none" stroke="{color}" stroke-width="1.5"/>\n'
    head = f"M{end:.1f} {y2} l-4.5 -9 h9 z"
    return (
        f'<path d="{path}" fill="none" stroke="{color}" stroke-width="1.5"/>\n'
        f'<path d="{head}" fill="{color}"/>\n'
    )


def legend(width):
    text = f'<text x="{MARGIN}" y="38" font-size="20" font-weight="bold">The crates of leafgraph</text>\n'
    x, y = MARGIN, 56
    for title, (fill, line, _) in GROUPS.items():
        wide = 54 + 6.7 * len(title)
        if x + wide > width - MARGIN:
            x, y = MARGIN, y + 24
        text += (
            f'<rect x="{x:.1f}" y="{y}" width="20" height="14" rx="3" fill="{fill}" stroke="{line}"'
            f' stroke-width="1.6"/>\n<text x="{x + 27:.1f}" y="{y + 12}" font-size="13">{title}</text>\n'
        )
        x += wide
    said = "An arrow reads “cites”; it has the colour of the crate that is cited. Lines that merge lead to the same crate."
    return text + f'<text x="{MARGIN}" y="{y + 38}" font-size="13">{said}</text>\n'


def foundation(cites, top, width):
    """The crates that nearly all cite, and a line that says which do not."""
    part = (width - 2 * MARGIN - GAP) / 2
    text, said = "", []
    for k, name in enumerate(COMMON):
        text += box(name, MARGIN + part / 2 + k * (part + GAP), top, part)
        others = sorted(c for c in cites if c != name and c not in COMMON and name not in cites[c])
        said.append(f"{name} is cited by all crates above" + (" but " + ", ".join(others) if others else ""))
    notes = ["; ".join(said) + ": these arrows are left out.",
             "Left out, too: an arrow where others lead from the same crate to the same crate by way of a third."]
    for k, note in enumerate(notes):
        text += f'<text x="{MARGIN}" y="{top + 58 + 20 * k}" font-size="13">{note}</text>\n'
    return text


def drawing():
    cites = read_crates()
    shown = reduced(cites)
    row = rows_of(shown)
    things, lines = points_of(shown, row)
    width = width_of(things)
    place = places(things, lines, width)
    port, count = ports(lines, place), len(things)
    height = top_of(0, count) + ROW_HEIGHT + 96
    text = (
        f'<svg xmlns="http://www.w3.org/2000/svg" width="{width}" height="{height}"'
        f' viewBox="0 0 {width} {height}" {FONT} fill="#111111">\n'
        f'<!-- written by docs/pictures/crates.py from crates.txt -->\n'
        f'<rect width="{width}" height="{height}" fill="#ffffff"/>\n'
    )
    text += legend(width)
    text += "".join(line_path(line, place, port, row, count) for line in lines)
    for name in sorted(shown):
        text += box(name, place[name], top_of(row[name], count))
    return text + foundation(cites, top_of(0, count) + ROW_HEIGHT - 8, width) + "</svg>\n"


def main(arguments):
    if arguments not in ([], ["--check"]):
        print("usage: crates.py [--check]", file=sys.stderr)
        return 2
    try:
        text = drawing()
    except Fault as fault:
        print(fault, file=sys.stderr)
        return 1
    if not arguments:
        PICTURE.write_text(text, encoding="utf-8")
    elif not PICTURE.exists() or PICTURE.read_text(encoding="utf-8") != text:
        print("docs/pictures/crates.svg is not what crates.py makes of crates.txt: run it again", file=sys.stderr)
        return 1
    return 0


if __name__ == "__main__":
    sys.exit(main(sys.argv[1:]))
