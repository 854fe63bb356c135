#!/usr/bin/env python3
"""Holds what docs/FORMATS.md shows against the library, by way of the tool.

    formats.py TOOL

Each block of the page that has a text must be sound and be shown as that text, and each
listing must be read as its block; its rewritings must have the page's maps and leave the
page's bytes, its sweep, its squeeze and its import must leave the page's bytes and moves,
texts that are no listing must be refused in the page's places, and what the page says of
refused blocks and of what reads a slot must be what the tool says. Exit status 1 if one
does not.
"""

import re
import subprocess
import sys
import tempfile
from pathlib import Path

sys.dont_write_bytecode = True  # no __pycache__ beside the documents

from extract_formats import PAGE, Fault, files_of  # noqa: E402


def run(tool, *words):
    """What the tool writes; it must succeed."""
    done = subprocess.run([tool, *map(str, words)], capture_output=True, check=False)
    if done.returncode != 0:
        raise Fault(f"{' '.join(map(str, words))}: {done.stderr.decode().strip()}")
    return done.stdout


def same(what, got, expected):
    if got != expected:
        raise Fault(f"{what} is not what the page shows")
    return 1


# The rewritings from start 0: graph, rule, map (where the page shows it), new graph.
REWRITINGS = (
    ("e1-graph", "rr-rule", "p1-map", "p1-graph"),
    ("shared-graph", "one-rule", "shared-map", "read-once-graph"),
    ("read-once-graph", "one-rule", None, "unread-graph"),
)


# What is asked of the least match, of which the page shows the answer: graph, rule, source
# vertex.
QUESTIONS = (
    ("shared-graph", "one-rule", 1),
    ("read-once-graph", "one-rule", 1),
    ("shared-graph", "one-rule", 2),
    ("read-once-graph", "one-rule", 2),
)


# The graphs that are swept, squeezed or imported: the command, the graph, the list of moves
# (of a squeeze), the new graph.
CHANGED_ALONE = (
    ("sweep", "dead-graph", None, "swept-graph"),
    ("squeeze", "swept-graph", "squeezed-moves", "squeezed-graph"),
    ("import", "old-graph", None, "e1-graph"),
)


# The refused blocks: the command, and the name that the page gives the file.
REFUSED = (
    ("cyclic-graph", "check", "cyclic.lgt"),
    ("miscounted-graph", "check", "miscounted.lgt"),
    ("old-graph", "check", "old.lgt"),
    ("removed-rule", "check-rule", "removed.lgr"),
)

SESSIONS = Path(__file__).resolve().parents[2] / "tool" / "tests" / "sessions"


def refusals_hold(tool, folder, page):
    """Each refused block is refused in the page's words."""
    for name, command, shown in REFUSED:
        block = folder / f"{name}.bin"
        done = subprocess.run([tool, command, str(block)], capture_output=True, check=False)
        said = done.stderr.decode().replace(str(block), shown)
        if done.returncode != 1 or f"\n    {said}" not in page:
            raise Fault(f"what {command} says of {name} is not what the page shows: {said.strip()}")
    return len(REFUSED)


def quotes_hold(page):
    """Each quote of the tool by the number of a reply is a line of a session."""
    sessions = "".join(path.read_text(encoding="utf-8") for path in SESSIONS.glob("*.session"))
    quotes = re.findall(r"^\| (\d\d) \| `(.*)` \|$", page, re.MULTILINE)
    for number, words in quotes:
        if f"refused with reply {number}: {words}\n" not in sessions:
            raise Fault(f"no session of the tool says with reply {number}: {words}")
    if not quotes:
        raise Fault("the page quotes nothing that the tool says")
    return len(quotes)


def blocks_hold(tool, folder, files):
    """Every block that has a text is sound, and is shown as that text."""
    count = 0
    for name in sorted(files):
        if name.endswith(".txt"):
            stem, *options = name[:-4].split(".")
            block = folder / (stem + ".bin")
            run(tool, "check-rule" if stem.endswith("-rule") else "check", block)
            shown = run(tool, "show", block, *("--" + option for option in options))
            count += same(f"what show prints of {name[:-4]}", shown, files[name])
    return count


def listings_hold(tool, folder, files):
    """Every listing is read as the block that it is the listing of."""
    names = [name for name in files if name.endswith(".numbers.txt")]
    for name in names:
        stem = name.split(".")[0]
        same(f"what is read of {stem}'s listing", run(tool, "read", folder / name, "-o", "-"),
             files[stem + ".bin"])
    if not names:
        raise Fault("the page shows no listing")
    return len(names)


def places_hold(tool, page):
    """Each text that is no listing is refused in the place of the page's table."""
    rows = re.findall(r"^\| `(.*)` \| (\d+) \| .* \|$", page, re.MULTILINE)
    for text, place in rows:
        done = subprocess.run([tool, "read", "-"], input=text.replace("\\n", "\n").encode(),
                              capture_output=True, check=False)
        said = done.stderr.decode()
        if "refused with reply 44: " not in said or f"(byte {place})" not in said:
            raise Fault(f"{text} is not refused with 44 in place {place}: {said.strip()}")
    if not rows:
        raise Fault("the page has no table of texts that are no listing")
    return len(rows)


def map_of(said):
    """The bytes of the map that the tool's command match tells in words."""
    slots = [int(slot) for slot in re.findall(r"-> slot (\d+)", said)]
    images = slots + [65535] * (16 - len(slots))
    return b"".join(number.to_bytes(2, "little") for number in images)


def rewritings_hold(tool, folder, files):
    """Each rewriting's map, and the block that it leaves."""
    count = 0
    for graph, rule, images, left in REWRITINGS:
        blocks = [folder / f"{name}.bin" for name in (graph, rule)]
        if images is not None:
            said = run(tool, "match", *blocks).decode()
            count += same(images, map_of(said), files[images + ".bin"])
        count += same(left, run(tool, "rewrite", *blocks, "-o", "-"), files[left + ".bin"])
    return count


def answers_hold(tool, folder, page):
    """The answers are the page's, in their order."""
    shown = re.findall(r"^    ((?:yes|no): .*)$", page, re.MULTILINE)
    said = [run(tool, "read-elsewhere", folder / f"{graph}.bin", folder / f"{rule}.bin", vertex)
            for graph, rule, vertex in QUESTIONS]
    same("what the tool answers", b"".join(said).decode().splitlines(), shown)
    return len(shown)


def changes_alone_hold(tool, folder, files):
    """Each list of moves, and the block that a sweep, a squeeze or an import leaves."""
    count = 0
    for command, graph, moves, left in CHANGED_ALONE:
        written = folder / "moves"
        options = [] if moves is None else ["--moves", written]
        made = run(tool, command, folder / f"{graph}.bin", *options, "-o", "-")
        count += same(left, made, files[left + ".bin"])
        if moves is not None:
            count += same(moves, written.read_bytes(), files[moves + ".bin"])
    return count


def main(arguments):
    if len(arguments) != 1:
        print("usage: formats.py TOOL", file=sys.stderr)
        return 2
    try:
        page = PAGE.read_text(encoding="utf-8")
        files = files_of(page)
        with tempfile.TemporaryDirectory() as name:
            folder = Path(name)
            for file, content in files.items():
                (folder / file).write_bytes(content)
            tool = str(Path(arguments[0]).resolve())
            count = (blocks_hold(tool, folder, files) + listings_hold(tool, folder, files)
                     + places_hold(tool, page) + rewritings_hold(tool, folder, files)
                     + answers_hold(tool, folder, page)
                     + changes_alone_hold(tool, folder, files)
                     + refusals_hold(tool, folder, page)
                     + quotes_hold(page))
    except (Fault, KeyError, ValueError, IndexError) as fault:
        print(f"{PAGE.name}: {fault}", file=sys.stderr)
        return 1
    print(f"formats: {count} things of {PAGE.name} are as it shows them")
    return 0


if __name__ == "__main__":
    sys.exit(main(sys.argv[1:]))
