#!/usr/bin/env python3
"""Writes the blocks and texts that docs/FORMATS.md shows to files.

    extract_formats.py DIR

A fenced block of FORMATS.md says by its first line what it is:

    hex NAME           a line 'OFFSET BYTES # comment' each; becomes DIR/NAME.bin
    changes OLD NEW    a line 'OFFSET BEFORE -> AFTER # comment' each, made to the
                       hex block OLD; becomes DIR/NEW.bin
    show NAME          what `leafgraph show` prints of it; becomes DIR/NAME.txt, or
                       with an option such as --numbers behind it DIR/NAME.numbers.txt

Any other fenced block is passed over. Exits 1 with a message, and writes
nothing, if an offset is not the number of bytes before it, a changed byte is
not what the old block has, or a text has no block.
"""

import re
import sys
from pathlib import Path

PAGE = Path(__file__).resolve().parent.parent / "FORMATS.md"
FENCE = "```"


class Fault(Exception):
    """What is wrong with the page."""


def fenced_blocks(text):
    """The words of each fenced block's first line, and its lines."""
    words, lines = None, []
    for line in text.splitlines():
        if not line.startswith(FENCE):
            lines.append(line)
        elif words is None:
            words, lines = line[len(FENCE):].split(), []
        else:
            yield words, lines
            words = None


def fields(line):
    """A line's fields, without its comment."""
    return line.split("#")[0].split()


def bytes_of(name, lines):
    """The bytes of a hex block, whose offsets must count them."""
    block = bytearray()
    for line in lines:
        offset, *numbers = fields(line)
        if int(offset) != len(block):
            raise Fault(f"{name}: offset {offset} stands after {len(block)} bytes")
        block += bytes(int(number, 16) for number in numbers)
    return bytes(block)


def changed(name, old, lines):
    """The block with each listed byte changed."""
    block = bytearray(old)
    for line in lines:
        match = re.fullmatch(r"(\d+) ([0-9a-f]{2}) -> ([0-9a-f]{2})", " ".join(fields(line)))
        if not match:
            raise Fault(f"{name}: no change: {line}")
        at, before, after = int(match[1]), int(match[2], 16), int(match[3], 16)
        if block[at] != before:
            raise Fault(f"{name}: byte {at} is {block[at]:02x}, not {before:02x}")
        block[at] = after
    return bytes(block)


def files_of(text):
    """The files that the page's blocks become, by name."""
    files = {}
    for words, lines in fenced_blocks(text):
        if words[:1] == ["hex"]:
            files[words[1] + ".bin"] = bytes_of(words[1], lines)
        elif words[:1] == ["changes"]:
            files[words[2] + ".bin"] = changed(words[2], files[words[1] + ".bin"], lines)
        elif words[:1] == ["show"]:
            name = "".join(words[1:]).replace("--", ".") + ".txt"
            files[name] = "".join(line + "\n" for line in lines).encode()
    for name in files:
        if name.endswith(".txt") and name.split(".")[0] + ".bin" not in files:
            raise Fault(f"{name[:-4]}: a text and no block")
    if not files:
        raise Fault("no block found")
    return files


def main(arguments):
    if len(arguments) != 1:
        print("usage: extract_formats.py DIR", file=sys.stderr)
        return 2
    try:
        files = files_of(PAGE.read_text(encoding="utf-8"))
    except (Fault, KeyError, ValueError, IndexError) as fault:
        print(f"{PAGE.name}: {fault}", file=sys.stderr)
        return 1
    folder = Path(arguments[0])
    folder.mkdir(parents=True, exist_ok=True)
    for name, content in files.items():
        (folder / name).write_bytes(content)
        print(f"{name}: {len(content)} bytes")
    return 0


if __name__ == "__main__":
    sys.exit(main(sys.argv[1:]))
