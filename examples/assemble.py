"""Assembles readable graphs and rules into the blocks that leafgraph takes.

Usage: assemble.py [--version-1] FOLDER SOURCE...

Writes FOLDER/NAME.lgt for each source NAME.txt that is a graph, FOLDER/NAME.lgr
for each one that is a rule. A graph block has the true count of each slot. With
--version-1 graphs are written as version 1, which has no counts and wants importing,
to FOLDER/NAME_version_1.lgt.

A graph is a listing, as docs/FORMATS.md describes it; the form of a rule is described in
README.md. Only the text's form is judged here, and of a listing not how many inputs and
attributes its vertices have: that, and whether a block is sound, is for the library to
say.
"""

import collections
import re
import struct
import sys
from pathlib import Path
from typing import NamedTuple

KINDS = {"wildcard": 0, "const": 1, "variable": 2, "call": 3, "tuple": 4, "proj": 5}
OPERATORS = ("add", "mul", "sub", "conv2d", "bias_add", "batch_norm", "relu", "concat",
             "split", "gain", "vivid", "mean", "reshape", "cast")  # numbers 1 to 14
OPERATION_FORMS = {"+": 3, "-": 4, "*": 5, "/": 6, "%": 7}
ANY, CONSTANT, ACCESS = 0, 1, 2

BYTE, WORD, SIGNED = (0, 255), (0, 65535), (-2**31, 2**31 - 1)
SLOTS, OPERATOR_NUMBERS = (1, 512), (1, len(OPERATORS))
RULE_INPUT, TARGET_VERTEX = (0, 15), (0, 239)  # places hold 0 to 15, or 16 and more
NO_SLOT, NO_PLACE = 65535, 255
INPUTS = ATTRIBUTES = 6
WITH_COUNTS, WITHOUT_COUNTS = 2, 1  # the versions of a graph block

VERTEX = re.compile(r"(\S+) ([a-z]+)(?: (\w+))? \[([^][{}]*)\] \{([^][{}]*)\}")
NUMBER = re.compile(r"0|-?[1-9][0-9]*")
# A slot's line in a listing: with single spaces, and nothing else but what VERTEX tells.
LISTED = re.compile(r"\S+ [a-z]+(?: [0-9]+)? \[(?:\S+(?: \S+)*)?\] \{(?:\S+(?: \S+)*)?\}")
ACCESSED = re.compile(r"s[^.]+\.[^.]+")


class Fault(Exception):
    """What is wrong with a source, and in which line."""

    def __init__(self, line, message):
        super().__init__(f"line {line}: {message}")


class Vertex(NamedTuple):
    """A line of a slot or of a pattern; inputs and attributes are words still."""
    line: int
    kind: int
    operator: int
    inputs: list
    attributes: list


# ---- lines and words

def stripped(text):
    """The lines that are left without comments, blank lines and idle spaces, as
    pairs of their number and their text."""
    lines = enumerate((line.split("#")[0].split() for line in text.split("\n")), start=1)
    return [(number, " ".join(words)) for number, words in lines if words]


class Lines:
    """The stripped lines of a source, taken one after the other."""

    def __init__(self, text):
        self.lines = stripped(text)
        self.end = text.count("\n") + 1

    def next(self):
        """The next line's number and words; no words at the end."""
        number, text = self.lines[0] if self.lines else (self.end, "")
        return number, text.split()

    def take(self):
        line = self.next()
        del self.lines[:1]
        return line

    def expect(self, word):
        """Takes a line that starts with this word; gives its number and the rest."""
        number, words = self.take()
        if words[:1] != [word]:
            found = f"'{' '.join(words)}'" if words else "the end"
            raise Fault(number, f"expected '{word}', found {found}")
        return number, words[1:]

    def expect_alone(self, word):
        number, rest = self.expect(word)
        if rest:
            raise Fault(number, f"nothing may follow '{word}'")


def number_in(limits, word, line):
    """The number that a word is, where it is decimal and within the limits."""
    if not NUMBER.fullmatch(word):
        raise Fault(line, f"'{word}' is no number")
    if not limits[0] <= int(word) <= limits[1]:
        raise Fault(line, f"{word} is not from {limits[0]} to {limits[1]}")
    return int(word)


def prefixed(prefix, limits, word, line):
    """The number in a word such as n3, where the prefix is n."""
    if word[:1] != prefix or not NUMBER.fullmatch(word[1:]):
        raise Fault(line, f"expected '{prefix}' and a number, found '{word}'")
    return number_in(limits, word[1:], line)


def padded(numbers, places, filler, line):
    """The numbers, and the filler in the places that are left."""
    if len(numbers) > places:
        raise Fault(line, f"{len(numbers)} numbers where at most {places} fit")
    return numbers + [filler] * (places - len(numbers))


# ---- vertices

def operator_number(kind, name, line):
    if (name is not None) != (kind == "call"):
        raise Fault(line, "'call' has an operator, and no other kind has one")
    if name is None:
        return 0
    if name in OPERATORS:
        return OPERATORS.index(name) + 1
    if NUMBER.fullmatch(name):
        return number_in(BYTE, name, line)
    raise Fault(line, f"there is no operator '{name}'")


def parse_vertex(line, words):
    """The number of a vertex, and the vertex."""
    match = VERTEX.fullmatch(" ".join(words))
    if not match:
        raise Fault(line, "expected 'out' or a vertex, such as '3 call relu [2] {}'")
    number, kind, operator, inputs, attributes = match.groups()
    if kind not in KINDS:
        raise Fault(line, f"there is no kind '{kind}'")
    return number_in(WORD, number, line), Vertex(
        line, KINDS[kind], operator_number(kind, operator, line), inputs.split(),
        attributes.split())


# ---- graphs

def listing_lines(text):
    """The lines of a listing, each ended by byte 10, as pairs of their number and their text."""
    *lines, rest = text.split("\n")
    if rest or not lines:
        raise Fault(len(lines) + 1, "a listing's line has no end")
    return list(enumerate(lines, start=1))


def numbers_after(word, line, text, limits):
    """The numbers in a line that starts with this word, with a space before each."""
    first, *words = text.split(" ")
    if first != word or not words:
        raise Fault(line, f"expected '{word}' and its numbers, found '{text}'")
    return [number_in(limits, number, line) for number in words]


def listed_vertex(line, text):
    """The slot of a line of a listing, and its vertex."""
    if not LISTED.fullmatch(text):
        raise Fault(line, "expected a slot, such as '3 call 7 [2] {}', or 'out' in the last line")
    slot, vertex = parse_vertex(line, text.split(" "))
    if vertex.kind == KINDS["wildcard"]:
        raise Fault(line, "a graph has no wildcard")
    if vertex.kind == KINDS["call"]:
        number_in(OPERATOR_NUMBERS, str(vertex.operator), line)
    return slot, vertex


def inputs_of(vertex):
    return [number_in(WORD, word, vertex.line) for word in vertex.inputs]


def slot_record(vertex, count):
    """The 48 bytes of a slot."""
    inputs = inputs_of(vertex)
    attributes = [number_in(SIGNED, word, vertex.line) for word in vertex.attributes]
    return struct.pack("<BBBB6H6iH6x", vertex.kind, vertex.operator, len(inputs),
                       len(attributes), *padded(inputs, INPUTS, NO_SLOT, vertex.line),
                       *padded(attributes, ATTRIBUTES, 0, vertex.line), count)


def listed_slots(lines, slots):
    """The vertices of all slots; those that no line names are Empty."""
    empty = Vertex(0, 0, 0, [], [])
    vertices = []
    for line, text in lines:
        slot, vertex = listed_vertex(line, text)
        if not len(vertices) <= slot < slots:
            raise Fault(line, f"slot {slot} does not ascend below {slots}")
        vertices += [empty] * (slot - len(vertices)) + [vertex]
    return vertices + [empty] * (slots - len(vertices))


def counts_of(vertices, outputs):
    """How many input places and outputs name each slot. No sound graph has more than fit."""
    named = collections.Counter(outputs)
    for vertex in vertices:
        named.update(inputs_of(vertex))
    return [min(named[slot], WORD[1]) for slot in range(len(vertices))]


def graph_block(text, version, limits=SLOTS):
    """The block of a listing. With other limits it may have more slots than a listing, or none."""
    first, *lines = listing_lines(text)
    slots, *more = numbers_after("graph", *first, limits)
    if more or not lines:
        raise Fault(first[0], "'graph' has one number, and a line after it")
    outputs = numbers_after("out", *lines.pop(), WORD)
    vertices = listed_slots(lines, slots)
    header = struct.pack("<3sxHHH4H6x", b"LGT", version, len(vertices), len(outputs),
                         *padded(outputs, 4, NO_SLOT, len(lines) + 2))
    counts = counts_of(vertices, outputs) if version == WITH_COUNTS else [0] * len(vertices)
    return header + b"".join(map(slot_record, vertices, counts))


# ---- rules

def source_place(word, line):
    return number_in(BYTE, word, line)


def target_place(word, line):
    """The byte of a place: sJ is rule input J, tI is target vertex I."""
    if word.startswith("t"):
        return 16 + prefixed("t", TARGET_VERTEX, word, line)
    return prefixed("s", RULE_INPUT, word, line)


def pattern_record(vertex, place):
    """The 16 bytes of a vertex of a rule."""
    inputs = [place(word, vertex.line) for word in vertex.inputs]
    nodes = [prefixed("n", BYTE, word, vertex.line) for word in vertex.attributes]
    return struct.pack("<BBBB6B6B", vertex.kind, vertex.operator, len(inputs), len(nodes),
                       *padded(inputs, INPUTS, NO_PLACE, vertex.line),
                       *padded(nodes, ATTRIBUTES, NO_PLACE, vertex.line))


def take_side(lines, word, place):
    """One side of a rule: its records and the line and places of its outputs."""
    lines.expect_alone(word)
    records = []
    while lines.next()[1][:1] != ["out"]:
        line, words = lines.take()
        number, vertex = parse_vertex(line, words)
        if number != len(records):
            raise Fault(line, f"expected vertex {len(records)}, found {number}")
        records.append(pattern_record(vertex, place))
    line, words = lines.expect("out")
    return records, line, [place(word, line) for word in words]


def node_record(line, words):
    """The 8 bytes of an expression node: form, a, b and number."""
    form, a, b, number = ANY, 0, 0, 0
    if len(words) == 3 and words[1] in OPERATION_FORMS:
        form = OPERATION_FORMS[words[1]]
        a, b = (prefixed("n", BYTE, word, line) for word in words[::2])
    elif len(words) == 1 and ACCESSED.fullmatch(words[0]):
        form = ACCESS
        a, b = (number_in(BYTE, word, line) for word in words[0][1:].split("."))
    elif len(words) == 1 and NUMBER.fullmatch(words[0]):
        form, number = CONSTANT, number_in(SIGNED, words[0], line)
    elif words != ["any"]:
        raise Fault(line, "expected a node: any, a number, s1.2 or n1 * n2")
    return struct.pack("<BBBxi", form, a, b, number)


def take_nodes(lines):
    """The records of the nodes. Where there are none, there is no such section."""
    records = []
    if not lines.next()[1]:
        return records
    lines.expect_alone("nodes")
    while lines.next()[1] or not records:
        line, words = lines.take()
        if words[:1] != [str(len(records))]:
            raise Fault(line, f"expected node {len(records)}")
        records.append(node_record(line, words[1:]))
    return records


def rule_block(lines):
    lines.expect_alone("rule")
    source, source_line, source_outputs = take_side(lines, "source", source_place)
    target, line, target_outputs = take_side(lines, "target", target_place)
    nodes = take_nodes(lines)
    if len(source_outputs) != len(target_outputs):
        raise Fault(line, "source and target have different numbers of outputs")
    if max(len(source), len(target), len(nodes)) > BYTE[1]:
        raise Fault(line, "more vertices or nodes than a byte can count")
    header = struct.pack("<3sxHBBBB2B2B2x", b"LGR", 1, len(source), len(target),
                         len(source_outputs), len(nodes),
                         *padded(source_outputs, 2, NO_PLACE, source_line),
                         *padded(target_outputs, 2, NO_PLACE, line))
    return header + b"".join(source + target + nodes)


# ---- files

def assemble(text, version=WITH_COUNTS):
    """The suffix of a source's block, and its bytes; the version is that of a graph."""
    lines = Lines(text)
    if lines.next()[1][:1] == ["rule"]:
        return ".lgr", rule_block(lines)
    return (".lgt" if version == WITH_COUNTS else "_version_1.lgt"), graph_block(text, version)


def write_block(folder, source, version):
    """Assembles one file; gives the file written."""
    # Not as text, in which Python takes other line ends for byte 10.
    suffix, block = assemble(source.read_bytes().decode("utf-8"), version)
    path = folder / (source.stem + suffix)
    path.write_bytes(block)
    return path


def main(arguments):
    version = WITHOUT_COUNTS if arguments[:1] == ["--version-1"] else WITH_COUNTS
    if version == WITHOUT_COUNTS:
        del arguments[0]
    if len(arguments) < 2:
        sys.exit(__doc__.strip())
    folder, *sources = map(Path, arguments)
    folder.mkdir(parents=True, exist_ok=True)
    for source in sources:
        try:
            write_block(folder, source, version)
        except (Fault, OSError, UnicodeDecodeError) as fault:
            sys.exit(f"{source}: {fault}")


if __name__ == "__main__":
    main(sys.argv[1:])
