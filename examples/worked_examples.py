#!/usr/bin/env python3
"""Writes crates/worked_examples/stdin: the calls that the program of that crate makes.

    worked_examples.py            write the file
    worked_examples.py --check    exit 1 if the file is not what this would write

A new call is a line of CALLS, with graphs as listings and rules in the form of README.md.
What the library must answer stands in the crate's file stdout, as the second program says it
(reference/leafgraph_reference/src/bin/run_examples.rs makes the same calls).

The file has lines of a letter, a space and what belongs to the letter. The lines of a
call are those of its blocks, in hexadecimal:

    g   bytes of the graph
    r   bytes of the rule
    s   bytes of the start, the lowest first; no such line: from 0

and last the line with the call's name, whose letter says what is asked and shown. With
it the call is made and its blocks are forgotten.

    G   check the graph: the reply
    R   check the rule: the reply
    F   find a match: the reply
    M   find a match: the reply and the map
    W   rewrite: the reply, the map and the new graph

Blank lines and those that start with # don't count.
"""

import sys
from pathlib import Path
from typing import NamedTuple

sys.dont_write_bytecode = True  # before the import, so that no cache is left here
import assemble

EXAMPLES = Path(__file__).resolve().parent
CALLS_FILE = EXAMPLES.parent / "crates" / "worked_examples" / "stdin"
HEAD = "# Written by examples/worked_examples.py, which says what the lines are.\n"

HEADER_BYTES, SLOT_BYTES, PATTERN_BYTES = 24, 48, 16
COUNT_AT = 40  # in a slot
GROUP = 4  # bytes that stand together in a line
START_BYTES = 8


class Call(NamedTuple):
    """What is asked, its name as the program prints it, and what is lent."""
    letter: str
    name: str
    graph: bytes = b""
    rule: bytes = b""
    start: int = 0


# ---- graphs and rules

def block(text):
    return assemble.assemble(text)[1]


def of_any_length(text):
    """The block of a graph that may have one slot more than a listing can have, or none."""
    return assemble.graph_block(text, assemble.WITH_COUNTS, limits=(0, 513))


def version_1(text):
    return assemble.assemble(text, assemble.WITHOUT_COUNTS)[1]


def counting(graph, slot, count):
    """The block with another count in a slot."""
    at = HEADER_BYTES + SLOT_BYTES * slot + COUNT_AT
    return graph[:at] + count.to_bytes(2, "little") + graph[at + 2:]


def source(name):
    return (EXAMPLES / "source" / f"{name}.txt").read_text(encoding="utf-8")


def changed(text, old, new):
    """The text with one part changed, which must be there exactly once."""
    if text.count(old) != 1:
        raise ValueError(f"not once in the source: {old}")
    return text.replace(old, new)


def graph_of(vertices, output):
    """The graph of these vertices, slot by slot, with one output."""
    slots = "".join(f"{k} {vertex}\n" for k, vertex in enumerate(vertices))
    return f"graph {len(vertices)}\n{slots}out {output}\n"


VARIABLE = "variable [] {1 3 8 8 1}"
ADD, RELU, GAIN, MEAN = 1, 7, 10, 12


def call(operator, inputs, attributes=""):
    return f"call {operator} [{inputs}] {{{attributes}}}"


def relu(place):
    return call(RELU, place)


def chain(slots):
    """A Variable and relus, each of the slot before."""
    return graph_of([relu(k - 1) if k else VARIABLE for k in range(slots)], max(slots - 1, 0))


def reversed_chain(slots):
    """A Variable in the last slot and relus, each of the slot after."""
    return graph_of([relu(k + 1) for k in range(slots - 1)] + [VARIABLE], 0)


E1 = source("e1")
RR = source("relu_over_relu")

# Slot 0 has the count 2, by two input places of one reader; so has slot 1, which is both
# outputs.
NAMED_TWICE = changed(graph_of([VARIABLE, call(ADD, "0 0")], 1), "out 1", "out 1 1")

SELF_READING = graph_of([VARIABLE, relu(1)], 0)
LAST_SLOT_CYCLE = graph_of([VARIABLE, call(ADD, "0 2"), relu(1)], 1)

# Slot 3 is an output of the graph, so that it cannot be removed.
P3_GRAPH = changed(E1, "out 4", "out 4 3")

# No slot is Empty before.
P4_GRAPH = changed(E1, "graph 6", "graph 5")

# The new table would have a cycle.
P7_GRAPH = graph_of([VARIABLE, relu(0), call(MEAN, 1, 0), call(ADD, "0 2")], 3)

P7_RULE = """
rule
source
0 wildcard [] {}
1 call relu [0] {}
2 wildcard [] {}
3 call add [0 2] {}
out 1 3
target
0 call sub [s0 s2] {}
out t0 t0
"""

# The match that starts with slot 2 fails, and the search goes on.
P8_GRAPH = graph_of([VARIABLE, VARIABLE, relu(0), relu(1), call(ADD, "1 0")], 4)


def constant(number):
    """P9's graph: a relu of this number."""
    return graph_of([f"const [] {{{number}}}", relu(0)], 1)


def operation(left, sign, right):
    """P9's rule: it matches a relu of the number that the operation gives."""
    return f"""
rule
source
0 const [] {{n2}}
1 call relu [0] {{}}
out 1
target
0 const [] {{n0}}
out t0
nodes
0 {left}
1 {right}
2 n0 {sign} n1
"""


def gains(number):
    """P10's graph: two gains, whose first attributes are multiplied."""
    factors = f"{number} 1 1"
    return graph_of([VARIABLE, call(GAIN, 0, factors), call(GAIN, 1, factors)], 2)


# ---- the calls

def check_graph(name, graph):
    return Call("G", f"graph {name}", graph)


def check_rule(name, rule):
    return Call("R", f"rule {name}", rule=rule)


def match(start):
    return Call("M", f"match RR on E1 from {start}", block(E1), block(RR), start)


def quotient(left, right, result):
    return Call("F", f"quotient of {left} by {right} is {result}",
                block(constant(result)), block(operation(left, "/", right)))


def remainder(left, right, result):
    return Call("F", f"remainder of {left} by {right} is {result}",
                block(constant(result)), block(operation(left, "%", right)))


def rewrite(name, graph, rule):
    return Call("W", f"rewrite {name}", block(graph), block(rule))


LOWEST = -2**31
CALLS = [
    check_graph("N = 0", of_any_length(chain(0))),
    check_graph("N = 1", block(chain(1))),
    check_graph("N = 512", block(chain(512))),
    check_graph("N = 513", of_any_length(chain(513))),
    check_graph("N = 512 reversed", block(reversed_chain(512))),
    check_graph("E1", block(E1)),
    check_graph("E1 one byte short", block(E1)[:-1]),
    check_graph("E1 one byte long", block(E1) + b"\0"),
    check_graph("self-reading slot", block(SELF_READING)),
    check_graph("cycle through the last slot", block(LAST_SLOT_CYCLE)),
    check_graph("E1 as version 1", version_1(E1)),
    check_graph("E1 with a wrong count", counting(block(E1), 2, 0)),
    check_graph("slots named twice", block(NAMED_TWICE)),
    check_graph("slots named twice and counted once", counting(block(NAMED_TWICE), 1, 1)),
    check_graph("empty", b""),

    check_rule("RR", block(RR)),
    check_rule("RR one byte short", block(RR)[:-1]),
    check_rule("RR one byte long", block(RR) + b"\0"),
    check_rule("empty", b""),

    *(match(start) for start in (0, 4, 5, 65535, 65536, 2**64 - 1)),

    quotient(-7, 2, -4),
    quotient(-7, 2, -3),
    quotient(7, -2, -4),
    quotient(LOWEST, -1, LOWEST),
    remainder(-7, 2, 1),
    remainder(7, -2, -1),
    remainder(LOWEST, -1, 0),
    remainder(7, 0, 0),

    rewrite("P1", E1, RR),
    rewrite("P3", P3_GRAPH, RR),
    rewrite("P4", P4_GRAPH, RR),
    rewrite("P7", P7_GRAPH, P7_RULE),
    rewrite("P8", P8_GRAPH, P7_RULE),
    # The square of 65536 is no signed 32-bit number; that of 256 is.
    rewrite("P10", gains(65536), source("gain_over_gain")),
    rewrite("P10 with 256", gains(256), source("gain_over_gain")),
]


# ---- the file

def cut(data, size):
    return [data[at:at + size] for at in range(0, len(data), size)]


def hex_lines(letter, records):
    """A line for each record."""
    return [f"{letter} {' '.join(part.hex() for part in cut(record, GROUP))}" for record in records]


def lines_of(call):
    """The lines of a call: the header and each slot of the graph, and every 16 bytes of the rule."""
    slots = cut(call.graph[HEADER_BYTES:], SLOT_BYTES)
    lines = hex_lines("g", [call.graph[:HEADER_BYTES], *slots] if call.graph else [])
    lines += hex_lines("r", cut(call.rule, PATTERN_BYTES))
    if call.start:
        lines += hex_lines("s", [call.start.to_bytes(START_BYTES, "little")])
    return lines + [f"{call.letter} {call.name}"]


def calls_text():
    return HEAD + "".join("\n" + "\n".join(lines_of(call)) + "\n" for call in CALLS)


def main(arguments):
    if arguments not in ([], ["--check"]):
        print("usage: worked_examples.py [--check]", file=sys.stderr)
        return 2
    text = calls_text()
    if not arguments:
        CALLS_FILE.write_text(text, encoding="utf-8")
    elif not CALLS_FILE.exists() or CALLS_FILE.read_text(encoding="utf-8") != text:
        print(f"{CALLS_FILE} is not what worked_examples.py makes: run it again", file=sys.stderr)
        return 1
    return 0


if __name__ == "__main__":
    sys.exit(main(sys.argv[1:]))
