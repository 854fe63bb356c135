"""The blocks that the sessions use, built from Python lists.

Nothing here is taken from the tool or the library: the bytes are written as
document 01 says.
"""

import struct

CONST, VARIABLE, CALL, TUPLE, PROJ = 1, 2, 3, 4, 5
ADD, SUB, CONV2D, RELU, GAIN, MEAN, CAST = 1, 3, 4, 7, 10, 12, 14

# Inputs and attributes of the operators, from 1 on.
COUNTS = [(2, 0), (2, 0), (2, 0), (2, 4), (2, 1), (5, 2), (1, 0),
          (1, 1), (1, 2), (1, 3), (1, 1), (1, 1), (1, 4), (1, 1)]

# Expression nodes: form, a, b, number.
ANY = (0, 0, 0, 0)
ZERO = (1, 0, 0, 0)


def padded(numbers, count, filler):
    return list(numbers) + [filler] * (count - len(numbers))


def vertex(kind, op=0, inputs=(), attributes=()):
    """A slot of a graph; in a rule the attributes are numbers of nodes."""
    return kind, op, list(inputs), list(attributes)


EMPTY = WILDCARD = vertex(0)
IMAGE = vertex(VARIABLE, attributes=[1, 3, 8, 8, 1])


def call(op, inputs, attributes=()):
    return vertex(CALL, op, inputs, attributes)


def graph(slots, outputs, version=2):
    """Version 2 has in each slot the count of the places that name it; in version 1 there
    are zeros."""
    named = list(outputs) + [number for _, _, inputs, _ in slots for number in inputs]
    block = struct.pack("<4sHHH4H6x", b"LGT", version, len(slots), len(outputs),
                        *padded(outputs, 4, 65535))
    for slot, (kind, op, inputs, attributes) in enumerate(slots):
        block += struct.pack("<4B6H6iH6x", kind, op, len(inputs), len(attributes),
                             *padded(inputs, 6, 65535), *padded(attributes, 6, 0),
                             named.count(slot) if version == 2 else 0)
    return block


def rule(source, source_outputs, target, target_outputs, nodes=()):
    """Places in the target: a source vertex's number, or 16 + a target vertex's."""
    block = struct.pack("<4sH4B2B2B2x", b"LGR", 1, len(source), len(target),
                        len(source_outputs), len(nodes), *padded(source_outputs, 2, 255),
                        *padded(target_outputs, 2, 255))
    for kind, op, inputs, attributes in source + target:
        block += struct.pack("<16B", kind, op, len(inputs), len(attributes),
                             *padded(inputs, 6, 255), *padded(attributes, 6, 255))
    for node in nodes:
        block += struct.pack("<3Bxi", *node)
    return block


def const(number):
    """A Const; in a rule the number is that of its node."""
    return vertex(CONST, attributes=[number])


def zeros(count, *others):
    """A Variable, the Const 0 that all read, a chain of so many additions of it, and
    other vertices. The last addition is the output."""
    sums = [call(ADD, [slot if slot > 1 else 0, 1]) for slot in range(1, 1 + count)]
    return graph([IMAGE, const(0)] + sums + list(others), [1 + count])


def gains(*factors):
    """A Variable and a chain of gains, each with the same factor three times."""
    chain = [call(GAIN, [slot], [factor] * 3) for slot, factor in enumerate(factors)]
    return graph([IMAGE] + chain, [len(factors)])


def p7_rule():
    source = [WILDCARD, call(RELU, [0]), WILDCARD, call(ADD, [0, 2])]
    return rule(source, [1, 3], [call(SUB, [0, 2])], [16, 16])


E1 = [IMAGE, IMAGE, call(CONV2D, [0, 1], [1, 1, 1, 1]), call(RELU, [2]), call(RELU, [3]), EMPTY]
E1_BLOCK = graph(E1, [4])
TWO_RELUS = rule([WILDCARD, call(RELU, [0]), call(RELU, [1])], [2], [call(RELU, [0])], [16])

COUNTED = [IMAGE, call(ADD, [0, 0]), call(RELU, [1]), EMPTY]

LARGEST = graph([IMAGE] + [call(RELU, [slot]) for slot in range(511)], [511, 0, 0, 510])
LARGEST_RULE = rule([WILDCARD] + [call(RELU, [below]) for below in range(15)], [15],
                    [call(RELU, [0])] + [call(RELU, [16 + below]) for below in range(15)], [31],
                    [ANY] * 64)

BLOCKS = {
    # Document 01's E1 and RR.
    "e1.lgt": E1_BLOCK,
    "two-relus.lgr": TWO_RELUS,
    # A slot that reads itself, a block one byte too short, and longer than any sound one.
    "self.lgt": graph([call(RELU, [0])], [0]),
    "short.lgt": E1_BLOCK[:-1],
    "long.lgt": E1_BLOCK + bytes(100000),
    "empty.lgt": b"",
    # A target that leaves rule input 0 unnamed, and a rule longer than any sound one.
    "unnamed.lgr": rule([WILDCARD, call(RELU, [0])], [1], [const(0)], [16], [(1, 0, 0, 7)]),
    "long.lgr": TWO_RELUS + bytes(100000),
    # The least graph, the largest blocks, and a byte more.
    "one.lgt": graph([IMAGE], [0]),
    "largest.lgt": LARGEST,
    "largest-and-more.lgt": LARGEST + bytes(1),
    "largest.lgr": LARGEST_RULE,
    "largest-and-more.lgr": LARGEST_RULE + bytes(1),
    # Every operator, and every kind of vertex.
    "operators.lgt": graph([IMAGE] + [call(op, [0] * n, range(1, 1 + m))
                                      for op, (n, m) in enumerate(COUNTS, 1)], [14]),
    "kinds.lgt": graph([IMAGE, const(-2147483648), vertex(TUPLE, 0, [0, 1, 0]),
                        vertex(PROJ, 0, [2], [2]), EMPTY, call(ADD, [3, 3])], [5, 2]),
    # Every kind of pattern and every form of node.
    "forms.lgr": rule(
        [WILDCARD, vertex(VARIABLE, attributes=[0] * 5), const(0),
         vertex(TUPLE, 0, [0, 1, 2]), vertex(PROJ, 0, [3], [1])], [4],
        [const(8), vertex(TUPLE, 0, [0, 16, 1]), vertex(PROJ, 0, [17], [3])], [18],
        [ANY, (1, 0, 0, -3), (2, 1, 5, 0), (2, 4, 1, 0), (3, 1, 2, 0), (4, 4, 1, 0),
         (5, 5, 5, 0), (6, 6, 2, 0), (7, 7, 3, 0)]),
    # A cast is dropped: no target vertex.
    "drop-cast.lgr": rule([WILDCARD, call(CAST, [0], [0])], [1], [], [0], [ANY]),
    "casts.lgt": graph([IMAGE, call(CAST, [0], [2]), call(CAST, [1], [1])], [2]),
    # Two gains become one, with the products as factors.
    "two-gains.lgr": rule(
        [WILDCARD, call(GAIN, [0], [0] * 3), call(GAIN, [1], [0] * 3)], [2],
        [call(GAIN, [0], [7, 8, 9])], [16],
        [ANY, (2, 1, 1, 0), (2, 2, 1, 0), (2, 1, 2, 0), (2, 2, 2, 0), (2, 1, 3, 0), (2, 2, 3, 0),
         (5, 1, 2, 0), (5, 3, 4, 0), (5, 5, 6, 0)]),
    "gains.lgt": gains(2, 3, 5, 7),
    "large-gains.lgt": gains(65536, 65536),
    "growing-gains.lgt": gains(3, 65536, 65536),
    # A Variable plus a Const, which is doubled.
    "double-const.lgr": rule(
        [vertex(VARIABLE, attributes=[0] * 5), const(0), call(ADD, [0, 1])],
        [2], [const(2), call(ADD, [0, 16])], [17],
        [ANY, (2, 1, 1, 0), (3, 1, 1, 0)]),
    "offset.lgt": graph([IMAGE, const(-5), call(ADD, [0, 1])], [2]),
    # The same where a gain reads the Const, too; and one slot less, so that all are taken.
    "shared.lgt": graph([IMAGE, const(-5), call(ADD, [0, 1]), call(GAIN, [1], [2, 2, 2]), EMPTY],
                        [2, 3]),
    "shared-full.lgt": graph([IMAGE, const(-5), call(ADD, [0, 1]), call(GAIN, [1], [2, 2, 2])],
                             [2, 3]),
    # The same where the Const is a graph output.
    "shown.lgt": graph([IMAGE, const(-5), call(ADD, [0, 1]), EMPTY], [2, 1]),
    # A sum whose first input reads the Const that is its second.
    "fed.lgt": graph([const(0), call(RELU, [0]), call(ADD, [1, 0])], [2]),
    # An addition of 0 goes. Twenty of them share the Const 0; in the second graph a relu
    # that nobody reads does, too.
    "drop-zero.lgr": rule([WILDCARD, const(0), call(ADD, [0, 1])], [2], [], [0], [ZERO]),
    "twenty.lgt": zeros(20),
    "twenty-and-one.lgt": zeros(20, call(RELU, [1])),
    # The sum of two Consts becomes a Const; one graph has two, one has only one.
    "fold.lgr": rule([const(0), const(0), call(ADD, [0, 1])], [2], [const(3)], [16],
                     [ANY, (2, 0, 1, 0), (2, 1, 1, 0), (3, 1, 2, 0)]),
    "fives.lgt": graph([const(5), const(5), call(ADD, [0, 1])], [2]),
    "five.lgt": graph([const(5), call(ADD, [0, 0])], [1]),
    # Two of which a relu reads the second.
    "fives-shared.lgt": graph([const(5), const(5), call(ADD, [0, 1]), call(RELU, [1])], [2]),
    # A relu that a sum reads twice becomes one relu; the sum is read by nobody.
    "doubled.lgr": rule([WILDCARD, call(RELU, [0]), call(ADD, [1, 1])], [2],
                        [call(RELU, [0])], [16]),
    "doubled.lgt": graph([IMAGE, call(RELU, [0]), call(ADD, [1, 1])], [0]),
    # Two additions of the same Const 0 go.
    "twice-zero.lgr": rule([WILDCARD, const(0), call(ADD, [0, 1]), call(ADD, [2, 1])], [3], [], [0],
                           [ZERO]),
    "twice-zero.lgt": zeros(2),
    # A sum of a sum and a Const, whose three rule inputs all stay. Of the graph, two of them
    # read the Const, and so do two relus; it is an output twice. One relu reads the sum.
    "sum-of-three.lgr": rule([WILDCARD, WILDCARD, call(ADD, [0, 1]), const(0), call(ADD, [2, 3]),
                              WILDCARD, call(ADD, [4, 5])], [6],
                             [vertex(TUPLE, 0, [0, 1, 5])], [16], [ANY]),
    "needed.lgt": graph([const(0), IMAGE, call(RELU, [0]), call(ADD, [1, 2]), call(ADD, [3, 0]),
                         call(GAIN, [0], [2, 2, 2]), call(ADD, [4, 5]), call(RELU, [0]),
                         call(RELU, [0]), call(RELU, [6])], [0, 6, 0]),
    # One relu becomes two; the graph has two Empty slots.
    "grow.lgr": rule([WILDCARD, call(RELU, [0])], [1], [call(RELU, [0]), call(RELU, [16])], [17]),
    "room.lgt": graph([IMAGE, call(RELU, [0]), EMPTY, EMPTY], [1]),
    "full.lgt": graph([IMAGE, call(RELU, [0])], [1]),
    # The inputs of a sum change places: there is always one more match.
    "swap.lgr": rule([WILDCARD, WILDCARD, call(ADD, [0, 1])], [2], [call(ADD, [1, 0])], [16]),
    "sum.lgt": graph([IMAGE, IMAGE, call(ADD, [0, 1])], [2]),
    # Document 01's P7 and P8.
    "both-sub.lgr": p7_rule(),
    "p7.lgt": graph([IMAGE, call(RELU, [0]), call(MEAN, [1], [1]), call(ADD, [0, 2])], [3]),
    "p8.lgt": graph([IMAGE, IMAGE, call(RELU, [0]), call(RELU, [1]), call(ADD, [1, 0])], [4]),
    # What no output needs: a chain of two, a Const, and a Variable, which stays.
    "dead.lgt": graph([IMAGE, EMPTY, call(RELU, [0]), call(RELU, [2]), IMAGE,
                       call(GAIN, [3], [2, 2, 2]), call(MEAN, [2], [1]), const(7)], [6]),
    # Two gains that become one, a relu that no output needs, and an unread Variable.
    "dead-relu.lgt": graph([IMAGE, call(GAIN, [0], [2] * 3), call(GAIN, [1], [3] * 3),
                            call(RELU, [0]), IMAGE], [2]),
    # Blocks of version 1: E1, the largest and the least.
    "e1-version-1.lgt": graph(E1, [4], version=1),
    "largest-version-1.lgt": graph([IMAGE] + [call(RELU, [slot]) for slot in range(511)],
                                   [511, 0, 0, 510], version=1),
    "one-version-1.lgt": graph([IMAGE], [0], version=1),
    # Places count: two inputs of one reader, an output that is named twice, a reader that
    # no output needs.
    "counts.lgt": graph(COUNTED, [1, 1]),
    "counts-version-1.lgt": graph(COUNTED, [1, 1], version=1),
    # Every vertex stands in a higher slot than it could; the outputs are all four.
    "high.lgt": graph([EMPTY, call(ADD, [4, 2]), IMAGE, EMPTY, const(9)], [1, 4, 2, 1]),
    # No block at all.
    "note.txt": b"LG\n",
}
