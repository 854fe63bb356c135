"""Blocks that are refused: one for each fault that docs/FORMATS.md lists, and some
with several. A name begins with the number of the reply that its block gets.
"""

from blocks import (ADD, ANY, BLOCKS, CONST, E1, E1_BLOCK, EMPTY, GAIN, IMAGE, PROJ, RELU, TUPLE,
                    TWO_RELUS, VARIABLE, WILDCARD, ZERO, call, const, graph, rule, vertex)

COUNTED_BLOCK, E1_VERSION_1 = BLOCKS["counts.lgt"], BLOCKS["e1-version-1.lgt"]


def damaged(block, changes):
    """The block with these bytes changed, by offset."""
    block = bytearray(block)
    for offset, byte in changes.items():
        block[offset] = byte
    return bytes(block)


def e1_with(slot, changes):
    """E1 with these bytes of a slot's record changed."""
    return damaged(E1_BLOCK, {24 + 48 * slot + at: byte for at, byte in changes.items()})


def e1_reading(slots, outputs=(4,)):
    """E1 with other vertices in some slots."""
    return graph([slots.get(number, one) for number, one in enumerate(E1)], outputs)


def ring(count, first=0):
    """Relus that read one another in a circle, after so many that hang from its first."""
    hanging = [call(RELU, [slot + 1]) for slot in range(first)]
    circle = [call(RELU, [first + (number + 1) % count]) for number in range(count)]
    return graph(hanging + circle, [0])


GRAPH_HEADERS = {
    "20-short.lgt": E1_BLOCK[:-1],
    "20-long.lgt": E1_BLOCK + b"\0",
    "20-cut.lgt": E1_BLOCK[:23],
    "20-mark.lgt": damaged(E1_BLOCK, {2: ord("t")}),
    "20-byte-3.lgt": damaged(E1_BLOCK, {3: 1}),
    "20-version.lgt": damaged(E1_BLOCK, {4: 3}),
    "20-no-slots.lgt": damaged(E1_BLOCK, {6: 0}),
    "20-slots.lgt": damaged(E1_BLOCK, {6: 1, 7: 2}),
    "20-no-outputs.lgt": damaged(E1_BLOCK, {8: 0}),
    "20-outputs.lgt": damaged(E1_BLOCK, {8: 5}),
    "20-unused-output.lgt": damaged(E1_BLOCK, {14: 7, 15: 0}),
    "20-byte-19.lgt": damaged(E1_BLOCK, {19: 1}),
}

GRAPH_RECORDS = {
    "21-kind.lgt": e1_with(2, {0: 9}),
    "21-operator.lgt": e1_with(2, {1: 15}),
    "21-no-operator.lgt": e1_with(2, {1: 0}),
    "21-const-operator.lgt": e1_reading({1: vertex(CONST, RELU, attributes=[7])}),
    "21-inputs.lgt": e1_reading({3: call(RELU, [0, 1])}),
    "21-no-fields.lgt": e1_reading({3: vertex(TUPLE)}),
    "21-attributes.lgt": e1_reading({2: call(GAIN, [0], [1, 2])}),
    "21-empty-counts.lgt": e1_with(5, {3: 1}),
    "21-unused-input.lgt": e1_with(3, {6: 0, 7: 0}),
    "21-empty-input.lgt": e1_with(5, {4: 0}),
    "21-unused-attribute.lgt": e1_with(4, {16: 254, 17: 255, 18: 255, 19: 255}),
    "21-index.lgt": e1_reading({3: vertex(PROJ, 0, [2], [-3])}),
    "21-byte-42.lgt": e1_with(0, {42: 1}),
    "21-byte-47.lgt": e1_with(5, {47: 1}),
}

GRAPH_NAMES = {
    "22-empty.lgt": e1_reading({3: call(ADD, [2, 5])}),
    "22-past.lgt": e1_reading({3: call(RELU, [6])}),
    "22-unused.lgt": e1_reading({3: call(RELU, [65535])}),
    "22-third-input.lgt": graph([IMAGE] * 12 + [vertex(TUPLE, 0, [0, 1, 40])] + [IMAGE] * 27 + [EMPTY],
                                [12]),
    "22-output-empty.lgt": graph(E1, [4, 3, 5]),
    "22-output-past.lgt": graph(E1, [4, 600]),
}

CYCLES = {
    "23-self.lgt": e1_reading({3: call(ADD, [2, 3])}),
    "23-three.lgt": e1_reading({2: call(RELU, [4])}),
    # Slots 0 and 1 read the circle, and are not on it.
    "23-hanging.lgt": ring(3, 2),
    "23-eight.lgt": ring(8),
    "23-long.lgt": ring(512),
    # Slot 0 is on a circle of three, and on one of two through its other input.
    "23-shortest.lgt": graph([call(ADD, [1, 3]), call(RELU, [2]), call(RELU, [0]),
                              call(RELU, [0])], [0]),
}

# In E1 each vertex has the count 1, and the Empty slot the count 0.
WRONG_COUNTS = {
    "24-low.lgt": e1_with(2, {40: 0}),
    "24-high.lgt": e1_with(4, {40: 5}),
    "24-high-byte.lgt": e1_with(0, {41: 1}),
    "24-empty.lgt": e1_with(5, {40: 1}),
    # Readers and outputs, where places have to be counted.
    "24-readers.lgt": damaged(COUNTED_BLOCK, {24 + 40: 1}),
    "24-outputs.lgt": damaged(COUNTED_BLOCK, {24 + 48 + 40: 2}),
}

# What an import refuses: these are of version 1.
IMPORTS = {
    "20-import-version-3.lgt": damaged(E1_VERSION_1, {4: 3}),
    "20-import-short.lgt": E1_VERSION_1[:-1],
    "20-import-byte-3.lgt": damaged(E1_VERSION_1, {3: 1}),
    "20-import-byte-19.lgt": damaged(E1_VERSION_1, {19: 1}),
    "21-import-count.lgt": damaged(E1_VERSION_1, {24 + 48 + 40: 1}),
    "21-import-high-byte.lgt": damaged(E1_VERSION_1, {24 + 48 + 41: 1}),
    "21-import-kind.lgt": damaged(E1_VERSION_1, {24 + 48 * 2: 9}),
    "22-import-past.lgt": damaged(E1_VERSION_1, {24 + 48 * 3 + 4: 6}),
    "22-import-output.lgt": damaged(E1_VERSION_1, {10: 5}),
    "23-import.lgt": damaged(E1_VERSION_1, {24 + 48 * 3 + 4: 4}),
}

# The lowest of one kind; then the first kind, wherever its fault stands.
SEVERAL_GRAPHS = {
    "21-several.lgt": e1_reading({2: vertex(9), 3: vertex(8), 4: vertex(7)}),
    "22-several.lgt": e1_reading({3: call(ADD, [5, 700]), 4: call(RELU, [5])}),
    "22-outputs.lgt": graph(E1, [4, 7, 5]),
    "22-input-before-output.lgt": e1_reading({4: call(RELU, [5])}, [5]),
    "23-several.lgt": e1_reading({2: call(RELU, [2]), 3: call(RELU, [4])}),
    "20-of-all.lgt": damaged(e1_reading({0: call(RELU, [0]), 1: vertex(9),
                                         2: call(RELU, [5])}, [5]), {19: 1}),
    "21-of-all.lgt": e1_reading({0: call(RELU, [0]), 1: call(RELU, [5]), 3: vertex(9)}, [5]),
    "22-of-all.lgt": e1_reading({0: call(RELU, [0]), 3: call(RELU, [5])}),
    "23-of-all.lgt": damaged(e1_reading({3: call(RELU, [3])}), {24 + 40: 9}),
    "24-several.lgt": damaged(E1_BLOCK, {24 + 48 * 4 + 40: 9, 24 + 48 + 40: 0}),
}


def two_relus(source=None, target=None, outputs=((2,), (16,)), nodes=()):
    """The rule that makes one relu of two, with another side or other outputs."""
    return rule(source or [WILDCARD, call(RELU, [0]), call(RELU, [1])], list(outputs[0]),
                [call(RELU, [0])] if target is None else target, list(outputs[1]), nodes)


def const_rule(nodes, source=0, target=1):
    """x + Const, the Const's attribute and that of a new one these nodes."""
    return rule([WILDCARD, const(source), call(ADD, [0, 1])], [2],
                [const(target), call(ADD, [0, 16])], [17], nodes)


RULE_HEADERS = {
    "30-short.lgr": TWO_RELUS[:-1],
    "30-long.lgr": TWO_RELUS + b"\0",
    "30-cut.lgr": TWO_RELUS[:15],
    "30-mark.lgr": damaged(TWO_RELUS, {0: ord("l")}),
    "30-byte-3.lgr": damaged(TWO_RELUS, {3: 1}),
    "30-version.lgr": damaged(TWO_RELUS, {5: 1}),
    "30-no-source.lgr": damaged(TWO_RELUS, {6: 0}),
    "30-source.lgr": damaged(TWO_RELUS, {6: 17}),
    "30-target.lgr": damaged(TWO_RELUS, {7: 17}),
    "30-no-outputs.lgr": damaged(TWO_RELUS, {8: 0}),
    "30-outputs.lgr": damaged(TWO_RELUS, {8: 3}),
    "30-nodes.lgr": damaged(TWO_RELUS, {9: 65}),
    "30-counts.lgr": damaged(TWO_RELUS, {9: 1}),
    "30-source-output.lgr": damaged(TWO_RELUS, {10: 3}),
    "30-unused-source-output.lgr": damaged(TWO_RELUS, {11: 1}),
    "30-unused-target-output.lgr": damaged(TWO_RELUS, {13: 0}),
    "30-byte-15.lgr": damaged(TWO_RELUS, {15: 1}),
}

RULE_RECORDS = {
    "31-kind.lgr": two_relus(source=[WILDCARD, call(RELU, [0]), vertex(6)]),
    "31-operator.lgr": two_relus(source=[WILDCARD, call(15, [0]), call(RELU, [1])]),
    "31-inputs.lgr": two_relus(source=[WILDCARD, call(ADD, [0]), call(RELU, [1])]),
    "31-wildcard-inputs.lgr": two_relus(source=[WILDCARD, vertex(0, 0, [0]), call(RELU, [1])]),
    "31-attributes.lgr": two_relus(target=[call(RELU, [0], [0])], nodes=[ZERO]),
    "31-unused-input.lgr": damaged(TWO_RELUS, {32 + 5: 0}),
    "31-unused-attribute.lgr": damaged(TWO_RELUS, {64 + 10: 0}),
    "31-source-input.lgr": two_relus(source=[WILDCARD, call(RELU, [1]), call(RELU, [1])]),
    "31-target-wildcard.lgr": two_relus(target=[WILDCARD]),
    "31-target-variable.lgr": two_relus(target=[vertex(VARIABLE, attributes=[0] * 5)],
                                        nodes=[ZERO]),
    "31-no-rule-input.lgr": two_relus(target=[call(RELU, [1])]),
    "31-no-source.lgr": two_relus(target=[call(RELU, [0]), call(ADD, [16, 3])],
                                  outputs=([2], [17])),
    "31-target-input.lgr": two_relus(target=[call(RELU, [17]), call(RELU, [0])],
                                     outputs=([2], [17])),
    "31-unnamed-input.lgr": two_relus(target=[call(RELU, [255])]),
}

ORDERS = {
    "32-order.lgr": two_relus(source=[WILDCARD, WILDCARD, call(ADD, [1, 0])],
                              target=[call(ADD, [0, 1])]),
    "32-unreached.lgr": two_relus(source=[WILDCARD, call(RELU, [0]), call(RELU, [1])],
                                  outputs=([1], [16])),
}

RULE_OUTPUTS = {
    "33-twice.lgr": two_relus(outputs=([2, 2], [16, 16])),
    "33-wildcard.lgr": rule([WILDCARD], [0], [], [0]),
    "33-const.lgr": rule([const(0)], [0], [const(0)], [16], [ZERO]),
    "33-read.lgr": rule([WILDCARD, call(RELU, [0]), call(RELU, [1])], [1, 2],
                        [call(RELU, [0])], [16, 16]),
    "33-apart.lgr": rule([WILDCARD, call(RELU, [0]), WILDCARD, call(RELU, [2])], [1, 3],
                         [call(ADD, [0, 2])], [16, 16]),
    "33-no-rule-input.lgr": two_relus(outputs=([2], [1])),
    "33-no-source.lgr": two_relus(outputs=([2], [3])),
    "33-no-target.lgr": two_relus(outputs=([2], [17])),
    "33-unused-target.lgr": two_relus(target=[call(RELU, [0]), call(RELU, [0])],
                                      outputs=([2], [17])),
}

NODES = {
    "34-form.lgr": const_rule([ANY, (8, 0, 0, 0)]),
    "34-any-a.lgr": const_rule([(0, 1, 0, 0), ZERO]),
    "34-constant-b.lgr": const_rule([ANY, (1, 0, 1, 0)]),
    "34-byte-3.lgr": damaged(const_rule([ANY, ZERO]), {16 + 16 * 5 + 8 + 3: 1}),
    "34-access-vertex.lgr": const_rule([ANY, (2, 3, 1, 0)]),
    "34-access-place.lgr": const_rule([ANY, (2, 1, 7, 0)]),
    "34-access-no-place.lgr": const_rule([ANY, (2, 1, 0, 0)]),
    "34-access-number.lgr": const_rule([ANY, (2, 1, 1, -1)]),
    "34-operand.lgr": const_rule([ANY, ZERO, (3, 1, 2, 0)]),
    "34-any-operand.lgr": const_rule([ANY, ZERO, (3, 0, 1, 0)]),
}

USES = {
    "34-no-node.lgr": const_rule([ANY, ZERO], target=2),
    "34-late-access.lgr": const_rule([(2, 1, 1, 0), ZERO]),
    "34-late-operand.lgr": const_rule([(2, 1, 1, 0), ZERO, (5, 1, 0, 0)], source=2),
    "34-any-in-target.lgr": const_rule([ANY], target=0),
}

SEVERAL_RULES = {
    "31-several.lgr": two_relus(source=[WILDCARD, call(RELU, [0]), call(RELU, [2])],
                                target=[WILDCARD]),
    "31-targets.lgr": two_relus(target=[call(RELU, [0]), WILDCARD, WILDCARD]),
    # The walk visits 0, 2, 1 and 4; vertex 3 is not on it at all.
    "32-several.lgr": rule([WILDCARD, WILDCARD, call(RELU, [0]), WILDCARD, call(ADD, [2, 1])],
                           [4], [call(ADD, [0, 1])], [16]),
    "33-several.lgr": two_relus(target=[call(RELU, [0]), call(RELU, [0])], outputs=([2], [1])),
    "34-several.lgr": const_rule([ANY, (9, 0, 0, 0), (8, 0, 0, 0)], source=7),
    "34-uses.lgr": const_rule([(2, 1, 1, 0), ZERO], target=9),
    "30-of-all.lgr": damaged(two_relus(target=[WILDCARD], nodes=[(9, 0, 0, 0)]), {15: 1}),
    "31-of-all.lgr": two_relus(source=[WILDCARD, WILDCARD, call(ADD, [1, 0])],
                               target=[WILDCARD], nodes=[(9, 0, 0, 0)]),
    "32-of-all.lgr": two_relus(source=[WILDCARD, WILDCARD, call(ADD, [1, 0])],
                               nodes=[(9, 0, 0, 0)]),
    "33-of-all.lgr": two_relus(outputs=([2], [1]), nodes=[(9, 0, 0, 0)]),
}

FAULTS = {**GRAPH_HEADERS, **GRAPH_RECORDS, **GRAPH_NAMES, **CYCLES, **WRONG_COUNTS,
          **IMPORTS, **SEVERAL_GRAPHS, **RULE_HEADERS, **RULE_RECORDS, **ORDERS,
          **RULE_OUTPUTS, **NODES, **USES, **SEVERAL_RULES}
