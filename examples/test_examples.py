"""Tests of the examples: the assembler, the blocks, the demo, and the tool's text.

Wants build/check_blocks, build/leaf_demo and build/leafgraph, which
`make examples-tests` makes. Some of the classes alone, such as those that need no
tool: test_examples.py Assembler Blocks Demo
"""

import shutil
import subprocess
import sys
import unittest
from pathlib import Path

sys.dont_write_bytecode = True  # before the import, so that no cache is left here
import assemble

EXAMPLES = Path(__file__).resolve().parent
SOURCES = EXAMPLES / "source"
BLOCKS = EXAMPLES / "blocks"
BUILD = EXAMPLES.parent / "build"
SCRATCH = BUILD / "examples"

# Every example there is. An example more or less has to be said here, too.
NAMES = ("conv2d_batch_norm.lgr", "e1.lgt", "gain_over_gain.lgr", "identity_removal.lgr",
         "leaf_pipeline.lgt", "mul_by_one.lgr", "relu_over_relu.lgr", "shared_stage_merge.lgr")

GRAPHS = [name for name in NAMES if name.endswith(".lgt")]
RULES = [name for name in NAMES if name.endswith(".lgr")]

# The one that is there as a block of version 1, too, and the name of that block.
OLD_NAME, IMPORTED_NAME = "leaf_pipeline_version_1.lgt", "leaf_pipeline.lgt"


def source_of(block_name):
    return (SOURCES / block_name).with_suffix(".txt").read_text(encoding="utf-8")


def run(program, *arguments):
    """What a program of build/ says, and its exit status."""
    done = subprocess.run([BUILD / program, *arguments], stdout=subprocess.PIPE,
                          stderr=subprocess.STDOUT, encoding="utf-8", timeout=60, check=False)
    return done.stdout, done.returncode


def fresh_folder(name):
    folder = SCRATCH / name
    shutil.rmtree(folder, ignore_errors=True)
    folder.mkdir(parents=True)
    return folder


# ---- the assembler

NO_INPUTS, NO_ATTRIBUTES = "ff" * 12, "00" * 24
UNUSED = "ff" * 5

# Texts and their blocks, the bytes by hand from document 01; of the last eight bytes of a
# slot the first two are its count.
BY_HAND = {
    # the listing in request 7/13: a Variable, a relu, an Empty slot
    "graph 3\n0 variable [] {1 3 8 8 1}\n1 call 7 [0] {}\nout 1\n":
        "4c475400 0200 0300 0100 0100ffffffffffff 000000000000"
        "02000005" + NO_INPUTS + "01000000 03000000 08000000 08000000 01000000 00000000"
        "0100000000000000"
        "03070100 0000ffffffffffffffffffff" + NO_ATTRIBUTES + "0100000000000000"
        "00000000" + NO_INPUTS + NO_ATTRIBUTES + "0000000000000000",
    # the other kinds, signs, inputs above 255, and an output that is named twice
    "graph 2\n0 const [] {-2}\n1 proj [258] {2147483647}\nout 1 0 513 1\n":
        "4c475400 0200 0200 0400 0100000001020100 000000000000"
        "01000001" + NO_INPUTS + "feffffff" + "00" * 20 + "0100000000000000"
        "05000101 0201ffffffffffffffffffff ffffff7f" + "00" * 20 + "0200000000000000",
    # a slot that one reader names twice, and that is an output
    "graph 2\n0 const [] {5}\n1 call 1 [0 0] {}\nout 0\n":
        "4c475400 0200 0200 0100 0000ffffffffffff 000000000000"
        "01000001" + NO_INPUTS + "05000000" + "00" * 20 + "0300000000000000"
        "03010200 00000000ffffffffffffffff" + NO_ATTRIBUTES + "0000000000000000",
    # RR of document 01
    "rule\nsource\n0 wildcard [] {}\n1 call relu [0] {}\n2 call relu [1] {}\nout 2\n"
    "target\n0 call relu [s0] {}\nout t0\n":
        "4c475200 0100 03 01 01 00 02ff 10ff 0000"
        "00000000 ffffffffffff ffffffffffff"
        "03070100 00" + UNUSED + "ffffffffffff"
        "03070100 01" + UNUSED + "ffffffffffff"
        "03070100 00" + UNUSED + "ffffffffffff",
    # two outputs, no target vertex, every form of a node
    "rule\nsource\n0 wildcard [] {}\n1 tuple [0 0] {}\n2 proj [0] {n0}\nout 1 2\n"
    "target\nout s0 t3\nnodes\n0 any\n1 -5\n2 s1.6\n3 n1 + n2\n4 n1 - n2\n5 n1 * n2\n"
    "6 n1 / n2\n7 n1 % n2\n":
        "4c475200 0100 03 00 02 08 0102 0013 0000"
        "00000000 ffffffffffff ffffffffffff"
        "04000200 0000ffffffff ffffffffffff"
        "05000101 00" + UNUSED + "00" + UNUSED
        + "00000000 00000000" "01000000 fbffffff" "02010600 00000000" "03010200 00000000"
        "04010200 00000000" "05010200 00000000" "06010200 00000000" "07010200 00000000",
}

RULE = "rule\nsource\n0 wildcard [] {}\n1 call relu [0] {}\nout 1\ntarget\n"

NO_SLOT_LINE = "expected a slot, such as '3 call 7 [2] {}', or 'out' in the last line"

# Texts that are no source, and what is said of each.
FAULTY = {
    "": "line 1: a listing's line has no end",
    "graph 1\nout 0": "line 2: a listing's line has no end",
    "graf 2\nout 0\n": "line 1: expected 'graph' and its numbers, found 'graf 2'",
    "# nothing\ngraph 2\nout 0\n": "line 1: expected 'graph' and its numbers, found '# nothing'",
    "graph\nout 0\n": "line 1: expected 'graph' and its numbers, found 'graph'",
    "graph x\nout 0\n": "line 1: 'x' is no number",
    "graph 1\r\nout 0\n": "line 1: '1\r' is no number",
    "graph 0\nout 0\n": "line 1: 0 is not from 1 to 512",
    "graph 513\nout 0\n": "line 1: 513 is not from 1 to 512",
    "graph 1 1\nout 0\n": "line 1: 'graph' has one number, and a line after it",
    "graph 1\n": "line 1: 'graph' has one number, and a line after it",
    "graph 1\n0 const [] {1}\n":
        "line 2: expected 'out' and its numbers, found '0 const [] {1}'",
    "graph 1\n0 const [] {1}\nout\n": "line 3: expected 'out' and its numbers, found 'out'",
    "graph 1\n\nout 0\n": f"line 2: {NO_SLOT_LINE}",
    "graph 1\n0 relu [1] {}\nout 0\n": "line 2: there is no kind 'relu'",
    "graph 1\n0 call relu [1] {}\nout 0\n": f"line 2: {NO_SLOT_LINE}",
    "graph 1\n0 call 15 [1] {}\nout 0\n": "line 2: 15 is not from 1 to 14",
    "graph 1\n0 call 07 [1] {}\nout 0\n": "line 2: there is no operator '07'",
    "graph 1\n0 call [1] {}\nout 0\n":
        "line 2: 'call' has an operator, and no other kind has one",
    "graph 1\n0 const 3 [] {1}\nout 0\n":
        "line 2: 'call' has an operator, and no other kind has one",
    "graph 1\n0 wildcard [] {}\nout 0\n": "line 2: a graph has no wildcard",
    "graph 1\n0 const [] {01}\nout 0\n": "line 2: '01' is no number",
    "graph 1\n0 const [] {-0}\nout 0\n": "line 2: '-0' is no number",
    "graph 1\n0 const [] {2147483648}\nout 0\n":
        "line 2: 2147483648 is not from -2147483648 to 2147483647",
    "graph 1\n0 const [] {1 2 3 4 5 6 7}\nout 0\n": "line 2: 7 numbers where at most 6 fit",
    "graph 1\n0 const [] {1}  \nout 0\n": f"line 2: {NO_SLOT_LINE}",
    "graph 1\n0  const [] {1}\nout 0\n": f"line 2: {NO_SLOT_LINE}",
    "graph 1\n0 const [ ] {1}\nout 0\n": f"line 2: {NO_SLOT_LINE}",
    "graph 1\n0 tuple [0  0] {}\nout 0\n": f"line 2: {NO_SLOT_LINE}",
    "graph 1\n0 const [] {1} # one\nout 0\n": f"line 2: {NO_SLOT_LINE}",
    "graph 2\n1 const [] {1}\n0 const [] {1}\nout 0\n": "line 3: slot 0 does not ascend below 2",
    "graph 2\n2 const [] {1}\nout 0\n": "line 2: slot 2 does not ascend below 2",
    "graph 1\nout 0  0\n": "line 2: '' is no number",
    "graph 1\nout 0 0 0 0 0\n": "line 2: 5 numbers where at most 4 fit",
    "graph 1\nout 0\nout 0\n": f"line 2: {NO_SLOT_LINE}",
    "rule 1": "line 1: nothing may follow 'rule'",
    "rule\ntarget": "line 2: expected 'source', found 'target'",
    "rule\nsource\n1 wildcard [] {}\nout 0": "line 3: expected vertex 0, found 1",
    "rule\nsource\n0 wildcard [s0] {}\nout 0": "line 3: 's0' is no number",
    RULE + "0 call relu [0] {}\nout t0": "line 7: expected 's' and a number, found '0'",
    RULE + "0 call relu [s16] {}\nout t0": "line 7: 16 is not from 0 to 15",
    RULE + "0 const [] {1}\nout t0": "line 7: expected 'n' and a number, found '1'",
    RULE + "out s0 s0": "line 7: source and target have different numbers of outputs",
    RULE + "out s0\nnodes": "line 8: expected node 0",
    RULE + "out s0\nnodes\n1 any": "line 9: expected node 0",
    RULE + "out s0\nnodes\n0 n1 ^ n2":
        "line 9: expected a node: any, a number, s1.2 or n1 * n2",
    RULE + "out s0\nnodes\n0 s1":
        "line 9: expected a node: any, a number, s1.2 or n1 * n2",
    RULE + "out s0\nnodes\n0 s1.x": "line 9: 'x' is no number",
    RULE + "out s0\nnodes\n0 s256.1": "line 9: 256 is not from 0 to 255",
    RULE + "out s0\nnodes\n0 2147483648":
        "line 9: 2147483648 is not from -2147483648 to 2147483647",
    RULE + "out s0\nnodes\n0 n1 + 2": "line 9: expected 'n' and a number, found '2'",
}


class Assembler(unittest.TestCase):
    def test_bytes_by_hand(self):
        for text, expected in BY_HAND.items():
            with self.subTest(text):
                self.assertEqual(assemble.assemble(text)[1].hex(),
                                 expected.replace(" ", ""))

    def test_version_1_has_no_counts(self):
        text = "graph 1\n0 variable [] {1 3 8 8 1}\nout 0\n"
        suffix, block = assemble.assemble(text, assemble.WITHOUT_COUNTS)
        with_counts = bytearray(assemble.assemble(text)[1])
        self.assertEqual((suffix, with_counts[4], with_counts[64]), ("_version_1.lgt", 2, 1))
        with_counts[4], with_counts[64] = 1, 0
        self.assertEqual(block, with_counts)

    def test_comments_and_spaces_change_no_rule(self):
        for text in BY_HAND:
            spaced = "# first\n\n" + text.replace(" ", "   ").replace("\n", "  # x\n\n\t")
            with self.subTest(text):
                if text.startswith("rule"):
                    self.assertEqual(assemble.assemble(spaced), assemble.assemble(text))
                else:
                    self.assertRaises(assemble.Fault, assemble.assemble, spaced)

    def test_slots_beyond_a_listing(self):
        for slots in (0, 513):
            text = f"graph {slots}\nout 0\n"
            block = assemble.graph_block(text, assemble.WITH_COUNTS, limits=(0, 513))
            with self.subTest(slots):
                self.assertEqual((len(block), block[6] + 256 * block[7]), (24 + 48 * slots, slots))
                self.assertRaises(assemble.Fault, assemble.assemble, text)

    def test_faults(self):
        for text, expected in FAULTY.items():
            with self.subTest(text):
                with self.assertRaises(assemble.Fault) as caught:
                    assemble.assemble(text)
                self.assertEqual(str(caught.exception), expected)


# ---- the committed blocks

class Blocks(unittest.TestCase):
    def test_names(self):
        self.assertEqual(sorted(path.name for path in BLOCKS.iterdir()),
                         sorted((*NAMES, OLD_NAME)))
        self.assertEqual(sorted(path.name for path in SOURCES.iterdir()),
                         sorted(Path(name).stem + ".txt" for name in NAMES))

    def test_each_is_its_source_assembled(self):
        folder = fresh_folder("assembled")
        sources = sorted(SOURCES.glob("*.txt"))
        assembler = [sys.executable, EXAMPLES / "assemble.py"]
        old_source = (SOURCES / IMPORTED_NAME).with_suffix(".txt")
        subprocess.run([*assembler, folder, *sources], check=True)
        subprocess.run([*assembler, "--version-1", folder, old_source], check=True)
        self.assertEqual(sorted(path.name for path in folder.iterdir()),
                         sorted((*NAMES, OLD_NAME)))
        for name in (*NAMES, OLD_NAME):
            with self.subTest(name):
                self.assertEqual((BLOCKS / name).read_bytes(), (folder / name).read_bytes())

    def test_the_library_takes_each(self):
        said, status = run("check_blocks", *(BLOCKS / name for name in NAMES))
        self.assertEqual((said.count("reply 0, done"), status), (len(NAMES), 0), said)

    def test_the_library_wants_version_1_imported(self):
        said, status = run("check_blocks", BLOCKS / OLD_NAME)
        self.assertEqual((said, status),
                         (f"{BLOCKS / OLD_NAME}: reply 20, bad graph block: its length or its "
                          "header (version 1: it wants importing)\n", 1))

    def test_the_library_refuses_each_when_damaged(self):
        folder = fresh_folder("damaged")
        for name in NAMES:
            block = (BLOCKS / name).read_bytes()
            number = 20 if name.endswith(".lgt") else 30
            for damaged in (block[:-1], block + b"\0", block[:3] + b"\1" + block[4:]):
                (folder / name).write_bytes(damaged)
                said, status = run("check_blocks", folder / name)
                with self.subTest(name, damaged=damaged):
                    self.assertEqual(status, 1)
                    self.assertIn(f"reply {number}, bad", said)

    def test_the_library_says_where(self):
        block = bytearray((BLOCKS / "e1.lgt").read_bytes())
        block[24 + 48 * 3 + 4] = 4  # slot 3 now reads slot 4, which reads slot 3
        damaged = fresh_folder("cyclic") / "e1.lgt"
        damaged.write_bytes(block)
        said, status = run("check_blocks", damaged)
        self.assertEqual((said, status),
                         (f"{damaged}: reply 23, bad graph block: it has a cycle, slot 3\n", 1))

    def test_the_library_says_which_count(self):
        block = bytearray((BLOCKS / "e1.lgt").read_bytes())
        block[24 + 48 * 2 + 40] = 7
        damaged = fresh_folder("miscounted") / "e1.lgt"
        damaged.write_bytes(block)
        said, status = run("check_blocks", damaged)
        self.assertEqual((said, status),
                         (f"{damaged}: reply 24, bad graph block: a stored count is "
                          "not the true one, slot 2\n", 1))


# ---- the demo

# Changes of a source, and what the demo must say then: a rule that does not keep
# its results, a rule that applies nowhere, a number taken after the boost, a constant
# that has a reader more or is not shared, nothing to sweep.
CHANGES = (
    ("gain_over_gain.lgr", {"3 n1 * n2": "3 n1 + n2"}, "gain_over_gain changes a result"),
    ("conv2d_batch_norm.lgr", {"[t0 s3 s4 s5 s6]": "[t0 s3 s5 s4 s6]"},
     "conv2d_batch_norm changes a result"),
    ("conv2d_batch_norm.lgr", {"6 s7.1": "6 0"}, "an operation had to round"),
    ("relu_over_relu.lgr", {"0 call relu [s0] {}\nout t0": "out s0"},
     "relu_over_relu changes a result"),
    ("relu_over_relu.lgr", {"[s0] {}\nout t0": "[s0] {}\n1 call relu [t0] {}\nout t1"},
     "relu_over_relu ends with: done"),
    ("shared_stage_merge.lgr", {"out t0 t0": "out t0 s0"}, "shared_stage_merge changes a result"),
    ("shared_stage_merge.lgr", {"out t0 t0": "out t0 t1"},
     "shared_stage_merge is refused: reply 33, bad rule block"),
    ("identity_removal.lgr", {"0 1": "0 2"}, "identity_removal does not apply 1 time"),
    ("mul_by_one.lgr", {"nodes\n0 1": "nodes\n0 2"}, "mul_by_one does not apply 3 times"),
    ("leaf_pipeline.lgt", {"22 const [] {1}": "22 const [] {2}"},
     "mul_by_one does not apply 3 times"),
    ("leaf_pipeline.lgt", {"22 const [] {1}": "22 const [] {1}\n23 call 7 [22] {}"},
     "a constant is not shared, or outlives its readers"),
    ("leaf_pipeline.lgt", {"11 call 2 [10 22]": "11 call 2 [10 23]",
                           "22 const [] {1}": "22 const [] {1}\n23 const [] {1}"},
     "a constant is not shared, or outlives its readers"),
    ("leaf_pipeline.lgt", {"20 call 12 [19]": "20 call 12 [15]"},
     "the number is taken after a boost"),
    ("leaf_pipeline.lgt", {"18 call 10 [17] {3 2 4}": "18 call 10 [17] {3 2 5}"},
     "shared_stage_merge does not apply 1 time"),
    ("leaf_pipeline.lgt", {"15 call 11 [14] {4}": "15 call 11 [14] {0}"},
     "the fault makes no leaf greener"),
    ("leaf_pipeline.lgt", {"{64 1}": "{65 1}"}, "an operation had to round"),
    # A product with its inputs the other way round stays, and with it the constant.
    ("leaf_pipeline.lgt", {"24 variable": "23 const [] {5}\n24 variable",
                           "\n7 call 4": "\n6 const [] {5}\n7 call 4",
                           "11 call 2 [10 22]": "11 call 2 [22 10]"},
     "conv2d_batch_norm ends with: more target vertices than"),
    ("leaf_pipeline.lgt", {"7 call 4 [0 1] {1 1": "7 call 4 [0 1] {2 1"},
     "the demo gives no meaning to a conv2d whose stride"),
    ("leaf_pipeline.lgt", {"25 call 12 [10] {1}\n26 call 2 [25 24] {}\n": ""},
     "there is no stage to sweep"),
    ("leaf_pipeline.lgt", {"24 variable [] {1 1 1 1 1}": "24 const [] {3}"},
     "not one Variable is there that nobody reads"),
    ("leaf_pipeline.lgt", {"\n9 call 7 [8]": "\n9 call 7 [10]"},
     "the pipeline can't be imported: reply 23, bad graph block: it has a cycle, slot 9"),
)


def changed(text, changes):
    """The text with each part changed, which must be there exactly once."""
    for old, new in changes.items():
        if text.count(old) != 1:
            raise ValueError(f"not once in the source: {old}")
        text = text.replace(old, new)
    return text


def put_changed(folder, name, text):
    """Writes the block of a text into a folder of blocks, of the pipeline both versions."""
    (folder / name).write_bytes(assemble.assemble(text)[1])
    if name == IMPORTED_NAME:
        (folder / OLD_NAME).write_bytes(assemble.assemble(text, assemble.WITHOUT_COUNTS)[1])


class Demo(unittest.TestCase):
    def test_golden_output(self):
        said, status = run("leaf_demo", BLOCKS)
        self.assertEqual(status, 0)
        self.assertEqual(said, (EXAMPLES / "demo.stdout").read_text(encoding="utf-8"))

    def test_changed_examples(self):
        for name, changes, complaint in CHANGES:
            folder = fresh_folder("changed")
            shutil.copytree(BLOCKS, folder, dirs_exist_ok=True)
            put_changed(folder, name, changed(source_of(name), changes))
            said, status = run("leaf_demo", folder)
            with self.subTest(name, changes=changes):
                self.assertEqual(status, 1, said)
                self.assertIn("NOT AS EXPECTED: " + complaint, said)

    def test_pipelines_that_are_not_of_their_version(self):
        for name, other, complaint in (
                (OLD_NAME, IMPORTED_NAME, "the old pipeline is no block of version 1"),
                (OLD_NAME, IMPORTED_NAME, "the pipeline can't be imported: reply 20"),
                (IMPORTED_NAME, OLD_NAME, "the imported pipeline is not the one")):
            folder = fresh_folder("exchanged")
            shutil.copytree(BLOCKS, folder, dirs_exist_ok=True)
            shutil.copyfile(BLOCKS / other, folder / name)
            said, status = run("leaf_demo", folder)
            with self.subTest(name, complaint=complaint):
                self.assertEqual(status, 1, said)
                self.assertIn("NOT AS EXPECTED: " + complaint, said)

    def test_no_examples(self):
        said, status = run("leaf_demo", fresh_folder("none"))
        self.assertEqual(status, 1)
        self.assertIn("NOT AS EXPECTED: cannot read", said)


# ---- the tool

class Tool(unittest.TestCase):
    def test_it_writes_each_graph_as_its_source(self):
        for name in GRAPHS:
            out = fresh_folder("listings") / "listing.txt"
            with out.open("wb") as file:
                subprocess.run([BUILD / "leafgraph", "show", "--numbers", BLOCKS / name],
                               stdout=file, check=True)
            with self.subTest(name):
                source = (SOURCES / name).with_suffix(".txt")
                self.assertEqual(out.read_bytes(), source.read_bytes())

    def test_it_reads_each_graph_from_its_source(self):
        for name in GRAPHS:
            out = fresh_folder("read") / name
            source = (SOURCES / name).with_suffix(".txt")
            said, status = run("leafgraph", "read", source, "-o", out)
            with self.subTest(name):
                self.assertEqual(status, 0, said)
                self.assertEqual(out.read_bytes(), (BLOCKS / name).read_bytes())

    def test_it_prints_each_rule_as_its_source(self):
        for name in RULES:
            expected = "".join(text + "\n" for _, text in assemble.stripped(source_of(name)))
            with self.subTest(name):
                self.assertEqual(run("leafgraph", "show", BLOCKS / name), (expected, 0))

    def test_what_it_prints_assembles_to_the_block(self):
        for name, *options in (*((name, "--numbers") for name in NAMES),
                               *((name,) for name in RULES)):
            said, status = run("leafgraph", "show", BLOCKS / name, *options)
            with self.subTest(name, options=options):
                self.assertEqual(status, 0, said)
                self.assertEqual(assemble.assemble(said)[1], (BLOCKS / name).read_bytes())

    def test_it_says_what_else_reads_the_shared_constant(self):
        said = run("leafgraph", "read-elsewhere", BLOCKS / "leaf_pipeline.lgt",
                   BLOCKS / "mul_by_one.lgr", "1")
        self.assertEqual(said, ("yes: source vertex 1 matches slot 22, which slots 17 and 21 read, "
                                "outside the match\n", 0))

    def test_it_imports_the_block_of_version_1(self):
        out = fresh_folder("imported") / IMPORTED_NAME
        said, status = run("leafgraph", "import", BLOCKS / OLD_NAME, "-o", out)
        self.assertEqual(status, 0, said)
        self.assertEqual(out.read_bytes(), (BLOCKS / IMPORTED_NAME).read_bytes())


if __name__ == "__main__":
    unittest.main()
