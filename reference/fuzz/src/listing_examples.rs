//! Texts to read and graphs to write (request 7/13): each has one thing that is easily
//! got wrong.

use leafgraph_reference::blocks::{
    constant, empty, relu, tuple, variable, variable_of, GraphParts,
};

const DONE: u64 = 0;
const SHORT_TEXT: u64 = 43;
const UNSOUND: u64 = 45;
const BLOCK_LENGTH: u64 = 46;

pub struct ReadingExample {
    pub name: &'static str,
    pub text: String,
    /// By how many bytes the graph's buffer is longer than it should be.
    pub spare: i8,
    pub reply: u64,
}

pub struct WritingExample {
    pub name: &'static str,
    pub graph: GraphParts,
    /// By how many bytes the text's buffer is longer than the listing.
    pub spare: i8,
    pub reply: u64,
}

pub fn reading_examples() -> Vec<ReadingExample> {
    let parts =
        [accepted(), in_numbers(), of_slots(), of_shape(), at_ends(), unsound(), of_lengths()];
    parts.into_iter().flatten().collect()
}

/// The paper's listing.
const PAPERS: &str = "graph 3\n0 variable [] {1 3 8 8 1}\n1 call 7 [0] {}\nout 1\n";

fn reading(name: &'static str, text: &str, spare: i8, reply: u64) -> ReadingExample {
    ReadingExample { name, text: text.into(), spare, reply }
}

/// A text that is refused behind the first of its two parts.
fn refused(name: &'static str, before: &str, behind: &str) -> ReadingExample {
    reading(name, &format!("{before}{behind}"), 0, 44 | (before.len() as u64) << 8)
}

/// The same, with both parts in a line behind a Const.
fn refused_in(name: &'static str, before: &str, behind: &str) -> ReadingExample {
    let before = format!("graph 12\n0 const [] {{5}}\n{before}");
    refused(name, &before, &format!("{behind}out 0\n"))
}

fn accepted() -> Vec<ReadingExample> {
    let extremes = "graph 2\n1 variable [] {-2147483648 2147483647 0 -1 10}\nout 1 1 1 1\n";
    let wide = "graph 4\n1 const [] {-7}\n3 tuple [1 1 1 1 1 1] {}\nout 3\n";
    vec![
        reading("papers", PAPERS, 0, DONE),
        reading("extremes", extremes, 0, DONE),
        reading("empty-first", wide, 0, DONE),
        reading("n-512", "graph 512\n511 const [] {0}\nout 511\n", 0, DONE),
    ]
}

fn in_numbers() -> Vec<ReadingExample> {
    vec![
        refused("n-0", "graph ", "0\n"),
        refused("n-leading-zero", "graph ", "03\n0 const [] {0}\nout 0\n"),
        refused("n-513", "graph 51", "3\n0 const [] {0}\nout 0\n"),
        refused_in("slot-leading-zero", "", "01 const [] {0}\n"),
        refused_in("operator-leading-zero", "1 call ", "07 [0] {}\n"),
        refused_in("operator-15", "1 call 1", "5 [0] {}\n"),
        refused_in("input-leading-zero", "1 call 7 [0", "0] {}\n"),
        refused_in("input-65536", "1 call 7 [6553", "6] {}\n"),
        refused_in("attribute-leading-zero", "1 const [] {0", "1}\n"),
        refused_in("attribute-minus-zero", "1 const [] {-", "0}\n"),
        refused_in("attribute-minus-leading-zero", "1 const [] {-", "01}\n"),
        refused_in("attribute-plus", "1 const [] {", "+1}\n"),
        refused_in("attribute-too-large", "1 const [] {214748364", "8}\n"),
        refused_in("attribute-too-small", "1 const [] {-214748364", "9}\n"),
        refused_in("output-65536", "out 6553", "6\n"),
    ]
}

fn of_slots() -> Vec<ReadingExample> {
    let two = "5 const [] {1}\n";
    vec![
        refused_in("slot-again", "", "0 const [] {0}\n"),
        refused_in("slots-swapped", two, "4 const [] {0}\n"),
        refused_in("slot-n", "1", "2 const [] {0}\n"),
        refused_in("slot-might-go-on", "5 const [] {1}\n1", " const [] {0}\n"),
        refused_in("slot-behind-last", "11 const [] {1}\n", "1 const [] {0}\n"),
    ]
}

fn of_shape() -> Vec<ReadingExample> {
    vec![
        refused("other-opening", "", "Graph 1\n0 const [] {0}\nout 0\n"),
        refused_in("other-word", "1 cons", " [] {0}\n"),
        refused_in("longer-word", "1 const", "ant [] {0}\n"),
        refused_in("operator-of-const", "1 const ", "1 [] {0}\n"),
        refused_in("two-spaces", "1 const ", " [] {0}\n"),
        refused_in("no-space", "1 const []", "{0}\n"),
        refused_in("too-few-inputs", "1 call 1 [0", "] {}\n"),
        refused_in("too-many-inputs", "1 call 7 [0", " 0] {}\n"),
        refused_in("empty-tuple", "1 tuple [", "] {}\n"),
        refused_in("seven-inputs", "1 tuple [0 0 0 0 0 0", " 0] {}\n"),
        refused_in("too-few-attributes", "1 variable [] {1 2 3 4", "}\n"),
        refused_in("too-many-attributes", "1 const [] {1", " 2}\n"),
        refused_in("no-output", "out", "\n"),
        refused_in("five-outputs", "out 0 0 0 0", " 0\n"),
    ]
}

fn at_ends() -> Vec<ReadingExample> {
    let whole = "graph 1\n0 const [] {5}\nout 0\n";
    vec![
        refused("no-text", "", ""),
        refused("ends-in-opening", "grap", ""),
        refused("ends-in-n", "graph 1", ""),
        refused("ends-in-word", "graph 1\n0 con", ""),
        refused("ends-in-number", "graph 1\n0 const [] {-", ""),
        refused("ends-before-out", "graph 1\n0 const [] {5}\n", ""),
        refused("no-last-line-end", whole.trim_end(), ""),
        refused("carriage-return", whole.trim_end(), "\r\n"),
        refused("line-behind", whole, "\n"),
        refused("zero-behind", whole, "\0"),
        refused("listing-behind", whole, whole),
    ]
}

fn unsound() -> Vec<ReadingExample> {
    let with = |name, line: &str| {
        reading(name, &format!("graph 3\n0 const [] {{5}}\n{line}out 0\n"), 0, UNSOUND)
    };
    vec![
        reading("no-vertex", "graph 1\nout 0\n", 0, UNSOUND),
        with("index-0", "1 proj [0] {0}\n"),
        with("index-below-0", "1 proj [0] {-1}\n"),
        with("input-empty", "1 call 7 [2] {}\n"),
        with("input-n", "1 call 7 [3] {}\n"),
        with("input-65535", "1 call 7 [65535] {}\n"),
        with("reads-itself", "1 call 7 [1] {}\n"),
        with("cycle", "1 call 7 [2] {}\n2 call 7 [1] {}\n"),
        reading("output-65535", "graph 1\n0 const [] {5}\nout 65535\n", 0, UNSOUND),
    ]
}

/// Buffers of another length, behind each other reason to refuse.
fn of_lengths() -> Vec<ReadingExample> {
    let unsound = "graph 1\n0 proj [0] {0}\nout 0\n";
    let early = ReadingExample { spare: 1, ..refused("no-listing-and-long", "graph 1\n", "") };
    vec![
        reading("block-short", PAPERS, -1, BLOCK_LENGTH),
        reading("block-long", PAPERS, 1, BLOCK_LENGTH),
        reading("block-long-by-half-a-record", PAPERS, 24, BLOCK_LENGTH),
        reading("unsound-and-short", unsound, -1, UNSOUND),
        reading("unsound-and-long", unsound, 1, UNSOUND),
        early,
    ]
}

pub fn writing_examples() -> Vec<WritingExample> {
    let papers = || GraphParts::new(vec![variable(), relu(0), empty()], &[1]);
    let numbers = variable_of([i32::MIN, i32::MAX, 0, -1, 10]);
    let wide = vec![empty(), constant(-7), empty(), tuple(&[1; 6])];
    let writing = |name, graph, spare, reply| WritingExample { name, graph, spare, reply };
    vec![
        writing("written", papers(), 0, 56 << 40),
        writing("written-one-more", papers(), 1, 56 << 40),
        writing("written-many-more", papers(), 100, 56 << 40),
        writing("written-one-short", papers(), -1, SHORT_TEXT),
        writing("written-half", papers(), -28, SHORT_TEXT),
        writing("written-extremes", GraphParts::new(vec![empty(), numbers], &[1; 4]), 0, 67 << 40),
        writing("written-empty-first", GraphParts::new(wide, &[3]), 0, 55 << 40),
    ]
}
