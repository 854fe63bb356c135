//! Request 7/13: a graph written as text and read back.

mod common;

use common::{refused, UNTOUCHED};
use leafgraph_reference::blocks::*;
use leafgraph_reference::generate::sound_graph;
use leafgraph_reference::graph::Graph;
use leafgraph_reference::listing::listing_of;
use leafgraph_reference::operators::GAIN;
use leafgraph_reference::random::Random;
use leafgraph_reference::reply::{number_of, value_of};
use leafgraph_reference::{read_listing, write_listing};

/// The paper's own listing.
const PAPERS: &str = "graph 3\n0 variable [] {1 3 8 8 1}\n1 call 7 [0] {}\nout 1\n";

fn papers_graph() -> GraphParts {
    GraphParts::new(vec![variable(), relu(0), empty()], &[1])
}

/// The reply to a buffer of so many bytes, and what it holds then.
fn written(graph: &[u8], length: usize) -> (u64, Vec<u8>) {
    let mut text = vec![UNTOUCHED; length];
    let reply = write_listing(graph, &mut text);
    (reply, text)
}

/// The reply to a buffer of so many bytes, and what it holds then.
fn read(text: &str, length: usize) -> (u64, Vec<u8>) {
    let mut graph = vec![UNTOUCHED; length];
    let reply = read_listing(text.as_bytes(), &mut graph);
    (reply, graph)
}

/// Where the text is refused with 44, whatever the buffer's length.
fn place(text: &str) -> usize {
    let replies = [0, 72, 168].map(|length| read(text, length).0);
    assert!(replies.iter().all(|&reply| reply == replies[0]), "{text:?}: {replies:?}");
    assert_eq!(number_of(replies[0]), 44, "{text:?}");
    (replies[0] >> 8) as usize
}

/// The place in a text, of which this much stands before the place.
fn refused_behind(before: &str, behind: &str) {
    assert_eq!(place(&format!("{before}{behind}")), before.len(), "{before:?} then {behind:?}");
}

/// The same of what follows the first line and a Const.
fn refused_in_line(before: &str, behind: &str) {
    refused_behind(&format!("graph 12\n0 const [] {{5}}\n{before}"), behind);
}

/// The number that a text with a buffer of the right length gets, if it is no 44.
fn soundness(text: &str) -> u64 {
    let slots: usize = text["graph ".len()..].split('\n').next().unwrap().parse().unwrap();
    read(text, 24 + 48 * slots).0
}

#[test]
fn the_papers_listing_is_written_and_read() {
    let block = papers_graph().block();
    let (reply, text) = written(&block, PAPERS.len());
    assert_eq!((reply, value_of(reply)), ((PAPERS.len() as u64) << 40, 56));
    assert_eq!(text, PAPERS.as_bytes());
    assert_eq!(read(PAPERS, block.len()), (0, block));
}

#[test]
fn writing_keeps_the_rest() {
    let block = papers_graph().block();
    for more in [1, 2, 70_000] {
        let (reply, text) = written(&block, PAPERS.len() + more);
        assert_eq!(value_of(reply), 56);
        assert_eq!(&text[..56], PAPERS.as_bytes());
        assert!(text[56..].iter().all(|&byte| byte == UNTOUCHED));
    }
    for length in [0, 1, 54, 55] {
        assert_eq!(written(&block, length), (43, vec![UNTOUCHED; length]));
    }
}

#[test]
fn writing_refuses_the_graph_first() {
    let mut block = papers_graph().block();
    block[24 + 40] = 2;
    for length in [0, 100] {
        assert_eq!(written(&block, length).0, refused(24, 0));
        assert_eq!(written(&papers_graph().version_1_block(), length).0, 20);
        assert_eq!(written(&GraphParts::new(vec![relu(1)], &[0]).block(), length).0, 22);
        assert_eq!(written(&[], length).0, 20);
    }
}

#[test]
fn every_kind_has_its_word() {
    let gain = call(GAIN, &[1], &[i32::MIN, -1, i32::MAX]);
    let slots = vec![
        constant(-7),
        variable(),
        empty(),
        tuple(&[0, 1, 0]),
        projection(3, 2),
        add(1, 4),
        gain,
    ];
    let text = "graph 7\n0 const [] {-7}\n1 variable [] {1 3 8 8 1}\n3 tuple [0 1 0] {}\n\
                4 proj [3] {2}\n5 call 1 [1 4] {}\n6 call 10 [1] {-2147483648 -1 2147483647}\n\
                out 5 6 5\n";
    let parts = GraphParts::new(slots, &[5, 6, 5]);
    assert_eq!(listing_of(&parts), text);
    assert_eq!(read(text, parts.block().len()), (0, parts.block()));
}

#[test]
fn places_in_the_first_line() {
    for (before, behind) in [
        ("", ""),
        ("", "Graph 1\n"),
        ("gr", ""),
        ("gr", "ph"),
        ("graph", "\t1"),
        ("graph ", ""),
        ("graph ", "0"),
        ("graph ", "-1"),
        ("graph ", " 1"),
        ("graph ", "\n"),
        ("graph 51", "3"),
        ("graph 60", "0"),
        ("graph 512", "0"),
        ("graph 1", ""),
        ("graph 1", " \n"),
        ("graph 1", "\r\n"),
        ("graph 1\n", ""),
        ("graph 1\n", "\n"),
    ] {
        refused_behind(before, behind);
    }
}

/// Slots ascend below N; a slot that could still become one that fits fails behind it.
#[test]
fn places_of_slots() {
    for (before, behind) in [
        ("", "0"),
        ("", "-1"),
        ("1", "2"),
        ("2", "0"),
        ("9", "9"),
        ("5 const [] {0}\n1", " "),
        ("5 const [] {0}\n1", ""),
        ("5 const [] {0}\n10", "0"),
        ("5 const [] {0}\n", "5"),
        ("5 const [] {0}\n", "4"),
        ("10 const [] {0}\n1", "0"),
        ("11 const [] {0}\n", "1"),
        ("11 const [] {0}\n", "x"),
        ("11 const [] {0}\n", ""),
        ("", " 1"),
        ("1", "\n"),
        ("1 ", " "),
    ] {
        refused_in_line(before, behind);
    }
    refused_behind("graph 3\n0", "0 ");
}

#[test]
fn places_of_words_and_operators() {
    for (before, behind) in [
        ("1 ", "x"),
        ("1 c", "x"),
        ("1 ca", "n"),
        ("1 cons", " "),
        ("1 const", "ant"),
        ("1 const ", "1"),
        ("1 variable", "["),
        ("1 ", "Tuple"),
        ("1 call", "\n"),
        ("1 call ", "["),
        ("1 call ", "0"),
        ("1 call ", "-1"),
        ("1 call 1", "5"),
        ("1 call 2", "0"),
        ("1 call 14", "0"),
        ("1 call 7", "["),
        ("1 call 7 ", "0"),
        ("1 proj ", "1"),
    ] {
        refused_in_line(before, behind);
    }
}

/// "counts by document 01's tables"
#[test]
fn places_of_counts() {
    for (before, behind) in [
        ("1 call 7 [", "]"),
        ("1 call 7 [0", " 1"),
        ("1 call 1 [0", "]"),
        ("1 call 1 [0 0", " "),
        ("1 call 6 [0 0 0 0 0", " "),
        ("1 call 7 [0] {", "1"),
        ("1 call 14 [0] {", "}"),
        ("1 call 14 [0] {1", " "),
        ("1 const [", "0"),
        ("1 const [] {", "}"),
        ("1 const [] {0", " "),
        ("1 variable [] {1 2 3 4", "}"),
        ("1 variable [] {1 2 3 4 5", " "),
        ("1 tuple [", "]"),
        ("1 tuple [0 0 0 0 0 0", " "),
        ("1 tuple [0] {", "0"),
        ("1 proj [0", " "),
        ("1 proj [0] {1", " "),
    ] {
        refused_in_line(before, behind);
    }
}

#[test]
fn places_in_numbers() {
    for (before, behind) in [
        ("1 tuple [6553", "6"),
        ("1 tuple [7000", "0"),
        ("1 tuple [10000", "0"),
        ("1 tuple [0", "0"),
        ("1 tuple [", "-"),
        ("1 tuple [1", ""),
        ("1 tuple [1 ", "]"),
        ("1 tuple [1 ", " "),
        ("1 const [] {-", "0"),
        ("1 const [] {0", "0"),
        ("1 const [] {-", "-1"),
        ("1 const [] {-", "}"),
        ("1 const [] {", "+1"),
        ("1 const [] {214748364", "8"),
        ("1 const [] {2147483647", "0"),
        ("1 const [] {-214748364", "9"),
        ("1 const [] {-2147483648", "0"),
        ("1 const [] {-300000000", "0"),
        ("1 const [] {300000000", "0"),
    ] {
        refused_in_line(before, behind);
    }
}

#[test]
fn places_between_and_at_ends() {
    for (before, behind) in [
        ("1 const ", " []"),
        ("1 const [", " ]"),
        ("1 const []", "{0}"),
        ("1 const [] {0}", " \n"),
        ("1 const [] {0}", ""),
        ("1 const [] {0}", "\r\n"),
        ("o", "0"),
        ("out", "\n"),
        ("out ", "\n"),
        ("out 0", ""),
        ("out 0 ", "\n"),
        ("out 0 0 0 0", " "),
        ("out 6553", "6"),
        ("out 0", "\r\n"),
        ("out 0\n", "\n"),
        ("out 0\n", "\0"),
        ("out 0\n", "graph 1\n"),
        ("out 0\n", "1 const [] {0}\n"),
    ] {
        refused_in_line(before, behind);
    }
}

#[test]
fn unsound_graphs_are_told_behind_the_shape() {
    let line = |line: &str| soundness(&format!("graph 3\n0 const [] {{5}}\n{line}out 0\n"));
    assert_eq!(line(""), 0);
    assert_eq!(line("1 call 7 [0] {}\n"), 0);
    for unsound in [
        "1 call 7 [2] {}\n",
        "1 call 7 [3] {}\n",
        "1 call 7 [65535] {}\n",
        "1 call 7 [1] {}\n",
        "1 call 7 [2] {}\n2 call 7 [1] {}\n",
        "1 proj [0] {0}\n",
        "1 proj [0] {-2147483648}\n",
    ] {
        assert_eq!(line(unsound), 45, "{unsound}");
    }
    for unsound in [
        "graph 1\nout 0\n",
        "graph 512\nout 65535\n",
        "graph 2\n0 const [] {5}\nout 1\n",
        "graph 2\n0 const [] {5}\nout 0 2\n",
        "graph 2\n0 const [] {5}\nout 0 0 0 65535\n",
    ] {
        assert_eq!(soundness(unsound), 45, "{unsound}");
    }
}

/// "44 [...], 45 [...], 46 [...], in that order"
#[test]
fn the_buffer_is_looked_at_last() {
    for length in [0, 24, 120, 167, 169, 216] {
        assert_eq!(read(PAPERS, length), (46, vec![UNTOUCHED; length]));
        let unsound = PAPERS.replace("out 1", "out 2");
        assert_eq!(read(&unsound, length), (45, vec![UNTOUCHED; length]));
        let reply = refused(44, PAPERS.len() - 1);
        assert_eq!(read(PAPERS.trim_end(), length), (reply, vec![UNTOUCHED; length]));
    }
    assert_eq!(read(PAPERS, 168).0, 0);
}

/// What the buffer held does not matter.
#[test]
fn any_old_block_is_written_over() {
    let block = papers_graph().block();
    for old in [vec![0; 168], vec![255; 168], block.clone(), chain(3).block()] {
        let mut graph = old.clone();
        assert_eq!(read_listing(PAPERS.as_bytes(), &mut graph), 0);
        assert_eq!(graph, block);
        assert_eq!(read_listing(b"graph 3\nout 0\n", &mut graph), 45);
        assert_eq!(graph, block);
    }
}

/// The most bytes that a sound graph's listing has: every slot a Variable.
#[test]
fn the_longest_listing_has_less_than_65536_bytes() {
    let longest = GraphParts::new(vec![variable_of([i32::MIN; 5]); 512], &[511; 4]);
    let (reply, text) = written(&longest.block(), 65535);
    let length = value_of(reply) as usize;
    assert_eq!(length, "graph 512\n".len() + "out 511 511 511 511\n".len() + 75 * 512 + 1426);
    let mut graph = vec![0; 24 + 48 * 512];
    assert_eq!(read_listing(&text[..length], &mut graph), 0);
    assert_eq!(graph, longest.block());
    assert_eq!(written(&longest.block(), length - 1).0, 43);
}

/// "Every sound graph has one listing; reading it gives the same block with true counts".
#[test]
fn reading_gives_the_same_block() {
    let mut random = Random::new(71);
    for _ in 0..2000 {
        let block = sound_graph(&mut random).block();
        let (reply, text) = written(&block, 45_000);
        let text = &text[..value_of(reply) as usize];
        let mut graph = random.bytes(block.len());
        assert_eq!(read_listing(text, &mut graph), 0);
        assert_eq!(graph, block);
        assert!(Graph::parse(&graph).is_ok());
    }
}
