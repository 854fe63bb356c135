//! Listings (request 7/13): graphs written as text, and texts read, listings and others.

use leafgraph_proved::guarded::{Guarded, SHIFTS};
use leafgraph_reference::blocks::{variable_of, GraphParts};
use leafgraph_reference::generate::{
    any_text, damaged_graph, noise, noise_with_graph_header, sound_graph,
};
use leafgraph_reference::graph::{Graph, HEADER, MAX_BLOCK, MAX_SLOTS, RECORD};
use leafgraph_reference::listing::{listing_of, parts_of};
use leafgraph_reference::random::Random;
use leafgraph_reference::recount::count_faults;
use leafgraph_reference::reply::{number_of, value_of};

use crate::cleanups::WRITTEN;
use crate::rewriting::UNSOUND;
use crate::tally::{Call, Tally, CHANGED};
use crate::{graph_fault_classes, place_classes, read_classes, written_classes};

const WRITING: [u8; 7] = [0, 20, 21, 22, 23, 24, 43];
const READING: [u8; 4] = [0, 44, 45, 46];

const NOT_READ_BACK: &str = "the library does not read the text as the graph that it lists";
const NOT_WRITTEN_BACK: &str = "the library does not write the graph as the text that was read";

/// What the second program makes of a call: its reply, and the bytes that may be written.
pub struct Outcome {
    pub reply: u64,
    pub bytes: Vec<u8>,
}

/// So many calls, half of them to each operation.
pub fn run(random: &mut Random, calls: u64) -> Vec<Tally> {
    let names = [&written_classes::CLASSES[..], &graph_fault_classes::all_classes()].concat();
    let mut written = Tally::new("write listing", &WRITING, &names);
    let names = [&read_classes::CLASSES[..], &place_classes::all_classes()].concat();
    let mut read = Tally::new("read listing", &READING, &names);
    while written.calls() + read.calls() < calls {
        write_any(random, &mut written);
        read_any(random, &mut read);
    }
    vec![written, read]
}

fn write_any(random: &mut Random, tally: &mut Tally) {
    let (origin, graph) = any_graph(random);
    let right = Graph::parse(&graph).ok().map(|graph| listing_of(&GraphParts::of(graph)).len());
    let length = text_length(random, right.unwrap_or(graph.len()));
    let text = random.bytes(length);
    let reply = write(random, tally, origin, &graph, &text).reply;
    tally.count_all(&written_classes::classes(&graph, text.len(), reply));
    if (20..=24).contains(&number_of(reply)) {
        tally.count_all(&graph_fault_classes::classes(&graph, reply));
    }
}

fn any_graph(random: &mut Random) -> (&'static str, Vec<u8>) {
    match random.below(400) {
        0..=19 => ("random bytes", noise(random)),
        20..=39 => ("sound header only", noise_with_graph_header(random)),
        40..=199 => ("damaged graph", damaged_graph(random)),
        200 => ("longest lists", longest_lists(random).block()),
        _ => ("sound graph", sound_graph(random).block()),
    }
}

/// As many slots as there can be, each with as many attributes as a vertex of a line can
/// have, and most of these as long as they come.
fn longest_lists(random: &mut Random) -> GraphParts {
    let slots = (0..MAX_SLOTS).map(|_| {
        let any = random.number() as i32;
        variable_of([i32::MIN, -2_000_000_000, any, i32::MIN + 1, -any.saturating_abs()])
    });
    GraphParts::new(slots.collect(), &[511, 510, 100, 511])
}

/// The listing's own length, or another.
fn text_length(random: &mut Random, right: usize) -> usize {
    let any = random.below(2 * right + 1);
    let less = right.saturating_sub(1);
    match random.below(10) {
        0..=3 => right,
        4 | 5 => right + random.pick(&[1, 2, 8, 100]),
        6 => random.pick(&[0, 1, right / 2, right.saturating_sub(2)]),
        7 | 8 => less,
        _ => any,
    }
}

/// Calls both programs and records what is not as it should be.
pub fn write(
    random: &mut Random,
    tally: &mut Tally,
    origin: &'static str,
    graph: &[u8],
    before: &[u8],
) -> Outcome {
    let lent_graph = Guarded::new(graph, random.below(SHIFTS));
    let mut lent_text = Guarded::new(before, random.below(SHIFTS));
    let proved = leafgraph_proved::write_listing(lent_graph.bytes(), lent_text.lend());
    let mut text = before.to_vec();
    let reply = leafgraph_reference::write_listing(graph, &mut text);
    let mut faults = vec![];
    match number_of(reply) {
        0 if !is_read_back(&text[..value_of(reply) as usize], graph) => faults.push(NOT_READ_BACK),
        0 => {}
        _ if text != before => faults.push(WRITTEN),
        _ => {}
    }
    if !(lent_graph.holds(graph) && lent_text.holds(&text)) {
        faults.push(CHANGED);
    }
    tally.record(Call {
        origin,
        proved,
        reference: reply,
        faults,
        number: None,
        bytes: &[
            ("graph", graph),
            ("text before", before),
            ("text after, proved", lent_text.bytes()),
            ("text after, reference", &text),
        ],
    });
    Outcome { reply, bytes: text }
}

/// Whether the library reads the text as this graph. No byte is right before, so that
/// each has to be written.
fn is_read_back(text: &[u8], graph: &[u8]) -> bool {
    let mut block: Vec<u8> = graph.iter().map(|byte| !byte).collect();
    leafgraph_proved::read_listing(text, &mut block) == 0 && block == graph
}

/// Whether the library writes the graph as this text, and wants all of its bytes for it.
fn is_written_back(graph: &[u8], text: &[u8]) -> bool {
    let mut written: Vec<u8> = text.iter().map(|byte| !byte).collect();
    let short = leafgraph_proved::write_listing(graph, &mut written[1..]);
    let reply = leafgraph_proved::write_listing(graph, &mut written);
    short == 43 && reply == (text.len() as u64) << 40 && written == text
}

fn read_any(random: &mut Random, tally: &mut Tally) {
    let (origin, text) = any_text(random);
    let before = any_buffer(random, &text);
    let reply = read(random, tally, origin, &text, &before).reply;
    tally.count_all(&match number_of(reply) {
        44 => place_classes::classes(&text, before.len()),
        _ => read_classes::classes(&text, &before, reply),
    });
}

/// A buffer of the right length for a listing, or now and then of another.
fn any_buffer(random: &mut Random, text: &[u8]) -> Vec<u8> {
    let parts = parts_of(text).ok();
    let right = parts.as_ref().map_or(HEADER + RECORD, |parts| HEADER + RECORD * parts.slots.len());
    if random.chance(20) {
        let any = random.below(2 * right);
        let lengths = [
            0,
            HEADER,
            right - 1,
            right + 1,
            right - RECORD,
            right + RECORD,
            MAX_BLOCK,
            text.len(),
            any,
        ];
        let length = random.pick(&lengths);
        return random.bytes(length);
    }
    match (random.below(4), parts) {
        (0, Some(parts)) => parts.block(),
        (1, Some(parts)) => {
            GraphParts::new(vec![variable_of([7; 5]); parts.slots.len()], &[0]).block()
        }
        (2, _) => vec![0; right],
        _ => random.bytes(right),
    }
}

/// Calls both programs and records what is not as it should be.
pub fn read(
    random: &mut Random,
    tally: &mut Tally,
    origin: &'static str,
    text: &[u8],
    before: &[u8],
) -> Outcome {
    let lent_text = Guarded::new(text, random.below(SHIFTS));
    let mut lent_graph = Guarded::new(before, random.below(SHIFTS));
    let proved = leafgraph_proved::read_listing(lent_text.bytes(), lent_graph.lend());
    let mut graph = before.to_vec();
    let reply = leafgraph_reference::read_listing(text, &mut graph);
    let mut faults = match reply {
        0 => read_faults(text, &graph),
        _ if graph != before => vec![WRITTEN],
        _ => vec![],
    };
    if !(lent_text.holds(text) && lent_graph.holds(&graph)) {
        faults.push(CHANGED);
    }
    tally.record(Call {
        origin,
        proved,
        reference: reply,
        faults,
        number: None,
        bytes: &[
            ("text", text),
            ("graph before", before),
            ("graph after, proved", lent_graph.bytes()),
            ("graph after, reference", &graph),
        ],
    });
    Outcome { reply, bytes: graph }
}

/// What is wrong with the graph that a text was read as.
fn read_faults(text: &[u8], graph: &[u8]) -> Vec<&'static str> {
    let mut faults = count_faults(graph);
    if leafgraph_proved::check_graph(graph) != 0 {
        faults.push(UNSOUND);
    }
    if !is_written_back(graph, text) {
        faults.push(NOT_WRITTEN_BACK);
    }
    faults
}
