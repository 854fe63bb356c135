//! What listings said that were read or refused for their graph or for the buffer, so
//! that the comparison can show that it was not empty.

use leafgraph_reference::blocks::GraphParts;
use leafgraph_reference::check_graph;
use leafgraph_reference::graph::{Graph, HEADER, MAX_BLOCK, MAX_SLOTS, RECORD};
use leafgraph_reference::listing::parts_of;
use leafgraph_reference::operators::{EMPTY, PLACES, PROJ};
use leafgraph_reference::reply::{number_of, GRAPH_CYCLE, GRAPH_NAME, GRAPH_RECORD};

use crate::tally::Class;

/// Every class must occur, and those of places. Those that do not begin with a number are
/// of listings that were read.
pub const CLASSES: [&str; 38] = [
    "an Empty slot",
    "an Empty slot first",
    "an Empty slot last",
    "one slot",
    "largest graph",
    "four outputs",
    "a Tuple of six",
    "an attribute below 0",
    "the least attribute",
    "the greatest attribute",
    "a count of 0",
    "a count above 1",
    "a count of two bytes",
    "the same block before",
    "another sound block before",
    "no sound block before",
    "45, no vertex at all",
    "45, a Proj index of 0",
    "45, a Proj index below 0",
    "45, an input names an Empty slot",
    "45, an input N",
    "45, an input above N",
    "45, an input 65535",
    "45, an output names an Empty slot",
    "45, an output N",
    "45, an output above N",
    "45, an output 65535",
    "45, a slot that reads itself",
    "45, a longer cycle",
    "45, a Proj index, and a cycle too",
    "45, a buffer of another length too",
    "46, no buffer",
    "46, the header's length",
    "46, one byte short",
    "46, one byte long",
    "46, one record short",
    "46, one record long",
    "46, the largest graph's length",
];

/// The classes of a text that is of the shape, with a buffer that held these bytes.
pub fn classes(text: &[u8], before: &[u8], reply: u64) -> Vec<Class> {
    let Ok(parts) = parts_of(text) else {
        return vec![];
    };
    let block = parts.block();
    match (number_of(reply), Graph::parse(&block)) {
        (0, Ok(graph)) => [accepted(&parts, graph), buffers(&block, before)].concat(),
        (45, _) => {
            let another = before.len() != block.len();
            let mut classes = [records(&parts, &block), names(&parts, &block)].concat();
            classes.extend(cycles(&parts, &block));
            classes.push(("45, a buffer of another length too", another));
            classes
        }
        _ => lengths(block.len(), before.len()),
    }
}

fn accepted(parts: &GraphParts, graph: Graph) -> Vec<Class> {
    let slots = &parts.slots;
    let attribute = |holds: fn(i32) -> bool| {
        slots.iter().any(|vertex| vertex.attributes.iter().any(|&number| holds(number)))
    };
    let count =
        |holds: fn(u16) -> bool| graph.slots().any(|slot| !slot.is_empty() && holds(slot.count()));
    let empty = |slot: usize| slots[slot].kind == EMPTY;
    vec![
        ("an Empty slot", (0..slots.len()).any(empty)),
        ("an Empty slot first", empty(0)),
        ("an Empty slot last", empty(slots.len() - 1)),
        ("one slot", slots.len() == 1),
        ("largest graph", slots.len() == MAX_SLOTS),
        ("four outputs", parts.outputs.len() == 4),
        ("a Tuple of six", slots.iter().any(|vertex| vertex.inputs.len() == PLACES)),
        ("an attribute below 0", attribute(|number| number < 0)),
        ("the least attribute", attribute(|number| number == i32::MIN)),
        ("the greatest attribute", attribute(|number| number == i32::MAX)),
        ("a count of 0", count(|count| count == 0)),
        ("a count above 1", count(|count| count > 1)),
        ("a count of two bytes", count(|count| count > 255)),
    ]
}

/// What the buffer held.
fn buffers(block: &[u8], before: &[u8]) -> Vec<Class> {
    let sound = check_graph(before) == 0;
    vec![
        ("the same block before", before == block),
        ("another sound block before", sound && before != block),
        ("no sound block before", !sound),
    ]
}

fn records(parts: &GraphParts, block: &[u8]) -> Vec<Class> {
    let first = number_of(check_graph(block)) == GRAPH_RECORD;
    let index = |holds: fn(i32) -> bool| {
        let mut projections = parts.slots.iter().filter(|vertex| vertex.kind == PROJ);
        first && projections.any(|vertex| holds(vertex.attributes[0]))
    };
    let mut with_indices = parts.clone();
    for vertex in with_indices.slots.iter_mut().filter(|vertex| vertex.kind == PROJ) {
        vertex.attributes[0] = 1;
    }
    let cycle = number_of(check_graph(&with_indices.block())) == GRAPH_CYCLE;
    vec![
        ("45, a Proj index of 0", index(|index| index == 0)),
        ("45, a Proj index below 0", index(|index| index < 0)),
        ("45, a Proj index, and a cycle too", first && cycle),
    ]
}

fn names(parts: &GraphParts, block: &[u8]) -> Vec<Class> {
    let first = number_of(check_graph(block)) == GRAPH_NAME;
    let slots = parts.slots.len();
    let empty = |name: u16| parts.slots.get(usize::from(name)).is_some_and(|one| one.kind == EMPTY);
    let above = |name: u16| usize::from(name) > slots && name < 65535;
    let input = |holds: &dyn Fn(u16) -> bool| {
        first && parts.slots.iter().any(|vertex| vertex.inputs.iter().any(|&name| holds(name)))
    };
    let output =
        |holds: &dyn Fn(u16) -> bool| first && parts.outputs.iter().any(|&name| holds(name));
    vec![
        ("45, no vertex at all", parts.slots.iter().all(|vertex| vertex.kind == EMPTY)),
        ("45, an input names an Empty slot", input(&empty)),
        ("45, an input N", input(&|name| usize::from(name) == slots)),
        ("45, an input above N", input(&above)),
        ("45, an input 65535", input(&|name| name == 65535)),
        ("45, an output names an Empty slot", output(&empty)),
        ("45, an output N", output(&|name| usize::from(name) == slots)),
        ("45, an output above N", output(&above)),
        ("45, an output 65535", output(&|name| name == 65535)),
    ]
}

fn cycles(parts: &GraphParts, block: &[u8]) -> Vec<Class> {
    let first = number_of(check_graph(block)) == GRAPH_CYCLE;
    let mut slots = parts.slots.iter().zip(0..);
    let itself = slots.any(|(vertex, own)| vertex.inputs.contains(&own));
    vec![
        ("45, a slot that reads itself", first && itself),
        ("45, a longer cycle", first && !itself),
    ]
}

/// By how much a buffer is wrong.
fn lengths(right: usize, length: usize) -> Vec<Class> {
    vec![
        ("46, no buffer", length == 0),
        ("46, the header's length", length == HEADER),
        ("46, one byte short", length + 1 == right),
        ("46, one byte long", length == right + 1),
        ("46, one record short", length + RECORD == right),
        ("46, one record long", length == right + RECORD),
        ("46, the largest graph's length", length == MAX_BLOCK),
    ]
}
