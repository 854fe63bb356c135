//! What an import met, so that the comparison can show that it was not empty.

use leafgraph_reference::graph::{Graph, Version, MAX_SLOTS, VERSION};
use leafgraph_reference::reply::number_of;
use leafgraph_reference::sweep::live_slots;

use crate::tally::Class;

/// Every class must occur, and those of a graph's faults in version 1. Those that do
/// not begin with a number are of imports that are done.
pub const CLASSES: [&str; 19] = [
    "a count of 0",
    "a count of 1",
    "a count above 1",
    "a count of two bytes",
    "an Empty slot",
    "a vertex in two places of one reader",
    "a vertex in two places of different readers",
    "an output named twice",
    "an output that is read, too",
    "a vertex that only dead vertices read",
    "one slot",
    "largest graph",
    "20, a sound block of version 2",
    "20, a block of version 2 with a wrong count",
    "20, version 0",
    "20, version 3",
    "20, version 257",
    "21, a byte of 40 and 41 alone",
    "21, the true counts",
];

/// The classes of an import that left this block.
pub fn done(block: &[u8]) -> Vec<Class> {
    match Graph::parse(block) {
        Ok(graph) => [counts(graph), namers(graph)].concat(),
        Err(_) => vec![],
    }
}

fn counts(graph: Graph) -> Vec<Class> {
    let some =
        |holds: fn(u16) -> bool| graph.slots().any(|slot| !slot.is_empty() && holds(slot.count()));
    let slots = graph.slot_count();
    vec![
        ("a count of 0", some(|count| count == 0)),
        ("a count of 1", some(|count| count == 1)),
        ("a count above 1", some(|count| count > 1)),
        ("a count of two bytes", some(|count| count > 255)),
        ("an Empty slot", graph.slots().any(|slot| slot.is_empty())),
        ("one slot", slots == 1),
        ("largest graph", slots == MAX_SLOTS),
    ]
}

/// What names the slots.
fn namers(graph: Graph) -> Vec<Class> {
    let mut readers: Vec<Vec<usize>> = vec![vec![]; graph.slot_count()];
    for (reader, vertex) in graph.slots().enumerate() {
        vertex.inputs().for_each(|input| readers[usize::from(input)].push(reader));
    }
    let live = live_slots(graph);
    let outputs: Vec<usize> = graph.outputs().map(usize::from).collect();
    let pairs = |holds: fn(usize, usize) -> bool| {
        readers.iter().any(|readers| readers.windows(2).any(|pair| holds(pair[0], pair[1])))
    };
    let dead = |readers: &Vec<usize>| !readers.is_empty() && readers.iter().all(|&one| !live[one]);
    vec![
        ("a vertex in two places of one reader", pairs(|one, other| one == other)),
        ("a vertex in two places of different readers", pairs(|one, other| one != other)),
        (
            "an output named twice",
            (1..outputs.len()).any(|place| outputs[..place].contains(&outputs[place])),
        ),
        ("an output that is read, too", outputs.iter().any(|&output| !readers[output].is_empty())),
        ("a vertex that only dead vertices read", readers.iter().any(dead)),
    ]
}

/// The classes of a block that was refused with this reply.
pub fn refused(block: &[u8], reply: u64) -> Vec<Class> {
    match number_of(reply) {
        20 => versions(block),
        21 => records(block),
        _ => vec![],
    }
}

fn versions(block: &[u8]) -> Vec<Class> {
    let checked = leafgraph_reference::check_graph(block);
    let is = |version: u16| {
        let told = block.get(VERSION..VERSION + 2) == Some(&version.to_le_bytes()[..]);
        told && Graph::parse_but_counts(&with_version_1(block), Version::One).is_ok()
    };
    vec![
        ("20, a sound block of version 2", checked == 0),
        ("20, a block of version 2 with a wrong count", number_of(checked) == 24),
        ("20, version 0", is(0)),
        ("20, version 3", is(3)),
        ("20, version 257", is(257)),
    ]
}

fn with_version_1(block: &[u8]) -> Vec<u8> {
    let mut changed = block.to_vec();
    changed[VERSION..VERSION + 2].copy_from_slice(&Version::One.number().to_le_bytes());
    changed
}

/// Whether what would be counts in version 2 is all that is wrong.
fn records(block: &[u8]) -> Vec<Class> {
    let mut changed = block.to_vec();
    changed[VERSION..VERSION + 2].copy_from_slice(&Version::Two.number().to_le_bytes());
    let uncounted = Graph::parse_but_counts(&changed, Version::Two);
    vec![
        ("21, a byte of 40 and 41 alone", uncounted.is_ok()),
        ("21, the true counts", Graph::parse(&changed).is_ok()),
    ]
}
