//! What was written as a listing, so that the comparison can show that it was not empty.

use leafgraph_reference::graph::{Graph, Slot, MAX_SLOTS, OUTPUT_PLACES};
use leafgraph_reference::operators::{CALL, CONST, PLACES, PROJ, TUPLE, VARIABLE};
use leafgraph_reference::reply::{number_of, value_of};

use crate::tally::Class;

/// Every class must occur, and those of a graph's faults. Those that do not begin with a
/// number are of listings that were written.
pub const CLASSES: [&str; 36] = [
    "a buffer of the listing's length",
    "a buffer with one byte more",
    "a buffer with many bytes more",
    "an Empty slot",
    "an Empty slot first",
    "an Empty slot last",
    "no Empty slot",
    "one vertex alone",
    "a Const",
    "a Variable",
    "a Call",
    "a Tuple",
    "a Proj",
    "an operator of two digits",
    "a Tuple of one",
    "a Tuple of six",
    "five inputs of a Call",
    "an attribute of 0",
    "an attribute below 0",
    "the least attribute",
    "the greatest attribute",
    "an input of three digits",
    "a higher slot as an input",
    "one output",
    "four outputs",
    "one slot",
    "largest graph",
    "a listing of more than 32767 bytes",
    "43, no buffer",
    "43, one byte short",
    "43, half of the listing",
    "20, a short buffer too",
    "21, a short buffer too",
    "22, a short buffer too",
    "23, a short buffer too",
    "24, a short buffer too",
];

/// The classes of a call with a text buffer of so many bytes.
pub fn classes(graph: &[u8], length: usize, reply: u64) -> Vec<Class> {
    let number = number_of(reply);
    match (number, Graph::parse(graph)) {
        (0, Ok(graph)) => {
            let classes = [vertices(graph), numbers(graph), sizes(graph)].concat();
            [classes, buffers(length, value_of(reply) as usize)].concat()
        }
        (43, Ok(graph)) => short_buffers(graph, length),
        _ => refusals(number, length),
    }
}

/// No listing is shorter.
const SHORTEST: usize = "graph 1\n0 const [] {0}\nout 0\n".len();

fn refusals(number: u8, length: usize) -> Vec<Class> {
    let short = |one: u8| number == one && length < SHORTEST;
    vec![
        ("20, a short buffer too", short(20)),
        ("21, a short buffer too", short(21)),
        ("22, a short buffer too", short(22)),
        ("23, a short buffer too", short(23)),
        ("24, a short buffer too", short(24)),
    ]
}

fn buffers(length: usize, listing: usize) -> Vec<Class> {
    vec![
        ("a buffer of the listing's length", length == listing),
        ("a buffer with one byte more", length == listing + 1),
        ("a buffer with many bytes more", length > listing + 50),
        ("a listing of more than 32767 bytes", listing > 32767),
    ]
}

fn short_buffers(graph: Graph, length: usize) -> Vec<Class> {
    let mut text = vec![0; 65535];
    let listing = value_of(leafgraph_reference::write_listing(graph.bytes(), &mut text)) as usize;
    vec![
        ("43, no buffer", length == 0),
        ("43, one byte short", length + 1 == listing),
        ("43, half of the listing", length == listing / 2),
    ]
}

fn vertices(graph: Graph) -> Vec<Class> {
    let some = |holds: fn(Slot) -> bool| graph.slots().any(holds);
    let slots = graph.slot_count();
    let empty = |slot: usize| graph.slot(slot).is_empty();
    let used = graph.slots().filter(|slot| !slot.is_empty()).count();
    vec![
        ("an Empty slot", used < slots),
        ("an Empty slot first", empty(0)),
        ("an Empty slot last", empty(slots - 1)),
        ("no Empty slot", used == slots),
        ("one vertex alone", used == 1),
        ("a Const", some(|slot| slot.kind() == CONST)),
        ("a Variable", some(|slot| slot.kind() == VARIABLE)),
        ("a Call", some(|slot| slot.kind() == CALL)),
        ("a Tuple", some(|slot| slot.kind() == TUPLE)),
        ("a Proj", some(|slot| slot.kind() == PROJ)),
        ("an operator of two digits", some(|slot| slot.operator() > 9)),
        ("a Tuple of one", some(|slot| slot.kind() == TUPLE && slot.input_count() == 1)),
        ("a Tuple of six", some(|slot| slot.input_count() == PLACES)),
        ("five inputs of a Call", some(|slot| slot.kind() == CALL && slot.input_count() == 5)),
    ]
}

fn numbers(graph: Graph) -> Vec<Class> {
    let attribute = |holds: fn(i32) -> bool| graph.slots().any(|slot| slot.attributes().any(holds));
    let input = |holds: fn(u16, u16) -> bool| {
        let mut slots = graph.slots().zip(0..);
        slots.any(|(slot, own)| slot.inputs().any(|input| holds(input, own)))
    };
    vec![
        ("an attribute of 0", attribute(|number| number == 0)),
        ("an attribute below 0", attribute(|number| number < 0)),
        ("the least attribute", attribute(|number| number == i32::MIN)),
        ("the greatest attribute", attribute(|number| number == i32::MAX)),
        ("an input of three digits", input(|input, _| input > 99)),
        ("a higher slot as an input", input(|input, own| input > own)),
    ]
}

fn sizes(graph: Graph) -> Vec<Class> {
    vec![
        ("one output", graph.output_count() == 1),
        ("four outputs", graph.output_count() == OUTPUT_PLACES),
        ("one slot", graph.slot_count() == 1),
        ("largest graph", graph.slot_count() == MAX_SLOTS),
    ]
}
