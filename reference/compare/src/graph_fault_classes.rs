//! What was wrong with refused graphs, so that the comparison can show that
//! every kind of fault was met alone, several times and with other kinds.

use leafgraph_reference::graph::Version;
use leafgraph_reference::graph_faults::GraphFaults;
use leafgraph_reference::reply::{number_of, place_of};

use crate::count_fault_classes;
use crate::tally::Class;

/// Every class must occur, in either version. What stands behind "too" is a later
/// kind of fault, and classes without it have no other kind.
pub const VERSION_1_CLASSES: [&str; 31] = [
    "20, the mark",
    "20, byte 3",
    "20, the version",
    "20, the output count",
    "20, unused output places",
    "20, bytes 18 to 23",
    "20, the length",
    "20, several parts of the header",
    "20, a record too",
    "20, an input or output too",
    "20, a cycle too",
    "21, one slot",
    "21, several slots",
    "21, an input or output too",
    "21, a cycle too",
    "22, one slot",
    "22, several slots",
    "22, one output",
    "22, several outputs",
    "22, an output at a later place",
    "22, a slot, and an output at a lower place",
    "22, a cycle too",
    "23, one cycle",
    "23, several cycles",
    "23, a slot that reads itself",
    "23, a lower slot reads from a cycle",
    "23, a lower slot is read by a cycle",
    "23, a slot that reads itself, and a lower one reads from it",
    "21, a place of two bytes",
    "22, a place of two bytes",
    "23, a place of two bytes",
];

/// The classes of the header's parts, in the order of the check. A wrong N
/// mostly goes with a wrong length.
const HEADER_PARTS: [Option<&str>; 8] = [
    Some("20, the mark"),
    Some("20, byte 3"),
    Some("20, the version"),
    None,
    Some("20, the output count"),
    Some("20, unused output places"),
    Some("20, bytes 18 to 23"),
    Some("20, the length"),
];

/// The classes of what takes version 2: these, and those of counts.
pub fn all_classes() -> Vec<&'static str> {
    [&VERSION_1_CLASSES[..], &count_fault_classes::CLASSES].concat()
}

/// The classes of a graph that was refused with this reply, where it was to be one
/// of version 2.
pub fn classes(graph: &[u8], reply: u64) -> Vec<Class> {
    let of_counts = count_fault_classes::classes(graph, reply);
    [of_version(graph, reply, Version::Two), of_counts].concat()
}

/// The same where it was to be one of version 1.
pub fn version_1_classes(graph: &[u8], reply: u64) -> Vec<Class> {
    of_version(graph, reply, Version::One)
}

fn of_version(graph: &[u8], reply: u64, version: Version) -> Vec<Class> {
    let (number, place) = (number_of(reply), place_of(reply) as usize);
    let Some(faults) = GraphFaults::of_version(graph, version) else {
        return large(number, place);
    };
    match number {
        20 => header(&faults),
        21 => records(&faults),
        22 => names(&faults, place),
        23 => cycles(&faults, place),
        _ => vec![],
    }
}

/// The class of the only part that is wrong.
pub fn only_part(parts: &[Option<&'static str>], wrong: &[usize]) -> Option<&'static str> {
    match wrong {
        [part] => parts[*part],
        _ => None,
    }
}

/// All that is said of a large graph.
fn large(number: u8, place: usize) -> Vec<Class> {
    vec![
        ("21, a place of two bytes", number == 21 && place > 255),
        ("22, a place of two bytes", number == 22 && place > 255),
        ("23, a place of two bytes", number == 23 && place > 255),
    ]
}

fn has_bad_name(faults: &GraphFaults) -> bool {
    !(faults.inputs.is_empty() && faults.outputs.is_empty())
}

fn has_cycle(faults: &GraphFaults) -> bool {
    !faults.cycles.is_empty()
}

fn has_wrong_count(faults: &GraphFaults) -> bool {
    !faults.counts.is_empty()
}

fn header(faults: &GraphFaults) -> Vec<Class> {
    let record = !faults.records.is_empty();
    let alone = !(record || has_bad_name(faults) || has_cycle(faults) || has_wrong_count(faults));
    let mut classes = vec![
        ("20, several parts of the header", alone && faults.header.len() > 1),
        ("20, a record too", record),
        ("20, an input or output too", has_bad_name(faults)),
        ("20, a cycle too", has_cycle(faults)),
    ];
    classes.extend(only_part(&HEADER_PARTS, &faults.header).map(|class| (class, alone)));
    classes
}

fn records(faults: &GraphFaults) -> Vec<Class> {
    let alone = !(has_bad_name(faults) || has_cycle(faults) || has_wrong_count(faults));
    vec![
        ("21, one slot", alone && faults.records.len() == 1),
        ("21, several slots", alone && faults.records.len() > 1),
        ("21, an input or output too", has_bad_name(faults)),
        ("21, a cycle too", has_cycle(faults)),
    ]
}

fn names(faults: &GraphFaults, place: usize) -> Vec<Class> {
    let (inputs, outputs) = (faults.inputs.len(), faults.outputs.len());
    let alone = !(has_cycle(faults) || has_wrong_count(faults));
    let only_outputs = alone && inputs == 0;
    vec![
        ("22, one slot", alone && outputs == 0 && inputs == 1),
        ("22, several slots", alone && outputs == 0 && inputs > 1),
        ("22, one output", only_outputs && outputs == 1),
        ("22, several outputs", only_outputs && outputs > 1),
        ("22, an output at a later place", only_outputs && place > 0),
        (
            "22, a slot, and an output at a lower place",
            alone && inputs > 0 && faults.outputs.iter().any(|&output| output < place),
        ),
        ("22, a cycle too", has_cycle(faults)),
    ]
}

fn cycles(faults: &GraphFaults, place: usize) -> Vec<Class> {
    let lower = |slots: &[usize]| slots.iter().any(|&slot| slot < place);
    let reads = lower(&faults.reading_from_cycles);
    let itself = faults.cycles.iter().any(|cycle| *cycle == [place]);
    let alone = !has_wrong_count(faults);
    vec![
        ("23, one cycle", alone && faults.cycles.len() == 1),
        ("23, several cycles", alone && faults.cycles.len() > 1),
        ("23, a slot that reads itself", itself),
        ("23, a lower slot reads from a cycle", reads),
        ("23, a lower slot is read by a cycle", lower(&faults.read_by_cycles)),
        ("23, a slot that reads itself, and a lower one reads from it", itself && reads),
    ]
}
