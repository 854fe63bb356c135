//! What was wrong with the versions and the counts of refused graphs (request
//! 5/13), so that the comparison can show that each likely mistake was met.

use leafgraph_reference::counts::true_counts;
use leafgraph_reference::graph::{Graph, Version, VERSION};
use leafgraph_reference::graph_faults::GraphFaults;
use leafgraph_reference::reply::{number_of, place_of};
use leafgraph_reference::sweep::live_slots;

use crate::tally::Class;

/// Every class must occur in what takes version 2. Those of versions have no other
/// fault but the counts' absence.
pub const CLASSES: [&str; 24] = [
    "20, a sound block of version 1",
    "20, version 1 with true counts",
    "20, version 0",
    "20, version 3",
    "20, version 258",
    "20, a wrong count too",
    "21, a byte of 42 to 47",
    "21, a wrong count too",
    "22, a wrong count too",
    "23, a wrong count too",
    "24, one slot",
    "24, several slots",
    "24, one more",
    "24, one less",
    "24, the high byte alone",
    "24, readers are counted and not places",
    "24, graph outputs are not counted",
    "24, several outputs at one slot count once",
    "24, readers that reach no output are not counted",
    "24, two slots have each other's count",
    "24, an Empty slot alone",
    "24, no count at all",
    "24, a true count of two bytes",
    "24, a place of two bytes",
];

/// The classes of a graph that was refused with this reply.
pub fn classes(graph: &[u8], reply: u64) -> Vec<Class> {
    let number = number_of(reply);
    match (number, GraphFaults::of(graph)) {
        (24, _) => wrong_counts(graph, place_of(reply) as usize),
        (_, Some(faults)) => [versions(graph, &faults), others(graph, number, &faults)].concat(),
        _ => vec![],
    }
}

/// The version is the third part of the header.
const VERSION_PART: usize = 2;

fn versions(graph: &[u8], faults: &GraphFaults) -> Vec<Class> {
    let only_version = GraphFaults { header: vec![VERSION_PART], ..GraphFaults::default() };
    let alone = *faults == only_version;
    let is = |version: u16| alone && graph[VERSION..VERSION + 2] == version.to_le_bytes();
    vec![
        ("20, a sound block of version 1", Graph::parse_but_counts(graph, Version::One).is_ok()),
        ("20, version 1 with true counts", is(1)),
        ("20, version 0", is(0)),
        ("20, version 3", is(3)),
        ("20, version 258", is(258)),
    ]
}

/// A wrong count beside an earlier kind of fault, and bytes that are no count.
fn others(graph: &[u8], number: u8, faults: &GraphFaults) -> Vec<Class> {
    let too = |other: u8| number == other && !faults.counts.is_empty();
    vec![
        ("20, a wrong count too", too(20)),
        ("21, a byte of 42 to 47", number == 21 && is_sound_without_last_bytes(graph)),
        ("21, a wrong count too", too(21)),
        ("22, a wrong count too", too(22)),
        ("23, a wrong count too", too(23)),
    ]
}

/// Whether the graph would be sound if bytes 42 to 47 of each record were zero.
fn is_sound_without_last_bytes(graph: &[u8]) -> bool {
    let mut changed = graph.to_vec();
    changed[24..].chunks_exact_mut(48).for_each(|record| record[42..].fill(0));
    Graph::parse(&changed).is_ok()
}

/// How often each of so many slots is among these numbers.
fn times(slots: usize, numbers: impl Iterator<Item = u16>) -> Vec<u16> {
    let mut times = vec![0; slots];
    numbers.for_each(|number| times[usize::from(number)] += 1);
    times
}

fn without_repeats(numbers: impl Iterator<Item = u16>) -> Vec<u16> {
    let mut numbers: Vec<u16> = numbers.collect();
    numbers.sort_unstable();
    numbers.dedup();
    numbers
}

/// A graph that is sound but for its counts, with its mistakes.
struct Counted<'a> {
    graph: Graph<'a>,
    stored: Vec<u16>,
    right: Vec<u16>,
    /// The slots in which these differ.
    wrong: Vec<usize>,
}

fn wrong_counts(graph: &[u8], place: usize) -> Vec<Class> {
    let Ok(graph) = Graph::parse_but_counts(graph, Version::Two) else {
        return vec![];
    };
    let stored: Vec<u16> = graph.slots().map(|slot| slot.count()).collect();
    let right = true_counts(graph)[..stored.len()].to_vec();
    let wrong = (0..stored.len()).filter(|&slot| stored[slot] != right[slot]).collect();
    let counted = Counted { graph, stored, right, wrong };
    let mut classes = [counted.numbers(), counted.mistakes()].concat();
    classes.push(("24, a place of two bytes", place > 255));
    classes
}

impl Counted<'_> {
    /// Which slots are wrong, and by how much.
    fn numbers(&self) -> Vec<Class> {
        let only = match self.wrong[..] {
            [slot] => Some((slot, self.stored[slot], self.right[slot])),
            _ => None,
        };
        let holds =
            |of: fn(u16, u16) -> bool| only.is_some_and(|(_, stored, right)| of(stored, right));
        let traded = matches!(self.wrong[..], [one, other]
            if self.stored[one] == self.right[other] && self.stored[other] == self.right[one]);
        vec![
            ("24, one slot", only.is_some()),
            ("24, several slots", self.wrong.len() > 1),
            ("24, one more", holds(|stored, right| stored == right.wrapping_add(1))),
            ("24, one less", holds(|stored, right| stored == right.wrapping_sub(1))),
            ("24, the high byte alone", holds(|stored, right| stored as u8 == right as u8)),
            ("24, two slots have each other's count", traded),
            (
                "24, an Empty slot alone",
                only.is_some_and(|(slot, ..)| self.graph.slot(slot).is_empty()),
            ),
            ("24, no count at all", self.stored.iter().all(|&count| count == 0)),
            (
                "24, a true count of two bytes",
                self.wrong.iter().any(|&slot| self.right[slot] > 255),
            ),
        ]
    }

    /// Which wrong way of counting all counts agree with.
    fn mistakes(&self) -> Vec<Class> {
        let graph = self.graph;
        let inputs = || graph.slots().flat_map(|slot| slot.inputs());
        let readers = graph.slots().flat_map(|slot| without_repeats(slot.inputs()));
        let live = graph.slots().zip(live_slots(graph)).filter(|(_, live)| *live);
        let live = live.flat_map(|(slot, _)| slot.inputs());
        let is = |numbers: &mut dyn Iterator<Item = u16>| {
            self.stored == times(self.stored.len(), numbers)
        };
        vec![
            ("24, readers are counted and not places", is(&mut readers.chain(graph.outputs()))),
            ("24, graph outputs are not counted", is(&mut inputs())),
            (
                "24, several outputs at one slot count once",
                is(&mut inputs().chain(without_repeats(graph.outputs()))),
            ),
            (
                "24, readers that reach no output are not counted",
                is(&mut live.chain(graph.outputs())),
            ),
        ]
    }
}
