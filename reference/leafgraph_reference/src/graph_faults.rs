//! All faults of a graph block, where the check gives only the first: so that
//! tests and the comparison know what was tried. It is a second telling of
//! "the first kind that holds anywhere is given", too.

use crate::graph::{header_parts, Graph, Version, HEADER, OUTPUT_PLACES, RECORD};
use crate::operators::PLACES;
use crate::reply::{Refusal, GRAPH_COUNT, GRAPH_CYCLE, GRAPH_NAME, GRAPH_RECORD};

/// Larger graphs are not looked at: a set of slots is 64 bits.
const MOST_SLOTS: usize = 64;

/// The places of each kind of fault, the lowest first. Where an earlier kind
/// makes a block unreadable, there are none of the later ones.
#[derive(Clone, Debug, Default, PartialEq, Eq)]
pub struct GraphFaults {
    /// The parts of the header that are wrong, the length among them, in the
    /// order of the check.
    pub header: Vec<usize>,
    pub records: Vec<usize>,
    /// Slots with an input that names no vertex. A slot with a bad record is
    /// taken for a vertex without inputs.
    pub inputs: Vec<usize>,
    /// Places of outputs that name no vertex.
    pub outputs: Vec<usize>,
    /// The slots of each cycle; cycles with a slot in common are one. Inputs
    /// that name no vertex are no edges.
    pub cycles: Vec<Vec<usize>>,
    /// Slots on no cycle that read from one, over any number of edges.
    pub reading_from_cycles: Vec<usize>,
    /// Slots on no cycle that a cycle reads from.
    pub read_by_cycles: Vec<usize>,
    /// Slots whose count is wrong, whatever the bad records read. Version 1 has no
    /// counts.
    pub counts: Vec<usize>,
}

impl GraphFaults {
    /// Of a block that is to be one of version 2. None for a block that is not
    /// looked at.
    pub fn of(bytes: &[u8]) -> Option<GraphFaults> {
        GraphFaults::of_version(bytes, Version::Two)
    }

    /// The same of a block that is to be one of this version.
    pub fn of_version(bytes: &[u8], version: Version) -> Option<GraphFaults> {
        if bytes.len() > HEADER + RECORD * MOST_SLOTS {
            return None;
        }
        let mut faults = GraphFaults::default();
        if bytes.len() < HEADER {
            faults.header = vec![header_parts(&[0; HEADER], version).len() - 1];
            return Some(faults);
        }
        faults.header = unsound(header_parts(bytes, version));
        if is_readable(bytes) {
            faults.list(Graph::view(bytes), version);
        }
        Some(faults)
    }

    fn list(&mut self, graph: Graph, version: Version) {
        let slots = 0..graph.slot_count();
        let (sound, bad): (Vec<usize>, Vec<usize>) =
            slots.partition(|&slot| graph.slot(slot).is_sound(version));
        let misnames = |&slot: &usize| !graph.inputs_name_vertices(graph.slot(slot));
        self.records = bad;
        self.inputs = sound.iter().copied().filter(misnames).collect();
        self.outputs = unsound(graph.outputs().map(|output| graph.names_vertex(output)));
        self.list_cycles(&reached_sets(graph, &sound));
        if version == Version::Two {
            self.list_counts(graph, &sound);
        }
    }

    /// A slot with a bad record has no inputs that count, or up to six that name
    /// one slot.
    fn list_counts(&mut self, graph: Graph, sound: &[usize]) {
        let outputs = graph.outputs().map(usize::from);
        let inputs = sound.iter().flat_map(|&slot| graph.slot(slot).inputs().map(usize::from));
        let named: Vec<usize> = inputs.chain(outputs).collect();
        let unknown = PLACES * self.records.len();
        let is_wrong = |&slot: &usize| {
            let least = named.iter().filter(|&&other| other == slot).count();
            !(least..=least + unknown).contains(&graph.slot(slot).count().into())
        };
        self.counts = (0..graph.slot_count()).filter(is_wrong).collect();
    }

    fn list_cycles(&mut self, reached: &[u64]) {
        let reaches = |from: usize, to: usize| reached[from] >> to & 1 == 1;
        let slots = 0..reached.len();
        let (on, off): (Vec<usize>, Vec<usize>) = slots.partition(|&slot| reaches(slot, slot));
        for &slot in &on {
            let together =
                |cycle: &&mut Vec<usize>| reaches(cycle[0], slot) && reaches(slot, cycle[0]);
            match self.cycles.iter_mut().find(together) {
                Some(cycle) => cycle.push(slot),
                None => self.cycles.push(vec![slot]),
            }
        }
        let reading = |&slot: &usize| on.iter().any(|&other| reaches(other, slot));
        let read = |&slot: &usize| on.iter().any(|&other| reaches(slot, other));
        self.reading_from_cycles = off.iter().copied().filter(reading).collect();
        self.read_by_cycles = off.iter().copied().filter(read).collect();
    }

    /// What a check must refuse with.
    pub fn first(&self) -> Option<Refusal> {
        if !self.header.is_empty() {
            return Some(Refusal::GRAPH_HEADER);
        }
        let cycles: Vec<usize> = self.cycles.concat();
        let kinds = [
            (GRAPH_RECORD, &self.records),
            (GRAPH_NAME, &self.inputs),
            (GRAPH_NAME, &self.outputs),
            (GRAPH_CYCLE, &cycles),
            (GRAPH_COUNT, &self.counts),
        ];
        let (number, places) = kinds.into_iter().find(|(_, places)| !places.is_empty())?;
        let place = *places.iter().min()? as u32;
        Some(Refusal { number, place })
    }
}

/// The places that are not sound.
pub(crate) fn unsound(places: impl IntoIterator<Item = bool>) -> Vec<usize> {
    let places = places.into_iter().enumerate();
    places.filter(|(_, sound)| !sound).map(|(place, _)| place).collect()
}

/// Whether N and the output count can be read as they are.
fn is_readable(bytes: &[u8]) -> bool {
    let graph = Graph::view(bytes);
    graph.slot_count() > 0
        && (1..=OUTPUT_PLACES).contains(&graph.output_count())
        && bytes.len() == HEADER + RECORD * graph.slot_count()
}

/// A bit for each slot that a slot has a path of one or more edges to, from
/// input to reader: over one edge, then over paths through slot 0, through slots
/// 0 and 1, and so on.
fn reached_sets(graph: Graph, sound: &[usize]) -> Vec<u64> {
    let mut reached = vec![0; graph.slot_count()];
    for &reader in sound {
        let inputs = graph.slot(reader).inputs();
        for input in inputs.filter(|&input| graph.names_vertex(input)) {
            reached[usize::from(input)] |= 1 << reader;
        }
    }
    for through in 0..reached.len() {
        let onward = reached[through];
        for set in reached.iter_mut().filter(|set| **set >> through & 1 == 1) {
            *set |= onward;
        }
    }
    reached
}
