//! Request 5/13's count of a slot: "the number of input places and graph outputs
//! that name this slot". Places are counted and not readers, and every reader's,
//! whether or not it reaches an output.

use crate::fields::put_u16;
use crate::graph::{Graph, HEADER, MAX_SLOTS, OUTPUT_PLACES, RECORD};
use crate::operators::PLACES;

/// "Version 2 of the graph block stores it in bytes 40-41" of the record.
pub const COUNT: usize = 40;

/// A count for each slot.
pub type Counts = [u16; MAX_SLOTS];

/// The counts that are true. Also of a graph that is not sound, as far as it can be
/// read: a number that names no slot, and a place that no record has, is passed
/// over.
pub fn true_counts(graph: Graph) -> Counts {
    let mut counts = [0; MAX_SLOTS];
    let inputs = graph.slots().flat_map(|slot| slot.inputs().take(PLACES));
    for named in inputs.chain(graph.outputs().take(OUTPUT_PLACES)) {
        if let Some(count) = counts.get_mut(usize::from(named)) {
            *count += 1;
        }
    }
    counts
}

/// The slots whose stored count is not the true one, the lowest first.
pub fn wrong_counts(graph: Graph<'_>) -> impl Iterator<Item = usize> + '_ {
    let stored = graph.slots().map(|slot| slot.count()).zip(true_counts(graph)).enumerate();
    stored.filter(|(_, (stored, count))| stored != count).map(|(slot, _)| slot)
}

/// Writes the true count into each record of a block that has a header, and so
/// many records as it tells of.
pub fn write_true_counts(block: &mut [u8]) {
    if block.len() >= HEADER {
        write_counts(block, &true_counts(Graph::view(block)));
    }
}

/// Writes these counts, one into each record.
pub fn write_counts(block: &mut [u8], counts: &[u16]) {
    for (record, &count) in block[HEADER..].chunks_exact_mut(RECORD).zip(counts) {
        put_u16(record, COUNT, count);
    }
}
