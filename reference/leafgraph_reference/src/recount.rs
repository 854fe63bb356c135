//! Request 5/13 judged on the bytes that a call leaves, whichever way they were
//! made: each slot's count counted once more, and what an import may change. It is
//! a second telling of the request, too.

use crate::cleanup::Fault;
use crate::counts::write_counts;
use crate::fields::put_u16;
use crate::graph::{Graph, Version, MAX_SLOTS, VERSION};

pub const FALSE_COUNT: Fault = "a stored count is not the number of places that name the slot";
pub const OTHER_BYTES: Fault = "an import has changed more than the version and the counts";

/// FALSE_COUNT where a count of a block of version 2 is false, and also where the
/// block is not sound in all else. The numbers in all used places are put in order:
/// those of one slot stand together.
pub fn count_faults(block: &[u8]) -> Vec<Fault> {
    let Ok(graph) = Graph::parse_but_counts(block, Version::Two) else {
        return vec![FALSE_COUNT];
    };
    let inputs = graph.slots().flat_map(|slot| slot.inputs());
    let mut named: Vec<u16> = inputs.chain(graph.outputs()).collect();
    named.sort_unstable();
    let below = |number: u16| named.partition_point(|&other| other < number);
    let mut slots = graph.slots().zip(0..);
    let true_counts =
        slots.all(|(slot, own)| usize::from(slot.count()) == below(own + 1) - below(own));
    if true_counts {
        vec![]
    } else {
        vec![FALSE_COUNT]
    }
}

/// What is wrong with an import of a block with a header that was done.
pub fn import_faults(old: &[u8], new: &[u8]) -> Vec<Fault> {
    let mut faults = count_faults(new);
    let mut back = new.to_vec();
    put_u16(&mut back, VERSION, Version::One.number());
    write_counts(&mut back, &[0; MAX_SLOTS]);
    if back != old {
        faults.push(OTHER_BYTES);
    }
    faults
}
