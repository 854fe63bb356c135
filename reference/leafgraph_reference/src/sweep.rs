//! Request 4/13's sweep: "Dead stages pile up."

use std::mem::replace;

use crate::counts::write_true_counts;
use crate::graph::{record_mut, write_empty, Graph, MAX_SLOTS};
use crate::operators::VARIABLE;

/// A flag for each slot.
pub type Slots = [bool; MAX_SLOTS];

/// The vertices from which a graph output is reached.
pub fn live_slots(graph: Graph) -> Slots {
    reaching(graph, graph.outputs())
}

/// The vertices from which one of these is reached. "Every vertex reaches
/// itself, here, in a rule and in document 02": so these are among them, and
/// with a vertex all that it reads.
pub fn reaching(graph: Graph, vertices: impl Iterator<Item = u16>) -> Slots {
    let mut reaching = [false; MAX_SLOTS];
    let mut open: Vec<usize> = vertices.map(usize::from).collect();
    while let Some(slot) = open.pop() {
        if !replace(&mut reaching[slot], true) {
            open.extend(graph.slot(slot).inputs().map(usize::from));
        }
    }
    reaching
}

/// What becomes Empty: "every vertex from which no graph output is reached [...],
/// except Variables, which the phone feeds by number". These stay, read or not.
pub fn dead_slots(graph: Graph) -> Slots {
    let mut dead = live_slots(graph).map(|live| !live);
    for (slot, vertex) in graph.slots().enumerate() {
        dead[slot] &= !vertex.is_empty() && vertex.kind() != VARIABLE;
    }
    dead[graph.slot_count()..].fill(false);
    dead
}

/// Makes these slots Empty. What they read is named less often then.
pub fn remove(block: &mut [u8], dead: &Slots) {
    for slot in (0..MAX_SLOTS).filter(|&slot| dead[slot]) {
        write_empty(record_mut(block, slot as u16));
    }
    write_true_counts(block);
}
