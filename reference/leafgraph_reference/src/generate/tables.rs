//! What several generators do to a graph: put a vertex into it, let something
//! name a slot, give its slots another order, ask for a path.

use crate::blocks::{add, call, projection, relu, tuple, GraphParts, Vertex};
use crate::graph::{MAX_SLOTS, OUTPUT_PLACES};
use crate::operators::{EMPTY, MEAN, PLACES};
use crate::random::Random;

pub(super) fn empty_slots(graph: &GraphParts) -> Vec<usize> {
    (0..graph.slots.len()).filter(|&slot| graph.slots[slot].kind == EMPTY).collect()
}

/// Puts a vertex into an Empty slot or a new one. None where there is neither.
pub(super) fn add_vertex(
    random: &mut Random,
    graph: &mut GraphParts,
    vertex: Vertex,
) -> Option<u16> {
    let slots = graph.slots.len();
    let empty = empty_slots(graph);
    let slot = match empty.is_empty() {
        false => random.pick(&empty),
        true if slots < MAX_SLOTS => slots,
        true => return None,
    };
    match slot < slots {
        true => graph.slots[slot] = vertex,
        false => graph.slots.push(vertex),
    }
    Some(slot as u16)
}

/// A vertex that reads this slot, perhaps in two places, and perhaps the
/// other one too.
pub(super) fn reader(random: &mut Random, read: u16, other: u16) -> Vertex {
    match random.below(6) {
        0 => add(read, read),
        1 => add(other, read),
        2 => tuple(&[read, other, read]),
        3 => projection(read, 1),
        4 => call(MEAN, &[read], &[2]),
        _ => relu(read),
    }
}

/// New readers of this slot with all their places, so many that its count takes
/// two bytes, as far as there is room for them.
pub(super) fn crowd(random: &mut Random, graph: &mut GraphParts, slot: u16) {
    let room = MAX_SLOTS - graph.slots.len();
    let readers = random.within(43, 60).min(room);
    graph.slots.extend(vec![tuple(&[slot; PLACES]); readers]);
}

/// One place of the reader, where it has any, names this slot now, unless
/// that closes a cycle.
pub(super) fn read_instead(random: &mut Random, graph: &mut GraphParts, reader: u16, read: u16) {
    let closes_cycle = is_below(graph, reader, read);
    let inputs = &mut graph.slots[usize::from(reader)].inputs;
    if !inputs.is_empty() && !closes_cycle {
        let place = random.below(inputs.len());
        inputs[place] = read;
    }
}

/// A graph output names this slot, one more or one of those there are.
pub(super) fn add_output(random: &mut Random, graph: &mut GraphParts, slot: u16) {
    let outputs = &mut graph.outputs;
    match outputs.len() < OUTPUT_PLACES && random.chance(60) {
        true => outputs.push(slot),
        false => {
            let place = random.below(outputs.len());
            outputs[place] = slot;
        }
    }
}

/// The same graph with its slots in another order. The images, which name
/// slots too, follow.
pub(super) fn renumber(random: &mut Random, graph: &mut GraphParts, images: &mut [u16]) {
    let mut order: Vec<u16> = (0..graph.slots.len() as u16).collect();
    random.shuffle(&mut order);
    let mut slots = graph.slots.clone();
    for (old, vertex) in graph.slots.drain(..).enumerate() {
        slots[usize::from(order[old])] = vertex;
    }
    graph.slots = slots;
    let inputs = graph.slots.iter_mut().flat_map(|vertex| &mut vertex.inputs);
    let named = inputs.chain(&mut graph.outputs).chain(images);
    named.for_each(|slot| *slot = order[usize::from(*slot)]);
}

/// Whether the upper vertex has a path to the lower one.
pub(super) fn is_below(graph: &GraphParts, upper: u16, lower: u16) -> bool {
    let mut seen = vec![false; graph.slots.len()];
    let mut open = vec![lower];
    while let Some(slot) = open.pop() {
        if slot == upper {
            return true;
        }
        if !std::mem::replace(&mut seen[usize::from(slot)], true) {
            open.extend(&graph.slots[usize::from(slot)].inputs);
        }
    }
    false
}
