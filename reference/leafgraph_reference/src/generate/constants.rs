//! Consts of a match that something else names, too: a converter "stores a
//! constant once for twenty readers" (request 1/13).

use crate::blocks::{GraphParts, PatternParts};
use crate::operators::{CONST, WILDCARD};
use crate::random::Random;

use super::rules::is_input_kind;
use super::tables::{add_output, add_vertex, read_instead, reader};

/// In so many of a hundred cases a Const is left as it is.
const LEFT: usize = 40;

/// Lets something outside the match name its Consts, some of them.
pub(super) fn share_constants(
    random: &mut Random,
    graph: &mut GraphParts,
    source: &[PatternParts],
    images: &[u16],
) {
    for slot in images_of_kind(source, images, CONST) {
        if random.chance(LEFT) {
            continue;
        }
        name_outside(random, graph, source, images, slot);
        while random.chance(25) {
            name_outside(random, graph, source, images, slot);
        }
    }
}

fn images_of_kind(source: &[PatternParts], images: &[u16], kind: u8) -> Vec<u16> {
    let pairs = source.iter().zip(images);
    pairs.filter(|(pattern, _)| pattern.kind == kind).map(|(_, &image)| image).collect()
}

/// A graph output, a new reader with or without an output, the image of a
/// wildcard, or any vertex outside the match names this Const now. A Const
/// reads nothing, so that no cycle is closed.
fn name_outside(
    random: &mut Random,
    graph: &mut GraphParts,
    source: &[PatternParts],
    images: &[u16],
    slot: u16,
) {
    let vertex_of = |reader: &u16| images.iter().position(|image| image == reader);
    let kind_of = |reader: &u16| vertex_of(reader).map(|vertex| source[vertex].kind);
    let mut readers: Vec<u16> = (0..graph.slots.len() as u16).collect();
    match random.below(7) {
        0 | 1 => return add_output(random, graph, slot),
        2 | 3 => {
            let reader = reader(random, slot, slot);
            let added = add_vertex(random, graph, reader).filter(|_| random.chance(40));
            return added.into_iter().for_each(|added| add_output(random, graph, added));
        }
        4 | 5 => readers.retain(|reader| kind_of(reader) == Some(WILDCARD)),
        _ => readers.retain(|reader| kind_of(reader).is_none_or(is_input_kind)),
    }
    readers.retain(|&reader| !graph.slots[usize::from(reader)].inputs.is_empty());
    if !readers.is_empty() {
        let reader = random.pick(&readers);
        read_instead(random, graph, reader, slot);
    }
}

/// What reads one of the match's Consts, or the image of a wildcard, reads
/// another one of the Consts instead: two of the rule's vertices would be
/// matched to one slot.
pub(super) fn merge_constants(
    random: &mut Random,
    graph: &mut GraphParts,
    source: &[PatternParts],
    images: &[u16],
) {
    let [mut constants, mut wildcards] =
        [CONST, WILDCARD].map(|kind| images_of_kind(source, images, kind));
    random.shuffle(&mut constants);
    random.shuffle(&mut wildcards);
    let Some(read) = constants.pop() else {
        return;
    };
    if let Some(left) = constants.pop().or(wildcards.pop()) {
        let inputs = graph.slots.iter_mut().flat_map(|vertex| &mut vertex.inputs);
        inputs.filter(|input| **input == left).for_each(|input| *input = read);
    }
}
