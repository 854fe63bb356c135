//! What a rewriting removes.

use crate::graph::{Graph, MAX_SLOTS};
use crate::matching::Images;
use crate::operators::CONST;
use crate::rule::Rule;

/// For each slot, whether the vertex in it is removed. "Images of non-input
/// source vertices are removed"; of them a Const, by request 1/13, "only if
/// all its reads come from images of non-input source vertices and no graph
/// output names it; otherwise it is a staying vertex". A reader counts
/// whether or not it reaches an output.
pub fn removed_slots(old: Graph, rule: Rule, images: &Images) -> [bool; MAX_SLOTS] {
    let mut inside = [false; MAX_SLOTS];
    for (pattern, &image) in rule.sources().zip(images) {
        inside[usize::from(image)] = !pattern.is_input_kind();
    }
    let mut removed = inside;
    let outside = old.slots().zip(inside).filter(|(_, inside)| !inside);
    let reads = outside.flat_map(|(slot, _)| slot.inputs());
    for named in reads.chain(old.outputs()).map(usize::from) {
        if old.slot(named).kind() == CONST {
            removed[named] = false;
        }
    }
    removed
}
