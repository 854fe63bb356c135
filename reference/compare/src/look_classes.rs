//! What the look at a slot's kind, operator and counts met in a search, before
//! any input was entered (request 3/13). All of it is taken from the second
//! program's answer.

use std::ops::Range;

use leafgraph_reference::blocks::Vertex;
use leafgraph_reference::counts::write_true_counts;
use leafgraph_reference::graph::{Graph, HEADER, RECORD};
use leafgraph_reference::matching::least_match;

use crate::classes::Search;
use crate::nearly::MOST_SLOTS;
use crate::tally::Class;

/// Every class must occur. A slot is like an output where it has its kind,
/// operator and counts; a candidate is a slot from the start on that is like
/// the first output. A slot is turned away by these parts alone where it would
/// be the output's image, and the answer another one, if it had the output's.
pub const CLASSES: [&str; 17] = [
    "no slot from the start on, none",
    "no candidate, none",
    "candidates, no slot like the second output, none",
    "several slots from the start on, all candidates, found",
    "several slots from the start on, all candidates, none",
    "second image not the first slot like its output, found",
    "outputs like each other, found",
    "outputs like each other, none",
    "input of a candidate unlike its pattern, found",
    "input of a candidate unlike its pattern, none",
    "turned away by the operator alone, found",
    "turned away by the input count alone, found",
    "turned away by kind and operator alone, found",
    "turned away by kind and attribute count alone, found",
    "turned away by the look alone, none",
    "turned away for the second output by the look alone, found",
    "turned away for the second output by the look alone, none",
];

/// Which of kind, operator, input count and attribute count differ. In sound
/// blocks neither the kind nor the attribute count differs alone.
type Parts = [bool; 4];

const OPERATOR: Parts = [false, true, false, false];
const INPUT_COUNT: Parts = [false, false, true, false];
const KIND_AND_OPERATOR: Parts = [true, true, false, false];
const KIND_AND_ATTRIBUTE_COUNT: Parts = [true, false, false, true];

impl Search<'_> {
    pub fn looks(&self) -> Vec<Class> {
        [self.passed(), self.turned_away()].concat()
    }

    /// Which slots pass the look, and whether an input of one would not.
    fn passed(&self) -> Vec<Class> {
        let (found, two) = (self.found(), self.has_two_outputs());
        let slots = self.graph.slot_count();
        let some_like =
            |mut range: Range<usize>, place| range.any(|slot| self.is_like(slot, place));
        let mut from_start = self.start..slots;
        let candidate = some_like(from_start.clone(), 0);
        let all = from_start.len() > 1 && from_start.all(|slot| self.is_like(slot, 0));
        let alike = two && self.output(0).head() == self.output(1).head();
        let below = self.has_unlike_input();
        vec![
            ("no slot from the start on, none", self.start >= slots),
            ("no candidate, none", self.start < slots && !candidate),
            (
                "candidates, no slot like the second output, none",
                candidate && two && !some_like(0..slots, 1),
            ),
            ("several slots from the start on, all candidates, found", found && all),
            ("several slots from the start on, all candidates, none", !found && all),
            (
                "second image not the first slot like its output, found",
                found && two && some_like(self.tried(1), 1),
            ),
            ("outputs like each other, found", found && alike),
            ("outputs like each other, none", !found && alike),
            ("input of a candidate unlike its pattern, found", found && below),
            ("input of a candidate unlike its pattern, none", !found && below),
        ]
    }

    /// Which slots would have been images but for the look.
    fn turned_away(&self) -> Vec<Class> {
        let (found, two) = (self.found(), self.has_two_outputs());
        let first = self.differing_parts(0);
        let second = if two { self.differing_parts(1) } else { vec![] };
        let by = |parts: Parts| found && first.contains(&parts);
        vec![
            ("turned away by the operator alone, found", by(OPERATOR)),
            ("turned away by the input count alone, found", by(INPUT_COUNT)),
            ("turned away by kind and operator alone, found", by(KIND_AND_OPERATOR)),
            ("turned away by kind and attribute count alone, found", by(KIND_AND_ATTRIBUTE_COUNT)),
            ("turned away by the look alone, none", !found && !first.is_empty()),
            (
                "turned away for the second output by the look alone, found",
                found && !second.is_empty(),
            ),
            (
                "turned away for the second output by the look alone, none",
                !found && !second.is_empty(),
            ),
        ]
    }

    /// The slots that come before the image of the output in this place, or
    /// all where it has none; for the first output from the start on.
    fn tried(&self, place: usize) -> Range<usize> {
        let first = if place == 0 { self.start } else { 0 };
        first..self.output_image(place).unwrap_or(self.graph.slot_count())
    }

    /// Whether a candidate that was tried without success has an input that is
    /// not like its pattern.
    fn has_unlike_input(&self) -> bool {
        let candidates = self.tried(0).filter(|&slot| self.is_like(slot, 0));
        let mut pairs = candidates
            .flat_map(|slot| self.output(0).inputs().zip(self.graph.slot(slot).inputs()))
            .map(|(input, image)| (self.rule.source(input.into()), self.graph.slot(image.into())));
        pairs.any(|(pattern, slot)| !pattern.is_wildcard() && pattern.head() != slot.head())
    }

    /// What differs between the output in this place and each slot that was
    /// turned away by that alone.
    fn differing_parts(&self, place: usize) -> Vec<Parts> {
        if self.graph.slot_count() > MOST_SLOTS {
            return vec![];
        }
        let wanted = self.output(place).head();
        let is_turned_away =
            |&slot: &usize| !self.is_like(slot, place) && self.would_be_image(slot, place);
        let parts = |slot: usize| {
            let head = self.graph.slot(slot).head();
            std::array::from_fn(|part| head[part] != wanted[part])
        };
        self.tried(place).filter(is_turned_away).map(parts).collect()
    }

    /// Whether this slot would be the image of the output in this place, if it
    /// were like it.
    fn would_be_image(&self, slot: usize, place: usize) -> bool {
        let mut changed = self.graph.bytes().to_vec();
        let record = &mut changed[HEADER + RECORD * slot..][..RECORD];
        record.copy_from_slice(&self.made_like(slot, place).record());
        write_true_counts(&mut changed);
        let Ok(graph) = Graph::parse(&changed) else {
            return false;
        };
        let output = usize::from(self.rule.source_output(place));
        let images = least_match(graph, self.rule, self.start);
        images.is_some_and(|images| usize::from(images[output]) == slot)
    }

    /// The vertex in this slot with the kind, operator and counts of the output
    /// in this place. What it has too much is left out; an input that it lacks
    /// names nothing, so that the graph is not sound.
    fn made_like(&self, slot: usize, place: usize) -> Vertex {
        let (slot, output) = (self.graph.slot(slot), self.output(place));
        Vertex {
            kind: output.kind(),
            operator: output.operator(),
            inputs: (0..output.input_count()).map(|place| slot.input(place)).collect(),
            attributes: (0..output.attribute_count()).map(|place| slot.attribute(place)).collect(),
        }
    }
}
