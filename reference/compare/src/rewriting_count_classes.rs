//! Whose counts a rewriting changes (request 5/13).

use leafgraph_reference::graph::Graph;
use leafgraph_reference::matching::Images;
use leafgraph_reference::operators::CONST;
use leafgraph_reference::removal::removed_slots;
use leafgraph_reference::rule::{Pattern, Rule};

use crate::tally::Class;

/// Every class must occur.
pub const CLASSES: [&str; 11] = [
    "count of a rule input's image goes up",
    "count of a rule input's image goes down",
    "count of a rule input's image goes down to 0",
    "count of a rule input's image stays",
    "count of a Const that stays goes down",
    "count of a Const that stays goes down by several",
    "count of a target vertex above 1",
    "count of a target vertex from graph outputs and readers",
    "slot taken by a target vertex with another count",
    "a count of two bytes goes up or down",
    "a count of two bytes in a slot that was not so",
];

/// An accepted rewriting.
pub struct Changes<'a> {
    pub old: Graph<'a>,
    pub new: Graph<'a>,
    pub rule: Rule<'a>,
    pub images: &'a Images,
}

impl Changes<'_> {
    pub fn classes(&self) -> Vec<Class> {
        [self.of_rule_inputs(), self.of_consts(), self.of_targets(), self.large()].concat()
    }

    /// The count of this slot before and after.
    fn of_slot(&self, slot: usize) -> (u16, u16) {
        (self.old.slot(slot).count(), self.new.slot(slot).count())
    }

    /// The images of the source vertices of which this holds.
    fn images_of(&self, holds: fn(Pattern) -> bool) -> impl Iterator<Item = usize> + '_ {
        let pairs = self.rule.sources().zip(self.images);
        pairs.filter(move |(pattern, _)| holds(*pattern)).map(|(_, &image)| image.into())
    }

    fn of_rule_inputs(&self) -> Vec<Class> {
        let slots = || self.images_of(|pattern| pattern.is_input_kind());
        let inputs = || slots().map(|slot| self.of_slot(slot));
        vec![
            ("count of a rule input's image goes up", inputs().any(|(old, new)| old < new)),
            ("count of a rule input's image goes down", inputs().any(|(old, new)| old > new)),
            (
                "count of a rule input's image goes down to 0",
                inputs().any(|(old, new)| old > 0 && new == 0),
            ),
            ("count of a rule input's image stays", inputs().any(|(old, new)| old == new)),
        ]
    }

    fn of_consts(&self) -> Vec<Class> {
        let removed = removed_slots(self.old, self.rule, self.images);
        let consts = self.images_of(|pattern| pattern.kind() == CONST);
        let lost: Vec<u16> = consts
            .filter(|&slot| !removed[slot])
            .map(|slot| self.of_slot(slot))
            .map(|(old, new)| old - new)
            .collect();
        vec![
            ("count of a Const that stays goes down", lost.iter().any(|&lost| lost > 0)),
            ("count of a Const that stays goes down by several", lost.iter().any(|&lost| lost > 1)),
        ]
    }

    /// The slots that target vertices took.
    fn taken(&self) -> Vec<usize> {
        let removed = removed_slots(self.old, self.rule, self.images);
        let is_free = |&slot: &usize| self.old.slot(slot).is_empty() || removed[slot];
        let free = (0..self.old.slot_count()).filter(is_free);
        free.take(self.rule.target_count()).collect()
    }

    fn of_targets(&self) -> Vec<Class> {
        let taken = self.taken();
        let outputs =
            |slot: usize| self.new.outputs().filter(|&output| usize::from(output) == slot).count();
        let both = |&slot: &usize| (1..self.of_slot(slot).1.into()).contains(&outputs(slot));
        vec![
            (
                "count of a target vertex above 1",
                taken.iter().any(|&slot| self.of_slot(slot).1 > 1),
            ),
            ("count of a target vertex from graph outputs and readers", taken.iter().any(both)),
            (
                "slot taken by a target vertex with another count",
                taken.iter().map(|&slot| self.of_slot(slot)).any(|(old, new)| old != new),
            ),
        ]
    }

    fn large(&self) -> Vec<Class> {
        let slots = || (0..self.old.slot_count()).map(|slot| self.of_slot(slot));
        vec![
            (
                "a count of two bytes goes up or down",
                slots().any(|(old, new)| old != new && old.min(new) > 255),
            ),
            (
                "a count of two bytes in a slot that was not so",
                slots().any(|(old, new)| old < 256 && new > 255),
            ),
        ]
    }
}
