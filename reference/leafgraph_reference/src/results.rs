//! Demand 3, judged on one accepted rewriting under one meaning.

use crate::attributes;
use crate::graph::Graph;
use crate::matching::Images;
use crate::meaning::{Meaning, Term};
use crate::random::Random;
use crate::removal::removed_slots;
use crate::rule::{Pattern, Rule};

/// An accepted rewriting: the old table, the new one, and the match.
#[derive(Clone, Copy)]
pub struct Accepted<'a> {
    pub old: Graph<'a>,
    pub new: Graph<'a>,
    pub rule: Rule<'a>,
    pub images: &'a Images,
}

/// What one meaning shows of an accepted rewriting.
#[derive(Clone, Copy, Debug, Default, PartialEq, Eq)]
pub struct Verdict {
    /// Staying vertices without a path from a replaced output, and those of
    /// them whose result is not the same.
    pub apart: usize,
    pub apart_changed: usize,
    /// The same of staying vertices with such a path.
    pub below: usize,
    pub below_changed: usize,
    /// Graph outputs that named a replaced output or a vertex below one, and
    /// graph outputs whose result is not the same.
    pub outputs_below: usize,
    pub outputs_changed: usize,
    /// Whether "each target output has the same result as its source output,
    /// with the attributes of this match".
    pub same_meaning: bool,
}

impl Verdict {
    /// "Every vertex that stays and has no path to it from a replaced output
    /// has the same result after as before."
    pub fn first_half_holds(self) -> bool {
        self.apart_changed == 0
    }

    /// "Then every vertex that stays has the same result after as before. So
    /// has every graph output, place by place".
    pub fn second_half_holds(self) -> bool {
        !self.same_meaning || self.apart_changed + self.below_changed + self.outputs_changed == 0
    }
}

/// How often the rule's inputs are given random results. What the meanings
/// here make equal for random results they make equal for all; a second time
/// leaves nothing to chance.
const SAMPLES: usize = 2;

impl Accepted<'_> {
    pub fn judge(&self, meaning: &mut Meaning, random: &mut Random) -> Verdict {
        let before = meaning.results(self.old);
        let after = meaning.results(self.new);
        let below = self.below_replaced();
        let stays = self.stays();
        let same_meaning = (0..SAMPLES).all(|_| self.sides_agree(meaning, random));
        let mut verdict = Verdict { same_meaning, ..Verdict::default() };
        for slot in (0..self.old.slot_count()).filter(|&slot| stays[slot]) {
            let changed = usize::from(before[slot] != after[slot]);
            let (count, changes) = match below[slot] {
                true => (&mut verdict.below, &mut verdict.below_changed),
                false => (&mut verdict.apart, &mut verdict.apart_changed),
            };
            *count += 1;
            *changes += changed;
        }
        let old_outputs = self.old.outputs().map(usize::from);
        for (old, new) in old_outputs.zip(self.new.outputs().map(usize::from)) {
            verdict.outputs_below += usize::from(below[old]);
            verdict.outputs_changed += usize::from(before[old] != after[new]);
        }
        verdict
    }

    /// "'Stays' means not removed": for each slot of the old table, whether a
    /// vertex stays there.
    fn stays(&self) -> Vec<bool> {
        let removed = removed_slots(self.old, self.rule, self.images);
        self.old.slots().zip(removed).map(|(slot, removed)| !slot.is_empty() && !removed).collect()
    }

    /// For each slot of the old table, whether there is a path to it from a
    /// replaced output, "from input to reader". Slots need not follow the
    /// edges, so it is gone over until nothing is new.
    fn below_replaced(&self) -> Vec<bool> {
        let mut below = vec![false; self.old.slot_count()];
        for output in self.rule.source_outputs() {
            below[usize::from(self.images[usize::from(output)])] = true;
        }
        loop {
            let mut grown = false;
            for slot in 0..below.len() {
                let mut inputs = self.old.slot(slot).inputs();
                if !below[slot] && inputs.any(|input| below[usize::from(input)]) {
                    below[slot] = true;
                    grown = true;
                }
            }
            if !grown {
                return below;
            }
        }
    }

    /// Whether the rule's two sides give the same, output by output, where
    /// its inputs have random results.
    fn sides_agree(&self, meaning: &mut Meaning, random: &mut Random) -> bool {
        let rule = self.rule;
        let source = self.source_results(meaning, random);
        let target = self.target_results(meaning, &source);
        let place = |place: u8| match place.checked_sub(rule.target_base()) {
            Some(vertex) => target[usize::from(vertex)],
            None => source[usize::from(place)],
        };
        let mut pairs = rule.source_outputs().zip(rule.target_outputs());
        pairs.all(|(output, target_output)| source[usize::from(output)] == place(target_output))
    }

    /// "Each rule input is given any result [...]. Every other source vertex
    /// has the function's result for its kind, its operator, its image's
    /// attributes in the old table and the results of its own inputs in the
    /// rule."
    fn source_results(&self, meaning: &mut Meaning, random: &mut Random) -> Vec<u64> {
        let mut results: Vec<u64> = vec![];
        for (pattern, &image) in self.rule.sources().zip(self.images) {
            results.push(match pattern.is_input_kind() {
                true => random.number(),
                false => {
                    let image = self.old.slot(image.into());
                    let attributes = image.attributes().map(i64::from).collect();
                    let inputs = pattern.inputs().map(|input| results[usize::from(input)]);
                    let inputs = inputs.collect();
                    meaning.result(term(pattern, attributes, inputs))
                }
            });
        }
        results
    }

    /// "A target vertex has it likewise, its attributes being the results of
    /// its expressions for this match."
    fn target_results(&self, meaning: &mut Meaning, source: &[u64]) -> Vec<u64> {
        let numbers = attributes::results(self.old, self.rule, self.images);
        let base = self.rule.target_base();
        let mut results: Vec<u64> = vec![];
        for (vertex, pattern) in self.rule.targets().enumerate() {
            let index = self.rule.target_index(vertex);
            let number = |node: u8| numbers.at(index, node).expect("it was accepted").into();
            let inputs = pattern.inputs().map(|place| match place.checked_sub(base) {
                Some(vertex) => results[usize::from(vertex)],
                None => source[usize::from(place)],
            });
            let (attributes, inputs) = (pattern.attributes().map(number), inputs.collect());
            results.push(meaning.result(term(pattern, attributes.collect(), inputs)));
        }
        results
    }
}

fn term(pattern: Pattern, attributes: Vec<i64>, inputs: Vec<u64>) -> Term {
    Term { kind: pattern.kind(), operator: pattern.operator(), attributes, inputs }
}
