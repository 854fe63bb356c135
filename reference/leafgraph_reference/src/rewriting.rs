//! "What a rewriting leaves".

use crate::attributes::results;
use crate::counts::write_true_counts;
use crate::cycle::has_cycle;
use crate::fields::put_u16;
use crate::graph::{record_mut, write_empty, write_record, Graph, HEADER, MAX_SLOTS, RECORD};
use crate::matching::Images;
use crate::operators::{PLACES, PROJ};
use crate::removal::removed_slots;
use crate::reply::Refusal;
use crate::rule::{Rule, MAX_FIXED, MAX_OUTPUTS};

/// The attributes of each target vertex.
type TargetAttributes = [[i32; PLACES]; MAX_FIXED];

/// Writes the new table for this match into a buffer of the old one's length
/// that nobody has lent: a refusal may still follow. The refusals come in
/// document 01's order: 5, then 6, then 7.
pub fn write_new_table(
    new: &mut [u8],
    old: Graph,
    rule: Rule,
    images: &Images,
) -> Result<(), Refusal> {
    let attributes = target_attributes(old, rule, images).ok_or(Refusal::NO_RESULT)?;
    let removed = removed_slots(old, rule, images);
    let slots = target_slots(old, rule, &removed).ok_or(Refusal::NO_ROOM)?;
    let plan = Plan { old, rule, images, removed, slots };
    new.copy_from_slice(old.bytes());
    plan.redirect(new);
    plan.remove(new);
    plan.write_targets(new, &attributes);
    if has_cycle(Graph::view(new)) {
        return Err(Refusal::CYCLE);
    }
    write_true_counts(new);
    Ok(())
}

/// "their attributes are the results of their expressions, read from the old
/// table". None when "a target attribute has no result, or a Proj index is
/// below 1".
fn target_attributes(old: Graph, rule: Rule, images: &Images) -> Option<TargetAttributes> {
    let results = results(old, rule, images);
    let mut attributes = [[0; PLACES]; MAX_FIXED];
    for (vertex, pattern) in rule.targets().enumerate() {
        for (place, node) in pattern.attributes().enumerate() {
            let number = results.at(rule.target_index(vertex), node)?;
            if pattern.kind() == PROJ && number < 1 {
                return None;
            }
            attributes[vertex][place] = number;
        }
    }
    Some(attributes)
}

/// "Target vertices, in order, take the lowest Empty slots, those just freed
/// among them." None when "T exceeds Empty slots plus removed ones"; by
/// request 1/13 this test "counts only slots really removed".
fn target_slots(old: Graph, rule: Rule, removed: &[bool]) -> Option<[u16; MAX_FIXED]> {
    let mut slots = [0; MAX_FIXED];
    let mut free = (0..old.slot_count()).filter(|&slot| old.slot(slot).is_empty() || removed[slot]);
    for slot in slots.iter_mut().take(rule.target_count()) {
        *slot = free.next()? as u16;
    }
    Some(slots)
}

/// All that decides the new table, read from the old one and the rule.
struct Plan<'a> {
    old: Graph<'a>,
    rule: Rule<'a>,
    images: &'a Images,
    /// For each slot of the old table, whether it is freed.
    removed: [bool; MAX_SLOTS],
    /// The slots of the target vertices.
    slots: [u16; MAX_FIXED],
}

impl Plan<'_> {
    /// The slot that a target place stands for: a rule input's image or a
    /// target vertex's slot.
    fn slot_of(&self, place: u8) -> u16 {
        match place.checked_sub(self.rule.target_base()) {
            Some(target) => self.slots[usize::from(target)],
            None => self.images[usize::from(place)],
        }
    }

    /// What a place that named this slot names now. One step only: the answer
    /// is never redirected again, so all is "all at once".
    fn redirected(&self, named: u16) -> u16 {
        let rule = self.rule;
        let replaced = (0..rule.output_count())
            .find(|&k| self.images[usize::from(rule.source_output(k))] == named);
        replaced.map_or(named, |k| self.slot_of(rule.target_output(k)))
    }

    /// "All input places of vertices that stay (rule inputs too) and all graph
    /// outputs that name the image of source output k now name the place of
    /// target output k".
    fn redirect(&self, new: &mut [u8]) {
        let replaced = self.replaced();
        for (number, slot) in self.old.slots().enumerate() {
            for (place, input) in slot.inputs().enumerate() {
                if replaced.contains(&input) && !self.removed[number] {
                    let at = HEADER + RECORD * number + 4 + 2 * place;
                    put_u16(new, at, self.redirected(input));
                }
            }
        }
        for (place, output) in self.old.outputs().enumerate() {
            put_u16(new, 10 + 2 * place, self.redirected(output));
        }
    }

    /// "A replaced output is the image of a source output." With one output
    /// it stands twice.
    fn replaced(&self) -> [u16; MAX_OUTPUTS] {
        let image = |k: usize| self.images[usize::from(self.rule.source_output(k))];
        [image(0), image(self.rule.output_count() - 1)]
    }

    /// Removed vertices' "slots become Empty".
    fn remove(&self, new: &mut [u8]) {
        for slot in (0..self.old.slot_count()).filter(|&slot| self.removed[slot]) {
            write_empty(record_mut(new, slot as u16));
        }
    }

    /// "their inputs name the rule inputs' images and the target vertices'
    /// slots". They are written after the redirection and so are not touched
    /// by it, though such a slot may have been a replaced output's.
    fn write_targets(&self, new: &mut [u8], attributes: &TargetAttributes) {
        for (vertex, pattern) in self.rule.targets().enumerate() {
            let mut inputs = [0; PLACES];
            for (place, input) in pattern.inputs().enumerate() {
                inputs[place] = self.slot_of(input);
            }
            write_record(
                record_mut(new, self.slots[vertex]),
                pattern.head(),
                &inputs[..pattern.input_count()],
                &attributes[vertex][..pattern.attribute_count()],
            );
        }
    }
}
