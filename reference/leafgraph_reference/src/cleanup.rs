//! Request 4/13 judged on one sweep or squeeze that was done: what must hold of
//! the two tables, whichever way the new one was made. It is a second telling of
//! the request, too.

use crate::graph::{Graph, Slot, HEADER};
use crate::meaning::Meaning;
use crate::operators::VARIABLE;
use crate::squeeze::{read_list, NOWHERE};

/// What is wrong with a table, in words.
pub type Fault = &'static str;

pub const OTHER_HEADER: Fault = "a sweep has changed the header";
pub const OTHER_RECORD: Fault = "a sweep leaves neither the vertex nor an Empty slot";
pub const VARIABLE_GONE: Fault = "a sweep has removed a Variable";
pub const NAMELESS_LEFT: Fault = "a sweep leaves a vertex that nothing names";
pub const OTHER_RESULT: Fault = "a vertex that stays has another result";
pub const OTHER_OUTPUT: Fault = "a graph output has another result";
pub const WRONG_LIST: Fault = "the list does not number the vertices in their old order";
pub const OTHER_SLOTS: Fault = "a squeeze leaves other slots in use than the lowest ones";
pub const OTHER_CONTENT: Fault = "a moved vertex has another head or other attributes";
pub const NOT_FOLLOWED: Fault = "an input or an output does not follow";

/// Those of these faults that hold.
fn holding<const N: usize>(faults: [(Fault, bool); N]) -> Vec<Fault> {
    faults.into_iter().filter(|(_, holds)| *holds).map(|(fault, _)| fault).collect()
}

/// What is wrong with a sweep. That nothing was removed that something needs, and
/// that counts are true, is part of the new table's soundness. Nothing was left
/// that no output needs exactly when every vertex but a Variable is named: of
/// vertices from which no output is reached, which are on no cycle, one would be
/// read by none.
pub fn sweep_faults(old: Graph, new: Graph, meaning: &mut Meaning) -> Vec<Fault> {
    let same_header = old.bytes()[..HEADER] == new.bytes()[..HEADER];
    if !same_header || old.bytes().len() != new.bytes().len() {
        return vec![OTHER_HEADER];
    }
    let kept = |(before, after): &(Slot, Slot)| before.vertex_bytes() == after.vertex_bytes();
    let changed = || old.slots().zip(new.slots()).filter(|pair| !kept(pair));
    let mut variables = changed().filter(|(before, _)| before.kind() == VARIABLE);
    let (before, after) = (meaning.results(old), meaning.results(new));
    let mut stays = (0..new.slot_count()).filter(|&slot| !new.slot(slot).is_empty());
    holding([
        (OTHER_RECORD, changed().any(|(_, after)| !after.is_empty())),
        (VARIABLE_GONE, variables.any(|(_, after)| after.is_empty())),
        (NAMELESS_LEFT, has_nameless(new)),
        (OTHER_RESULT, stays.any(|slot| before[slot] != after[slot])),
        (OTHER_OUTPUT, !outputs_agree(old, &before, new, &after)),
    ])
}

/// Whether no input and no output names some vertex that is no Variable.
fn has_nameless(graph: Graph) -> bool {
    let mut named = vec![false; graph.slot_count()];
    let inputs = graph.slots().flat_map(|slot| slot.inputs());
    for slot in inputs.chain(graph.outputs()) {
        named[usize::from(slot)] = true;
    }
    let mut slots = graph.slots().zip(named);
    slots.any(|(slot, named)| !named && !slot.is_empty() && slot.kind() != VARIABLE)
}

/// "place by place: the vertex it names after has the result of the one it named
/// before"
fn outputs_agree(old: Graph, before: &[Option<u64>], new: Graph, after: &[Option<u64>]) -> bool {
    let before = old.outputs().map(|output| before[usize::from(output)]);
    before.eq(new.outputs().map(|output| after[usize::from(output)]))
}

/// What is wrong with a squeeze and its list.
pub fn squeeze_faults(old: Graph, new: Graph, list: &[u8], meaning: &mut Meaning) -> Vec<Fault> {
    Squeezed { old, new, moves: read_list(list) }.faults(meaning)
}

struct Squeezed<'a> {
    old: Graph<'a>,
    new: Graph<'a>,
    moves: Vec<u16>,
}

impl Squeezed<'_> {
    fn faults(&self, meaning: &mut Meaning) -> Vec<Fault> {
        if !self.has_right_list() {
            return vec![WRONG_LIST];
        }
        if self.has_other_slots() {
            return vec![OTHER_SLOTS];
        }
        let (before, after) = self.results(meaning);
        holding([
            (OTHER_CONTENT, self.moved().any(|(old, new)| !self.is_same(old, new))),
            (NOT_FOLLOWED, !self.names_follow()),
            (OTHER_RESULT, self.moved().any(|(old, new)| before[old] != after[new])),
            (OTHER_OUTPUT, !outputs_agree(self.old, &before, self.new, &after)),
        ])
    }

    /// 65535 for Empty slots and for no others, and all numbers from 0 on for
    /// the vertices in their order.
    fn has_right_list(&self) -> bool {
        let told = self.moves.iter().map(|&number| number == NOWHERE);
        let numbers = self.moves.iter().copied().filter(|&number| number != NOWHERE);
        told.eq(self.old.slots().map(Slot::is_empty)) && numbers.zip(0..).all(|(a, b)| a == b)
    }

    /// Whether the new table's vertices are not in its lowest slots, or are more
    /// or less than the old one's.
    fn has_other_slots(&self) -> bool {
        let vertices = self.moved().count();
        let after = self.new.slots().map(|slot| !slot.is_empty());
        !after.eq((0..self.old.slot_count()).map(|slot| slot < vertices))
    }

    /// The old and the new slot of each vertex.
    fn moved(&self) -> impl Iterator<Item = (usize, usize)> + '_ {
        let slots = self.moves.iter().enumerate().filter(|(_, &new)| new != NOWHERE);
        slots.map(|(old, &new)| (old, new.into()))
    }

    fn is_same(&self, old: usize, new: usize) -> bool {
        let (old, new) = (self.old.slot(old), self.new.slot(new));
        old.head() == new.head() && old.attributes().eq(new.attributes())
    }

    /// "all inputs and outputs follow"
    fn names_follow(&self) -> bool {
        let followed = |number: u16| self.moves[usize::from(number)];
        let outputs = self.old.outputs().map(followed);
        let inputs = |(old, new): (usize, usize)| {
            self.old.slot(old).inputs().map(followed).eq(self.new.slot(new).inputs())
        };
        outputs.eq(self.new.outputs()) && self.moved().all(inputs)
    }

    /// "Under demand 3's meanings a moved vertex has the same result after as
    /// before, with a Variable's result following it to its new number."
    fn results(&self, meaning: &mut Meaning) -> (Vec<Option<u64>>, Vec<Option<u64>>) {
        let from: Vec<usize> = self.moved().map(|(old, _)| old).collect();
        (meaning.results(self.old), meaning.results_after_moves(self.new, &from))
    }
}
