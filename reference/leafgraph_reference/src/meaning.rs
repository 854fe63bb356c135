//! Meanings: what vertices give. "A Variable's result belongs to its slot
//! number [...]; every other vertex's result is a function, any one, of its
//! kind, operator, attributes and input results in order. It is one function
//! for both tables and for the rule."

use std::collections::HashMap;

use crate::graph::Graph;
use crate::operators::{ADD, CALL, GAIN, PROJ, RELU, RESHAPE, TUPLE, VARIABLE};
use crate::random::mixed;

/// All that a vertex's result is a function of. Products of attributes may
/// pass 32 bits.
#[derive(Clone, Debug, PartialEq, Eq)]
pub struct Term {
    pub kind: u8,
    pub operator: u8,
    pub attributes: Vec<i64>,
    pub inputs: Vec<u64>,
}

/// A function and the results of the Variables, drawn by a seed.
pub struct Meaning {
    seed: u64,
    /// The terms of the results given so far, where there are laws to keep.
    given: Option<HashMap<u64, Term>>,
}

impl Meaning {
    /// A hash of all it is given: without any law, so that two expressions
    /// have the same result only where they are the same.
    pub fn lawless(seed: u64) -> Meaning {
        Meaning { seed, given: None }
    }

    /// The same but for these laws: add is a sum; a relu of a relu, and a
    /// reshape of a reshape, is the last one alone; of gain over gain the
    /// attributes are multiplied; a projection of a Tuple is its input of that
    /// number.
    pub fn lawful(seed: u64) -> Meaning {
        Meaning { seed, given: Some(HashMap::new()) }
    }

    fn variable(&self, slot: usize) -> u64 {
        mixed(mixed(self.seed).wrapping_add(slot as u64))
    }

    pub fn result(&mut self, term: Term) -> u64 {
        let Some(given) = &self.given else {
            return hash(self.seed, &term);
        };
        let term = match simplified(given, term) {
            Simplified::Result(result) => return result,
            Simplified::Term(term) => term,
        };
        let result = hash(self.seed, &term);
        self.given.as_mut().expect("looked at above").insert(result, term);
        result
    }

    /// The results of all vertices of a table, None for Empty slots.
    pub fn results(&mut self, graph: Graph) -> Vec<Option<u64>> {
        let numbers: Vec<usize> = (0..graph.slot_count()).collect();
        self.results_after_moves(graph, &numbers)
    }

    /// The same of a table whose vertices have moved, each from the slot given
    /// here, "with a Variable's result following it to its new number".
    pub fn results_after_moves(&mut self, graph: Graph, from: &[usize]) -> Vec<Option<u64>> {
        let mut results = vec![None; graph.slot_count()];
        for slot in 0..graph.slot_count() {
            self.settle(graph, slot, from, &mut results);
        }
        results
    }

    /// Gives this slot its result, and first all that it reads. At most 512
    /// calls deep, since the graph has no cycle.
    fn settle(&mut self, graph: Graph, number: usize, from: &[usize], results: &mut [Option<u64>]) {
        let slot = graph.slot(number);
        if slot.is_empty() || results[number].is_some() {
            return;
        }
        let mut inputs = vec![];
        for input in slot.inputs().map(usize::from) {
            self.settle(graph, input, from, results);
            inputs.push(results[input].expect("an input names a vertex"));
        }
        let (kind, operator) = (slot.kind(), slot.operator());
        let attributes = slot.attributes().map(i64::from).collect();
        results[number] = Some(match kind {
            VARIABLE => self.variable(from[number]),
            _ => self.result(Term { kind, operator, attributes, inputs }),
        });
    }
}

fn hash(seed: u64, term: &Term) -> u64 {
    let head = [term.kind.into(), term.operator.into(), term.attributes.len() as u64];
    let attributes = term.attributes.iter().map(|&number| number as u64);
    let all = head.into_iter().chain(attributes).chain(term.inputs.iter().copied());
    all.fold(mixed(seed), |hash, number| mixed(hash.rotate_left(7) ^ number))
}

/// What the laws make of a term: a result, or a term to be hashed.
enum Simplified {
    Result(u64),
    Term(Term),
}

fn simplified(given: &HashMap<u64, Term>, mut term: Term) -> Simplified {
    let head = (term.kind, term.operator);
    let inner = term.inputs.first().and_then(|input| given.get(input));
    let same = inner.filter(|inner| (inner.kind, inner.operator) == head);
    match (head, same) {
        ((CALL, ADD), _) => {
            return Simplified::Result(term.inputs[0].wrapping_add(term.inputs[1]));
        }
        ((CALL, RELU), Some(_)) => return Simplified::Result(term.inputs[0]),
        ((CALL, RESHAPE), Some(inner)) => term.inputs = inner.inputs.clone(),
        ((CALL, GAIN), Some(inner)) => {
            let pairs = term.attributes.iter_mut().zip(&inner.attributes);
            pairs.for_each(|(outer, &inner)| *outer = outer.wrapping_mul(inner));
            term.inputs = inner.inputs.clone();
        }
        ((PROJ, _), _) => {
            let tuple = inner.filter(|inner| inner.kind == TUPLE);
            let index = usize::try_from(term.attributes[0] - 1).ok();
            if let Some(&part) = tuple.zip(index).and_then(|(tuple, i)| tuple.inputs.get(i)) {
                return Simplified::Result(part);
            }
        }
        _ => {}
    }
    Simplified::Term(term)
}
