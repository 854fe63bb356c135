//! One graph rewritten again and again, until no rule is accepted or it has
//! been long enough. Each step starts from the table that the last one left.

use leafgraph_reference::generate::{sequence, Sequence};
use leafgraph_reference::graph::Graph;
use leafgraph_reference::matching::read_map;
use leafgraph_reference::random::Random;
use leafgraph_reference::rule::Rule;

use crate::arguments::Arguments;
use crate::constants::{matched_consts, MatchedConst};
use crate::rewriting::Outcome;
use crate::tally::Tally;

/// Every class must occur.
const CLASSES: [&str; 9] = [
    "5 rewritings or more",
    "20 rewritings or more",
    "several rules accepted",
    "ends with no rule accepted",
    "ends without room",
    "ends at the bound",
    "same meaning in every step, 5 or more",
    "a slot is freed and taken again later",
    "a Const stays and goes later",
];

/// What must be replied in some step; a cycle is left to the calls by
/// themselves.
const NUMBERS: [u8; 4] = [0, 4, 5, 6];

/// The most rewritings of one graph.
const BOUND: usize = 40;

/// Sequences that take at least so many calls.
pub fn run(random: &mut Random, calls: u64) -> Tally {
    let mut tally = Tally::new("rewrite in sequence", &NUMBERS, &CLASSES);
    while tally.calls() < calls {
        let sequence = sequence(random);
        let mut run = Run::new(&sequence);
        while run.accepted < BOUND && run.step(random, &mut tally) {}
        run.count_classes(&mut tally);
    }
    tally
}

/// A sequence under way.
struct Run {
    graph: Vec<u8>,
    rules: Vec<Vec<u8>>,
    /// The rule that is tried first in the next step, so that all get a turn.
    next: usize,
    accepted: usize,
    /// Which rules were accepted.
    by_rule: Vec<bool>,
    /// The replies of the last step.
    replies: Vec<u64>,
    /// Whether the rules meant the same in all steps, under the laws.
    same_meaning: bool,
    /// Slots that some step has freed, and whether one was taken again.
    freed: Vec<bool>,
    taken_again: bool,
    /// Slots of Consts that some step matched and kept, and whether a later one
    /// removed one of them, its other readers gone.
    kept: Vec<bool>,
    removed_later: bool,
}

impl Run {
    fn new(sequence: &Sequence) -> Run {
        Run {
            graph: sequence.graph.block(),
            rules: sequence.rules.iter().map(|rule| rule.block()).collect(),
            next: 0,
            accepted: 0,
            by_rule: vec![false; sequence.rules.len()],
            replies: vec![],
            same_meaning: true,
            freed: vec![false; sequence.graph.slots.len()],
            taken_again: false,
            kept: vec![false; sequence.graph.slots.len()],
            removed_later: false,
        }
    }

    /// Tries the rules in turn; whether one was accepted.
    fn step(&mut self, random: &mut Random, tally: &mut Tally) -> bool {
        self.replies.clear();
        for turn in 0..self.rules.len() {
            let index = (self.next + turn) % self.rules.len();
            let (graph, rule) = (self.graph.clone(), self.rules[index].clone());
            let outcome = Arguments::sound(random, "a step", graph, rule).rewrite(random, tally);
            self.replies.push(outcome.reply);
            if outcome.reply == 0 {
                self.accept(index, outcome);
                return true;
            }
        }
        false
    }

    fn accept(&mut self, index: usize, outcome: Outcome) {
        self.next = (index + 1) % self.rules.len();
        self.accepted += 1;
        self.by_rule[index] = true;
        self.follow_consts(&self.matched_consts(index, &outcome.map));
        self.same_meaning &= outcome.verdicts.is_some_and(|both| both.lawful.same_meaning);
        let kind = |block: &[u8], slot: usize| block[24 + 48 * slot];
        for slot in 0..self.freed.len() {
            let (before, after) = (kind(&self.graph, slot), kind(&outcome.graph, slot));
            self.taken_again |= self.freed[slot] && before == 0 && after != 0;
            self.freed[slot] |= before != 0 && after == 0;
        }
        self.graph = outcome.graph;
    }

    /// The Consts that this step's rule was matched to, by the table before it.
    fn matched_consts(&self, index: usize, map: &[u8]) -> Vec<MatchedConst> {
        let graph = Graph::parse(&self.graph).expect("it was accepted");
        let rule = Rule::parse(&self.rules[index]).expect("it was accepted");
        matched_consts(graph, rule, &read_map(map))
    }

    fn follow_consts(&mut self, consts: &[MatchedConst]) {
        for one in consts {
            let kept = &mut self.kept[usize::from(one.slot)];
            self.removed_later |= *kept && !one.stays();
            *kept = one.stays();
        }
    }

    fn count_classes(&self, tally: &mut Tally) {
        let at_bound = self.accepted == BOUND;
        let classes = [
            self.accepted >= 5,
            self.accepted >= 20,
            self.by_rule.iter().filter(|&&accepted| accepted).count() > 1,
            !at_bound,
            !at_bound && self.replies.contains(&6),
            at_bound,
            self.accepted >= 5 && self.same_meaning,
            self.taken_again,
            self.removed_later,
        ];
        for (class, holds) in CLASSES.into_iter().zip(classes) {
            if holds {
                tally.count(class);
            }
        }
    }
}
