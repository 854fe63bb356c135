//! Matches that came up in a sequence of calls on one graph, and what is asked about
//! each of their vertices (request 6/13).

use std::collections::BTreeMap;

use leafgraph_reference::matching::Images;
use leafgraph_reference::random::Random;
use leafgraph_reference::reply::{number_of, value_of};
use leafgraph_reference::rule::Rule;

use crate::maps::map_bytes;
use crate::readers::Question;
use crate::tally::Tally;

/// Every class must occur, and is counted once for a sequence.
const CLASSES: [&str; 3] = ["no", "yes", "yes, and no to the same later"];

/// What must be replied: to all source vertices of a match, rule inputs too.
const NUMBERS: [u8; 2] = [0, 42];

pub fn tally() -> Tally {
    Tally::new("is read elsewhere in sequence", &NUMBERS, &CLASSES)
}

/// A match, with the table as it was.
struct Found {
    graph: Vec<u8>,
    rule: Vec<u8>,
    map: Vec<u8>,
}

/// The matches of one sequence.
#[derive(Default)]
pub struct Questions {
    found: Vec<Found>,
}

impl Questions {
    pub fn note(&mut self, graph: &[u8], rule: &[u8], images: &Images) {
        let (graph, rule) = (graph.to_vec(), rule.to_vec());
        self.found.push(Found { graph, rule, map: map_bytes(images) });
    }

    /// Asks about every source vertex of every match, in the order in which they came.
    pub fn ask_all(&self, random: &mut Random, tally: &mut Tally) {
        let mut answers: BTreeMap<(&[u8], &[u8], usize), bool> = BTreeMap::new();
        let mut seen = [false; CLASSES.len()];
        for Found { graph, rule, map } in &self.found {
            let sources = Rule::parse(rule).map_or(0, Rule::source_count);
            for vertex in 0..sources {
                let reply = Question { graph, rule, map, vertex }.ask(random, tally, "a match");
                if number_of(reply) != 0 {
                    continue;
                }
                let yes = value_of(reply) == 1;
                seen[usize::from(yes)] = true;
                let before = answers.insert((rule, map, vertex), yes);
                seen[2] |= before == Some(true) && !yes;
            }
        }
        tally.count_all(&CLASSES.into_iter().zip(seen).collect::<Vec<_>>());
    }
}
