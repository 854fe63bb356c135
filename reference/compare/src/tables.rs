//! The tables that came up in a sequence of calls on one graph, each written as a
//! listing and read over the next one (request 7/13).

use leafgraph_reference::random::Random;
use leafgraph_reference::reply::{number_of, value_of};

use crate::listings::{read, write};
use crate::mixed_classes::Operation;
use crate::tally::Tally;

/// Every class must occur, and is counted once for a sequence.
const CLASSES: [&str; 6] = [
    "the first table",
    "after an import",
    "after a rewriting",
    "after a sweep",
    "after a squeeze",
    "read over another table",
];

/// What must be replied: a table of version 1 has no listing.
const NUMBERS: [u8; 2] = [0, 20];

pub fn tally() -> Tally {
    Tally::new("write and read listings in sequence", &NUMBERS, &CLASSES)
}

/// The tables of one sequence, each with what left it.
pub struct Tables {
    noted: Vec<(Option<Operation>, Vec<u8>)>,
}

impl Tables {
    pub fn new(first: &[u8]) -> Tables {
        Tables { noted: vec![(None, first.to_vec())] }
    }

    pub fn note(&mut self, operation: Operation, graph: &[u8]) {
        self.noted.push((Some(operation), graph.to_vec()));
    }

    /// Writes and reads all of them, in the order in which they came, the last one over
    /// the first. There are about twice as many bytes for a text as for the block, which
    /// suffices for any listing.
    pub fn list_all(&self, random: &mut Random, tally: &mut Tally) {
        let mut seen = [false; CLASSES.len()];
        for (at, (operation, graph)) in self.noted.iter().enumerate() {
            let text = random.bytes(100 * graph.len() / 48);
            let written = write(random, tally, "a table", graph, &text);
            if number_of(written.reply) != 0 {
                continue;
            }
            let listing = &written.bytes[..value_of(written.reply) as usize];
            let (_, next) = &self.noted[(at + 1) % self.noted.len()];
            read(random, tally, "its listing", listing, next);
            seen[class_of(*operation)] = true;
            seen[5] |= next != graph;
        }
        tally.count_all(&CLASSES.into_iter().zip(seen).collect::<Vec<_>>());
    }
}

fn class_of(operation: Option<Operation>) -> usize {
    match operation {
        None => 0,
        Some(Operation::Import) => 1,
        Some(Operation::Rewrite) => 2,
        Some(Operation::Sweep) => 3,
        Some(Operation::Squeeze) => 4,
    }
}
