//! Imports (request 5/13): blocks of version 1, sound and damaged, and of others.

use leafgraph_proved::guarded::{Guarded, SHIFTS};
use leafgraph_reference::generate::{
    damaged_graph, damaged_version_1_graph, noise, noise_with_version_1_header, sound_graph,
};
use leafgraph_reference::random::Random;
use leafgraph_reference::recount::import_faults;

use crate::cleanups::WRITTEN;
use crate::graph_fault_classes::{version_1_classes, VERSION_1_CLASSES};
use crate::import_classes::{self, CLASSES};
use crate::rewriting::UNSOUND;
use crate::tally::{Call, Tally, CHANGED};

/// What must be replied. There is no count that could be wrong.
const NUMBERS: [u8; 5] = [0, 20, 21, 22, 23];

const TAKEN_AGAIN: &str = "a second import is not refused with 20, or writes";

/// What the second program makes of an import.
pub struct Outcome {
    pub reply: u64,
    pub graph: Vec<u8>,
}

pub fn tally() -> Tally {
    Tally::new("import", &NUMBERS, &[&CLASSES[..], &VERSION_1_CLASSES].concat())
}

/// An import of any block.
pub fn call(random: &mut Random, tally: &mut Tally) {
    let (origin, block) = block(random);
    let outcome = import(random, tally, origin, &block);
    match outcome.reply {
        0 => tally.count_all(&import_classes::done(&outcome.graph)),
        reply => {
            tally.count_all(&version_1_classes(&block, reply));
            tally.count_all(&import_classes::refused(&block, reply));
        }
    }
}

fn block(random: &mut Random) -> (&'static str, Vec<u8>) {
    match random.below(20) {
        0 => ("random bytes", noise(random)),
        1 => ("sound header only", noise_with_version_1_header(random)),
        2..=7 => ("sound block of version 1", sound_graph(random).version_1_block()),
        8 => ("sound block of version 2", sound_graph(random).block()),
        9 => ("damaged block of version 2", damaged_graph(random)),
        _ => ("damaged block of version 1", damaged_version_1_graph(random)),
    }
}

/// Calls both programs and records what is not as it should be.
pub fn import(
    random: &mut Random,
    tally: &mut Tally,
    origin: &'static str,
    block: &[u8],
) -> Outcome {
    let mut lent = Guarded::new(block, random.below(SHIFTS));
    let proved = leafgraph_proved::import(lent.lend());
    let mut graph = block.to_vec();
    let reply = leafgraph_reference::import(&mut graph);
    let outcome = Outcome { reply, graph };
    let mut faults = outcome.faults(block);
    if !lent.holds(&outcome.graph) {
        faults.push(CHANGED);
    }
    tally.record(Call {
        origin,
        proved,
        reference: outcome.reply,
        faults,
        number: None,
        bytes: &[
            ("block before", block),
            ("block after, proved", lent.bytes()),
            ("block after, reference", &outcome.graph),
        ],
    });
    outcome
}

impl Outcome {
    /// What is wrong with what a call leaves, whatever the other program says.
    fn faults(&self, block: &[u8]) -> Vec<&'static str> {
        if self.reply != 0 {
            return if self.graph == block { vec![] } else { vec![WRITTEN] };
        }
        let mut faults = import_faults(block, &self.graph);
        if leafgraph_proved::check_graph(&self.graph) != 0 {
            faults.push(UNSOUND);
        }
        let mut again = self.graph.clone();
        if leafgraph_proved::import(&mut again) != 20 || again != self.graph {
            faults.push(TAKEN_AGAIN);
        }
        faults
    }
}
