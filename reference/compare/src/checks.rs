//! The two checks, and the import, on random blocks.

use leafgraph_proved::guarded::{Guarded, SHIFTS};
use leafgraph_reference::generate::{
    damaged_graph, damaged_rule, noise, noise_with_graph_header, noise_with_rule_header,
    sound_graph, sound_rule,
};
use leafgraph_reference::random::Random;

use crate::tally::{Call, Class, Tally, CHANGED};
use crate::{graph_fault_classes, imports, rule_fault_classes};

/// One of the checks in both programs, with the blocks to try it on.
struct Check {
    name: &'static str,
    /// The numbers that must be replied.
    numbers: &'static [u8],
    /// The classes of refused blocks.
    names: fn() -> Vec<&'static str>,
    classes: fn(&[u8], u64) -> Vec<Class>,
    proved: fn(&[u8]) -> u64,
    reference: fn(&[u8]) -> u64,
    with_header: fn(&mut Random) -> Vec<u8>,
    sound: fn(&mut Random) -> Vec<u8>,
    damaged: fn(&mut Random) -> Vec<u8>,
}

const GRAPH: Check = Check {
    name: "check graph",
    numbers: &[0, 20, 21, 22, 23, 24],
    names: graph_fault_classes::all_classes,
    classes: graph_fault_classes::classes,
    proved: leafgraph_proved::check_graph,
    reference: leafgraph_reference::check_graph,
    with_header: noise_with_graph_header,
    sound: |random| sound_graph(random).block(),
    damaged: damaged_graph,
};

const RULE: Check = Check {
    name: "check rule",
    numbers: &[0, 30, 31, 32, 33, 34],
    names: || rule_fault_classes::CLASSES.to_vec(),
    classes: rule_fault_classes::classes,
    proved: leafgraph_proved::check_rule,
    reference: leafgraph_reference::check_rule,
    with_header: noise_with_rule_header,
    sound: |random| sound_rule(random).block(),
    damaged: damaged_rule,
};

/// So many calls: of five, two to each check and one to the import.
pub fn run(random: &mut Random, calls: u64) -> Vec<Tally> {
    let mut import = imports::tally();
    let mut tallies =
        [GRAPH, RULE].map(|check| (Tally::new(check.name, check.numbers, &(check.names)()), check));
    for call in 0..calls {
        if call % 5 == 4 {
            imports::call(random, &mut import);
            continue;
        }
        let (tally, check) = &mut tallies[(call % 5 % 2) as usize];
        check.call(random, tally);
    }
    let [graph, rule] = tallies.map(|(tally, _)| tally);
    vec![graph, rule, import]
}

impl Check {
    fn call(&self, random: &mut Random, tally: &mut Tally) {
        let (origin, block) = self.block(random);
        let lent = Guarded::new(&block, random.below(SHIFTS));
        let proved = (self.proved)(lent.bytes());
        let faults = if lent.holds(&block) { vec![] } else { vec![CHANGED] };
        let reference = (self.reference)(&block);
        if reference != 0 {
            tally.count_all(&(self.classes)(&block, reference));
        }
        tally.record(Call {
            origin,
            proved,
            reference,
            faults,
            number: None,
            bytes: &[("block", &block)],
        });
    }

    fn block(&self, random: &mut Random) -> (&'static str, Vec<u8>) {
        match random.below(20) {
            0 => ("random bytes", noise(random)),
            1 => ("sound header only", (self.with_header)(random)),
            2..=7 => ("sound block", (self.sound)(random)),
            _ => ("damaged block", (self.damaged)(random)),
        }
    }
}
