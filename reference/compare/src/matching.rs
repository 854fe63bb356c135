//! Finding a match, on graphs and rules that were mostly cut out of them.

use leafgraph_proved::guarded::{Guarded, SHIFTS};
use leafgraph_reference::generate::search_case;
use leafgraph_reference::random::Random;

use crate::arguments::Arguments;
use crate::classes::{count_classes, CLASSES};
use crate::look_classes;
use crate::refusal_classes::{count_refusal, with_refusals};
use crate::tally::{Call, Tally, CHANGED};

/// What must be replied.
const NUMBERS: [u8; 13] = [0, 1, 20, 21, 22, 23, 24, 30, 31, 32, 33, 34, 4];

pub fn run(random: &mut Random, calls: u64) -> Vec<Tally> {
    let own = [&CLASSES[..], &look_classes::CLASSES].concat();
    let mut tally = Tally::new("find match", &NUMBERS, &with_refusals(&own));
    for _ in 0..calls {
        let (change, case) = search_case(random);
        Arguments::damaged(random, change, case).find(random, &mut tally);
    }
    vec![tally]
}

impl Arguments {
    fn find(&self, random: &mut Random, tally: &mut Tally) {
        let graph = Guarded::new(&self.graph, random.below(SHIFTS));
        let rule = Guarded::new(&self.rule, random.below(SHIFTS));
        let mut map = Guarded::new(&self.map, random.below(SHIFTS));
        let proved =
            leafgraph_proved::find_match(graph.bytes(), rule.bytes(), self.start, map.lend());
        let mut expected = self.map.clone();
        let reference =
            leafgraph_reference::find_match(&self.graph, &self.rule, self.start, &mut expected);
        count_classes(tally, &self.graph, &self.rule, self.start, reference, &expected);
        count_refusal(tally, self, reference);
        let kept = graph.holds(&self.graph) && rule.holds(&self.rule) && map.holds(&expected);
        tally.record(Call {
            origin: self.origin,
            proved,
            reference,
            faults: if kept { vec![] } else { vec![CHANGED] },
            number: Some(("start", self.start)),
            bytes: &[
                ("graph", &self.graph),
                ("rule", &self.rule),
                ("map before", &self.map),
                ("map after, proved", map.bytes()),
                ("map after, reference", &expected),
            ],
        });
    }
}
