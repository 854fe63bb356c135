//! Rewriting, on matches that were cut out of graphs or put into them, and on
//! one graph again and again.

use leafgraph_proved::guarded::{Guarded, SHIFTS};
use leafgraph_reference::generate::rewriting_case;
use leafgraph_reference::graph::Graph;
use leafgraph_reference::matching::read_map;
use leafgraph_reference::meaning::Meaning;
use leafgraph_reference::random::Random;
use leafgraph_reference::recount::count_faults;
use leafgraph_reference::results::{Accepted, Verdict};
use leafgraph_reference::rules::Rules;
use leafgraph_reference::stage::STAGE;

use crate::arguments::Arguments;
use crate::refusal_classes::{count_refusal, with_refusals};
use crate::rewriting_classes::{count_classes, CLASSES};
use crate::tally::{Call, Tally, CHANGED};
use crate::{rewriting_count_classes, sequences};

/// What must be replied.
const NUMBERS: [u8; 16] = [0, 1, 20, 21, 22, 23, 24, 30, 31, 32, 33, 34, 4, 5, 6, 7];

/// The least share of calls with good arguments that must be accepted.
const LEAST_ACCEPTED: u64 = 40;

pub const UNSOUND: &str = "the new table is not sound";
const FIRST_HALF: &str =
    "a vertex that stays, with no path from a replaced output, has another result";
const SECOND_HALF: &str = "the rule's sides mean the same, and a result is another one";

/// What the second program makes of a call.
pub struct Outcome {
    pub reply: u64,
    pub graph: Vec<u8>,
    pub map: Vec<u8>,
    /// Where it is accepted.
    pub verdicts: Option<Verdicts>,
}

/// Demand 3 under a meaning without laws and under one with laws.
pub struct Verdicts {
    pub lawless: Verdict,
    pub lawful: Verdict,
}

/// Two of three calls by themselves, the others in sequences.
pub fn run(random: &mut Random, calls: u64) -> Vec<Tally> {
    let own = [&CLASSES[..], &rewriting_count_classes::CLASSES].concat();
    let mut tally =
        Tally::new("rewrite", &NUMBERS, &with_refusals(&own)).with_least_accepted(LEAST_ACCEPTED);
    let in_sequences = calls / 3;
    for _ in in_sequences..calls {
        let (origin, case) = rewriting_case(random);
        let arguments = Arguments::damaged(random, origin, case);
        let outcome = arguments.rewrite(random, &mut tally);
        count_classes(&mut tally, &arguments, &outcome);
        count_refusal(&mut tally, &arguments, outcome.reply);
    }
    vec![tally, sequences::run(random, in_sequences)]
}

impl Arguments {
    /// Calls both programs and records what is not as it should be.
    pub fn rewrite(&self, random: &mut Random, tally: &mut Tally) -> Outcome {
        let mut graph = Guarded::new(&self.graph, random.below(SHIFTS));
        let rule = Guarded::new(&self.rule, random.below(SHIFTS));
        let mut map = Guarded::new(&self.map, random.below(SHIFTS));
        let proved = leafgraph_proved::rewrite(graph.lend(), rule.bytes(), self.start, map.lend());
        let outcome = self.outcome(random);
        let mut faults = outcome.faults();
        if proved == 0 {
            faults.extend(count_faults(graph.bytes()));
        }
        if !(graph.holds(&outcome.graph) && rule.holds(&self.rule) && map.holds(&outcome.map)) {
            faults.push(CHANGED);
        }
        tally.record(Call {
            origin: self.origin,
            proved,
            reference: outcome.reply,
            faults,
            number: Some(("start", self.start)),
            bytes: &[
                ("graph before", &self.graph),
                ("rule", &self.rule),
                ("map before", &self.map),
                ("graph after, proved", graph.bytes()),
                ("graph after, reference", &outcome.graph),
                ("map after, proved", map.bytes()),
                ("map after, reference", &outcome.map),
            ],
        });
        outcome
    }

    /// The second program's part, judged.
    fn outcome(&self, random: &mut Random) -> Outcome {
        let (mut graph, mut map) = (self.graph.clone(), self.map.clone());
        let reply = leafgraph_reference::rewrite(&mut graph, &self.rule, self.start, &mut map);
        let verdicts = match reply {
            0 => self.judge(random, &graph, &map),
            _ => None,
        };
        Outcome { reply, graph, map, verdicts }
    }

    /// None where the new table is no sound one.
    fn judge(&self, random: &mut Random, new: &[u8], map: &[u8]) -> Option<Verdicts> {
        let old = Graph::parse(&self.graph).ok()?;
        let rules = Rules::parse(STAGE, &self.rule).ok()?;
        let images = &read_map(map);
        let accepted = Accepted {
            old,
            new: Graph::parse(new).ok()?,
            rule: rules.rule_of_match(old, images)?,
            images,
        };
        let (mut lawless, mut lawful) =
            (Meaning::lawless(random.number()), Meaning::lawful(random.number()));
        Some(Verdicts {
            lawless: accepted.judge(&mut lawless, random),
            lawful: accepted.judge(&mut lawful, random),
        })
    }
}

impl Outcome {
    /// What is wrong with an accepted rewriting, whatever the other program
    /// says of it.
    pub fn faults(&self) -> Vec<&'static str> {
        if self.reply != 0 {
            return vec![];
        }
        let mut faults = vec![];
        let Some(Verdicts { lawless, lawful }) = &self.verdicts else {
            return vec![UNSOUND];
        };
        if leafgraph_proved::check_graph(&self.graph) != 0 {
            faults.push(UNSOUND);
        }
        if !(lawless.first_half_holds() && lawful.first_half_holds()) {
            faults.push(FIRST_HALF);
        }
        if !(lawless.second_half_holds() && lawful.second_half_holds()) {
            faults.push(SECOND_HALF);
        }
        faults
    }
}
