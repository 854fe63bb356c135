//! Variadic rules (request 8/13): the check, searches, rewritings and questions with them,
//! and some calls with rules of version 1 between.

use leafgraph_proved::guarded::{Guarded, SHIFTS};
use leafgraph_reference::generate::{
    damaged_graph_of, damaged_variadic_rule_of, noise, rule_with_unsound_expansion, search_case,
    sound_rule, variadic_case, variadic_rule, VariadicCase,
};
use leafgraph_reference::graph::Graph;
use leafgraph_reference::matching::read_map;
use leafgraph_reference::meaning::Meaning;
use leafgraph_reference::random::Random;
use leafgraph_reference::recount::count_faults;
use leafgraph_reference::reply::number_of;
use leafgraph_reference::results::Accepted;
use leafgraph_reference::rules::Rules;
use leafgraph_reference::stage::Stage;

use crate::arguments::Arguments;
use crate::readers::Question;
use crate::rewriting::{Outcome, Verdicts};
use crate::tally::{Call, Tally, CHANGED};
use crate::variadic_classes as classes;
use crate::variadic_maps::{any_map, any_vertex};
use crate::variadic_rule_classes as rule_classes;

/// The papers that the second program answers by here.
pub const STAGE: Stage = Stage::Eight;

/// What must be replied.
const CHECK: [u8; 7] = [0, 30, 31, 32, 33, 34, 35];
const FIND: [u8; 14] = [0, 1, 20, 21, 22, 23, 24, 30, 31, 32, 33, 34, 35, 4];
const REWRITE: [u8; 17] = [0, 1, 20, 21, 22, 23, 24, 30, 31, 32, 33, 34, 35, 4, 5, 6, 7];
const ASK: [u8; 15] = [0, 1, 20, 21, 22, 23, 24, 30, 31, 32, 33, 34, 35, 41, 42];

/// The least share of rewritings with good arguments that must be accepted.
const LEAST_ACCEPTED: u64 = 40;

/// The operations that take a rule, of a program that is compared with the second one.
pub struct Program {
    pub check_rule: fn(&[u8]) -> u64,
    pub find_match: fn(&[u8], &[u8], usize, &mut [u8]) -> u64,
    pub rewrite: fn(&mut [u8], &[u8], usize, &mut [u8]) -> u64,
    pub is_read_elsewhere: fn(&[u8], &[u8], &[u8], usize) -> u64,
}

const PROVED: Program = Program {
    check_rule: leafgraph_proved::check_rule,
    find_match: leafgraph_proved::find_match,
    rewrite: leafgraph_proved::rewrite,
    is_read_elsewhere: leafgraph_proved::is_read_elsewhere,
};

pub fn run(random: &mut Random, calls: u64) -> Vec<Tally> {
    run_with(&PROVED, random, calls)
}

/// Of seven calls one to the check and two to each other operation.
fn run_with(program: &Program, random: &mut Random, calls: u64) -> Vec<Tally> {
    let mut check = Tally::new("check rule", &CHECK, &rule_classes::all_classes());
    let mut find = Tally::new("find match", &FIND, &classes::FOUND);
    let mut rewrite =
        Tally::new("rewrite", &REWRITE, &classes::REWRITTEN).with_least_accepted(LEAST_ACCEPTED);
    let mut ask = Tally::new("is read elsewhere", &ASK, &classes::ASKED);
    for call in 0..calls {
        match call % 7 {
            0 => program.compare_check(random, &mut check),
            1 | 2 => program.compare_search(random, &mut find),
            3 | 4 => program.compare_rewriting(random, &mut rewrite),
            _ => program.compare_question(random, &mut ask),
        }
    }
    vec![check, find, rewrite, ask]
}

/// A rule block for the check.
fn any_block(random: &mut Random) -> (&'static str, Vec<u8>) {
    match random.below(20) {
        0 => ("random bytes", noise(random)),
        1 => ("version 1", sound_rule(random).block()),
        2..=6 => ("sound rule", variadic_rule(random).block()),
        7 => ("sound but for an expansion", rule_with_unsound_expansion(random).block()),
        _ => {
            let rule = variadic_rule(random);
            ("damaged rule", damaged_variadic_rule_of(random, rule))
        }
    }
}

/// A case, damaged now and then.
fn any_arguments(random: &mut Random) -> Arguments {
    if random.chance(5) {
        let (origin, case) = search_case(random);
        let arguments = Arguments::damaged(random, origin, case);
        let any = map_length(random, &arguments.rule);
        let length = random.pick(&[32, 32, 32, any, 128]);
        return Arguments { map: random.bytes(length), ..arguments };
    }
    let (mut origin, VariadicCase { graph: parts, rule, start }) = variadic_case(random);
    let mut graph = parts.block();
    if random.chance(8) {
        (origin, graph) = ("damaged graph", damaged_graph_of(random, parts));
    }
    let mut block = rule.block();
    if random.chance(12) {
        (origin, block) = match random.below(10) {
            0 => ("noise as rule", noise(random)),
            1 => ("another rule", variadic_rule(random).block()),
            2 => ("sound but for an expansion", rule_with_unsound_expansion(random).block()),
            5 => ("cut rule", block[..random.below(block.len().min(20))].to_vec()),
            _ => ("damaged rule", damaged_variadic_rule_of(random, rule)),
        };
    }
    let length = map_length(random, &block);
    Arguments { origin, graph, rule: block, start, map: random.bytes(length) }
}

/// Mostly the right one.
fn map_length(random: &mut Random, rule: &[u8]) -> usize {
    let any = random.below(200);
    match random.chance(6) {
        true => random.pick(&[0, 32, 32, 64, 127, 128, 128, 129, 130, any]),
        false => STAGE.map_length(rule),
    }
}

impl Program {
    fn compare_check(&self, random: &mut Random, tally: &mut Tally) {
        let (origin, block) = any_block(random);
        let lent = Guarded::new(&block, random.below(SHIFTS));
        let proved = (self.check_rule)(lent.bytes());
        let reference = STAGE.check_rule(&block);
        tally.count_all(&rule_classes::classes(&block, reference));
        tally.record(Call {
            origin,
            proved,
            reference,
            faults: if lent.holds(&block) { vec![] } else { vec![CHANGED] },
            number: None,
            bytes: &[("block", &block)],
        });
    }

    fn compare_search(&self, random: &mut Random, tally: &mut Tally) {
        let Arguments { origin, graph, rule, start, map } = any_arguments(random);
        let [lent_graph, lent_rule] =
            [&graph, &rule].map(|block| Guarded::new(block, random.below(SHIFTS)));
        let mut lent_map = Guarded::new(&map, random.below(SHIFTS));
        let proved =
            (self.find_match)(lent_graph.bytes(), lent_rule.bytes(), start, lent_map.lend());
        let mut expected = map.clone();
        let reference = STAGE.find_match(&graph, &rule, start, &mut expected);
        tally.count_all(&classes::found(&graph, &rule, start, &expected, reference));
        let kept = lent_graph.holds(&graph) && lent_rule.holds(&rule) && lent_map.holds(&expected);
        tally.record(Call {
            origin,
            proved,
            reference,
            faults: if kept { vec![] } else { vec![CHANGED] },
            number: Some(("start", start)),
            bytes: &[
                ("graph", &graph),
                ("rule", &rule),
                ("map before", &map),
                ("map after, proved", lent_map.bytes()),
                ("map after, reference", &expected),
            ],
        });
    }

    fn compare_rewriting(&self, random: &mut Random, tally: &mut Tally) {
        let arguments = any_arguments(random);
        let Arguments { origin, graph, rule, start, map } = &arguments;
        let lent_rule = Guarded::new(rule, random.below(SHIFTS));
        let [mut lent_graph, mut lent_map] =
            [graph, map].map(|block| Guarded::new(block, random.below(SHIFTS)));
        let proved = (self.rewrite)(lent_graph.lend(), lent_rule.bytes(), *start, lent_map.lend());
        let outcome = outcome(random, &arguments);
        tally.count_all(&classes::rewritten(&arguments, &outcome));
        let mut faults = outcome.faults();
        if proved == 0 {
            faults.extend(count_faults(lent_graph.bytes()));
        }
        let kept = lent_graph.holds(&outcome.graph) && lent_map.holds(&outcome.map);
        if !(kept && lent_rule.holds(rule)) {
            faults.push(CHANGED);
        }
        tally.record(Call {
            origin,
            proved,
            reference: outcome.reply,
            faults,
            number: Some(("start", *start)),
            bytes: &[
                ("graph before", graph),
                ("rule", rule),
                ("map before", map),
                ("graph after, proved", lent_graph.bytes()),
                ("graph after, reference", &outcome.graph),
                ("map after, proved", lent_map.bytes()),
                ("map after, reference", &outcome.map),
            ],
        });
    }

    fn compare_question(&self, random: &mut Random, tally: &mut Tally) {
        let Arguments { graph, rule, map, .. } = any_arguments(random);
        let (origin, mut made) = any_map(random, &graph, &rule);
        made.resize(map.len(), random.pick(&[0, 255, 255]));
        let (map, vertex) = (made, any_vertex(random, &rule));
        let lent = [&graph, &rule, &map].map(|block| Guarded::new(block, random.below(SHIFTS)));
        let [lent_graph, lent_rule, lent_map] = lent.each_ref().map(Guarded::bytes);
        let proved = (self.is_read_elsewhere)(lent_graph, lent_rule, lent_map, vertex);
        let reference = STAGE.is_read_elsewhere(&graph, &rule, &map, vertex);
        let question = Question { graph: &graph, rule: &rule, map: &map, vertex };
        tally.count_all(&classes::asked(&question, origin, reference));
        let kept = lent.iter().zip([&graph, &rule, &map]).all(|(lent, block)| lent.holds(block));
        tally.record(Call {
            origin,
            proved,
            reference,
            faults: if kept { vec![] } else { vec![CHANGED] },
            number: Some(("vertex", vertex)),
            bytes: &[("graph", &graph), ("rule", &rule), ("map", &map)],
        });
    }
}

/// The second program's part of a rewriting, judged by demand 3 with "the rule" read as
/// the fixed rule for the n of this match.
fn outcome(random: &mut Random, arguments: &Arguments) -> Outcome {
    let (mut graph, mut map) = (arguments.graph.clone(), arguments.map.clone());
    let reply = STAGE.rewrite(&mut graph, &arguments.rule, arguments.start, &mut map);
    let verdicts = match number_of(reply) {
        0 => judge(random, arguments, &graph, &map),
        _ => None,
    };
    Outcome { reply, graph, map, verdicts }
}

/// None where the new table is no sound one.
fn judge(random: &mut Random, before: &Arguments, new: &[u8], map: &[u8]) -> Option<Verdicts> {
    let old = Graph::parse(&before.graph).ok()?;
    let rules = Rules::parse(STAGE, &before.rule).ok()?;
    let images = &read_map(map);
    let rule = rules.rule_of_match(old, images)?;
    let accepted = Accepted { old, new: Graph::parse(new).ok()?, rule, images };
    let mut lawless = Meaning::lawless(random.number());
    let mut lawful = Meaning::lawful(random.number());
    Some(Verdicts {
        lawless: accepted.judge(&mut lawless, random),
        lawful: accepted.judge(&mut lawful, random),
    })
}

#[cfg(test)]
mod tests {
    use super::*;

    /// The second program in the library's place.
    const SECOND: Program = Program {
        check_rule: |rule| STAGE.check_rule(rule),
        find_match: |graph, rule, start, map| STAGE.find_match(graph, rule, start, map),
        rewrite: |graph, rule, start, map| STAGE.rewrite(graph, rule, start, map),
        is_read_elsewhere: |graph, rule, map, vertex| {
            STAGE.is_read_elsewhere(graph, rule, map, vertex)
        },
    };

    /// The classes that are rarest need so many.
    const CALLS: u64 = 60_000;

    /// Every class that must occur does, and nothing else is amiss.
    #[test]
    fn the_generators_reach_every_class() {
        let tallies = run_with(&SECOND, &mut Random::new(1), CALLS);
        let reports: String = tallies.iter().map(Tally::report).collect();
        assert!(tallies.iter().all(Tally::passes), "{reports}");
    }

    /// A program without the request is noticed in every operation.
    #[test]
    fn a_library_without_the_request_is_noticed() {
        let without = Program {
            check_rule: |rule| Stage::Seven.check_rule(rule),
            find_match: |graph, rule, start, map| Stage::Seven.find_match(graph, rule, start, map),
            rewrite: |graph, rule, start, map| Stage::Seven.rewrite(graph, rule, start, map),
            is_read_elsewhere: |graph, rule, map, vertex| {
                Stage::Seven.is_read_elsewhere(graph, rule, map, vertex)
            },
        };
        for tally in run_with(&without, &mut Random::new(1), 700) {
            assert!(!tally.passes() && tally.report().contains("first difference"));
        }
    }
}
