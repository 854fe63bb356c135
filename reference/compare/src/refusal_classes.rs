//! What was wrong with the arguments of a call with a graph, a rule and a map that
//! was refused because of them.

use leafgraph_reference::reply::number_of;
use leafgraph_reference::{check_graph, check_rule};

use crate::arguments::Arguments;
use crate::tally::Tally;
use crate::{graph_fault_classes, rule_fault_classes};

/// Every class must occur, and those of both blocks.
const CLASSES: [&str; 7] = [
    "1, a bad graph too",
    "1, a bad rule too",
    "20, a bad rule too",
    "21, a bad rule too",
    "22, a bad rule too",
    "23, a bad rule too",
    "24, a bad rule too",
];

/// The same of a search or a rewriting, which have a start.
const START_CLASSES: [&str; 2] =
    ["a bad graph, and a start past it", "a bad rule, and a start past the graph"];

/// These classes and those of the blocks' faults, behind an operation's own.
pub fn with_block_refusals(own: &[&'static str]) -> Vec<&'static str> {
    [own, &CLASSES, &graph_fault_classes::all_classes(), &rule_fault_classes::CLASSES].concat()
}

/// The same for a search or a rewriting.
pub fn with_refusals(own: &[&'static str]) -> Vec<&'static str> {
    with_block_refusals(&[own, &START_CLASSES].concat())
}

pub fn count_refusal(tally: &mut Tally, arguments: &Arguments, reply: u64) {
    count_block_refusal(tally, &arguments.graph, &arguments.rule, reply);
    let past = arguments.starts_past_graph();
    let number = number_of(reply);
    tally.count_all(&[
        (START_CLASSES[0], past && (20..=24).contains(&number)),
        (START_CLASSES[1], past && (30..=34).contains(&number)),
    ]);
}

pub fn count_block_refusal(tally: &mut Tally, graph: &[u8], rule: &[u8], reply: u64) {
    let number = number_of(reply);
    match number {
        1 => tally.count_all(&[
            ("1, a bad graph too", check_graph(graph) != 0),
            ("1, a bad rule too", check_rule(rule) != 0),
        ]),
        20..=24 => {
            let bad_rule = check_rule(rule) != 0;
            tally.count_all(&[
                ("20, a bad rule too", bad_rule && number == 20),
                ("21, a bad rule too", bad_rule && number == 21),
                ("22, a bad rule too", bad_rule && number == 22),
                ("23, a bad rule too", bad_rule && number == 23),
                ("24, a bad rule too", bad_rule && number == 24),
            ]);
            tally.count_all(&graph_fault_classes::classes(graph, reply));
        }
        30..=34 => tally.count_all(&rule_fault_classes::classes(rule, reply)),
        _ => {}
    }
}
