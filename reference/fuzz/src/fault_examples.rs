//! Blocks with every kind of fault: several places of one kind, several kinds,
//! and what is easily taken for a fault's place.

use leafgraph_reference::blocks::{
    access_node, add, any_node, call_pattern, e1, empty, operation_node, relu, rr, target_place,
    variable, wildcard, GraphParts, RuleParts,
};
use leafgraph_reference::counts::write_counts;
use leafgraph_reference::graph;
use leafgraph_reference::operators::{ADD, MEAN};
use leafgraph_reference::rule::{PLUS, TIMES};

pub struct FaultExample {
    pub name: &'static str,
    pub graph: Vec<u8>,
    pub rule: Vec<u8>,
    /// The number and the place that matching replies.
    pub number: u8,
    pub place: u32,
}

pub fn fault_examples() -> Vec<FaultExample> {
    let graphs = [versions(), graph_headers_and_records(), graph_names(), cycles(), counts()];
    graphs.into_iter().chain([rule_kinds(), expressions()]).flatten().collect()
}

/// With a rule that is sound.
fn bad_graph(name: &'static str, graph: Vec<u8>, number: u8, place: u32) -> FaultExample {
    FaultExample { name, graph, rule: rr().block(), number, place }
}

/// The sample after this edit, with a graph that is sound.
fn bad_rule(name: &'static str, edit: fn(&mut RuleParts), number: u8, place: u32) -> FaultExample {
    let mut rule = sample();
    edit(&mut rule);
    FaultExample { name, graph: e1().block(), rule: rule.block(), number, place }
}

/// add(mean(x), y) becomes add(mean(x), y).
pub fn sample() -> RuleParts {
    let mean = |node: u8| call_pattern(MEAN, &[0], &[node]);
    let sum = |left: u8| call_pattern(ADD, &[left, 2], &[]);
    RuleParts {
        source: vec![wildcard(), mean(0), wildcard(), sum(1)],
        target: vec![mean(1), sum(target_place(0))],
        source_outputs: vec![3],
        target_outputs: vec![target_place(1)],
        nodes: vec![any_node(), access_node(1, 1), operation_node(PLUS, 1, 1)],
    }
}

/// With no other fault.
fn versions() -> Vec<FaultExample> {
    let e1_of = |version: u16| {
        let mut block = e1().block();
        block[graph::VERSION..graph::VERSION + 2].copy_from_slice(&version.to_le_bytes());
        block
    };
    vec![
        bad_graph("version-1", e1().version_1_block(), 20, 0),
        bad_graph("version-1-with-counts", e1_of(1), 20, 0),
        bad_graph("version-0", e1_of(0), 20, 0),
        bad_graph("version-3", e1_of(3), 20, 0),
        bad_graph("version-258", e1_of(258), 20, 0),
    ]
}

fn counts() -> Vec<FaultExample> {
    let with = |graph: GraphParts, counts: &[u16]| {
        let mut block = graph.block();
        write_counts(&mut block, counts);
        block
    };
    let of = |slots, outputs: &[u16], counts: &[u16]| with(GraphParts::new(slots, outputs), counts);
    let doubled = || vec![variable(), add(0, 0)];
    let dead = || vec![variable(), relu(0), relu(0), relu(2)];
    vec![
        bad_graph("count-more", with(e1(), &[1, 1, 1, 2, 1, 0]), 24, 3),
        bad_graph("count-less", with(e1(), &[1, 1, 1, 1, 0, 0]), 24, 4),
        bad_graph("count-high-byte", with(e1(), &[1, 257, 1, 1, 1, 0]), 24, 1),
        bad_graph("count-of-empty", with(e1(), &[1, 1, 1, 1, 1, 1]), 24, 5),
        bad_graph("counts-several", with(e1(), &[1, 1, 0, 2, 1, 1]), 24, 2),
        bad_graph("counts-of-readers", of(doubled(), &[1], &[1, 1]), 24, 0),
        bad_graph("counts-without-outputs", of(doubled(), &[0, 1], &[2, 0]), 24, 0),
        bad_graph("counts-output-once", of(doubled(), &[1, 1], &[2, 1]), 24, 1),
        bad_graph("counts-without-dead", of(dead(), &[1], &[1, 1, 0, 0]), 24, 0),
        bad_graph("counts-traded", of(doubled(), &[1], &[1, 2]), 24, 0),
        bad_graph("count-and-cycle", of(vec![relu(0), variable()], &[1], &[0, 0]), 23, 0),
        bad_graph("count-and-output", of(doubled(), &[2], &[9, 9]), 22, 0),
    ]
}

fn graph_headers_and_records() -> Vec<FaultExample> {
    // E1 with these bytes, each of which must be 0, set to 1.
    let e1_with = |bytes: &[usize]| {
        let mut block = e1().block();
        bytes.iter().for_each(|&at| block[at] = 1);
        block
    };
    let end_of = |slot: usize| graph::HEADER + graph::RECORD * (slot + 1) - 1;
    vec![
        bad_graph("graph-header", e1_with(&[3]), 20, 0),
        bad_graph("graph-header-and-record", e1_with(&[18, end_of(1)]), 20, 0),
        bad_graph("graph-record", e1_with(&[end_of(5)]), 21, 5),
        bad_graph("graph-records", e1_with(&[end_of(1), end_of(3), end_of(4)]), 21, 1),
    ]
}

fn graph_names() -> Vec<FaultExample> {
    let named = |second: u16, third: u16, outputs: &[u16]| {
        let slots = vec![variable(), relu(0), relu(second), add(0, third), empty()];
        GraphParts::new(slots, outputs).block()
    };
    vec![
        bad_graph("graph-input", named(1, 4, &[3]), 22, 3),
        bad_graph("graph-inputs", named(4, 5, &[3]), 22, 2),
        bad_graph("graph-output", named(1, 2, &[3, 4]), 22, 1),
        bad_graph("graph-outputs", named(1, 2, &[3, 4, 5, 65535]), 22, 1),
        bad_graph("graph-input-and-output", named(1, 4, &[4, 3]), 22, 3),
        bad_graph("graph-input-and-cycle", named(2, 4, &[3]), 22, 3),
    ]
}

fn cycles() -> Vec<FaultExample> {
    let of = |slots| GraphParts::new(slots, &[0]).block();
    vec![
        bad_graph("cycle-read-from", of(vec![relu(1), relu(3), relu(3), relu(2)]), 23, 2),
        bad_graph("cycle-reading", of(vec![variable(), relu(0), add(1, 3), relu(2)]), 23, 2),
        bad_graph("cycle-of-one", of(vec![relu(1), relu(2), relu(2)]), 23, 2),
        bad_graph("cycles", of(vec![variable(), relu(4), relu(3), relu(2), relu(1)]), 23, 1),
    ]
}

fn rule_kinds() -> Vec<FaultExample> {
    vec![
        bad_rule("rule-header", |rule| rule.source_outputs = vec![4], 30, 0),
        bad_rule(
            "rule-header-and-record",
            |rule| {
                rule.source_outputs = vec![4];
                rule.source[1].inputs = vec![1];
            },
            30,
            0,
        ),
        bad_rule("rule-source-record", |rule| rule.source[3].operator = 15, 31, 3),
        bad_rule("rule-target-record", |rule| rule.target[1].inputs[1] = 1, 31, 5),
        bad_rule(
            "rule-records",
            |rule| {
                rule.target[0].kind = 2;
                rule.target[1].kind = 0;
            },
            31,
            4,
        ),
        bad_rule("rule-order", |rule| rule.source[3].inputs = vec![2, 1], 32, 0),
        bad_rule("rule-order-ends", |rule| rule.source.push(rule.source[1].clone()), 32, 4),
        bad_rule("rule-output", |rule| rule.target_outputs = vec![16], 33, 0),
        bad_rule("rule-inputs", |rule| rule.target[1].inputs[1] = 0, 33, 0),
    ]
}

fn expressions() -> Vec<FaultExample> {
    vec![
        bad_rule("node", |rule| rule.nodes[2].number = 1, 34, 2),
        bad_rule("nodes", |rule| rule.nodes[1..].iter_mut().for_each(|node| node.form = 9), 34, 1),
        bad_rule("node-over-any", |rule| rule.nodes[2] = operation_node(TIMES, 1, 0), 34, 2),
        bad_rule("source-use", |rule| rule.source[1].attributes[0] = 1, 34, 1),
        bad_rule("target-use", |rule| rule.target[0].attributes[0] = 0, 34, 4),
        bad_rule(
            "uses",
            |rule| {
                rule.source[1].attributes[0] = 3;
                rule.target[0].attributes[0] = 3;
            },
            34,
            1,
        ),
        bad_rule(
            "node-and-use",
            |rule| {
                rule.nodes[2].form = 8;
                rule.source[1].attributes[0] = 3;
            },
            34,
            2,
        ),
    ]
}
