//! Prints the replies to the run-only examples, and what rewriting makes of
//! the P examples that call for it, so that the proved library's own run of
//! them can be compared with it.

use leafgraph_reference::blocks::{
    add, call_pattern, chain, constant, constant_node, e1, operation_node, p10_graph, p10_rule,
    p7_graph, p7_rule, p8_graph, pattern, relu, reversed_chain, rr, target_place, variable,
    GraphParts, RuleParts,
};
use leafgraph_reference::reply::{number_of, place_of};
use leafgraph_reference::{check_graph, check_rule, find_match, rewrite};

fn main() {
    checks();
    matches();
    operations();
    rewritings();
}

fn checks() {
    let graphs: [(&str, Vec<u8>); 15] = [
        ("N = 0", chain(0).block()),
        ("N = 1", chain(1).block()),
        ("N = 512", chain(512).block()),
        ("N = 513", chain(513).block()),
        ("N = 512 reversed", reversed_chain(512).block()),
        ("E1", e1().block()),
        ("E1 one byte short", shorter(e1().block())),
        ("E1 one byte long", longer(e1().block())),
        ("self-reading slot", self_reading().block()),
        ("cycle through the last slot", last_slot_cycle().block()),
        ("E1 as version 1", e1().version_1_block()),
        ("E1 with a wrong count", counting(e1().block(), 2, 0)),
        ("slots named twice", named_twice().block()),
        ("slots named twice and counted once", counting(named_twice().block(), 1, 1)),
        ("empty", vec![]),
    ];
    for (name, block) in graphs {
        println!("graph {name}: {}", words(check_graph(&block)));
    }
    let rules: [(&str, Vec<u8>); 4] = [
        ("RR", rr().block()),
        ("RR one byte short", shorter(rr().block())),
        ("RR one byte long", longer(rr().block())),
        ("empty", vec![]),
    ];
    for (name, block) in rules {
        println!("rule {name}: {}", words(check_rule(&block)));
    }
}

/// A reply's number, and its place where that is not 0.
fn words(reply: u64) -> String {
    match place_of(reply) {
        0 => number_of(reply).to_string(),
        place => format!("{} at {place}", number_of(reply)),
    }
}

/// RR on E1. Every byte of the map is 170 before, so that a refusal is seen
/// to keep it.
fn matches() {
    for start in [0, 4, 5, 65535, 65536, usize::MAX] {
        let mut map = [170; 32];
        let reply = find_match(&e1().block(), &rr().block(), start, &mut map);
        println!("match RR on E1 from {start}: {}", words(reply));
        println!("map: {}", numbers(&map));
    }
}

/// The 16-bit numbers in these bytes.
fn numbers(bytes: &[u8]) -> String {
    let numbers = bytes.chunks(2).map(|pair| u16::from_le_bytes([pair[0], pair[1]]).to_string());
    numbers.collect::<Vec<String>>().join(" ")
}

/// P9: whether an operation gives a number, seen by matching a constant.
fn operations() {
    let quotients = [(-7, 2, -4), (-7, 2, -3), (7, -2, -4), (i32::MIN, -1, i32::MIN)];
    for (left, right, result) in quotients {
        println!("quotient of {left} by {right} is {result}: {}", agrees(6, left, right, result));
    }
    for (left, right, result) in [(-7, 2, 1), (7, -2, -1), (i32::MIN, -1, 0), (7, 0, 0)] {
        println!("remainder of {left} by {right} is {result}: {}", agrees(7, left, right, result));
    }
}

fn agrees(form: u8, left: i32, right: i32, result: i32) -> u64 {
    let graph = GraphParts::new(vec![constant(result), relu(0)], &[1]);
    let rule = RuleParts {
        source: vec![pattern(1, 0, &[], &[2]), call_pattern(7, &[0], &[])],
        target: vec![pattern(1, 0, &[], &[0])],
        source_outputs: vec![1],
        target_outputs: vec![target_place(0)],
        nodes: vec![constant_node(left), constant_node(right), operation_node(form, 0, 1)],
    };
    find_match(&graph.block(), &rule.block(), 0, &mut [0; 32]) & 255
}

/// All start at 0.
fn rewritings() {
    let e1_with = |outputs: &[u16]| GraphParts { outputs: outputs.to_vec(), ..e1() };
    let mut e1_of_five = e1();
    e1_of_five.slots.pop();
    let gains = |number| p10_graph([number, 1, 1], [number, 1, 1]);
    let cases: [(&str, GraphParts, RuleParts); 7] = [
        ("P1", e1(), rr()),
        ("P3", e1_with(&[4, 3]), rr()),
        ("P4", e1_of_five, rr()),
        ("P7", p7_graph(), p7_rule()),
        ("P8", p8_graph(), p7_rule()),
        ("P10", gains(65536), p10_rule()),
        ("P10 with 256", gains(256), p10_rule()),
    ];
    for (name, graph, rule) in cases {
        rewriting(name, &mut graph.block(), &rule.block());
    }
}

/// The reply, and the map and the table after it: of the header the four
/// output places, of each slot kind, operator, the first two input places and
/// the first attribute.
fn rewriting(name: &str, graph: &mut [u8], rule: &[u8]) {
    let mut map = [170; 32];
    let reply = rewrite(graph, rule, 0, &mut map);
    println!("rewrite {name}: {}", words(reply));
    println!("map: {}", numbers(&map));
    println!("outputs: {}", numbers(&graph[10..18]));
    for (slot, record) in graph[24..].chunks(48).enumerate() {
        let attribute = u32::from_le_bytes([record[16], record[17], record[18], record[19]]);
        let inputs = numbers(&record[4..8]);
        println!("slot {slot}: {} {} {inputs} {attribute}", record[0], record[1]);
    }
}

fn shorter(mut block: Vec<u8>) -> Vec<u8> {
    block.pop();
    block
}

fn longer(mut block: Vec<u8>) -> Vec<u8> {
    block.push(0);
    block
}

/// The block with another count, below 256, in a slot.
fn counting(mut block: Vec<u8>, slot: usize, count: u8) -> Vec<u8> {
    block[24 + 48 * slot + 40] = count;
    block
}

/// Slot 0 by two input places of one reader, slot 1 by both outputs.
fn named_twice() -> GraphParts {
    GraphParts::new(vec![variable(), add(0, 0)], &[1, 1])
}

fn self_reading() -> GraphParts {
    GraphParts::new(vec![variable(), relu(1)], &[0])
}

fn last_slot_cycle() -> GraphParts {
    GraphParts::new(vec![variable(), add(0, 2), relu(1)], &[1])
}
