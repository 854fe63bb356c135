//! Document 01's "Leaf-bench examples".

mod common;

use common::{map_of, refused, run_match, run_rewrite};
use leafgraph_reference::attributes::combine;
use leafgraph_reference::blocks::*;
use leafgraph_reference::operators::{ADD, GAIN, MEAN, RELU, SUB};
use leafgraph_reference::rule::{DIVIDE, REMAINDER};
use leafgraph_reference::{check_graph, check_rule};

fn e1_after_p1() -> GraphParts {
    let mut after = e1();
    after.slots[3] = relu(2);
    after.slots[4] = empty();
    after.slots[5] = empty();
    after.outputs = vec![3];
    after
}

#[test]
fn p1_double_relu() {
    assert_eq!(run_match(&e1(), &rr(), 0).map, map_of(&[2, 3, 4]));
    let answer = run_rewrite(&e1(), &rr(), 0);
    assert_eq!(answer.reply, 0);
    assert_eq!(answer.map, map_of(&[2, 3, 4]));
    assert_eq!(answer.graph, e1_after_p1().block());
}

#[test]
fn p2_start() {
    assert_eq!(run_match(&e1(), &rr(), 5).reply, 4);
    assert_eq!(run_rewrite(&e1(), &rr(), 5).reply, 4);
    assert_eq!(run_rewrite(&e1(), &rr(), 4).graph, e1_after_p1().block());
    assert_eq!(run_match(&e1(), &rr(), 4).map, map_of(&[2, 3, 4]));
}

#[test]
fn p3_interior_image_is_an_output() {
    let mut graph = e1();
    graph.outputs = vec![4, 3];
    assert_eq!(run_match(&graph, &rr(), 0).reply, 4);
}

#[test]
fn p4_no_empty_slot_before() {
    let mut graph = e1();
    graph.slots.pop();
    assert_eq!(run_rewrite(&graph, &rr(), 0).reply, 0);
}

fn add_rule(source: Vec<PatternParts>, output: u8) -> RuleParts {
    let inputs: Vec<u8> =
        (0..source.len() as u8).filter(|&vertex| source[usize::from(vertex)].kind == 0).collect();
    RuleParts {
        source,
        target: vec![pattern(4, 0, &inputs, &[])],
        source_outputs: vec![output],
        target_outputs: vec![target_place(0)],
        nodes: vec![],
    }
}

#[test]
fn p5_two_wildcards_are_two_slots() {
    let graph = GraphParts::new(vec![variable(), add(0, 0)], &[1]);
    let sum = |left, right| call_pattern(ADD, &[left, right], &[]);
    let two = add_rule(vec![wildcard(), wildcard(), sum(0, 1)], 2);
    let one = add_rule(vec![wildcard(), sum(0, 0)], 1);
    assert_eq!(run_match(&graph, &two, 0).reply, 4);
    assert_eq!(run_match(&graph, &one, 0).map, map_of(&[0, 1]));
}

fn p6_graph() -> GraphParts {
    let mean = call(MEAN, &[1], &[0]);
    GraphParts::new(vec![variable(), relu(0), mean, add(1, 2)], &[3])
}

#[test]
fn p6_interior_image_read_from_outside() {
    let source = vec![
        wildcard(),
        call_pattern(RELU, &[0], &[]),
        wildcard(),
        call_pattern(ADD, &[1, 2], &[]),
    ];
    let rule = add_rule(source, 3);
    assert_eq!(check_rule(&rule.block()), 0);
    assert_eq!(run_match(&p6_graph(), &rule, 0).reply, 4);
}

#[test]
fn p7_cycle_in_the_new_table() {
    let mut graph = p6_graph();
    graph.slots[3] = add(0, 2);
    assert_eq!(graph, p7_graph());
    assert_eq!(run_match(&graph, &p7_rule(), 0).map, map_of(&[0, 1, 2, 3]));
    assert_eq!(run_rewrite(&graph, &p7_rule(), 0).reply, 7);
}

#[test]
fn p8_the_search_goes_on() {
    assert_eq!(run_match(&p8_graph(), &p7_rule(), 0).map, map_of(&[1, 3, 0, 4]));
    let answer = run_rewrite(&p8_graph(), &p7_rule(), 0);
    let slots = vec![variable(), variable(), relu(0), call(SUB, &[1, 0], &[]), empty()];
    assert_eq!((answer.reply, answer.map), (0, map_of(&[1, 3, 0, 4])));
    assert_eq!(answer.graph, GraphParts::new(slots, &[3]).block());
}

#[test]
fn p9_division() {
    assert_eq!(combine(DIVIDE, -7, 2), Some(-4));
    assert_eq!(combine(REMAINDER, -7, 2), Some(1));
    assert_eq!(combine(DIVIDE, 7, -2), Some(-4));
    assert_eq!(combine(REMAINDER, 7, -2), Some(-1));
    assert_eq!(combine(DIVIDE, i32::MIN, -1), None);
    assert_eq!(combine(REMAINDER, i32::MIN, -1), Some(0));
    assert_eq!(combine(DIVIDE, 1, 0), None);
    assert_eq!(combine(REMAINDER, 1, 0), None);
}

#[test]
fn p10_product_without_result() {
    let graph = p10_graph([65536, 1, 1], [65536, 1, 1]);
    assert_eq!(run_match(&graph, &p10_rule(), 0).reply, 0);
    assert_eq!(run_rewrite(&graph, &p10_rule(), 0).reply, 5);
    let graph = p10_graph([65536, -3, 1], [32767, 5, 0]);
    let after = run_rewrite(&graph, &p10_rule(), 0);
    let fused = call(GAIN, &[0], &[65536 * 32767, -15, 0]);
    let expected = GraphParts::new(vec![variable(), fused, empty()], &[1]);
    assert_eq!(after.reply, 0);
    assert_eq!(after.graph, expected.block());
}

#[test]
fn run_only_sizes_and_lengths() {
    let replies = [0, 1, 512, 513].map(|slots| check_graph(&chain(slots).block()));
    assert_eq!(replies, [20, 0, 0, 20]);
    assert_eq!(check_graph(&reversed_chain(512).block()), 0);
    for (block, check, refusal) in [
        (e1().block(), check_graph as fn(&[u8]) -> u64, 20),
        (rr().block(), check_rule as fn(&[u8]) -> u64, 30),
    ] {
        let mut longer = block.clone();
        longer.push(0);
        assert_eq!(check(&block), 0);
        assert_eq!(check(&block[..block.len() - 1]), refusal);
        assert_eq!(check(&longer), refusal);
        assert_eq!(check(&[]), refusal);
    }
}

#[test]
fn run_only_self_reading_slot_and_start() {
    let graph = GraphParts::new(vec![variable(), relu(1)], &[0]);
    assert_eq!(check_graph(&graph.block()), refused(23, 1));
    let graph = GraphParts::new(vec![variable(), add(0, 2), relu(1)], &[1]);
    assert_eq!(check_graph(&graph.block()), refused(23, 1));
    for start in [6, 65535, 65536, 1 << 32, usize::MAX] {
        assert_eq!(run_match(&e1(), &rr(), start).reply, 4);
        assert_eq!(run_rewrite(&e1(), &rr(), start).reply, 4);
    }
}
