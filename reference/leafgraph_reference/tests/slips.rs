//! Document 01's "Slips we have seen", the order of refusals, and work that
//! must not grow out of hand.

mod common;

use common::{map_of, refused, run_match, run_rewrite, UNTOUCHED};
use leafgraph_reference::blocks::*;
use leafgraph_reference::operators::{ADD, CONST, MEAN, PROJ, RELU, TUPLE};
use leafgraph_reference::rule::PLUS;
use leafgraph_reference::{check_rule, find_match, rewrite};

/// "Redirecting only the first place of add(o,o)."
#[test]
fn both_places_are_redirected() {
    let slots = vec![variable(), relu(0), relu(1), add(2, 2)];
    let answer = run_rewrite(&GraphParts::new(slots, &[3, 2, 2]), &rr(), 0);
    let slots = vec![variable(), relu(0), empty(), add(1, 1)];
    assert_eq!(answer.graph, GraphParts::new(slots, &[3, 1, 1]).block());
}

/// "Comparing two inputs by equal content (two Variables alike are still
/// two)."
#[test]
fn alike_inputs_are_two() {
    let rule = RuleParts {
        source: vec![wildcard(), call_pattern(ADD, &[0, 0], &[])],
        target: vec![],
        source_outputs: vec![1],
        target_outputs: vec![0],
        nodes: vec![],
    };
    let graph = GraphParts::new(vec![variable(), variable(), add(0, 1)], &[2]);
    assert_eq!(run_match(&graph, &rule, 0).reply, 4);
}

/// A rule with two more target vertices than its source frees.
fn growing_rule() -> RuleParts {
    let relu = |input| call_pattern(RELU, &[input], &[]);
    let places = [0, 16, 17];
    RuleParts {
        source: vec![wildcard(), relu(0)],
        target: places.map(relu).to_vec(),
        source_outputs: vec![1],
        target_outputs: vec![target_place(2)],
        nodes: vec![],
    }
}

/// "Counting room before the removal": freed slots count as room.
#[test]
fn room() {
    let slots = |spare| [vec![variable(), relu(0)], vec![empty(); spare]].concat();
    let graph = |spare| GraphParts::new(slots(spare), &[1]);
    assert_eq!(run_rewrite(&graph(0), &growing_rule(), 0).reply, 6);
    assert_eq!(run_rewrite(&graph(1), &growing_rule(), 0).reply, 6);
    let answer = run_rewrite(&graph(2), &growing_rule(), 0);
    let after = GraphParts::new(vec![variable(), relu(0), relu(1), relu(2)], &[3]);
    assert_eq!((answer.reply, answer.graph), (0, after.block()));
}

/// A target vertex that reads the slot of another target vertex which took a
/// replaced output's slot is not redirected.
#[test]
fn target_inputs_are_not_redirected() {
    let slots = vec![relu(1), variable(), empty(), relu(0)];
    let answer = run_rewrite(&GraphParts::new(slots, &[3]), &growing_rule(), 1);
    // Slot 3, relu(0), is replaced: targets take 2 and 3 and then no more.
    assert_eq!(answer.reply, 6);
    let slots = vec![relu(1), variable(), empty(), relu(0), empty()];
    let answer = run_rewrite(&GraphParts::new(slots, &[3]), &growing_rule(), 1);
    let after = vec![relu(1), variable(), relu(0), relu(2), relu(3)];
    assert_eq!(answer.graph, GraphParts::new(after, &[4]).block());
}

/// A rule input that reads a replaced output is redirected too.
#[test]
fn rule_inputs_are_redirected() {
    // x = 0, y = mean(relu(x)); relu(x) becomes x, add(x, y) becomes sub.
    let mean = |input| call(MEAN, &[input], &[0]);
    let slots = vec![variable(), relu(0), mean(1), add(0, 2)];
    let mut rule = p7_rule();
    rule.target_outputs = vec![0, target_place(0)];
    let answer = run_rewrite(&GraphParts::new(slots, &[3, 1]), &rule, 0);
    let sub = call(3, &[0, 2], &[]);
    let after = vec![variable(), sub, mean(0), empty()];
    assert_eq!(answer.map, map_of(&[0, 1, 2, 3]));
    assert_eq!(answer.graph, GraphParts::new(after, &[1, 0]).block());
}

/// The image of a rule input may not read an interior image.
#[test]
fn interior_image_read_by_a_rule_input() {
    let tuple_rule = RuleParts {
        source: vec![
            wildcard(),
            call_pattern(RELU, &[0], &[]),
            wildcard(),
            call_pattern(ADD, &[1, 2], &[]),
        ],
        target: vec![pattern(TUPLE, 0, &[0, 2], &[])],
        source_outputs: vec![3],
        target_outputs: vec![target_place(0)],
        nodes: vec![],
    };
    let slots = vec![variable(), relu(0), relu(1), add(1, 2)];
    let graph = GraphParts::new(slots, &[3]);
    assert_eq!(run_match(&graph, &tuple_rule, 0).reply, 4);
}

/// A projection with a result below 1 as a target is 5, before room.
#[test]
fn projection_index_below_one() {
    let rule = |index| RuleParts {
        source: vec![wildcard(), call_pattern(RELU, &[0], &[])],
        target: vec![
            pattern(PROJ, 0, &[0], &[0]),
            pattern(CONST, 0, &[], &[0]),
            pattern(TUPLE, 0, &[16, 17], &[]),
        ],
        source_outputs: vec![1],
        target_outputs: vec![target_place(2)],
        nodes: vec![constant_node(index)],
    };
    let graph = GraphParts::new(vec![variable(), relu(0)], &[1]);
    assert_eq!(run_rewrite(&graph, &rule(0), 0).reply, 5);
    assert_eq!(run_rewrite(&graph, &rule(-5), 0).reply, 5);
    assert_eq!(run_rewrite(&graph, &rule(1), 0).reply, 6);
}

/// "Tested in that order, the lowest that applies is given."
#[test]
fn order_of_refusals() {
    let (graph, rule) = (e1().block(), rr().block());
    let (bad_graph, bad_rule) = (&graph[1..], &rule[1..]);
    for length in [0, 31, 33, 64] {
        let mut map = vec![UNTOUCHED; length];
        assert_eq!(find_match(bad_graph, bad_rule, 99, &mut map), 1);
        assert_eq!(rewrite(&mut bad_graph.to_vec(), bad_rule, 99, &mut map), 1);
        assert!(map.iter().all(|&byte| byte == UNTOUCHED));
    }
    let mut map = [UNTOUCHED; 32];
    let cycle = GraphParts::new(vec![variable(), relu(1)], &[0]).block();
    let unused_node = RuleParts { nodes: vec![any_node(), node(8, 0, 0, 0)], ..rr() }.block();
    for (graph, rule, reply) in [
        (bad_graph, bad_rule, 20),
        (&cycle, bad_rule, refused(23, 1)),
        (&graph, bad_rule, 30),
        (&graph, &unused_node, refused(34, 1)),
        (&graph, &rule, 4),
    ] {
        assert_eq!(find_match(graph, rule, 99, &mut map), reply);
        let mut table = graph.to_vec();
        assert_eq!(rewrite(&mut table, rule, 99, &mut map), reply);
        assert!(table == graph && map == [UNTOUCHED; 32]);
    }
}

/// 64 nodes, each the sum of the one before with itself.
#[test]
fn doubled_nodes_are_answered_at_once() {
    let mut nodes = vec![constant_node(0)];
    while nodes.len() < 64 {
        let last = nodes.len() as u8 - 1;
        nodes.push(operation_node(PLUS, last, last));
    }
    let rule = RuleParts {
        source: vec![wildcard(), call_pattern(MEAN, &[0], &[63])],
        target: vec![call_pattern(MEAN, &[0], &[63])],
        source_outputs: vec![1],
        target_outputs: vec![target_place(0)],
        nodes,
    };
    let mean = |input| call(MEAN, &[input], &[0]);
    let graph = GraphParts::new(vec![variable(), mean(0)], &[1]);
    assert_eq!(check_rule(&rule.block()), 0);
    assert_eq!(run_rewrite(&graph, &rule, 0).reply, 0);
}

/// A deep source whose every vertex reads the one below twice.
#[test]
fn doubled_inputs_are_answered_at_once() {
    let mut source = vec![wildcard()];
    while source.len() < 16 {
        let last = source.len() as u8 - 1;
        source.push(call_pattern(ADD, &[last, last], &[]));
    }
    let rule = RuleParts {
        source,
        target: vec![],
        source_outputs: vec![15],
        target_outputs: vec![0],
        nodes: vec![],
    };
    let mut slots = vec![variable()];
    while slots.len() < 512 {
        let last = slots.len() as u16 - 1;
        slots.push(add(last, last));
    }
    let answer = run_rewrite(&GraphParts::new(slots, &[511]), &rule, 500);
    assert_eq!(answer.reply, 0);
    assert_eq!(answer.map[0], 485);
}

/// Two outputs over 512 slots where no pair matches.
#[test]
fn all_pairs_are_answered_at_once() {
    let mut slots = vec![variable()];
    while slots.len() < 512 {
        slots.push(if slots.len() % 2 == 0 { add(0, 0) } else { relu(0) });
    }
    let graph = GraphParts::new(slots, &[1]);
    assert_eq!(run_match(&graph, &p7_rule(), 0).reply, 4);
}
