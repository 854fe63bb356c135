//! Request 1/13: a matched Const that others name, too.

mod common;

use common::{map_of, run_match, run_rewrite};
use leafgraph_reference::blocks::*;
use leafgraph_reference::operators::{ADD, CONST};

fn any_constant() -> PatternParts {
    pattern(CONST, 0, &[], &[0])
}

fn sum(left: u8, right: u8) -> PatternParts {
    call_pattern(ADD, &[left, right], &[])
}

/// The same target for another source, whose last vertex is the output.
fn rule(source: Vec<PatternParts>, targets: u8) -> RuleParts {
    let source_outputs = vec![source.len() as u8 - 1];
    RuleParts { source, source_outputs, ..dropped_constant(targets) }
}

#[test]
fn a_private_constant_goes() {
    let answer = run_rewrite(&constant_sum(variable(), &[empty()], &[2]), &dropped_constant(1), 0);
    let after = vec![relu(1), variable(), empty(), empty()];
    assert_eq!((answer.reply, answer.map), (0, map_of(&[1, 0, 2])));
    assert_eq!(answer.graph, GraphParts::new(after, &[0]).block());
}

/// Whatever else names it: a vertex that reaches an output or none, the image
/// of the rule input, a graph output.
#[test]
fn a_shared_constant_stays() {
    let apart = variable();
    for (x, others, outputs) in [
        (apart.clone(), vec![relu(0)], vec![2, 3]),
        (apart.clone(), vec![relu(0)], vec![2]),
        (relu(0), vec![], vec![2]),
        (apart.clone(), vec![], vec![2, 0]),
        (relu(0), vec![add(2, 0)], vec![0, 3, 2]),
    ] {
        let before = constant_sum(x.clone(), &others, &outputs);
        let answer = run_rewrite(&before, &dropped_constant(1), 0);
        let mut after = before.clone();
        after.slots[2] = relu(1);
        assert_eq!((answer.reply, answer.map), (0, map_of(&[1, 0, 2])), "{before:?}");
        assert_eq!(answer.graph, after.block(), "{before:?}");
    }
}

/// Two target vertices have room where the Const goes, and none where it
/// stays.
#[test]
fn a_constant_that_stays_gives_no_room() {
    let private = constant_sum(variable(), &[], &[2]);
    assert_eq!(run_rewrite(&private, &dropped_constant(2), 0).reply, 0);
    let shared = constant_sum(variable(), &[], &[2, 0]);
    assert_eq!(run_rewrite(&shared, &dropped_constant(2), 0).reply, 6);
    let with_room = constant_sum(variable(), &[empty()], &[2, 0]);
    let answer = run_rewrite(&with_room, &dropped_constant(2), 0);
    let after = vec![constant(7), variable(), relu(1), relu(2)];
    assert_eq!(answer.graph, GraphParts::new(after, &[3, 0]).block());
}

/// One Const is read by the match alone, though twice, the other one is not.
#[test]
fn of_two_constants_one_may_stay() {
    let source = vec![wildcard(), any_constant(), sum(0, 1), any_constant(), sum(2, 3), sum(4, 1)];
    let slots =
        vec![constant(1), constant(1), variable(), add(2, 0), add(3, 1), add(4, 0), relu(1)];
    let answer = run_rewrite(&GraphParts::new(slots, &[5, 6]), &rule(source, 2), 0);
    let after = vec![relu(2), constant(1), variable(), relu(0), empty(), empty(), relu(1)];
    assert_eq!((answer.reply, answer.map), (0, map_of(&[2, 0, 3, 1, 4, 5])));
    assert_eq!(answer.graph, GraphParts::new(after, &[3, 6]).block());
}

/// "no two to the same slot" holds of Consts, too.
#[test]
fn two_constants_alike_need_two() {
    let pair = rule(vec![wildcard(), any_constant(), sum(0, 1), any_constant(), sum(2, 3)], 1);
    let graph = |last| {
        let slots = vec![variable(), constant(1), constant(1), add(0, 1), add(3, last)];
        GraphParts::new(slots, &[4])
    };
    assert_eq!(run_match(&graph(1), &pair, 0).reply, 4);
    assert_eq!(run_match(&graph(2), &pair, 0).map, map_of(&[0, 1, 3, 2, 4]));
}

/// A Const that a wildcard takes is a rule input, and every other interior
/// image is private as before.
#[test]
fn only_a_matched_constant_may_be_shared() {
    let inputs = RuleParts { nodes: vec![], ..rule(vec![wildcard(), sum(0, 0)], 1) };
    let slots = vec![constant(3), add(0, 0)];
    let answer = run_rewrite(&GraphParts::new(slots, &[1]), &inputs, 0);
    assert_eq!(answer.graph, GraphParts::new(vec![constant(3), relu(0)], &[1]).block());
    let inner = rule(vec![wildcard(), any_constant(), sum(0, 1), sum(2, 1)], 1);
    let outputs = |outputs: &[u16]| {
        GraphParts::new(vec![constant(3), variable(), add(1, 0), add(2, 0)], outputs)
    };
    assert_eq!(run_match(&outputs(&[3, 0]), &inner, 0).reply, 0);
    assert_eq!(run_match(&outputs(&[3, 2]), &inner, 0).reply, 4);
}
