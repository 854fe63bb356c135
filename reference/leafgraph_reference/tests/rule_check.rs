//! The rule check, sentence by sentence.

mod common;

use common::refused;
use leafgraph_reference::blocks::*;
use leafgraph_reference::check_rule;
use leafgraph_reference::operators::{ADD, CONST, MEAN, PROJ, RELU, TUPLE, VARIABLE};

fn relu_pattern(input: u8) -> PatternParts {
    call_pattern(RELU, &[input], &[])
}

/// mean(x) with an attribute, then add(mean(x), y); one target tuple.
fn sample() -> RuleParts {
    RuleParts {
        source: vec![
            wildcard(),
            call_pattern(MEAN, &[0], &[0]),
            pattern(VARIABLE, 0, &[], &[0; 5]),
            call_pattern(ADD, &[1, 2], &[]),
        ],
        target: vec![call_pattern(MEAN, &[0], &[1]), pattern(TUPLE, 0, &[16, 2], &[])],
        source_outputs: vec![3],
        target_outputs: vec![target_place(1)],
        nodes: vec![any_node(), access_node(1, 1), operation_node(3, 1, 1)],
    }
}

fn reply(edit: impl Fn(&mut RuleParts)) -> u64 {
    let mut rule = sample();
    edit(&mut rule);
    check_rule(&rule.block())
}

#[test]
fn samples_are_sound() {
    assert_eq!(check_rule(&sample().block()), 0);
    assert_eq!(check_rule(&rr().block()), 0);
    assert_eq!(check_rule(&p7_rule().block()), 0);
}

#[test]
fn header_bytes() {
    for rule in [sample(), rr(), p7_rule()] {
        let block = rule.block();
        for at in 0..16 {
            let mut damaged = block.clone();
            damaged[at] ^= 0x40;
            // A used target output is no part of the header.
            let used = at >= 12 && at < 12 + rule.target_outputs.len();
            assert_eq!(check_rule(&damaged), if used { 33 } else { 30 }, "byte {at}");
        }
        for length in [0, 15, 16, block.len() - 1, block.len() + 1, block.len() + 8] {
            let mut other = block.clone();
            other.resize(length, 0);
            assert_eq!(check_rule(&other), 30, "{length} bytes");
        }
    }
}

#[test]
fn unused_places() {
    let block = sample().block();
    let (source, target) = (4, 2);
    for vertex in 0..source + target {
        let base = 16 + 16 * vertex;
        let (inputs, attributes) = (block[base + 2] as usize, block[base + 3] as usize);
        let unused = (4 + inputs..10).chain(10 + attributes..16);
        for offset in unused {
            let mut damaged = block.clone();
            damaged[base + offset] = 0;
            assert_eq!(check_rule(&damaged), refused(31, vertex), "offset {offset}");
        }
    }
    for node in 0..3 {
        let mut damaged = block.clone();
        damaged[16 + 16 * 6 + 8 * node + 3] = 1;
        assert_eq!(check_rule(&damaged), refused(34, node));
    }
}

#[test]
fn visiting_order() {
    let two = |source: Vec<PatternParts>, outputs: [u8; 2], inputs: &[u8]| {
        let rule = RuleParts {
            source,
            target: vec![pattern(TUPLE, 0, inputs, &[])],
            source_outputs: outputs.to_vec(),
            target_outputs: vec![target_place(0); 2],
            nodes: vec![],
        };
        check_rule(&rule.block())
    };
    let sum = |left, right| call_pattern(ADD, &[left, right], &[]);
    let own = |source| two(source, [1, 3], &[0, 2]);
    assert_eq!(own(vec![wildcard(), relu_pattern(0), wildcard(), sum(0, 2)]), 0);
    assert_eq!(own(vec![wildcard(), relu_pattern(0), wildcard(), sum(2, 0)]), 0);
    assert_eq!(own(vec![wildcard(), relu_pattern(0), wildcard(), sum(2, 2)]), 33);
    assert_eq!(own(vec![wildcard(), relu_pattern(0), wildcard(), sum(1, 2)]), 33);
    let swapped = vec![wildcard(), wildcard(), relu_pattern(0), sum(0, 1)];
    assert_eq!(two(swapped.clone(), [2, 3], &[0, 1]), refused(32, 1));
    assert_eq!(two(swapped, [3, 2], &[0, 1]), refused(32, 2));
    let listed = vec![wildcard(), wildcard(), sum(0, 1), relu_pattern(0)];
    assert_eq!(two(listed.clone(), [2, 3], &[0, 1]), 0);
    assert_eq!(two(listed.clone(), [3, 2], &[0, 1]), refused(32, 1));
    assert_eq!(two(listed.clone(), [2, 2], &[0, 1]), refused(32, 3));
    let right_first = vec![wildcard(), wildcard(), sum(1, 0), relu_pattern(0)];
    assert_eq!(two(right_first, [2, 3], &[0, 1]), refused(32, 0));
}

#[test]
fn source_outputs() {
    assert_eq!(reply(|rule| rule.source_outputs = vec![4]), 30);
    assert_eq!(reply(|rule| rule.source_outputs = vec![1]), refused(32, 2));
    assert_eq!(reply(|rule| rule.source[3] = wildcard()), refused(32, 0));
    assert_eq!(reply(|rule| rule.source.push(relu_pattern(0))), refused(32, 4));
    assert_eq!(
        reply(|rule| {
            rule.source.push(relu_pattern(3));
            rule.source_outputs = vec![3, 4];
            rule.target_outputs = vec![17, 17];
        }),
        33,
        "an output that reads an output"
    );
    for kind in [CONST, VARIABLE] {
        let attributes = vec![0; if kind == CONST { 1 } else { 5 }];
        let rule = RuleParts {
            source: vec![pattern(kind, 0, &[], &attributes)],
            target: vec![pattern(CONST, 0, &[], &[1])],
            source_outputs: vec![0],
            target_outputs: vec![16],
            nodes: vec![any_node(), constant_node(1)],
        };
        assert_eq!(check_rule(&rule.block()), 33);
    }
}

#[test]
fn rule_without_inputs_is_sound() {
    let rule = RuleParts {
        source: vec![pattern(CONST, 0, &[], &[0]), relu_pattern(0)],
        target: vec![pattern(CONST, 0, &[], &[1])],
        source_outputs: vec![1],
        target_outputs: vec![16],
        nodes: vec![any_node(), constant_node(1)],
    };
    assert_eq!(check_rule(&rule.block()), 0);
}

#[test]
fn connection() {
    let rule = |second: u8, named: &[u8]| RuleParts {
        source: vec![wildcard(), relu_pattern(0), wildcard(), call_pattern(ADD, &[2, second], &[])],
        target: vec![pattern(TUPLE, 0, named, &[])],
        source_outputs: vec![1, 3],
        target_outputs: vec![16, 16],
        nodes: vec![],
    };
    assert_eq!(check_rule(&rule(0, &[0, 2]).block()), 0);
    assert_eq!(check_rule(&rule(2, &[0, 2]).block()), 33);
}

#[test]
fn target_inputs() {
    let tuple = |inputs: &[u8]| reply(|rule| rule.target[1].inputs = inputs.to_vec());
    assert_eq!(tuple(&[16, 2]), 0);
    assert_eq!(tuple(&[16, 2, 2, 0, 0, 16]), 0);
    assert_eq!(tuple(&[16, 0]), 33, "2 unnamed");
    assert_eq!(tuple(&[2, 2]), 33, "16 unused");
    assert_eq!(tuple(&[16, 2, 1]), refused(31, 5), "no rule input");
    assert_eq!(tuple(&[16, 2, 17]), refused(31, 5), "itself");
    assert_eq!(tuple(&[16, 2, 4]), refused(31, 5), "at S");
    assert_eq!(reply(|rule| rule.target[0].inputs = vec![17]), refused(31, 4), "a later one");
}

#[test]
fn target_outputs_and_kinds() {
    for (output, why) in [(18, "at 16 + T"), (16, "17 unused"), (3, "no rule input")] {
        assert_eq!(reply(|rule| rule.target_outputs = vec![output]), 33, "{why}");
    }
    for kind in [0, 2, 6] {
        assert_eq!(reply(|rule| rule.target[0].kind = kind), refused(31, 4));
    }
    let first = |made: &PatternParts| {
        reply(|rule| {
            rule.target[0] = made.clone();
            rule.target[1].inputs = vec![16, 2, 0];
        })
    };
    assert_eq!(first(&pattern(CONST, 0, &[], &[1])), 0);
    assert_eq!(first(&pattern(VARIABLE, 0, &[], &[1; 5])), refused(31, 4));
    assert_eq!(first(&wildcard()), refused(31, 4));
}

#[test]
fn node_forms() {
    let node_2 = |form, a, b, number| reply(|rule| rule.nodes[2] = node(form, a, b, number));
    let bad = refused(34, 2);
    assert_eq!(node_2(0, 0, 0, 0), 0, "an any that nobody uses");
    assert_eq!([node_2(0, 1, 0, 0), node_2(0, 0, 1, 0), node_2(0, 0, 0, 1)], [bad; 3]);
    assert_eq!(node_2(1, 0, 0, i32::MIN), 0);
    assert_eq!([node_2(1, 1, 0, 0), node_2(1, 0, 1, 0)], [bad; 2]);
    assert_eq!([node_2(2, 3, 6, 0), node_2(2, 0, 1, 0)], [0, 0]);
    assert_eq!([node_2(2, 4, 1, 0), node_2(2, 3, 0, 0), node_2(2, 3, 7, 0)], [bad; 3]);
    assert_eq!(node_2(2, 3, 1, 1), bad);
    for form in 3..8 {
        assert_eq!(node_2(form, 1, 1, 0), 0);
        let fields = [(0, 1, 0), (1, 0, 0), (2, 1, 0), (1, 2, 0), (1, 3, 0), (1, 1, 5)];
        for (a, b, number) in fields {
            assert_eq!(node_2(form, a, b, number), bad, "form {form} {a} {b} {number}");
        }
    }
    assert_eq!(node_2(8, 1, 1, 0), bad);
    assert_eq!(node_2(255, 0, 0, 0), bad);
}

#[test]
fn attribute_uses() {
    let source_1 = |node: u8| reply(|rule| rule.source[1].attributes = vec![node]);
    let target_0 = |node: u8| reply(|rule| rule.target[0].attributes = vec![node]);
    assert_eq!(source_1(3), refused(34, 1), "node at A");
    assert_eq!(source_1(1), refused(34, 1), "accesses itself");
    assert_eq!(source_1(2), refused(34, 1), "accesses itself through a node");
    assert_eq!(target_0(3), refused(34, 4), "node at A");
    assert_eq!(target_0(0), refused(34, 4), "any in target");
    assert_eq!(target_0(2), 0);
    assert_eq!(reply(|rule| rule.nodes[1] = access_node(3, 6)), 0, "target accesses any");
    let source_2 = |accessed: u8, nodes: &[u8]| {
        reply(|rule| {
            rule.nodes[1] = access_node(accessed, 1);
            rule.source[2].attributes = nodes.to_vec();
        })
    };
    assert_eq!(source_2(1, &[1, 2, 1, 2, 0]), 0);
    assert_eq!(source_2(2, &[0, 0, 0, 0, 2]), refused(34, 2));
}

#[test]
fn constant_projection_index_of_zero_is_sound() {
    let projection = |input| pattern(PROJ, 0, &[input], &[0]);
    let rule = RuleParts {
        source: vec![wildcard(), projection(0)],
        target: vec![projection(0)],
        source_outputs: vec![1],
        target_outputs: vec![16],
        nodes: vec![constant_node(0)],
    };
    assert_eq!(check_rule(&rule.block()), 0);
}

#[test]
fn largest_rule_is_sound() {
    let chain = |first: u8, base: u8| -> Vec<PatternParts> {
        let input = |vertex: u8| {
            if vertex == 0 {
                first
            } else {
                base + vertex - 1
            }
        };
        (0..16).map(|vertex| relu_pattern(input(vertex))).collect()
    };
    let mut source = chain(0, 0);
    source[0] = wildcard();
    let rule = RuleParts {
        source,
        target: chain(0, 16),
        source_outputs: vec![15],
        target_outputs: vec![31],
        nodes: vec![constant_node(-1); 64],
    };
    assert_eq!(check_rule(&rule.block()), 0);
    let mut more = rule.clone();
    more.nodes.push(any_node());
    assert_eq!(check_rule(&more.block()), 30);
}

#[test]
fn the_lowest_vertex_of_several() {
    let mut rule = sample();
    rule.target[1].kind = 2;
    assert_eq!(check_rule(&rule.block()), refused(31, 5), "target vertex 1 counts as 4 + 1");
    rule.target[0].operator = 15;
    assert_eq!(check_rule(&rule.block()), refused(31, 4), "target vertex 0 counts as 4 + 0");
    rule.source[3].inputs = vec![1, 3];
    assert_eq!(check_rule(&rule.block()), refused(31, 3));
    rule.source[1].inputs = vec![2];
    assert_eq!(check_rule(&rule.block()), refused(31, 1));
}

/// add(relu(x), relu(y)) in the order of these numbers for x, relu(x), y and
/// relu(y).
fn order_reply(numbers: [u8; 4]) -> u64 {
    let [x, over_x, y, over_y] = numbers;
    let mut source = vec![wildcard(); 5];
    source[usize::from(over_x)] = relu_pattern(x);
    source[usize::from(over_y)] = relu_pattern(y);
    source[4] = call_pattern(ADD, &[over_x, over_y], &[]);
    let rule = RuleParts {
        source,
        target: vec![pattern(TUPLE, 0, &[x, y], &[])],
        source_outputs: vec![4],
        target_outputs: vec![target_place(0)],
        nodes: vec![],
    };
    check_rule(&rule.block())
}

#[test]
fn the_first_vertex_that_differs_from_the_traversal() {
    assert_eq!(order_reply([0, 1, 2, 3]), 0);
    assert_eq!(order_reply([2, 3, 0, 1]), refused(32, 0), "2 is visited first");
    assert_eq!(order_reply([0, 2, 1, 3]), refused(32, 1), "2 is visited after 0");
    assert_eq!(order_reply([0, 3, 1, 2]), refused(32, 1), "3 is visited after 0");
    assert_eq!(order_reply([1, 2, 0, 3]), refused(32, 0), "1 is visited first");
}

#[test]
fn a_traversal_that_ends_early() {
    for (more, unreached) in [(1, "one"), (3, "three")] {
        let reply = reply(|rule| rule.source.resize(4 + more, relu_pattern(1)));
        assert_eq!(reply, refused(32, 4), "{unreached} not reached");
    }
    let differs = reply(|rule| {
        rule.source[3].inputs = vec![2, 1];
        rule.source.push(relu_pattern(0));
    });
    assert_eq!(differs, refused(32, 0), "it differs, and ends early too");
}

#[test]
fn the_lowest_node_and_then_the_lowest_use() {
    let edited = |nodes: &[usize], vertices: &[usize]| {
        reply(|rule| {
            nodes.iter().for_each(|&node| rule.nodes[node].form = 9);
            for &vertex in vertices {
                match vertex {
                    0..=3 => rule.source[vertex].attributes[0] = 3,
                    _ => rule.target[vertex - 4].attributes[0] = 0,
                }
            }
        })
    };
    assert_eq!(edited(&[2], &[]), refused(34, 2));
    assert_eq!(edited(&[1, 2], &[]), refused(34, 1));
    assert_eq!(edited(&[], &[4]), refused(34, 4), "target vertex 0 counts as 4 + 0");
    assert_eq!(edited(&[], &[2, 4]), refused(34, 2));
    assert_eq!(edited(&[], &[1, 2, 4]), refused(34, 1));
    assert_eq!(edited(&[2], &[1, 4]), refused(34, 2), "a node before a lower vertex's use");
}

#[test]
fn any_as_an_operand_is_a_fault_of_the_node_that_names_it() {
    let over_any = |edit: fn(&mut RuleParts)| {
        reply(|rule| {
            rule.nodes.push(operation_node(4, 1, 2));
            rule.nodes.push(operation_node(5, 3, 3));
            edit(rule);
        })
    };
    assert_eq!(over_any(|_| ()), 0);
    assert_eq!(over_any(|rule| rule.nodes[3].b = 0), refused(34, 3), "node 3 names node 0");
    assert_eq!(over_any(|rule| rule.nodes[4].a = 0), refused(34, 4), "node 4 names node 0");
    assert_eq!(over_any(|rule| rule.nodes[3] = any_node()), refused(34, 4), "4 names node 3");
    assert_eq!(over_any(|rule| rule.nodes[1] = any_node()), refused(34, 2), "2 and 3 name node 1");
}

#[test]
fn kinds_come_in_order() {
    let mut rule = sample();
    rule.nodes[2].form = 8;
    rule.source[1].attributes = vec![3];
    rule.target_outputs = vec![18];
    rule.source[3].inputs = vec![2, 1];
    rule.target[1].inputs = vec![16, 2, 3];
    rule.source_outputs = vec![4];
    let mut expect = |reply: u64, edit: fn(&mut RuleParts)| {
        assert_eq!(check_rule(&rule.block()), reply);
        edit(&mut rule);
    };
    expect(30, |rule| rule.source_outputs = vec![3]);
    expect(refused(31, 5), |rule| rule.target[1].inputs = vec![16, 2]);
    expect(refused(32, 0), |rule| rule.source[3].inputs = vec![1, 2]);
    expect(33, |rule| rule.target_outputs = vec![17]);
    expect(refused(34, 2), |rule| rule.nodes[2].form = 3);
    expect(refused(34, 1), |rule| rule.source[1].attributes = vec![0]);
    expect(0, |_| ());
}
