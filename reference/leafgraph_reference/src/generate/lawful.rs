//! Rules whose two sides mean the same: some in every meaning, the others
//! under the laws of `crate::meaning`.

use crate::blocks::{access_node, any_node, call_pattern, constant_node, p10_rule, pattern, rr};
use crate::blocks::{wildcard, PatternParts, RuleParts};
use crate::operators::{ADD, CONST, GAIN, PROJ, RELU, RESHAPE, TUPLE};
use crate::rule::Node;

/// All of them. Together they remove vertices, keep their number and add
/// some; two have no target vertex; nearly half have two outputs.
pub fn lawful_rules() -> Vec<RuleParts> {
    vec![
        rr(),
        doubled_relu(),
        turned_sum(),
        grouped_sum(),
        turned_constant(),
        grouped_constants(),
        p10_rule(),
        last_reshape(),
        projection_of_one(),
        unpacked_pair(),
        shared_relus(),
        shared_gains(),
        shared_sums(),
        relu_and_sum(),
    ]
}

fn relu(input: u8) -> PatternParts {
    call_pattern(RELU, &[input], &[])
}

fn sum(left: u8, right: u8) -> PatternParts {
    call_pattern(ADD, &[left, right], &[])
}

fn gain(input: u8, nodes: [u8; 3]) -> PatternParts {
    call_pattern(GAIN, &[input], &nodes)
}

/// A rule without nodes.
fn plain(
    source: Vec<PatternParts>,
    source_outputs: &[u8],
    target: Vec<PatternParts>,
    target_outputs: &[u8],
) -> RuleParts {
    RuleParts {
        source,
        target,
        source_outputs: source_outputs.to_vec(),
        target_outputs: target_outputs.to_vec(),
        nodes: vec![],
    }
}

/// relu(x) becomes relu(relu(x)), as long as there is room.
fn doubled_relu() -> RuleParts {
    plain(vec![wildcard(), relu(0)], &[1], vec![relu(0), relu(16)], &[17])
}

/// add(x,y) becomes add(y,x), without end.
fn turned_sum() -> RuleParts {
    plain(vec![wildcard(), wildcard(), sum(0, 1)], &[2], vec![sum(1, 0)], &[16])
}

/// add(add(x,y),z) becomes add(x,add(y,z)).
fn grouped_sum() -> RuleParts {
    let source = vec![wildcard(), wildcard(), sum(0, 1), wildcard(), sum(2, 3)];
    plain(source, &[4], vec![sum(1, 3), sum(0, 16)], &[17])
}

fn constant(node: u8) -> PatternParts {
    pattern(CONST, 0, &[], &[node])
}

/// add(x,c) becomes add(c,x) with a Const of its own: where c has other
/// readers, they keep it.
fn turned_constant() -> RuleParts {
    let source = vec![wildcard(), constant(0), sum(0, 1)];
    let mut rule = plain(source, &[2], vec![constant(1), sum(16, 0)], &[17]);
    rule.nodes = attribute_nodes(1, 1);
    rule
}

/// add(add(x,c),d) becomes add(x,add(c,d)).
fn grouped_constants() -> RuleParts {
    let source = vec![wildcard(), constant(0), sum(0, 1), constant(0), sum(2, 3)];
    let target = vec![constant(1), constant(2), sum(16, 17), sum(0, 18)];
    let mut rule = plain(source, &[4], target, &[19]);
    rule.nodes = vec![any_node(), access_node(1, 1), access_node(3, 1)];
    rule
}

/// Nodes 1 and on: the attributes of this source vertex. Node 0 is any.
fn attribute_nodes(vertex: u8, count: u8) -> Vec<Node> {
    let accesses = (1..=count).map(|place| access_node(vertex, place));
    [any_node()].into_iter().chain(accesses).collect()
}

/// Of two reshapes the last one decides.
fn last_reshape() -> RuleParts {
    let reshape = |input, nodes: [u8; 4]| call_pattern(RESHAPE, &[input], &nodes);
    let source = vec![wildcard(), reshape(0, [0; 4]), reshape(1, [0; 4])];
    let mut rule = plain(source, &[2], vec![reshape(0, [1, 2, 3, 4])], &[16]);
    rule.nodes = attribute_nodes(2, 4);
    rule
}

fn projection(input: u8, node: u8) -> PatternParts {
    pattern(PROJ, 0, &[input], &[node])
}

/// The first of a Tuple of x is x: nothing takes the place of the two.
fn projection_of_one() -> RuleParts {
    let source = vec![wildcard(), pattern(TUPLE, 0, &[0], &[]), projection(1, 0)];
    let mut rule = plain(source, &[2], vec![], &[0]);
    rule.nodes = vec![constant_node(1)];
    rule
}

/// The first and the second of a Tuple of x and y are x and y.
fn unpacked_pair() -> RuleParts {
    let tuple = pattern(TUPLE, 0, &[0, 1], &[]);
    let source = vec![wildcard(), wildcard(), tuple, projection(2, 0), projection(2, 1)];
    let mut rule = plain(source, &[3, 4], vec![], &[0, 1]);
    rule.nodes = vec![constant_node(1), constant_node(2)];
    rule
}

/// Two relus of x become one.
fn shared_relus() -> RuleParts {
    plain(vec![wildcard(), relu(0), relu(0)], &[1, 2], vec![relu(0)], &[16, 16])
}

/// Two gains of x with the same attributes become one.
fn shared_gains() -> RuleParts {
    let source = vec![wildcard(), gain(0, [0; 3]), gain(0, [1, 2, 3])];
    let mut rule = plain(source, &[1, 2], vec![gain(0, [1, 2, 3])], &[16, 16]);
    rule.nodes = attribute_nodes(1, 3);
    rule
}

/// add(x,y) and add(y,x) become one.
fn shared_sums() -> RuleParts {
    let source = vec![wildcard(), wildcard(), sum(0, 1), sum(1, 0)];
    plain(source, &[2, 3], vec![sum(0, 1)], &[16, 16])
}

/// P7's source with a target of the same meaning: y may read relu(x), and is
/// redirected then.
fn relu_and_sum() -> RuleParts {
    let source = vec![wildcard(), relu(0), wildcard(), sum(0, 2)];
    plain(source, &[1, 3], vec![relu(0), sum(2, 0)], &[16, 17])
}
