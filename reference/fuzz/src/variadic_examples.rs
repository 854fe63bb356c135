//! Small variadic rules (request 8/13) with graphs, for tests and as seeds.

use leafgraph_reference::blocks::{
    access_node, any_node, call, call_pattern, constant_node, empty, index_node, operation_node,
    pattern, relu, sum_node, target_place, template, tuple, variable, wildcard, GraphParts,
    PatternParts, RuleParts, VariadicParts, Vertex,
};
use leafgraph_reference::operators::{GAIN, MEAN, RELU, TUPLE};
use leafgraph_reference::rule::{Node, TIMES};

const CONCAT: u8 = 8;

/// What a call gets.
pub struct VariadicExample {
    pub name: &'static str,
    pub graph: GraphParts,
    pub rule: VariadicParts,
    pub map_length: u8,
}

fn example(name: &'static str, graph: GraphParts, rule: VariadicParts) -> VariadicExample {
    VariadicExample { name, graph, rule, map_length: 128 }
}

pub fn variadic_examples() -> Vec<VariadicExample> {
    let (three_first, two_first) = (heads(&[3, 2]), heads(&[2, 3]));
    vec![
        example("one-gain", heads(&[1]), gains_in_order()),
        example("six-gains", heads(&[6]), gains_in_order()),
        example("copies-in-order", heads(&[2]), gains_in_order()),
        example("lesser-n-first", two_first, gains_in_order()),
        example("lesser-n-later", three_first.clone(), gains_in_order()),
        example("shared-input", gains_of_one(), shared_input()),
        example("index-under-sum", heads(&[2]), gain_of(indices_under_sum())),
        example("sum-in-template", heads(&[2]), gain_of(vec![index_node(), sum_node(1)])),
        example("sum-over-copies", heads(&[3]), gain_of(vec![access_node(1, 1), sum_node(1)])),
        example("copy-2-not-below", heads(&[2]), summed_in_branch()),
        VariadicExample { map_length: 32, ..example("map-of-32", heads(&[2]), gains_in_order()) },
        VariadicExample { map_length: 127, ..example("map-of-127", three_first, gains_in_order()) },
    ]
}

/// A head for each of these widths, one behind the other: concat over as many gains, each
/// over a Variable of its own, and a mean that reads it.
fn heads(widths: &[u16]) -> GraphParts {
    let (mut slots, mut outputs): (Vec<Vertex>, Vec<u16>) = (vec![], vec![]);
    for &width in widths {
        let first = slots.len() as u16;
        slots.extend((0..width).map(|_| variable()));
        slots.extend((0..width).map(|at| call(GAIN, &[first + at], &[at as i32 + 2, 1, 1])));
        let gains: Vec<u16> = (0..width).map(|at| first + width + at).collect();
        slots.push(tuple(&gains));
        slots.push(call(CONCAT, &[first + 2 * width], &[1]));
        slots.push(call(MEAN, &[first + 2 * width + 1], &[0]));
        outputs.push(first + 2 * width + 2);
    }
    slots.extend(vec![empty(); 8]);
    GraphParts::new(slots, &outputs)
}

/// concat over two gains of one Variable.
fn gains_of_one() -> GraphParts {
    let gain = |number| call(GAIN, &[0], &[number, 1, 1]);
    let slots =
        vec![variable(), gain(2), gain(3), tuple(&[1, 2]), call(CONCAT, &[3], &[1]), relu(4)];
    GraphParts::new(slots, &[5])
}

fn tuple_over(input: u8) -> PatternParts {
    pattern(TUPLE, 0, &[input], &[])
}

/// concat over gains: 0 any vertex and 1 gain over it, for each field; 2 Tuple, 3 concat.
/// All attributes are any, which is node 0.
fn gain_source() -> Vec<PatternParts> {
    let gain = template(call_pattern(GAIN, &[0], &[0; 3]));
    vec![template(wildcard()), gain, tuple_over(1), call_pattern(CONCAT, &[2], &[0])]
}

fn over_gains(target: Vec<PatternParts>, target_tuple: u8, nodes: Vec<Node>) -> VariadicParts {
    let rule = RuleParts {
        source: gain_source(),
        target_outputs: vec![target_place(target.len() as u8 - 1)],
        target,
        source_outputs: vec![3],
        nodes: [vec![any_node()], nodes].concat(),
    };
    VariadicParts { rule, source_tuple: 2, target_tuple: Some(target_tuple) }
}

/// In each field a relu comes before the gain.
fn gains_in_order() -> VariadicParts {
    let accesses = [1, 2, 3].map(|place| access_node(1, place));
    let target = vec![
        template(call_pattern(RELU, &[0], &[])),
        template(call_pattern(GAIN, &[target_place(0)], &[1, 2, 3])),
        tuple_over(target_place(1)),
        call_pattern(CONCAT, &[target_place(2)], &[4]),
    ];
    over_gains(target, 2, [&accesses[..], &[constant_node(1)]].concat())
}

/// The gain of each field gets the last of these nodes, which follow any.
fn gain_of(nodes: Vec<Node>) -> VariadicParts {
    let last = nodes.len() as u8;
    let target = vec![
        template(call_pattern(GAIN, &[0], &[last; 3])),
        tuple_over(target_place(0)),
        call_pattern(CONCAT, &[target_place(1)], &[last]),
    ];
    let mut rule = over_gains(target, 1, nodes);
    // The concat is no template, and has a sum there.
    let concat = rule.rule.nodes.len() as u8;
    rule.rule.nodes.push(sum_node(last));
    rule.rule.target[2].attributes = vec![concat];
    rule
}

/// index times the sum of all indices: under another sum the inner index is its own.
fn indices_under_sum() -> Vec<Node> {
    vec![index_node(), sum_node(1), operation_node(TIMES, 1, 2)]
}

/// concat over gains of one vertex: 0 any vertex, which is shared, and 1 gain over it for
/// each field; 2 Tuple, 3 concat. The gains become relus.
fn shared_input() -> VariadicParts {
    let relu = template(call_pattern(RELU, &[0], &[]));
    let concat = call_pattern(CONCAT, &[target_place(1)], &[1]);
    let mut rule =
        over_gains(vec![relu, tuple_over(target_place(0)), concat], 1, vec![constant_node(1)]);
    rule.rule.source[0] = wildcard();
    rule
}

/// The second gain of each field is the sum of the first gains of all fields.
fn summed_in_branch() -> VariadicParts {
    let mut rule = gains_in_order();
    let nodes = &mut rule.rule.nodes;
    let access = nodes.len() as u8;
    nodes.extend([access_node(0, 1), sum_node(access)]);
    rule.rule.source[1].attributes[1] = access + 1;
    rule
}
