//! Sound rules of every size.

use crate::blocks::{call_pattern, pattern, wildcard, PatternParts, RuleParts};
use crate::operators::{operator_of, CONST, PROJ, TUPLE, VARIABLE, WILDCARD};
use crate::random::Random;
use crate::rule::{MAX_VERTICES, TARGET_BASE};

use super::expressions::Expressions;
use super::graphs::common_operator;

/// A sound rule: 2 to 16 source vertices in visiting order, 0 to 16 target
/// vertices, one or two outputs.
pub fn sound_rule(random: &mut Random) -> RuleParts {
    let (mut source, source_outputs) = source_side(random);
    let mut expressions = Expressions::new();
    expressions.fill(random, source.len());
    for (vertex, pattern) in source.iter_mut().enumerate() {
        for node in &mut pattern.attributes {
            *node = expressions.for_source(random, vertex);
        }
    }
    rule_with_random_target(random, source, source_outputs, expressions)
}

/// A rule with this source and a target that has nothing to do with it.
pub(super) fn rule_with_random_target(
    random: &mut Random,
    source: Vec<PatternParts>,
    source_outputs: Vec<u8>,
    mut expressions: Expressions,
) -> RuleParts {
    let inputs = rule_inputs(&source);
    let (mut target, target_outputs) = target_side(random, &inputs, source_outputs.len());
    for node in target.iter_mut().flat_map(|pattern| &mut pattern.attributes) {
        *node = expressions.for_target(random, source.len());
    }
    if random.chance(3) {
        expressions.top_up(random, source.len());
    }
    RuleParts { source, target, source_outputs, target_outputs, nodes: expressions.nodes }
}

pub(super) fn rule_inputs(source: &[PatternParts]) -> Vec<u8> {
    let is_input = |&vertex: &u8| is_input_kind(source[usize::from(vertex)].kind);
    (0..source.len() as u8).filter(is_input).collect()
}

pub(super) fn is_input_kind(kind: u8) -> bool {
    kind == WILDCARD || kind == VARIABLE
}

/// Source patterns and outputs. Attributes stand as zeros, to be filled in.
pub(super) fn source_side(random: &mut Random) -> (Vec<PatternParts>, Vec<u8>) {
    let count = random.within(1, 2);
    let size = match random.chance(50) {
        true => random.within(count + 1, 6),
        false => random.within(count + 1, MAX_VERTICES),
    };
    let mut sketch: Vec<PatternParts> = vec![];
    let mut unread: Vec<u8> = vec![];
    let leaves = random.pick(&[15, 30, 45]);
    for vertex in 0..size - count {
        let lower: Vec<u8> = (0..vertex as u8).collect();
        let made = match vertex == 0 || random.chance(leaves) {
            true => leaf(random),
            false => inner(random, &mut unread, &lower),
        };
        sketch.push(made);
        unread.push(vertex as u8);
    }
    let lower: Vec<u8> = (0..sketch.len() as u8).collect();
    let mut outputs = vec![sketch.len() as u8];
    sketch.push(inner(random, &mut unread, &lower));
    if count == 2 {
        outputs.push(sketch.len() as u8);
        let second = second_output(random, &mut unread, &lower, &sketch);
        sketch.push(second);
    }
    in_visiting_order(&sketch, &outputs)
}

/// A second output that has a vertex in common with the first, the sketch's
/// last vertex.
fn second_output(
    random: &mut Random,
    unread: &mut Vec<u8>,
    lower: &[u8],
    sketch: &[PatternParts],
) -> PatternParts {
    let mut output = inner(random, unread, lower);
    let mut common = sketch.len() - 1;
    loop {
        let inputs = &sketch[common].inputs;
        if inputs.is_empty() || (common + 1 < sketch.len() && random.chance(40)) {
            break;
        }
        common = usize::from(random.pick(inputs));
    }
    let place = random.below(output.inputs.len());
    output.inputs[place] = common as u8;
    output
}

fn leaf(random: &mut Random) -> PatternParts {
    match random.below(10) {
        0..=5 => wildcard(),
        6 | 7 => pattern(VARIABLE, 0, &[], &[0; 5]),
        _ => pattern(CONST, 0, &[], &[0]),
    }
}

/// A Call, Tuple or Proj. Vertices not read yet are taken first most of the
/// time, so that few are left out of the traversal.
fn inner(random: &mut Random, unread: &mut Vec<u8>, lower: &[u8]) -> PatternParts {
    let mut made = inner_without_inputs(random);
    for input in &mut made.inputs {
        *input = match !unread.is_empty() && random.chance(75) {
            true => unread.swap_remove(random.below(unread.len())),
            false => random.pick(lower),
        };
    }
    made
}

fn inner_without_inputs(random: &mut Random) -> PatternParts {
    match random.below(10) {
        0..=5 => {
            let operator = common_operator(random);
            let entry = operator_of(operator).expect("a number from 1 to 14");
            let inputs = vec![0; entry.inputs.into()];
            call_pattern(operator, &inputs, &vec![0; entry.attributes.into()])
        }
        6..=8 => pattern(TUPLE, 0, &vec![0; random.within(1, 6)], &[]),
        _ => pattern(PROJ, 0, &[0], &[0]),
    }
}

/// The vertices that 002's traversal meets, in its order and with its numbers.
pub(super) fn in_visiting_order(
    sketch: &[PatternParts],
    outputs: &[u8],
) -> (Vec<PatternParts>, Vec<u8>) {
    let mut numbers = vec![None; sketch.len()];
    let mut order = vec![];
    for &output in outputs {
        visit(sketch, output, &mut numbers, &mut order);
    }
    let number = |vertex: &u8| numbers[usize::from(*vertex)].expect("visited");
    let renamed = order.iter().map(|&vertex: &u8| {
        let mut pattern = sketch[usize::from(vertex)].clone();
        pattern.inputs = pattern.inputs.iter().map(number).collect();
        pattern
    });
    (renamed.collect(), outputs.iter().map(number).collect())
}

fn visit(sketch: &[PatternParts], vertex: u8, numbers: &mut [Option<u8>], order: &mut Vec<u8>) {
    if numbers[usize::from(vertex)].is_some() {
        return;
    }
    for &input in &sketch[usize::from(vertex)].inputs {
        visit(sketch, input, numbers, order);
    }
    numbers[usize::from(vertex)] = Some(order.len() as u8);
    order.push(vertex);
}

/// From this many target vertices on, only ones that leave no more places
/// open than before: five Tuples of six can still name whatever is open.
const LATE_TARGET: usize = 11;

/// Target patterns and outputs that name every rule input and use every
/// target vertex. Attributes stand as zeros.
pub(super) fn target_side(
    random: &mut Random,
    inputs: &[u8],
    outputs: usize,
) -> (Vec<PatternParts>, Vec<u8>) {
    let wanted = match random.below(4) {
        0 => 0,
        1 | 2 => random.within(1, 4),
        _ => random.within(1, MAX_VERTICES),
    };
    let mut target: Vec<PatternParts> = vec![];
    let mut places = inputs.to_vec();
    let mut open = inputs.to_vec();
    while open.len() > outputs
        || places.is_empty()
        || (target.len() < wanted && target.len() < MAX_VERTICES)
    {
        let late = target.len() >= LATE_TARGET;
        target.push(target_vertex(random, &mut open, &places, outputs, late));
        let place = TARGET_BASE + (target.len() - 1) as u8;
        places.push(place);
        open.push(place);
    }
    let mut named: Vec<u8> = open.clone();
    while named.len() < outputs {
        named.push(random.pick(&places));
    }
    random.shuffle(&mut named);
    (target, named)
}

fn target_vertex(
    random: &mut Random,
    open: &mut Vec<u8>,
    places: &[u8],
    outputs: usize,
    late: bool,
) -> PatternParts {
    let crowded = open.len() > outputs;
    if places.is_empty() || (!late && random.chance(8)) {
        return pattern(CONST, 0, &[], &[0]);
    }
    let mut made = match late && crowded {
        true => pattern(TUPLE, 0, &[0; 6], &[]),
        false => inner_without_inputs(random),
    };
    for (place, input) in made.inputs.iter_mut().enumerate() {
        let from_open =
            !open.is_empty() && ((late && (crowded || place == 0)) || random.chance(60));
        *input = match from_open {
            true => open.swap_remove(random.below(open.len())),
            false => random.pick(places),
        };
    }
    made
}
