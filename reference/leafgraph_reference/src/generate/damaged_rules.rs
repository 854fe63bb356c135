//! Rules with one fault, or a few. What the damage leaves may be sound by
//! chance: the two programs must agree then too.

use crate::blocks::{access_node, any_node, call_pattern, operation_node};
use crate::blocks::{pattern, target_place, wildcard, RuleParts};
use crate::operators::{CONST, RELU, VARIABLE};
use crate::random::Random;
use crate::rule::{ACCESS, HEADER, MAX_NODES, MAX_VERTICES, NODE, PATTERN, PLUS, TARGET_BASE};

use super::damages::damages;
use super::expressions::Expressions;
use super::rules::{rule_inputs, rule_with_random_target, sound_rule};

/// Sorts of damage to the parts and to the bytes.
const PART_SORTS: usize = 22;
const BYTE_SORTS: usize = 10;

/// A sound rule's block after one damage or a few.
pub fn damaged_rule(random: &mut Random) -> Vec<u8> {
    let parts = sound_rule(random);
    damaged_rule_of(random, parts)
}

/// This rule's block after one damage or a few.
pub fn damaged_rule_of(random: &mut Random, mut parts: RuleParts) -> Vec<u8> {
    let in_parts = random.chance(65);
    if in_parts {
        for sort in damages(random, PART_SORTS) {
            damage_parts(random, &mut parts, sort);
        }
    }
    let mut block = parts.block();
    if !in_parts || random.chance(12) {
        for sort in damages(random, BYTE_SORTS) {
            damage_bytes(random, &mut block, sort);
        }
    }
    block
}

/// Damage that keeps every record in the shape of its kind.
fn damage_parts(random: &mut Random, parts: &mut RuleParts, sort: usize) {
    match sort {
        0 | 1 => swap_source_vertices(random, parts),
        2 => shuffle_inputs(random, parts),
        3 => change_outputs(random, parts),
        4 => replace_output_kind(random, parts),
        5 => add_unreached_vertex(random, parts),
        6 => add_unconnected_output(random, parts),
        7 => read_an_output(random, parts),
        8 => unname_rule_input(random, parts),
        9 => add_unused_target(random, parts),
        10 => misname_target_place(random, parts),
        11 => misname_source_input(random, parts),
        12 => any_as_operand(random, parts),
        13 => any_in_target(random, parts),
        14 => access_not_below(random, parts, 0),
        15 => {
            let steps = random.within(1, 6);
            access_not_below(random, parts, steps);
        }
        16 => misname_node(random, parts),
        17 => *parts = lone_output(random),
        18 => replace_target_kind(random, parts),
        19 => {
            misuse_node_field(random, parts);
            misname_node(random, parts);
        }
        _ => misuse_node_field(random, parts),
    }
}

/// A rule whose only source vertex is its output, sound but for that vertex's
/// kind: no other rule has an output of a wrong kind as its only fault.
fn lone_output(random: &mut Random) -> RuleParts {
    let mut expressions = Expressions::new();
    expressions.push(any_node());
    let leaves = [wildcard(), pattern(VARIABLE, 0, &[], &[0; 5]), pattern(CONST, 0, &[], &[0])];
    let leaf = leaves[random.below(leaves.len())].clone();
    rule_with_random_target(random, vec![leaf], vec![0], expressions)
}

/// A target vertex without inputs that is a Variable or a wildcard.
fn replace_target_kind(random: &mut Random, parts: &mut RuleParts) {
    let constant = parts.target.iter_mut().find(|pattern| pattern.kind == CONST);
    match constant {
        Some(constant) if random.chance(50) => {
            let node = constant.attributes[0];
            *constant = pattern(VARIABLE, 0, &[], &[node; 5]);
        }
        Some(constant) => *constant = wildcard(),
        None => misname_target_place(random, parts),
    }
}

/// Two source vertices trade numbers, and everything that names them follows:
/// nothing but the visiting order (and what must be lower) is at fault.
fn swap_source_vertices(random: &mut Random, parts: &mut RuleParts) {
    let count = parts.source.len();
    let one = random.below(count) as u8;
    let other = match random.chance(60) {
        true => (one + 1) % count as u8,
        false => random.below(count) as u8,
    };
    parts.source.swap(one.into(), other.into());
    let renamed = |number: &mut u8| {
        if *number == one {
            *number = other;
        } else if *number == other {
            *number = one;
        }
    };
    let patterns = parts.source.iter_mut().chain(&mut parts.target);
    patterns.flat_map(|pattern| &mut pattern.inputs).for_each(renamed);
    parts.source_outputs.iter_mut().for_each(renamed);
    parts.target_outputs.iter_mut().for_each(renamed);
    let accesses = parts.nodes.iter_mut().filter(|node| node.form == ACCESS);
    accesses.map(|node| &mut node.a).for_each(renamed);
}

/// Inputs in another order: the traversal then meets them in another order.
fn shuffle_inputs(random: &mut Random, parts: &mut RuleParts) {
    let wide: Vec<usize> =
        (0..parts.source.len()).filter(|&vertex| parts.source[vertex].inputs.len() > 1).collect();
    if !wide.is_empty() {
        let vertex = random.pick(&wide);
        random.shuffle(&mut parts.source[vertex].inputs);
    }
}

fn change_outputs(random: &mut Random, parts: &mut RuleParts) {
    let any_source = random.below(parts.source.len()) as u8;
    match random.below(5) {
        0 => parts.source_outputs.reverse(),
        1 => parts.source_outputs[0] = any_source,
        2 => {
            let last = parts.source_outputs.len() - 1;
            parts.source_outputs[last] = any_source;
        }
        3 if parts.source_outputs.len() == 1 => {
            let output = random.pick(&[any_source, parts.source_outputs[0]]);
            parts.source_outputs.push(output);
            parts.target_outputs.push(parts.target_outputs[0]);
        }
        _ => {
            let gone = random.below(parts.source_outputs.len());
            if parts.source_outputs.len() == 2 {
                parts.source_outputs.remove(gone);
                parts.target_outputs.remove(gone);
            }
        }
    }
}

/// A source output that is a wildcard, a Variable or a Const.
fn replace_output_kind(random: &mut Random, parts: &mut RuleParts) {
    let output = usize::from(random.pick(&parts.source_outputs));
    let node = random.below(parts.nodes.len().max(1)) as u8;
    parts.source[output] = match random.below(3) {
        0 => wildcard(),
        1 => pattern(VARIABLE, 0, &[], &[node; 5]),
        _ => pattern(CONST, 0, &[], &[node]),
    };
}

fn add_unreached_vertex(random: &mut Random, parts: &mut RuleParts) {
    if parts.source.len() < MAX_VERTICES {
        let input = random.below(parts.source.len()) as u8;
        parts.source.push(call_pattern(RELU, &[input], &[]));
    }
}

/// A second output over a wildcard of its own: only the connection is at
/// fault.
fn add_unconnected_output(random: &mut Random, parts: &mut RuleParts) {
    let count = parts.source.len() as u8;
    if parts.source_outputs.len() == 2 || parts.source.len() + 2 > MAX_VERTICES {
        return change_outputs(random, parts);
    }
    parts.source.push(wildcard());
    parts.source.push(call_pattern(RELU, &[count], &[]));
    parts.source_outputs.push(count + 1);
    parts.target_outputs.push(count);
}

/// A second output that reads the first one.
fn read_an_output(random: &mut Random, parts: &mut RuleParts) {
    if parts.source_outputs.len() == 2 || parts.source.len() == MAX_VERTICES {
        return shuffle_inputs(random, parts);
    }
    let output = parts.source_outputs[0];
    parts.source.push(call_pattern(RELU, &[output], &[]));
    parts.source_outputs.push(parts.source.len() as u8 - 1);
    parts.target_outputs.push(parts.target_outputs[0]);
}

/// Every target place that named this one names that one.
fn rename_target_places(parts: &mut RuleParts, from: u8, to: u8) {
    let inputs = parts.target.iter_mut().flat_map(|pattern| &mut pattern.inputs);
    for place in inputs.chain(&mut parts.target_outputs) {
        if *place == from {
            *place = to;
        }
    }
}

fn unname_rule_input(random: &mut Random, parts: &mut RuleParts) {
    let inputs = rule_inputs(&parts.source);
    if inputs.is_empty() {
        return add_unused_target(random, parts);
    }
    let (from, to) = (random.pick(&inputs), random.pick(&inputs));
    rename_target_places(parts, from, to);
}

fn add_unused_target(random: &mut Random, parts: &mut RuleParts) {
    let inputs = rule_inputs(&parts.source);
    if parts.target.len() == MAX_VERTICES || inputs.is_empty() {
        return;
    }
    if parts.target.is_empty() || random.chance(50) {
        parts.target.push(call_pattern(RELU, &[random.pick(&inputs)], &[]));
    } else {
        let vertex = TARGET_BASE + random.below(parts.target.len()) as u8;
        rename_target_places(parts, vertex, random.pick(&inputs));
    }
}

/// A target place that names itself, a later one, a source vertex that is no
/// rule input, or nothing.
fn misname_target_place(random: &mut Random, parts: &mut RuleParts) {
    let source = parts.source.len() as u8;
    let after = target_place(parts.target.len() as u8);
    // Each place with the number of the vertex it belongs to; outputs come
    // after all vertices.
    let inputs = parts.target.iter_mut().enumerate().flat_map(|(vertex, pattern)| {
        let own = target_place(vertex as u8);
        pattern.inputs.iter_mut().map(move |place| (own, place))
    });
    let outputs = parts.target_outputs.iter_mut().map(|place| (after, place));
    let mut places: Vec<(u8, &mut u8)> = inputs.chain(outputs).collect();
    let index = random.below(places.len());
    let (own, place) = &mut places[index];
    let any_source = random.below(source.into()) as u8;
    **place = random.pick(&[*own, *own + 1, after, after - 1, any_source, source, 15, 255]);
}

fn misname_source_input(random: &mut Random, parts: &mut RuleParts) {
    let count = parts.source.len() as u8;
    let vertex = random.below(parts.source.len());
    if let Some(input) = parts.source[vertex].inputs.last_mut() {
        let own = vertex as u8;
        *input = random.pick(&[own, own + 1, own.wrapping_sub(1), count, 15, 16, 254, 255]);
    }
}

fn any_as_operand(random: &mut Random, parts: &mut RuleParts) {
    let operations = parts.nodes.iter().filter(|node| node.form >= PLUS);
    let operands = operations.flat_map(|node| [node.a, node.b]);
    let operands: Vec<u8> =
        operands.filter(|&operand| usize::from(operand) < parts.nodes.len()).collect();
    if operands.is_empty() {
        if parts.nodes.len() + 2 <= MAX_NODES {
            parts.nodes.push(any_node());
            let any = parts.nodes.len() as u8 - 1;
            parts.nodes.push(operation_node(random.within(3, 7) as u8, any, any));
        }
        return;
    }
    parts.nodes[usize::from(random.pick(&operands))] = any_node();
}

fn any_in_target(random: &mut Random, parts: &mut RuleParts) {
    let node = match parts.nodes.len() < MAX_NODES {
        true => {
            parts.nodes.push(any_node());
            parts.nodes.len() as u8 - 1
        }
        false => random.below(MAX_NODES) as u8,
    };
    let mut attributes: Vec<&mut u8> =
        parts.target.iter_mut().flat_map(|pattern| &mut pattern.attributes).collect();
    if !attributes.is_empty() {
        let index = random.below(attributes.len());
        *attributes[index] = node;
    }
}

/// An attribute of source vertex j that accesses j or a vertex near it,
/// through so many further nodes.
fn access_not_below(random: &mut Random, parts: &mut RuleParts, steps: usize) {
    let with_attributes: Vec<usize> = (0..parts.source.len())
        .filter(|&vertex| !parts.source[vertex].attributes.is_empty())
        .collect();
    if with_attributes.is_empty() || parts.nodes.len() + 1 + steps > MAX_NODES {
        return misuse_node_field(random, parts);
    }
    let vertex = random.pick(&with_attributes);
    let accessed = random.pick(&[vertex, vertex, vertex + 1, vertex.saturating_sub(1)]);
    let accessed = accessed.min(parts.source.len() - 1) as u8;
    parts.nodes.push(access_node(accessed, random.within(1, 6) as u8));
    for _ in 0..steps {
        let last = parts.nodes.len() as u8 - 1;
        let mut non_any = (0..last).filter(|&node| parts.nodes[usize::from(node)].form != 0);
        let other = non_any.next_back().unwrap_or(last);
        let (left, right) = if random.chance(50) { (last, other) } else { (other, last) };
        parts.nodes.push(operation_node(random.within(3, 7) as u8, left, right));
    }
    let place = random.below(parts.source[vertex].attributes.len());
    parts.source[vertex].attributes[place] = parts.nodes.len() as u8 - 1;
}

/// An attribute's node number at or above A.
fn misname_node(random: &mut Random, parts: &mut RuleParts) {
    let count = parts.nodes.len() as u8;
    let patterns = parts.source.iter_mut().chain(&mut parts.target);
    let mut attributes: Vec<&mut u8> =
        patterns.flat_map(|pattern| &mut pattern.attributes).collect();
    if !attributes.is_empty() {
        let index = random.below(attributes.len());
        *attributes[index] = random.pick(&[count, count + 1, 63, 64, 255, count.wrapping_sub(1)]);
    }
}

fn misuse_node_field(random: &mut Random, parts: &mut RuleParts) {
    if parts.nodes.is_empty() {
        return parts.nodes.push(operation_node(random.within(3, 8) as u8, 0, 0));
    }
    let index = random.below(parts.nodes.len());
    let source = parts.source.len() as u8;
    let own = index as u8;
    let node = &mut parts.nodes[index];
    match random.below(4) {
        0 => node.form = random.below(9) as u8,
        1 => node.a = random.pick(&[0, 1, own, own + 1, source - 1, source, source + 1, 255]),
        2 => node.b = random.pick(&[0, 1, 6, 7, own, own + 1, 255]),
        _ => node.number = random.pick(&[0, 1, -1, 1 << 24, i32::MIN]),
    }
}

/// Damage to the bytes, whatever they mean.
fn damage_bytes(random: &mut Random, block: &mut Vec<u8>, sort: usize) {
    if block.len() < HEADER + PATTERN {
        return block.push(random.byte());
    }
    match sort {
        0..=4 => set_field(random, block),
        5 => {
            let at = random.below(block.len());
            block[at] ^= 1 << random.below(8);
        }
        6 => change_length(random, block),
        _ => fill_unused_place(random, block),
    }
}

/// One byte to a value at the edge of what is allowed.
fn set_field(random: &mut Random, block: &mut [u8]) {
    let at = match random.chance(40) {
        true => random.below(HEADER),
        false => random.within(HEADER, block.len() - 1),
    };
    let (source, target, nodes) = (block[6], block[7], block[9]);
    let old = block[at];
    let near = |number: u8| [number.wrapping_sub(1), number, number.wrapping_add(1)];
    let counts = [source, target, nodes, 16u8.wrapping_add(target), old];
    block[at] = match random.chance(50) {
        true => {
            let count = random.pick(&counts);
            random.pick(&near(count))
        }
        false => random.pick(&[0, 1, 2, 3, 4, 5, 6, 7, 8, 14, 15, 16, 17, 32, 64, 65, 254, 255]),
    };
}

fn change_length(random: &mut Random, block: &mut Vec<u8>) {
    match random.below(6) {
        0 => {
            block.pop();
        }
        1 => block.push(0),
        2 => block.truncate(random.below(block.len())),
        3 => block.truncate(block.len() - NODE),
        4 => {
            let more = random.pick(&[NODE, PATTERN]);
            let tail = block[block.len() - more..].to_vec();
            block.extend(tail);
            let counted = random.pick(&[6, 7, 9]);
            block[counted] = block[counted].wrapping_add(1);
        }
        _ => {
            let count = random.within(1, 40);
            block.extend(random.bytes(count));
        }
    }
}

/// Something in a place that the counts say is unused, or in a zero byte.
fn fill_unused_place(random: &mut Random, block: &mut [u8]) {
    let records = (usize::from(block[6]) + usize::from(block[7])).max(1);
    let base = HEADER + PATTERN * random.below(records);
    let nodes = HEADER + PATTERN * records;
    let any = random.byte();
    let value = random.pick(&[0, 1, 16, 254, any]);
    let at = match random.below(6) {
        0 => random.pick(&[3, 11, 13, 14, 15]),
        1 if nodes < block.len() => {
            nodes + 3 + NODE * random.below((block.len() - nodes) / NODE + 1)
        }
        2 | 3 => {
            let inputs = usize::from(*block.get(base + 2).unwrap_or(&0)).min(5);
            base + 4 + random.within(inputs, 5)
        }
        _ => {
            let attributes = usize::from(*block.get(base + 3).unwrap_or(&0)).min(5);
            base + 10 + random.within(attributes, 5)
        }
    };
    if let Some(byte) = block.get_mut(at) {
        *byte = value;
    }
}
