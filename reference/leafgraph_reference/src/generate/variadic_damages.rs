//! Variadic rules (request 8/13) with one fault, or a few. What the damage leaves may be
//! sound by chance: the two programs must agree then too.

use crate::blocks::{access_node, index_node, sum_node, target_place, PatternParts, VariadicParts};
use crate::operators::TUPLE;
use crate::random::Random;
use crate::rule::{Node, ACCESS, INDEX, MAX_NODES, SUM, TEMPLATE, UNUSED};

use super::damaged_rules::damaged_rule_of;
use super::damages::damages;
use super::variadic_source::is_template;

const SORTS: usize = 16;

/// This rule's block after one damage or a few: those of a variadic rule, or those of any
/// rule.
pub fn damaged_variadic_rule_of(random: &mut Random, mut parts: VariadicParts) -> Vec<u8> {
    if random.chance(30) {
        let damaged = damaged_rule_of(random, parts.rule.clone());
        return match random.chance(80) {
            true => parts.named_in(damaged),
            false => damaged,
        };
    }
    if random.chance(5) {
        return as_version_1(parts);
    }
    for sort in damages(random, SORTS) {
        damage(random, &mut parts, sort);
    }
    let mut block = parts.block();
    if random.chance(10) {
        block[4..6].copy_from_slice(&random.pick(&[
            [1, 0],
            [0, 0],
            [3, 0],
            [2, 1],
            [2, 2],
            [0, 2],
        ]));
    }
    if random.chance(10) {
        let at = random.below(block.len());
        block[at] ^= 1 << random.below(8);
    }
    block
}

/// The same block in version 1, without marks: its index and sums are faults.
fn as_version_1(parts: VariadicParts) -> Vec<u8> {
    let mut rule = parts.rule;
    let records = rule.source.iter_mut().chain(&mut rule.target);
    records.for_each(|one| one.kind %= TEMPLATE);
    rule.block()
}

fn damage(random: &mut Random, parts: &mut VariadicParts, sort: usize) {
    match sort {
        0 => misname_source_tuple(random, parts),
        1 => misname_target_tuple(random, parts),
        2 | 3 => turn_mark(random, parts),
        4 => change_kind(random, parts),
        5 => widen_tuple(random, parts),
        6 => name_template(random, parts),
        7 => output_template(random, parts),
        8 => use_in_unmarked(random, parts, index_node()),
        9 => {
            let vertex = template_of(random, &parts.rule.source).unwrap_or(0) as u8;
            use_in_unmarked(random, parts, access_node(vertex, 1));
        }
        10 | 11 => change_node(random, parts),
        12 => sum_over_templates(random, parts),
        13 => sum_over_later(random, parts),
        14 => sum_of_any(random, parts),
        _ => add_unused_node(random, parts),
    }
}

/// Byte 14 at S or near it, or another vertex.
fn misname_source_tuple(random: &mut Random, parts: &mut VariadicParts) {
    let count = parts.rule.source.len() as u8;
    let any = random.below(count.into()) as u8;
    parts.source_tuple = random.pick(&[count, count, count + 1, UNUSED, any, any]);
}

fn misname_target_tuple(random: &mut Random, parts: &mut VariadicParts) {
    let count = parts.rule.target.len() as u8;
    let any = random.below(usize::from(count).max(1)) as u8;
    parts.target_tuple = match random.chance(20) {
        true => None,
        false => Some(random.pick(&[count, count, count + 1, 254, any, any])),
    };
}

/// A record of either side.
fn any_record<'a>(random: &mut Random, parts: &'a mut VariadicParts) -> &'a mut PatternParts {
    let (source, target) = (&mut parts.rule.source, &mut parts.rule.target);
    let at = random.below(source.len() + target.len());
    let mut records = source.iter_mut().chain(target);
    records.nth(at).expect("one of them")
}

/// A template without its mark, or another vertex with it.
fn turn_mark(random: &mut Random, parts: &mut VariadicParts) {
    any_record(random, parts).kind ^= TEMPLATE;
}

fn change_kind(random: &mut Random, parts: &mut VariadicParts) {
    let kinds = [6, 7, 127, 128, 130, 134, 135, 255];
    any_record(random, parts).kind = random.pick(&kinds);
}

/// One of the two Tuples has two inputs, or is marked, or is another kind of vertex.
fn widen_tuple(random: &mut Random, parts: &mut VariadicParts) {
    let target = parts.target_tuple.filter(|_| random.chance(50));
    let one = match target {
        Some(vertex) => parts.rule.target.get_mut(usize::from(vertex)),
        None => parts.rule.source.get_mut(usize::from(parts.source_tuple)),
    };
    let Some(one) = one else { return };
    match random.below(4) {
        0 => one.kind = TEMPLATE + TUPLE,
        1 => *one = PatternParts { kind: 3, operator: 7, ..one.clone() },
        _ => {
            let input = one.inputs.first().copied().unwrap_or(0);
            one.inputs.push(input);
        }
    }
}

/// A random template of one side.
fn template_of(random: &mut Random, side: &[PatternParts]) -> Option<usize> {
    let all: Vec<usize> = (0..side.len()).filter(|&one| is_template(&side[one])).collect();
    (!all.is_empty()).then(|| random.pick(&all))
}

/// Some vertex names a template that it may not name, in most cases.
fn name_template(random: &mut Random, parts: &mut VariadicParts) {
    let (source, target) = (&mut parts.rule.source, &mut parts.rule.target);
    let in_source = random.chance(50);
    let named = match random.chance(60) || in_source {
        true => template_of(random, source).map(|one| one as u8),
        false => template_of(random, target).map(|one| target_place(one as u8)),
    };
    let side = if in_source { source } else { target };
    let readers: Vec<usize> = (0..side.len())
        .filter(|&one| !is_template(&side[one]) && !side[one].inputs.is_empty())
        .collect();
    if let (Some(named), false) = (named, readers.is_empty()) {
        let inputs = &mut side[random.pick(&readers)].inputs;
        let place = random.below(inputs.len());
        inputs[place] = named;
    }
}

/// An output names a template.
fn output_template(random: &mut Random, parts: &mut VariadicParts) {
    let rule = &mut parts.rule;
    let in_source = template_of(random, &rule.source).map(|one| one as u8);
    let in_target = template_of(random, &rule.target).map(|one| target_place(one as u8));
    let (outputs, named) = match random.below(3) {
        0 => (&mut rule.source_outputs, in_source),
        1 => (&mut rule.target_outputs, in_source),
        _ => (&mut rule.target_outputs, in_target),
    };
    let place = random.below(outputs.len());
    outputs[place] = named.unwrap_or(outputs[place]);
}

/// Adds a node, where there is room.
fn push(parts: &mut VariadicParts, node: Node) -> Option<u8> {
    let nodes = &mut parts.rule.nodes;
    (nodes.len() < MAX_NODES).then(|| {
        nodes.push(node);
        nodes.len() as u8 - 1
    })
}

/// An attribute of some vertex of the side, marked or not, gets this node.
fn give(random: &mut Random, side: &mut [PatternParts], marked: bool, node: u8) {
    let suits = |one: &&mut PatternParts| is_template(one) == marked && !one.attributes.is_empty();
    let mut suiting: Vec<&mut PatternParts> = side.iter_mut().filter(suits).collect();
    if !suiting.is_empty() {
        let at = random.below(suiting.len());
        let places = suiting[at].attributes.len();
        suiting[at].attributes[random.below(places)] = node;
    }
}

/// An unmarked vertex uses this node, which has no index there.
fn use_in_unmarked(random: &mut Random, parts: &mut VariadicParts, node: Node) {
    let Some(mut node) = push(parts, node) else { return };
    if random.chance(30) {
        let operation = Node { form: 3, a: node, b: node, number: 0 };
        node = push(parts, operation).unwrap_or(node);
    }
    let rule = &mut parts.rule;
    let side = if random.chance(50) { &mut rule.source } else { &mut rule.target };
    give(random, side, false, node);
}

/// A field of an index or a sum, or another form.
fn change_node(random: &mut Random, parts: &mut VariadicParts) {
    let nodes = &mut parts.rule.nodes;
    let own: Vec<usize> =
        (0..nodes.len()).filter(|&one| [INDEX, SUM].contains(&nodes[one].form)).collect();
    let at = match own.is_empty() {
        true => random.below(nodes.len()),
        false => random.pick(&own),
    };
    let node = &mut nodes[at];
    match random.below(5) {
        0 => node.form = random.pick(&[0, 3, 8, 9, 10, 11, 255]),
        1 => node.a = random.pick(&[0, 1, at as u8, at as u8 + 1, 255]),
        2 => node.b = random.pick(&[1, 255]),
        3 => node.number = random.pick(&[1, -1, 1 << 24]),
        _ => *node = Node { form: random.pick(&[INDEX, SUM]), ..*node },
    }
}

/// Some source vertex, mostly of the branch, sums over a template: the copies need not all
/// be below.
fn sum_over_templates(random: &mut Random, parts: &mut VariadicParts) {
    let Some(template) = template_of(random, &parts.rule.source) else { return };
    let Some(access) = push(parts, access_node(template as u8, 1)) else { return };
    let Some(sum) = push(parts, sum_node(access)) else { return };
    let (count, tuple) = (parts.rule.source.len(), usize::from(parts.source_tuple));
    let end = if random.chance(70) { tuple.clamp(template + 1, count) } else { count };
    let marked = random.chance(30);
    give(random, &mut parts.rule.source[template + 1..end], marked, sum);
}

/// A source vertex accesses one that is not below it, under a sum.
fn sum_over_later(random: &mut Random, parts: &mut VariadicParts) {
    let count = parts.rule.source.len();
    let vertex = random.below(count);
    let Some(access) = push(parts, access_node(vertex as u8, 1)) else { return };
    let Some(sum) = push(parts, sum_node(access)) else { return };
    let marked = random.chance(50);
    give(random, &mut parts.rule.source[..=vertex], marked, sum);
}

fn sum_of_any(random: &mut Random, parts: &mut VariadicParts) {
    let Some(sum) = push(parts, sum_node(0)) else { return };
    let marked = random.chance(50);
    give(random, &mut parts.rule.target, marked, sum);
}

/// No fault: nothing uses it.
fn add_unused_node(random: &mut Random, parts: &mut VariadicParts) {
    let template = template_of(random, &parts.rule.source).unwrap_or(0);
    let node =
        random.pick(&[index_node(), Node { form: ACCESS, a: template as u8, b: 1, number: 0 }]);
    push(parts, node);
}
