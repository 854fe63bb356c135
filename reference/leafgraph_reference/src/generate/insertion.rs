//! Matches put into graphs: vertices are added that a given source matches.
//! Cuts show what random graphs hold; this reaches any source, and rule inputs
//! that read the first output, from which a cycle may come.

use crate::blocks::{call, constant, relu, GraphParts, PatternParts, RuleParts, Vertex};
use crate::operators::{CONST, EMPTY, MEAN, PROJ, WILDCARD};
use crate::random::Random;
use crate::rule::{Node, ANY};

use super::expressions::node_results;
use super::graphs::attribute;
use super::tables::add_vertex;

/// In so many of a hundred cases a rule input past the first output reads it.
const READS_FIRST_OUTPUT: usize = 30;
/// In so many of a hundred cases a Const of the graph is matched, if one suits.
const FINDS_CONST: usize = 40;

/// A source without images yet, and the nodes of its attributes.
#[derive(Clone, Copy)]
pub(super) struct SourceSide<'a> {
    pub source: &'a [PatternParts],
    pub outputs: &'a [u8],
    pub nodes: &'a [Node],
}

impl SourceSide<'_> {
    pub fn of(rule: &RuleParts) -> SourceSide<'_> {
        SourceSide { source: &rule.source, outputs: &rule.source_outputs, nodes: &rule.nodes }
    }
}

/// Adds a match of this source to the graph. The slots of its vertices, or
/// None where there is no place or an attribute has no result.
pub(super) fn insert_match(
    random: &mut Random,
    graph: &mut GraphParts,
    side: SourceSide,
) -> Option<Vec<u16>> {
    let mut images = vec![];
    for pattern in side.source {
        let image = match pattern.kind {
            WILDCARD => rule_input(random, graph, side, &images)?,
            _ => {
                let attributes = attributes(random, graph, side, &images)?;
                let inputs = pattern.inputs.iter().map(|&input| images[usize::from(input)]);
                let (kind, operator) = (pattern.kind, pattern.operator);
                let added = Vertex { kind, operator, inputs: inputs.collect(), attributes };
                match find_const(random, graph, side, &images, &added) {
                    Some(slot) => slot,
                    None => add_vertex(random, graph, added)?,
                }
            }
        };
        images.push(image);
    }
    Some(images)
}

/// The numbers with which the next vertex's attributes agree. A Proj has an
/// index of at least 1 in a graph.
fn attributes(
    random: &mut Random,
    graph: &GraphParts,
    side: SourceSide,
    images: &[u16],
) -> Option<Vec<i32>> {
    let pattern = &side.source[images.len()];
    let results = node_results(graph, side.nodes, images);
    let least = if pattern.kind == PROJ { 1 } else { i32::MIN };
    let number = |&node: &u8| match side.nodes[usize::from(node)].form {
        ANY => Some(attribute(random).max(least)),
        _ => results[usize::from(node)].filter(|&result| result >= least),
    };
    pattern.attributes.iter().map(number).collect()
}

/// A Const of the graph that can be the next vertex's image, where this one,
/// which would be added, is a Const: it may have readers already.
fn find_const(
    random: &mut Random,
    graph: &GraphParts,
    side: SourceSide,
    images: &[u16],
    added: &Vertex,
) -> Option<u16> {
    if added.kind != CONST || !random.chance(FINDS_CONST) {
        return None;
    }
    let node = side.source[images.len()].attributes[0];
    let takes_any = side.nodes[usize::from(node)].form == ANY;
    let suits = |slot: &u16| {
        let found = &graph.slots[usize::from(*slot)];
        found.kind == CONST
            && (takes_any || found.attributes == added.attributes)
            && !images.contains(slot)
    };
    let suiting: Vec<u16> = (0..graph.slots.len() as u16).filter(suits).collect();
    (!suiting.is_empty()).then(|| random.pick(&suiting))
}

/// An image for the next vertex, a wildcard. Vertices past the first output
/// are read by the second one alone, so that theirs may read the first.
fn rule_input(
    random: &mut Random,
    graph: &mut GraphParts,
    side: SourceSide,
    images: &[u16],
) -> Option<u16> {
    let first_output = images.get(usize::from(side.outputs[0]));
    if let Some(&read) = first_output.filter(|_| random.chance(READS_FIRST_OUTPUT)) {
        let mut reader = add_vertex(random, graph, call(MEAN, &[read], &[0]))?;
        while random.chance(40) {
            reader = add_vertex(random, graph, relu(reader))?;
        }
        return Some(reader);
    }
    let slots = 0..graph.slots.len() as u16;
    let free: Vec<u16> = slots
        .filter(|slot| graph.slots[usize::from(*slot)].kind != EMPTY && !images.contains(slot))
        .collect();
    if !free.is_empty() && random.chance(95) {
        return Some(random.pick(&free));
    }
    let number = attribute(random);
    add_vertex(random, graph, constant(number))
}
