//! Targets for a source whose images are known: random ones whose attributes
//! have results, and copies of the source.

use crate::blocks::{access_node, constant_node, operation_node};
use crate::blocks::{GraphParts, PatternParts, RuleParts};
use crate::operators::PROJ;
use crate::random::Random;
use crate::rule::{Node, MAX_NODES, PLUS, REMAINDER, TARGET_BASE};

use super::cuts::Cut;
use super::expressions::{node_result, node_results};
use super::graphs::attribute;
use super::rules::{is_input_kind, rule_inputs, target_side};

/// A rule with this source and a target that has nothing to do with it, but
/// whose attributes have fit results for these images: a random target has
/// them too seldom.
pub(super) fn rule_with_fitting_target(
    random: &mut Random,
    graph: &GraphParts,
    cut: Cut,
) -> RuleParts {
    let inputs = rule_inputs(&cut.source);
    let (mut target, target_outputs) = target_side(random, &inputs, cut.outputs.len());
    let results = node_results(graph, &cut.expressions.nodes, &cut.images);
    let mut fitting = Fitting { graph, cut, results };
    for pattern in &mut target {
        let least = if pattern.kind == PROJ { 1 } else { i32::MIN };
        for node in &mut pattern.attributes {
            *node = fitting.node(random, least);
        }
    }
    let cut = fitting.cut;
    RuleParts {
        source: cut.source,
        target,
        source_outputs: cut.outputs,
        target_outputs,
        nodes: cut.expressions.nodes,
    }
}

/// Nodes with their results for the images of the cut.
struct Fitting<'a> {
    graph: &'a GraphParts,
    cut: Cut,
    results: Vec<Option<i32>>,
}

impl Fitting<'_> {
    /// A node whose result is at least this, an old one or a new one.
    fn node(&mut self, random: &mut Random, least: i32) -> u8 {
        let fits = |&index: &usize| self.results[index].is_some_and(|result| result >= least);
        let fitting: Vec<usize> = (0..self.results.len()).filter(fits).collect();
        let has_room = self.cut.expressions.has_room();
        let wants_new = fitting.is_empty() || (has_room && random.chance(50));
        if !wants_new {
            return random.pick(&fitting) as u8;
        }
        let fallback = constant_node(attribute(random).max(1));
        let made = match has_room {
            true => self.new_node(random),
            false => fallback,
        };
        let result = node_result(self.graph, &made, &self.cut.images, &self.results);
        match result.is_some_and(|result| result >= least) {
            true => self.push(made),
            false => self.push(fallback),
        }
    }

    /// Mostly an access, which must be read from the old table.
    fn new_node(&self, random: &mut Random) -> Node {
        let known = self.results.iter().enumerate().filter(|(_, result)| result.is_some());
        let known: Vec<u8> = known.map(|(index, _)| index as u8).collect();
        let accesses: Vec<Node> = self.accesses().collect();
        match random.below(10) {
            0..=5 if !accesses.is_empty() => random.pick(&accesses),
            6..=8 if !known.is_empty() => {
                let form = random.within(PLUS.into(), REMAINDER.into()) as u8;
                operation_node(form, random.pick(&known), random.pick(&known))
            }
            _ => constant_node(attribute(random)),
        }
    }

    /// An access to each attribute of each image.
    fn accesses(&self) -> impl Iterator<Item = Node> + '_ {
        self.cut.images.iter().enumerate().flat_map(|(vertex, &image)| {
            let count = self.graph.slots[usize::from(image)].attributes.len();
            (0..count).map(move |place| access_node(vertex as u8, place as u8 + 1))
        })
    }

    fn push(&mut self, node: Node) -> u8 {
        self.results.push(node_result(self.graph, &node, &self.cut.images, &self.results));
        self.cut.expressions.push(node)
    }
}

/// Which copies of source vertices become one target vertex.
#[derive(Clone, Copy, PartialEq, Eq)]
pub(super) enum Merging {
    Never,
    /// Those of the same kind and operator over the same places and without
    /// attributes.
    InEveryMatch,
    /// Those whose images have the same attributes, too.
    InThisMatch,
}

/// A rule with copies of the non-input source vertices as its target, with
/// the attributes of their images. None where the nodes do not suffice.
pub(super) fn rule_with_copied_target(
    graph: &GraphParts,
    mut cut: Cut,
    merging: Merging,
) -> Option<RuleParts> {
    let numbers = |vertex: usize| &graph.slots[usize::from(cut.images[vertex])].attributes;
    let mut target: Vec<PatternParts> = vec![];
    let mut originals: Vec<usize> = vec![];
    let mut places: Vec<u8> = vec![];
    for (vertex, original) in cut.source.iter().enumerate() {
        if is_input_kind(original.kind) {
            places.push(vertex as u8);
            continue;
        }
        let copy = target_copy(&mut cut.expressions.nodes, vertex, original, &places)?;
        let alike = (0..target.len()).find(|&earlier| {
            merging != Merging::Never
                && is_alike(&target[earlier], &copy)
                && numbers(originals[earlier]) == numbers(vertex)
                && (merging == Merging::InThisMatch || copy.attributes.is_empty())
        });
        let index = alike.unwrap_or(target.len());
        if index == target.len() {
            target.push(copy);
            originals.push(vertex);
        }
        places.push(TARGET_BASE + index as u8);
    }
    let outputs = cut.outputs.iter().map(|&output| places[usize::from(output)]);
    Some(RuleParts {
        source: cut.source,
        target,
        target_outputs: outputs.collect(),
        source_outputs: cut.outputs,
        nodes: cut.expressions.nodes,
    })
}

fn is_alike(one: &PatternParts, other: &PatternParts) -> bool {
    one.kind == other.kind && one.operator == other.operator && one.inputs == other.inputs
}

/// A target vertex like this source vertex, with its image's attributes.
fn target_copy(
    nodes: &mut Vec<Node>,
    vertex: usize,
    original: &PatternParts,
    places: &[u8],
) -> Option<PatternParts> {
    let mut copy = original.clone();
    for input in &mut copy.inputs {
        *input = places[usize::from(*input)];
    }
    for (place, node) in copy.attributes.iter_mut().enumerate() {
        if nodes.len() == MAX_NODES {
            return None;
        }
        *node = nodes.len() as u8;
        nodes.push(access_node(vertex as u8, place as u8 + 1));
    }
    Some(copy)
}
