//! Cases for variadic rules (request 8/13): graphs that hold matches of several widths.

use crate::attributes::results;
use crate::blocks::{call, constant, relu, GraphParts, RuleParts, VariadicParts, Vertex};
use crate::graph::{Graph, UNUSED};
use crate::matching::Images;
use crate::operators::{EMPTY, MEAN, PROJ};
use crate::random::Random;
use crate::rule::{Rule, ANY, MAX_FIXED, MAX_WIDTH};
use crate::rules::Rules;
use crate::stage::Stage;

use super::cuts::{Case, Cut};
use super::expressions::Expressions;
use super::graphs::attribute;
use super::rewritings::Matched;
use super::searches::{base_graph, change_scene, Scene};
use super::tables::add_vertex;
use super::variadic_rules::variadic_rule;

/// In so many of a hundred cases a wildcard behind the first output reads it.
const READS_FIRST_OUTPUT: usize = 30;
/// In so many of a hundred cases something is done to the last match.
const CHANGED: usize = 40;

/// What a call of matching or rewriting gets.
#[derive(Clone, Debug)]
pub struct VariadicCase {
    pub graph: GraphParts,
    pub rule: VariadicParts,
    pub start: usize,
}

/// A case, and what was done to its graph.
pub fn variadic_case(random: &mut Random) -> (&'static str, VariadicCase) {
    loop {
        let rule = variadic_rule(random);
        if let Some((name, Case { graph, start, .. })) = with_matches(random, &rule) {
            return (name, VariadicCase { graph, rule, start });
        }
    }
}

/// A graph with matches of this rule, and where a search for it starts. None where there
/// is no place for the last one, or an attribute has no result.
fn with_matches(random: &mut Random, rule: &VariadicParts) -> Option<(&'static str, Case)> {
    let block = rule.block();
    let rules = Rules::parse(Stage::Eight, &block).expect("a sound rule");
    let (mut graph, mut known) = (base_graph(random), vec![]);
    for _ in 0..random.pick(&[0, 0, 0, 1, 1, 2, 3]) {
        let width = random.within(1, MAX_WIDTH);
        let images = insert_fixed(random, &mut graph, of_width(&rules, width), &[]);
        known = images.unwrap_or_default();
    }
    let width = random.within(1, MAX_WIDTH);
    let fixed = of_width(&rules, width);
    known.truncate(if random.chance(50) { vertices_in_common(&rules) } else { 0 });
    let images = insert_fixed(random, &mut graph, fixed, &known)?;
    let parts = RuleParts::of(fixed);
    let (source, outputs) = (parts.source.clone(), parts.source_outputs.clone());
    let cut = Cut { source, outputs, expressions: Expressions::new(), images };
    let mut scene = Scene { graph, cut };
    let name = match random.chance(CHANGED) {
        true if random.chance(30) => change_width(random, &mut scene, rule),
        true => change_scene(random, &mut scene),
        false => "as put in",
    };
    let Scene { graph, cut } = scene;
    let matched = Matched { graph, rule: parts, images: cut.images };
    Some((name, matched.finished(random)))
}

/// The fixed rule for this n.
fn of_width<'a>(rules: &'a Rules, width: usize) -> Rule<'a> {
    rules.fixed().nth(width - 1).expect("there are six")
}

/// The first vertices that are the same for every n, so that matches may have their images
/// in common: all under the first output, where no copy is among them.
fn vertices_in_common(rules: &Rules) -> usize {
    let firsts: Vec<u8> = rules.fixed().map(|rule| rule.source_output(0)).collect();
    let has_second = of_width(rules, 1).output_count() == 2;
    match has_second && firsts.iter().all(|&first| first == firsts[0]) {
        true => usize::from(firsts[0]) + 1,
        false => 0,
    }
}

/// The Tuple's image gets a field more, or loses one.
fn change_width(random: &mut Random, scene: &mut Scene, rule: &VariadicParts) -> &'static str {
    let tuple = &rule.rule.source[usize::from(rule.source_tuple)];
    let readers = 0..scene.cut.source.len();
    let tuples = readers.filter(|&one| scene.cut.source[one].kind == tuple.kind);
    let tuples: Vec<usize> = tuples.collect();
    let image = usize::from(scene.cut.images[random.pick(&tuples)]);
    let fields = &mut scene.graph.slots[image].inputs;
    match random.chance(50) && fields.len() > 1 {
        true => {
            fields.remove(random.below(fields.len()));
            "a field less"
        }
        false if fields.len() < MAX_WIDTH => {
            let field = random.pick(fields);
            fields.push(field);
            "a field twice"
        }
        false => "as put in",
    }
}

/// Adds a match of this fixed rule to the graph: the slots of its vertices, of which the
/// first may be known.
fn insert_fixed(
    random: &mut Random,
    graph: &mut GraphParts,
    rule: Rule,
    known: &[u16],
) -> Option<Vec<u16>> {
    let mut images = [UNUSED; MAX_FIXED];
    images[..known.len()].copy_from_slice(known);
    for (vertex, pattern) in rule.sources().enumerate().skip(known.len()) {
        images[vertex] = match pattern.is_wildcard() {
            true => rule_input(random, graph, rule, &images, vertex)?,
            false => {
                let attributes = numbers(random, graph, rule, &images, vertex)?;
                let inputs = pattern.inputs().map(|input| images[usize::from(input)]).collect();
                let (kind, operator) = (pattern.kind(), pattern.operator());
                add_vertex(random, graph, Vertex { kind, operator, inputs, attributes })?
            }
        };
    }
    Some(images[..rule.source_count()].to_vec())
}

/// The numbers with which this vertex's attributes agree.
fn numbers(
    random: &mut Random,
    graph: &GraphParts,
    rule: Rule,
    images: &Images,
    vertex: usize,
) -> Option<Vec<i32>> {
    let pattern = rule.source(vertex);
    if pattern.attribute_count() == 0 {
        return Some(vec![]);
    }
    let block = graph.block();
    let results = results(Graph::view(&block), rule, images);
    let least = if pattern.kind() == PROJ { 1 } else { i32::MIN };
    let mut number = |node: u8| match rule.node(node.into()).form {
        ANY if random.chance(70) => Some(random.within(1, 9) as i32),
        ANY => Some(attribute(random).max(least)),
        _ => results.at(rule.source_index(vertex), node).filter(|&result| result >= least),
    };
    pattern.attributes().map(&mut number).collect()
}

/// An image for a wildcard: a vertex of the graph, or behind the first output a new one
/// that reads it, from which a cycle may come.
fn rule_input(
    random: &mut Random,
    graph: &mut GraphParts,
    rule: Rule,
    images: &Images,
    vertex: usize,
) -> Option<u16> {
    let first_output = usize::from(rule.source_output(0));
    if vertex > first_output && random.chance(READS_FIRST_OUTPUT) {
        let reader = add_vertex(random, graph, call(MEAN, &[images[first_output]], &[0]))?;
        return add_vertex(random, graph, relu(reader));
    }
    let is_free =
        |slot: &u16| graph.slots[usize::from(*slot)].kind != EMPTY && !images.contains(slot);
    let free: Vec<u16> = (0..graph.slots.len() as u16).filter(is_free).collect();
    if !free.is_empty() && random.chance(80) {
        return Some(random.pick(&free));
    }
    let number = attribute(random);
    add_vertex(random, graph, constant(number))
}
