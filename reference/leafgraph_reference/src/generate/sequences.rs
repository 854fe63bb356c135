//! A graph and a few rules, to rewrite it again and again.

use crate::blocks::{add, call, constant, empty, projection, relu, tuple, variable};
use crate::blocks::{GraphParts, RuleParts, Vertex};
use crate::operators::{GAIN, RESHAPE};
use crate::random::Random;

use super::cuts::graph_and_cut;
use super::graphs::sound_graph_of;
use super::insertion::{insert_match, SourceSide};
use super::lawful::lawful_rules;
use super::rewritings::rule_for;
use super::tables::renumber;

#[derive(Clone, Debug)]
pub struct Sequence {
    pub graph: GraphParts,
    pub rules: Vec<RuleParts>,
}

pub fn sequence(random: &mut Random) -> Sequence {
    let mut sequence = match random.below(10) {
        0..=3 => with_matches(random),
        4..=7 => Sequence { graph: plain_graph(random), rules: some_lawful_rules(random) },
        _ => cut(random),
    };
    let graph = &mut sequence.graph;
    for _ in 0..random.pick(&[0, 0, 1, 2, 3, 8]) {
        graph.slots.push(empty());
    }
    if random.chance(70) {
        renumber(random, graph, &mut []);
    }
    sequence
}

fn some_lawful_rules(random: &mut Random) -> Vec<RuleParts> {
    let mut rules = lawful_rules();
    random.shuffle(&mut rules);
    rules.truncate(random.within(1, 5));
    rules
}

/// A graph that every rule has matches in, often over each other.
fn with_matches(random: &mut Random) -> Sequence {
    let rules = some_lawful_rules(random);
    let slots = random.within(1, 12);
    let mut graph = sound_graph_of(random, slots);
    for _ in 0..random.within(1, 4) {
        for rule in &rules {
            if let Some(images) = insert_match(random, &mut graph, SourceSide::of(rule)) {
                let place = random.below(graph.outputs.len());
                graph.outputs[place] = images[usize::from(rule.source_outputs[0])];
            }
        }
    }
    Sequence { graph, rules }
}

/// A graph of the operators that lawful rules are about, with stages over
/// stages.
fn plain_graph(random: &mut Random) -> GraphParts {
    let slots = match random.chance(95) {
        true => random.within(3, 30),
        false => random.within(31, 200),
    };
    let mut table = vec![variable()];
    while table.len() < slots {
        let last = table.len() as u16 - 1;
        let input = match random.chance(50) {
            true => last,
            false => random.below(table.len()) as u16,
        };
        let other = random.below(table.len()) as u16;
        table.push(plain_vertex(random, input, other));
    }
    let outputs: Vec<u16> =
        (0..random.within(1, 4)).map(|_| (slots - 1 - random.below(slots.min(3))) as u16).collect();
    GraphParts::new(table, &outputs)
}

fn plain_vertex(random: &mut Random, input: u16, other: u16) -> Vertex {
    let mut small = || random.below(3) as i32;
    let numbers = [small(), small(), small(), small()];
    match random.below(20) {
        0 => variable(),
        1 => constant(numbers[0]),
        2..=7 => relu(input),
        8..=10 => add(input, other),
        11..=13 => call(GAIN, &[input], &numbers[1..]),
        14 | 15 => call(RESHAPE, &[input], &numbers),
        16 | 17 => tuple(&[input, other][numbers[0] as usize % 2..]),
        _ => projection(input, 1 + numbers[0] % 2),
    }
}

/// A random graph, a rule cut out of it, and others.
fn cut(random: &mut Random) -> Sequence {
    let (graph, cut) = graph_and_cut(random, small_graph);
    let mut rules = some_lawful_rules(random);
    if let Some((_, rule)) = rule_for(random, &graph, cut) {
        rules.insert(0, rule);
    }
    Sequence { graph, rules }
}

fn small_graph(random: &mut Random) -> GraphParts {
    let slots = random.within(2, 24);
    sound_graph_of(random, slots)
}
