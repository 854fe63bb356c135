//! Attributes for a source whose images are known: expressions that nearly
//! always agree with the images' numbers.

use crate::blocks::{access_node, any_node, constant_node, GraphParts, PatternParts, Vertex};
use crate::operators::PLACES;
use crate::random::Random;
use crate::rule::MAX_NODES;

use super::agreeing::{at_the_limits, by_division, doubled, near_miss, plus, MOST_NODES};
use super::expressions::Expressions;
use super::graphs::attribute;

/// Gives a node to each attribute of the source.
pub(super) fn fill_attributes(
    random: &mut Random,
    graph: &GraphParts,
    images: &[u16],
    source: &mut [PatternParts],
) -> Expressions {
    let mut filling = Filling { graph, images, expressions: Expressions::new() };
    for (vertex, pattern) in source.iter_mut().enumerate() {
        for (place, node) in pattern.attributes.iter_mut().enumerate() {
            let number = filling.image(vertex).attributes[place];
            *node = filling.agreeing_node(random, vertex, number);
        }
    }
    filling.expressions
}

struct Filling<'a> {
    graph: &'a GraphParts,
    images: &'a [u16],
    expressions: Expressions,
}

impl Filling<'_> {
    fn image(&self, vertex: usize) -> &Vertex {
        &self.graph.slots[usize::from(self.images[vertex])]
    }

    /// A node that agrees with this number at this vertex, nearly always.
    fn agreeing_node(&mut self, random: &mut Random, vertex: usize, number: i32) -> u8 {
        let expressions = &mut self.expressions;
        if expressions.nodes.len() + MOST_NODES + 2 > MAX_NODES {
            return expressions.for_source(random, vertex);
        }
        match random.below(80) {
            _ if random.below(500) == 0 => doubled(random, expressions, number),
            0..=27 => expressions.push(any_node()),
            28..=43 => expressions.push(constant_node(number)),
            44..=61 => self.node_by_access(random, vertex, number),
            62..=72 => by_division(random, expressions, number),
            73..=76 => at_the_limits(random, expressions, number),
            77 => near_miss(random, expressions, number),
            78 => self.access_past_attributes(random, vertex, number),
            _ => expressions.push(constant_node(attribute(random))),
        }
    }

    /// An access to a lower vertex that has the number, or one plus the
    /// difference.
    fn node_by_access(&mut self, random: &mut Random, vertex: usize, number: i32) -> u8 {
        let accesses: Vec<(u8, u8, i32)> = (0..vertex)
            .flat_map(|lower| {
                let places = self.image(lower).attributes.iter().enumerate();
                places.map(move |(place, &value)| (lower as u8, place as u8 + 1, value))
            })
            .collect();
        if accesses.is_empty() {
            return self.expressions.push(any_node());
        }
        let same = accesses.iter().find(|access| access.2 == number);
        let (lower, place, value) = match same {
            Some(&access) if random.chance(70) => access,
            _ => random.pick(&accesses),
        };
        match number.checked_sub(value) {
            Some(difference) => {
                let access = self.expressions.push(access_node(lower, place));
                plus(&mut self.expressions, access, difference)
            }
            None => self.expressions.push(any_node()),
        }
    }

    /// An access past the attributes of a lower vertex, plus the number: no
    /// result, but the number where such an access reads the unused place.
    fn access_past_attributes(&mut self, random: &mut Random, vertex: usize, number: i32) -> u8 {
        if vertex == 0 {
            return self.expressions.push(any_node());
        }
        let lower = random.below(vertex);
        let count = self.image(lower).attributes.len();
        let place = random.within((count + 1).min(PLACES), PLACES);
        let access = self.expressions.push(access_node(lower as u8, place as u8));
        plus(&mut self.expressions, access, number)
    }
}
