//! The expression nodes of a random variadic rule (request 8/13): index, sums, and sums
//! under sums.

use crate::blocks::{
    access_node, any_node, constant_node, index_node, operation_node, sum_node, PatternParts,
};
use crate::operators::PLACES;
use crate::random::Random;
use crate::rule::{Node, DIVIDE, MAX_NODES, MINUS, PLUS, REMAINDER, TIMES};

use super::graphs::attribute;
use super::variadic_source::is_template;

/// The most nodes that one expression takes: three levels of operations.
const MOST_NODES: usize = 16;

/// What an expression may name.
#[derive(Clone, Copy)]
pub(super) struct Scope<'a> {
    pub source: &'a [PatternParts],
    /// Accesses are to vertices below this one.
    pub limit: usize,
    /// Whether there is an index.
    pub indexed: bool,
    /// Whether templates may be accessed here, and under a sum.
    pub templates: bool,
    pub summed_templates: bool,
}

impl Scope<'_> {
    fn under_sum(self) -> Self {
        Scope { indexed: true, templates: self.summed_templates, ..self }
    }

    /// Vertices with attributes, and wildcards, whose images may have some.
    fn accesses(&self) -> Vec<(u8, usize)> {
        let below = (0..).zip(self.source).take(self.limit);
        let allowed = below.filter(|(_, one)| self.templates || !is_template(one));
        allowed
            .map(|(vertex, one)| (vertex, one.attributes.len()))
            .filter(|&(_, count)| count > 0)
            .collect()
    }
}

/// The nodes so far. Node 0 is any.
pub(super) struct VariadicNodes {
    pub nodes: Vec<Node>,
}

impl VariadicNodes {
    pub fn new() -> VariadicNodes {
        VariadicNodes { nodes: vec![any_node()] }
    }

    fn push(&mut self, node: Node) -> u8 {
        self.nodes.push(node);
        (self.nodes.len() - 1) as u8
    }

    pub fn push_if_room(&mut self, node: Node) -> Option<u8> {
        (self.nodes.len() < MAX_NODES).then(|| self.push(node))
    }

    /// The node of an attribute of a source vertex.
    pub fn for_source(&mut self, random: &mut Random, scope: Scope) -> u8 {
        match random.chance(40) || !self.has_room() {
            true => 0,
            false => self.expression(random, scope, 2),
        }
    }

    /// The node of an attribute of a target vertex. None where there is no room.
    pub fn for_target(&mut self, random: &mut Random, scope: Scope) -> Option<u8> {
        if !self.has_room() {
            return None;
        }
        Some(match random.below(60) {
            0 => self.nest(random, scope),
            1 | 2 => self.too_large(random),
            _ => self.expression(random, scope, 2),
        })
    }

    fn has_room(&self) -> bool {
        self.nodes.len() + MOST_NODES <= MAX_NODES
    }

    fn expression(&mut self, random: &mut Random, scope: Scope, depth: usize) -> u8 {
        let accesses = scope.accesses();
        match random.below(12) {
            0..=3 if !accesses.is_empty() => self.access(random, &accesses),
            4 | 5 if scope.indexed => self.push(index_node()),
            6..=8 if depth > 0 => {
                let term = self.expression(random, scope.under_sum(), depth - 1);
                self.push(sum_node(term))
            }
            9..=11 if depth > 0 => self.operation(random, scope, depth - 1),
            _ => self.push(constant_node(random.below(7) as i32)),
        }
    }

    /// Mostly to an attribute that is there.
    fn access(&mut self, random: &mut Random, accesses: &[(u8, usize)]) -> u8 {
        let (vertex, count) = random.pick(accesses);
        let place = match random.chance(97) {
            true => random.within(1, count),
            false => random.within(1, PLACES),
        };
        self.push(access_node(vertex, place as u8))
    }

    fn operation(&mut self, random: &mut Random, scope: Scope, depth: usize) -> u8 {
        let left = self.expression(random, scope, depth);
        let right = match random.chance(15) {
            true => left,
            false => self.expression(random, scope, depth),
        };
        let forms = [PLUS, PLUS, MINUS, TIMES, TIMES, DIVIDE, REMAINDER];
        self.push(operation_node(random.pick(&forms), left, right))
    }

    /// Sums over sums, as many as there are nodes left, over a term that is 0 or, seldom,
    /// is not.
    fn nest(&mut self, random: &mut Random, scope: Scope) -> u8 {
        let zero = self.push(constant_node(i32::from(random.chance(10))));
        let term = self.expression(random, scope.under_sum(), 0);
        let mut node = self.push(operation_node(TIMES, term, zero));
        let spare = random.pick(&[0, 0, 8]);
        while self.nodes.len() + spare < MAX_NODES {
            node = self.push(sum_node(node));
        }
        node
    }

    /// A sum that is too large for some n, in the end or on the way.
    fn too_large(&mut self, random: &mut Random) -> u8 {
        // The last two have partial sums that are too large, and a whole for n = 6 that is not.
        let any = (attribute(random), attribute(random));
        let numbers = [(1 << 30, 2), (1 << 29, 0), (i32::MAX, 1), any];
        let on_the_way = [(i32::MAX / 3, 4), (i32::MIN / 3, 4)];
        let (large, other) = match random.chance(50) {
            true => random.pick(&on_the_way),
            false => random.pick(&numbers),
        };
        let large = self.push(constant_node(large));
        let index = self.push(index_node());
        let other = self.push(constant_node(other));
        let shifted = self.push(operation_node(MINUS, other, index));
        let term = match random.chance(80) {
            true => self.push(operation_node(TIMES, large, shifted)),
            false => large,
        };
        self.push(sum_node(term))
    }
}
