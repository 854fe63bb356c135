//! The expression nodes of a random rule.

use crate::attributes::combine;
use crate::blocks::{access_node, any_node, constant_node, operation_node, GraphParts};
use crate::random::Random;
use crate::rule::{Node, ACCESS, ANY, CONSTANT, MAX_NODES, PLUS, REMAINDER};

use super::graphs::attribute;

/// Nodes so far, with the set of source vertices that each accesses, itself
/// or through its operands.
pub struct Expressions {
    pub nodes: Vec<Node>,
    accessed: Vec<u16>,
}

impl Expressions {
    pub fn new() -> Expressions {
        Expressions { nodes: vec![], accessed: vec![] }
    }

    /// Some nodes that nobody has asked for yet. Two places are left free, so
    /// that a source and a target vertex can always get one that suits.
    pub fn fill(&mut self, random: &mut Random, source_count: usize) {
        let count = match random.below(10) {
            0..=3 => 0,
            4..=7 => random.below(9),
            _ => random.below(MAX_NODES - 1),
        };
        let doubling = random.chance(10);
        for _ in 0..count {
            self.push_random(random, source_count, doubling);
        }
    }

    /// Fills all 64 places.
    pub fn top_up(&mut self, random: &mut Random, source_count: usize) {
        while self.nodes.len() < MAX_NODES {
            self.push_random(random, source_count, false);
        }
    }

    fn push_random(&mut self, random: &mut Random, source_count: usize, doubling: bool) {
        let operands = self.indices(|node, _| node.form != ANY);
        let node = match random.below(100) {
            _ if doubling && !operands.is_empty() => {
                let last = operands[operands.len() - 1];
                operation_node(random.within(3, 7) as u8, last, last)
            }
            0..=9 => any_node(),
            10..=39 => constant_node(attribute(random)),
            40..=64 => access_node(random.below(source_count) as u8, random.within(1, 6) as u8),
            _ if operands.is_empty() => constant_node(attribute(random)),
            _ => {
                let form = random.within(PLUS.into(), REMAINDER.into()) as u8;
                operation_node(form, random.pick(&operands), random.pick(&operands))
            }
        };
        self.push(node);
    }

    /// Adds a sound node and returns its number.
    pub fn push(&mut self, node: Node) -> u8 {
        let of = |index: u8| self.accessed[usize::from(index)];
        let accessed = match node.form {
            ANY | CONSTANT => 0,
            ACCESS => 1 << node.a,
            _ => of(node.a) | of(node.b),
        };
        self.nodes.push(node);
        self.accessed.push(accessed);
        (self.nodes.len() - 1) as u8
    }

    pub fn has_room(&self) -> bool {
        self.nodes.len() < MAX_NODES - 2
    }

    fn indices(&self, suits: impl Fn(&Node, u16) -> bool) -> Vec<u8> {
        (0..self.nodes.len())
            .filter(|&index| suits(&self.nodes[index], self.accessed[index]))
            .map(|index| index as u8)
            .collect()
    }

    /// Whether to make a node although there may be one that suits.
    fn wants_new(&self, random: &mut Random, suiting: &[u8]) -> bool {
        suiting.is_empty() || (self.has_room() && random.chance(25))
    }

    /// A node that an attribute of this source vertex may use.
    pub fn for_source(&mut self, random: &mut Random, vertex: usize) -> u8 {
        let suiting = self.indices(|_, accessed| accessed >> vertex == 0);
        if !self.wants_new(random, &suiting) {
            return random.pick(&suiting);
        }
        self.push(match random.below(3) {
            0 => any_node(),
            1 if vertex > 0 => access_node(random.below(vertex) as u8, random.within(1, 6) as u8),
            _ => constant_node(attribute(random)),
        })
    }

    /// A node that an attribute of a target vertex may use.
    pub fn for_target(&mut self, random: &mut Random, source_count: usize) -> u8 {
        let suiting = self.indices(|node, _| node.form != ANY);
        if !self.wants_new(random, &suiting) {
            return random.pick(&suiting);
        }
        self.push(match random.below(3) {
            0 => access_node(random.below(source_count) as u8, random.within(1, 6) as u8),
            _ => constant_node(attribute(random)),
        })
    }
}

/// The results of these nodes where the first source vertices have these
/// images and the others have none yet.
pub(super) fn node_results(graph: &GraphParts, nodes: &[Node], images: &[u16]) -> Vec<Option<i32>> {
    let mut results = vec![];
    for node in nodes {
        results.push(node_result(graph, node, images, &results));
    }
    results
}

/// The result of one node, from those of the nodes before it.
pub(super) fn node_result(
    graph: &GraphParts,
    node: &Node,
    images: &[u16],
    earlier: &[Option<i32>],
) -> Option<i32> {
    match node.form {
        ANY => None,
        CONSTANT => Some(node.number),
        ACCESS => {
            let image = *images.get(usize::from(node.a))?;
            let attributes = &graph.slots[usize::from(image)].attributes;
            attributes.get(usize::from(node.b) - 1).copied()
        }
        form => combine(form, earlier[usize::from(node.a)]?, earlier[usize::from(node.b)]?),
    }
}
