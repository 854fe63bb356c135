//! Request 8/13: the fixed rule that a variadic one stands for. "For each n from 1 to 6,
//! the field count of the Tuple's image, it stands for one fixed rule of up to 64
//! vertices a side, both sides numbered in visiting order".
//!
//! Document 000's instantiation: each template of a branch gets an instance for each
//! field. "Branch vertices marked as templates are copied per field, others shared."

use crate::blocks::{PatternParts, RuleParts};
use crate::rule::{Pattern, Rule, FIXED_TARGET_BASE, TARGET_BASE};

/// A vertex of the fixed rule: one of the block, and where that is a template, the index
/// of the field, "counted from 1". An unmarked vertex is there once, with index 0.
#[derive(Clone, Copy, Debug, PartialEq, Eq)]
struct Instance {
    vertex: usize,
    index: usize,
}

/// What a target place holds, in the block's numbers.
#[derive(Clone, Copy, PartialEq, Eq)]
enum Place {
    RuleInput(Instance),
    Target(Instance),
}

/// The fixed rule for one n.
pub struct Expansion {
    width: usize,
    /// The vertices of each side in their new order.
    source: Vec<Instance>,
    target: Vec<Instance>,
    /// The rule in the layout of a block of version 1, but with 64 + t for target vertex t
    /// and with nodes that are still the block's: they name its vertices.
    block: Vec<u8>,
}

impl Expansion {
    /// The fixed rule that this block stands for with n fields. Of the block the faults
    /// 30 to 34 are excluded.
    pub(crate) fn of(rule: Rule, width: usize) -> Expansion {
        let fields = Fields { rule, width };
        let (source, target) = (fields.source_order(), fields.target_order());
        let numbers = Numbers { source: &source, target: &target };
        let place = |place: u8| numbers.place(fields.place(place, 0));
        let parts = RuleParts {
            source: source.iter().map(|&vertex| fields.source_parts(vertex, &numbers)).collect(),
            target: target.iter().map(|&vertex| fields.target_parts(vertex, &numbers)).collect(),
            source_outputs: rule
                .source_outputs()
                .map(|output| numbers.source(fields.source(output, 0)))
                .collect(),
            target_outputs: rule.target_outputs().map(place).collect(),
            nodes: (0..rule.node_count()).map(|node| rule.node(node)).collect(),
        };
        let block = parts.block();
        Expansion { width, source, target, block }
    }

    pub fn rule(&self) -> Rule<'_> {
        Rule::fixed(&self.block, self)
    }

    /// n.
    pub fn width(&self) -> usize {
        self.width
    }

    pub(crate) fn source_index(&self, vertex: usize) -> usize {
        self.source[vertex].index
    }

    pub(crate) fn target_index(&self, vertex: usize) -> usize {
        self.target[vertex].index
    }

    /// For each target vertex, the block's vertex and the index that it is a copy for.
    pub fn target_origins(&self) -> impl Iterator<Item = (usize, usize)> + '_ {
        self.target.iter().map(|one| (one.vertex, one.index))
    }

    /// The number of the block's source vertex: of its copy for this index, or of itself
    /// where it is no template.
    pub(crate) fn source_copy(&self, vertex: usize, index: usize) -> Option<usize> {
        let is_it =
            |other: &Instance| other.vertex == vertex && (other.index == index || other.index == 0);
        self.source.iter().position(is_it)
    }
}

/// A block with a number of fields.
struct Fields<'a> {
    rule: Rule<'a>,
    width: usize,
}

impl Fields<'_> {
    /// The source vertex that is named at this index: "a template named is its copy of
    /// that index".
    fn source(&self, vertex: u8, index: usize) -> Instance {
        let vertex = usize::from(vertex);
        let is_template = self.rule.source(vertex).is_template();
        Instance { vertex, index: if is_template { index } else { 0 } }
    }

    /// What a target place names at this index.
    fn place(&self, place: u8, index: usize) -> Place {
        let Some(vertex) = place.checked_sub(TARGET_BASE).map(usize::from) else {
            return Place::RuleInput(self.source(place, index));
        };
        let is_template = self.rule.target(vertex).is_template();
        Place::Target(Instance { vertex, index: if is_template { index } else { 0 } })
    }

    /// The inputs that a pattern names, each with the index at which it names it. Those
    /// Tuples have "its input the branch" for each field; a template names all at its own
    /// index.
    fn named(&self, pattern: Pattern, index: usize, is_tuple: bool) -> Vec<(u8, usize)> {
        let inputs = pattern.inputs();
        match is_tuple {
            true => inputs.flat_map(|input| (1..=self.width).map(move |i| (input, i))).collect(),
            false => inputs.map(|input| (input, index)).collect(),
        }
    }

    fn source_inputs(&self, Instance { vertex, index }: Instance) -> Vec<Instance> {
        let is_tuple = self.rule.is_source_tuple(vertex);
        let named = self.named(self.rule.source(vertex), index, is_tuple);
        named.into_iter().map(|(input, index)| self.source(input, index)).collect()
    }

    fn target_inputs(&self, Instance { vertex, index }: Instance) -> Vec<Place> {
        let is_tuple = self.rule.is_target_tuple(vertex);
        let named = self.named(self.rule.target(vertex), index, is_tuple);
        named.into_iter().map(|(place, index)| self.place(place, index)).collect()
    }

    /// The source vertices in "the visiting order of 002's traversal from the listed
    /// outputs".
    fn source_order(&self) -> Vec<Instance> {
        let mut order = vec![];
        for output in self.rule.source_outputs() {
            self.visit_source(self.source(output, 0), &mut order);
        }
        order
    }

    /// "inputs first, left to right, each vertex once"
    fn visit_source(&self, vertex: Instance, order: &mut Vec<Instance>) {
        if order.contains(&vertex) {
            return;
        }
        for input in self.source_inputs(vertex) {
            self.visit_source(input, order);
        }
        order.push(vertex);
    }

    /// The target vertices in the same order from the target outputs. A rule input is no
    /// target vertex and has no number there.
    fn target_order(&self) -> Vec<Instance> {
        let mut order = vec![];
        for output in self.rule.target_outputs() {
            self.visit_target(self.place(output, 0), &mut order);
        }
        order
    }

    fn visit_target(&self, place: Place, order: &mut Vec<Instance>) {
        let Place::Target(vertex) = place else {
            return;
        };
        if order.contains(&vertex) {
            return;
        }
        for input in self.target_inputs(vertex) {
            self.visit_target(input, order);
        }
        order.push(vertex);
    }

    fn source_parts(&self, vertex: Instance, numbers: &Numbers) -> PatternParts {
        let inputs = self.source_inputs(vertex).into_iter().map(|input| numbers.source(input));
        unmarked(self.rule.source(vertex.vertex), inputs.collect())
    }

    fn target_parts(&self, vertex: Instance, numbers: &Numbers) -> PatternParts {
        let inputs = self.target_inputs(vertex).into_iter().map(|place| numbers.place(place));
        unmarked(self.rule.target(vertex.vertex), inputs.collect())
    }
}

/// The pattern without its mark, with these inputs.
fn unmarked(pattern: Pattern, inputs: Vec<u8>) -> PatternParts {
    PatternParts {
        kind: pattern.kind(),
        operator: pattern.operator(),
        inputs,
        attributes: pattern.attributes().collect(),
    }
}

/// The numbers of the vertices in the fixed rule. At most 6 times 16 a side, and so below
/// 256 behind the target's 64, too.
struct Numbers<'a> {
    source: &'a [Instance],
    target: &'a [Instance],
}

impl Numbers<'_> {
    fn source(&self, vertex: Instance) -> u8 {
        number_in(self.source, vertex)
    }

    fn place(&self, place: Place) -> u8 {
        match place {
            Place::RuleInput(vertex) => self.source(vertex),
            Place::Target(vertex) => FIXED_TARGET_BASE + number_in(self.target, vertex),
        }
    }
}

fn number_in(order: &[Instance], vertex: Instance) -> u8 {
    let number = order.iter().position(|&other| other == vertex);
    number.expect("all that is named is visited") as u8
}
