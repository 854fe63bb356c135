//! The rule block: a view of its fields, and of the fixed rules that one of version 2
//! stands for. The check stands in `rule_check`.

use std::ops::RangeInclusive;

use crate::expansion::Expansion;
use crate::fields::{i32_at, u16_at};
use crate::operators::{PLACES, VARIABLE, WILDCARD};
use crate::reply::Refusal;
use crate::rule_check;
use crate::stage::Stage;

/// "S source vertices (1 to 16), T target vertices (0 to 16)".
pub const MAX_VERTICES: usize = 16;
/// "one fixed rule of up to 64 vertices a side".
pub const MAX_FIXED: usize = 64;
/// "for each n from 1 to 6".
pub const MAX_WIDTH: usize = PLACES;
/// "A expression nodes (0 to 64)".
pub const MAX_NODES: usize = 64;
/// "K outputs (1 or 2)".
pub const MAX_OUTPUTS: usize = 2;
/// "Length exactly 16 + 16(S+T) + 8A": the header's part.
pub const HEADER: usize = 16;
pub const PATTERN: usize = 16;
pub const NODE: usize = 8;
/// "Unused places hold 255."
pub const UNUSED: u8 = 255;
/// "16 + t for target vertex t".
pub const TARGET_BASE: u8 = 16;
/// The same in a fixed rule of request 8/13, "with 64 for 16".
pub const FIXED_TARGET_BASE: u8 = 64;
/// "kind plus 128 marks a template".
pub const TEMPLATE: u8 = 128;

pub const ANY: u8 = 0;
pub const CONSTANT: u8 = 1;
pub const ACCESS: u8 = 2;
pub const PLUS: u8 = 3;
pub const MINUS: u8 = 4;
pub const TIMES: u8 = 5;
pub const DIVIDE: u8 = 6;
pub const REMAINDER: u8 = 7;
/// Forms of version 2: "8 index, 9 sum of earlier node a".
pub const INDEX: u8 = 8;
pub const SUM: u8 = 9;

/// A block read as a rule. Outside this crate it is always a sound one of version 1, or
/// a fixed rule that one of version 2 stands for.
#[derive(Clone, Copy)]
pub struct Rule<'a> {
    bytes: &'a [u8],
    /// Where the bytes are those of a fixed rule, how they came about.
    expansion: Option<&'a Expansion>,
}

/// One pattern record, of the source or of the target.
#[derive(Clone, Copy)]
pub struct Pattern<'a> {
    record: &'a [u8],
}

/// "Node: 0 form; 1 a; 2 b; 3 zero; 4-7 signed number."
#[derive(Clone, Copy, Debug, PartialEq, Eq)]
pub struct Node {
    pub form: u8,
    pub a: u8,
    pub b: u8,
    pub number: i32,
}

impl<'a> Rule<'a> {
    /// The rule in these bytes, if they are a sound block of version 1.
    pub fn parse(bytes: &'a [u8]) -> Result<Rule<'a>, Refusal> {
        rule_check::parse(Stage::Seven, bytes)
    }

    /// The same view without the check, for the check itself.
    pub(crate) fn view(bytes: &'a [u8]) -> Rule<'a> {
        Rule { bytes, expansion: None }
    }

    /// The view of a fixed rule.
    pub(crate) fn fixed(bytes: &'a [u8], expansion: &'a Expansion) -> Rule<'a> {
        Rule { bytes, expansion: Some(expansion) }
    }

    /// Whether it is "a variadic rule, version 2 of the rule block".
    pub fn is_variadic(self) -> bool {
        u16_at(self.bytes, 4) == 2
    }

    /// "header bytes 14-15 name the source and target Tuple (255: no target one [...])".
    pub(crate) fn is_source_tuple(self, vertex: usize) -> bool {
        self.is_variadic() && usize::from(self.bytes[14]) == vertex
    }

    pub(crate) fn is_target_tuple(self, vertex: usize) -> bool {
        self.is_variadic() && usize::from(self.bytes[15]) == vertex
    }

    /// The n of a fixed rule; 0 for a block as it stands.
    pub fn width(self) -> usize {
        self.expansion.map_or(0, Expansion::width)
    }

    /// The indices of a sum's terms, "over 1 to n". A block as it stands has the term
    /// itself.
    pub fn indices(self) -> RangeInclusive<usize> {
        self.width().min(1)..=self.width()
    }

    /// The index that this source vertex is a copy for; 0 where it is none.
    pub fn source_index(self, vertex: usize) -> usize {
        self.expansion.map_or(0, |expansion| expansion.source_index(vertex))
    }

    /// The same of a target vertex.
    pub fn target_index(self, vertex: usize) -> usize {
        self.expansion.map_or(0, |expansion| expansion.target_index(vertex))
    }

    /// The source vertex that an access to this one of the block reads at an index: "a
    /// template named is its copy of that index". None at index 0, where no copy is.
    pub fn accessed(self, vertex: u8, index: usize) -> Option<usize> {
        match self.expansion {
            Some(expansion) => expansion.source_copy(vertex.into(), index),
            None => Some(vertex.into()),
        }
    }

    /// What target vertex 0 is called in a target place.
    pub fn target_base(self) -> u8 {
        if self.expansion.is_some() {
            FIXED_TARGET_BASE
        } else {
            TARGET_BASE
        }
    }

    pub fn bytes(self) -> &'a [u8] {
        self.bytes
    }

    /// S.
    pub fn source_count(self) -> usize {
        usize::from(self.bytes[6])
    }

    /// T.
    pub fn target_count(self) -> usize {
        usize::from(self.bytes[7])
    }

    /// K.
    pub fn output_count(self) -> usize {
        usize::from(self.bytes[8])
    }

    /// A.
    pub fn node_count(self) -> usize {
        usize::from(self.bytes[9])
    }

    pub fn source_output(self, place: usize) -> u8 {
        self.bytes[10 + place]
    }

    pub fn target_output(self, place: usize) -> u8 {
        self.bytes[12 + place]
    }

    pub fn source_outputs(self) -> impl Iterator<Item = u8> + 'a {
        self.bytes[10..10 + self.output_count()].iter().copied()
    }

    pub fn target_outputs(self) -> impl Iterator<Item = u8> + 'a {
        self.bytes[12..12 + self.output_count()].iter().copied()
    }

    fn pattern(self, index: usize) -> Pattern<'a> {
        let at = HEADER + PATTERN * index;
        Pattern { record: &self.bytes[at..at + PATTERN] }
    }

    pub fn source(self, vertex: usize) -> Pattern<'a> {
        self.pattern(vertex)
    }

    pub fn target(self, vertex: usize) -> Pattern<'a> {
        self.pattern(self.source_count() + vertex)
    }

    pub fn sources(self) -> impl Iterator<Item = Pattern<'a>> {
        (0..self.source_count()).map(move |vertex| self.source(vertex))
    }

    pub fn targets(self) -> impl Iterator<Item = Pattern<'a>> {
        (0..self.target_count()).map(move |vertex| self.target(vertex))
    }

    fn node_record(self, index: usize) -> &'a [u8] {
        let at = HEADER + PATTERN * (self.source_count() + self.target_count()) + NODE * index;
        &self.bytes[at..at + NODE]
    }

    pub fn node(self, index: usize) -> Node {
        let record = self.node_record(index);
        Node { form: record[0], a: record[1], b: record[2], number: i32_at(record, 4) }
    }

    /// Byte 3 of a node, which must be zero.
    pub(crate) fn node_padding(self, index: usize) -> u8 {
        self.node_record(index)[3]
    }

    /// Whether this number is that of a source vertex that is a rule input.
    pub fn is_rule_input(self, number: u8) -> bool {
        let number = usize::from(number);
        number < self.source_count() && self.source(number).is_input_kind()
    }
}

impl<'a> Pattern<'a> {
    /// The kind without a template's mark.
    pub fn kind(self) -> u8 {
        self.record[0] % TEMPLATE
    }

    pub fn is_template(self) -> bool {
        self.record[0] >= TEMPLATE
    }

    pub fn operator(self) -> u8 {
        self.record[1]
    }

    pub fn input_count(self) -> usize {
        usize::from(self.record[2])
    }

    pub fn attribute_count(self) -> usize {
        usize::from(self.record[3])
    }

    /// Kind, operator and counts in one look.
    pub fn head(self) -> [u8; 4] {
        [self.record[0], self.record[1], self.record[2], self.record[3]]
    }

    pub fn is_wildcard(self) -> bool {
        self.kind() == WILDCARD
    }

    /// "Wildcards and Variables are the rule's inputs."
    pub fn is_input_kind(self) -> bool {
        self.kind() == WILDCARD || self.kind() == VARIABLE
    }

    pub fn inputs(self) -> impl Iterator<Item = u8> + 'a {
        self.record[4..4 + self.input_count()].iter().copied()
    }

    /// The expression nodes of the attributes.
    pub fn attributes(self) -> impl Iterator<Item = u8> + 'a {
        self.record[10..10 + self.attribute_count()].iter().copied()
    }

    /// Whether every place past the counts holds 255.
    pub(crate) fn unused_places_are_marked(self) -> bool {
        let inputs = &self.record[4 + self.input_count()..10];
        let attributes = &self.record[10 + self.attribute_count()..16];
        inputs.iter().chain(attributes).all(|&place| place == UNUSED)
    }
}
