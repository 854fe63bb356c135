//! What a search met, so that the comparison can show that it was not empty.
//! All of it is taken from the second program's answer.

use leafgraph_reference::graph::Graph;
use leafgraph_reference::matching::{read_map, Images};
use leafgraph_reference::operators::CONST;
use leafgraph_reference::rule::{
    Pattern, Rule, ACCESS, ANY, CONSTANT, DIVIDE, MAX_NODES, MINUS, PLUS, REMAINDER, TIMES,
};

use crate::constants::{matched_consts, MatchedConst};
use crate::namers::Namer;
use crate::nearly::{reasons, Reason};
use crate::tally::{Class, Tally};

/// Every class must occur, and those of `look_classes`. A candidate is a slot
/// from the start on that has the kind, operator and counts of the first output.
pub const CLASSES: [&str; 37] = [
    "one output, found",
    "one output, none",
    "two outputs, found",
    "two outputs, none",
    "found at the first candidate",
    "found at a later candidate",
    "none though there were candidates",
    "second image below the start, found",
    "inner vertex read twice, found",
    "largest graph, found",
    "largest graph, none",
    "largest source, found",
    "start past 16 bits",
    "start past 32 bits",
    "any attribute, found",
    "constant, found",
    "access, found",
    "sum, difference or product, found",
    "quotient, found",
    "remainder, found",
    "negative attribute, found",
    "deep expression, found",
    "computed attribute, none",
    "private Const, found",
    "Const read by another vertex, found",
    "Const read by a vertex that reaches no output, found",
    "Const read by a rule input, found",
    "Const as graph output, found",
    "Const read and as graph output, found",
    "private and shared Const, found",
    "shared Const with any as attribute, found",
    "shared Const with a computed attribute, found",
    "Const taken by a wildcard, found",
    "one Const for two of the rule, none",
    "one Const for a Const and a wildcard, none",
    "other inner vertex shared, none",
    "other inner vertex as graph output, none",
];

/// Deeper than any expression that is not made to be deep.
const DEEP: u8 = 20;

const LARGEST_GRAPH: usize = 512;
const LARGEST_SOURCE: usize = 16;

/// A search in sound blocks, and what came of it.
pub struct Search<'a> {
    pub graph: Graph<'a>,
    pub rule: Rule<'a>,
    pub start: usize,
    /// Where there is a match.
    pub images: Option<Images>,
}

pub fn count_classes(
    tally: &mut Tally,
    graph: &[u8],
    rule: &[u8],
    start: usize,
    reply: u64,
    map: &[u8],
) {
    if reply != 0 && reply != 4 {
        return;
    }
    let (Ok(graph), Ok(rule)) = (Graph::parse(graph), Rule::parse(rule)) else {
        return;
    };
    let images = (reply == 0).then(|| read_map(map));
    let search = Search { graph, rule, start, images };
    let classes = [
        search.shapes(),
        search.course(),
        search.expressions(),
        search.constants(),
        search.looks(),
    ];
    tally.count_all(&classes.concat());
}

impl Search<'_> {
    pub fn found(&self) -> bool {
        self.images.is_some()
    }

    pub fn has_two_outputs(&self) -> bool {
        self.rule.output_count() == 2
    }

    /// Outputs, sizes and starts.
    fn shapes(&self) -> Vec<Class> {
        let (found, two) = (self.found(), self.has_two_outputs());
        let largest = self.graph.slot_count() == LARGEST_GRAPH;
        vec![
            ("one output, found", found && !two),
            ("one output, none", !found && !two),
            ("two outputs, found", found && two),
            ("two outputs, none", !found && two),
            ("largest graph, found", found && largest),
            ("largest graph, none", !found && largest),
            ("largest source, found", found && self.rule.source_count() == LARGEST_SOURCE),
            ("inner vertex read twice, found", found && self.has_shared_interior()),
            ("start past 16 bits", self.start >> 16 != 0),
            ("start past 32 bits", self.start >> 32 != 0),
        ]
    }

    /// How the search went.
    fn course(&self) -> Vec<Class> {
        let Some(first) = self.output_image(0) else {
            let some = self.has_candidate(self.graph.slot_count());
            return vec![("none though there were candidates", some)];
        };
        let later = self.has_candidate(first);
        let second = self.has_two_outputs() && self.output_image(1) < Some(self.start);
        vec![
            ("found at the first candidate", !later),
            ("found at a later candidate", later),
            ("second image below the start, found", second),
        ]
    }

    pub fn output_image(&self, place: usize) -> Option<usize> {
        let output = usize::from(self.rule.source_output(place));
        self.images.as_ref().map(|images| images[output].into())
    }

    /// Whether there is a candidate below this slot.
    fn has_candidate(&self, below: usize) -> bool {
        (self.start..below).any(|slot| self.is_like(slot, 0))
    }

    /// Whether this slot has the kind, operator and counts of the output in
    /// this place.
    pub fn is_like(&self, slot: usize, place: usize) -> bool {
        self.graph.slot(slot).head() == self.output(place).head()
    }

    pub fn output(&self, place: usize) -> Pattern<'_> {
        self.rule.source(self.rule.source_output(place).into())
    }

    /// Whether a vertex that is read from inside alone is read twice. A Const
    /// may be read from anywhere.
    fn has_shared_interior(&self) -> bool {
        let rule = self.rule;
        let reads = |vertex| {
            rule.sources().flat_map(|reader| reader.inputs()).filter(move |&i| i == vertex)
        };
        let is_private =
            |vertex: u8| !rule.is_rule_input(vertex) && rule.source(vertex.into()).kind() != CONST;
        (0..rule.source_count() as u8).any(|vertex| is_private(vertex) && reads(vertex).count() > 1)
    }

    /// What the source's attributes are made of.
    fn expressions(&self) -> Vec<Class> {
        let forms = self.forms();
        let uses = |form: u8| forms >> form & 1 == 1;
        let computed = [ACCESS, PLUS, MINUS, TIMES, DIVIDE, REMAINDER].into_iter().any(uses);
        if !self.found() {
            return vec![("computed attribute, none", computed)];
        }
        vec![
            ("any attribute, found", uses(ANY)),
            ("constant, found", uses(CONSTANT)),
            ("access, found", uses(ACCESS)),
            ("sum, difference or product, found", uses(PLUS) || uses(MINUS) || uses(TIMES)),
            ("quotient, found", uses(DIVIDE)),
            ("remainder, found", uses(REMAINDER)),
            ("negative attribute, found", self.has_negative_attribute()),
            ("deep expression, found", self.depth() >= DEEP),
        ]
    }

    /// A bit for each form that source attributes use, themselves or through
    /// other nodes.
    fn forms(&self) -> u8 {
        self.over_nodes(|form, operands| 1 << form | operands, |one, other| one | other)
    }

    /// The most steps from a source attribute's node down to a leaf.
    fn depth(&self) -> u8 {
        self.over_nodes(|form, operands| operands + u8::from(form >= PLUS), u8::max)
    }

    /// A number for each node, made from its form and from what joins its
    /// operands' numbers, joined over all attributes of the source.
    fn over_nodes(&self, make: impl Fn(u8, u8) -> u8, join: impl Fn(u8, u8) -> u8) -> u8 {
        let mut numbers = [0; MAX_NODES];
        for index in 0..self.rule.node_count() {
            let node = self.rule.node(index);
            let of = |operand: u8| numbers[usize::from(operand)];
            let operands = if node.form >= PLUS { join(of(node.a), of(node.b)) } else { 0 };
            numbers[index] = make(node.form, operands);
        }
        let used = self.rule.sources().flat_map(|source| source.attributes());
        used.fold(0, |all, node| join(all, numbers[usize::from(node)]))
    }

    /// Whether a negative attribute agreed with something else than any.
    fn has_negative_attribute(&self) -> bool {
        let images = self.images.iter().flatten();
        self.rule.sources().zip(images).any(|(source, &image)| {
            let numbers = self.graph.slot(image.into()).attributes();
            let mut pairs = source.attributes().zip(numbers);
            pairs.any(|(node, number)| number < 0 && self.rule.node(node.into()).form != ANY)
        })
    }

    /// Consts of the match, or what stands in its way.
    fn constants(&self) -> Vec<Class> {
        let Some(images) = &self.images else {
            return self.near_misses();
        };
        let consts = matched_consts(self.graph, self.rule, images);
        let only = |namer: Namer| consts.iter().any(|one| one.stays_only_by(namer));
        let private = consts.iter().any(|one| !one.stays());
        vec![
            ("private Const, found", private),
            ("Const read by another vertex, found", only(Namer::Vertex)),
            ("Const read by a vertex that reaches no output, found", only(Namer::DeadVertex)),
            ("Const read by a rule input, found", only(Namer::RuleInput)),
            ("Const as graph output, found", only(Namer::Output)),
            (
                "Const read and as graph output, found",
                consts.iter().any(MatchedConst::is_read_and_output),
            ),
            ("private and shared Const, found", private && consts.iter().any(MatchedConst::stays)),
            ("shared Const with any as attribute, found", self.has_shared(&consts, &[ANY])),
            (
                "shared Const with a computed attribute, found",
                self.has_shared(&consts, &[ACCESS, PLUS, MINUS, TIMES, DIVIDE, REMAINDER]),
            ),
            ("Const taken by a wildcard, found", self.has_const_as_rule_input(images)),
        ]
    }

    /// Whether a shared Const's attribute has one of these forms.
    fn has_shared(&self, consts: &[MatchedConst], forms: &[u8]) -> bool {
        let patterns = self.rule.sources().filter(|pattern| pattern.kind() == CONST);
        let mut nodes = patterns.flat_map(|pattern| pattern.attributes()).zip(consts);
        nodes.any(|(node, one)| one.stays() && forms.contains(&self.rule.node(node.into()).form))
    }

    fn has_const_as_rule_input(&self, images: &Images) -> bool {
        let mut pairs = self.rule.sources().zip(images);
        pairs.any(|(pattern, &image)| {
            pattern.is_wildcard() && self.graph.slot(image.into()).kind() == CONST
        })
    }

    fn near_misses(&self) -> Vec<Class> {
        let reasons = reasons(self.graph, self.rule, self.start);
        let holds = |reason: Reason| reasons.contains(&reason);
        vec![
            ("one Const for two of the rule, none", holds(Reason::OneConstForTwo)),
            ("one Const for a Const and a wildcard, none", holds(Reason::OneConstForWildcard)),
            ("other inner vertex shared, none", holds(Reason::SharedInterior)),
            ("other inner vertex as graph output, none", holds(Reason::InteriorAsOutput)),
        ]
    }
}
