//! What was asked without a match, or without sound blocks.

use leafgraph_reference::graph::{Graph, Version, UNUSED};
use leafgraph_reference::match_check::Clause;
use leafgraph_reference::matching::{read_map, Images};
use leafgraph_reference::readers::Mapped;
use leafgraph_reference::reply::number_of;
use leafgraph_reference::rule::{Rule, MAX_VERTICES};
use leafgraph_reference::{is_read_elsewhere, MAP_LENGTH};

use crate::namers::{Match, Namer};
use crate::readers::Question;
use crate::tally::Class;

/// Every class must occur. "Alone": every other clause of a match holds. A number
/// that names no vertex never stands alone, since no input names it, nor does a
/// count of inputs.
pub const CLASSES: [&str; 29] = [
    "41, a number at or above N",
    "41, 65535 for a source vertex",
    "41, an Empty slot for a wildcard",
    "41, an Empty slot for another vertex",
    "41, two places alike alone",
    "41, the kind alone",
    "41, the operator alone",
    "41, the input count, and inputs",
    "41, attributes alone",
    "41, inputs alone",
    "41, an interior image as graph output alone",
    "41, an interior image read by a vertex alone",
    "41, an interior image read by a vertex that reaches no output alone",
    "41, an interior image read by the image of a rule input alone",
    "41, a slot behind S alone",
    "41, another number behind S alone",
    "41, several clauses",
    "41, a rule input",
    "41, no source vertex",
    "1, a match but for what stands behind it",
    "1, a match but for what is missing",
    "1, no such vertex",
    "a bad graph, and no slot in the map",
    "a bad graph, and a vertex past the map",
    "a bad rule, and no slot in the map",
    "a bad rule, and a vertex past the map",
    "24, a match otherwise",
    "24, no match otherwise",
    "20, version 1, a match otherwise",
];

/// The classes of a question about a map that is no match.
pub fn unmatched(question: &Question) -> Vec<Class> {
    let (Ok(graph), Ok(rule)) = (Graph::parse(question.graph), Rule::parse(question.rule)) else {
        return vec![];
    };
    let images = &read_map(question.map);
    let asked = question.vertex;
    let mapped = Mapped { graph, rule, images };
    let unmatched = Unmatched { mapped, broken: mapped.broken_clauses().collect() };
    let beside = vec![
        ("41, several clauses", unmatched.broken.len() > 1),
        ("41, a rule input", asked < MAX_VERTICES && rule.is_rule_input(asked as u8)),
        ("41, no source vertex", asked >= rule.source_count()),
    ];
    [unmatched.places(), unmatched.heads(), unmatched.others(), unmatched.interior(), beside]
        .concat()
}

struct Unmatched<'a> {
    mapped: Mapped<'a>,
    broken: Vec<Clause>,
}

impl Unmatched<'_> {
    fn alone(&self, clause: Clause) -> bool {
        self.broken == [clause]
    }

    /// Whether this holds of a source vertex, its number, and the number in its place.
    fn any(&self, holds: impl Fn(usize, u16) -> bool) -> bool {
        (0..self.mapped.rule.source_count()).any(|vertex| holds(vertex, self.mapped.images[vertex]))
    }

    fn places(&self) -> Vec<Class> {
        let Mapped { graph, rule, images } = self.mapped;
        let slots = graph.slot_count();
        let is_slot = |image: u16| usize::from(image) < slots;
        let empty = |image: u16| is_slot(image) && graph.slot(image.into()).is_empty();
        let wildcard = |vertex: usize| rule.source(vertex).is_wildcard();
        let behind = |holds: &dyn Fn(u16) -> bool| {
            let places = &images[rule.source_count()..];
            self.alone(Clause::Behind)
                && places.iter().any(|&place| place != UNUSED && holds(place))
        };
        vec![
            ("41, a number at or above N", self.any(|_, i| !is_slot(i) && i != UNUSED)),
            ("41, 65535 for a source vertex", self.any(|_, i| i == UNUSED)),
            ("41, an Empty slot for a wildcard", self.any(|v, i| empty(i) && wildcard(v))),
            ("41, an Empty slot for another vertex", self.any(|v, i| empty(i) && !wildcard(v))),
            ("41, a slot behind S alone", behind(&is_slot)),
            ("41, another number behind S alone", behind(&|place| !is_slot(place))),
        ]
    }

    /// Which parts of a head are other ones. In sound blocks an attribute count never
    /// is the only one.
    fn heads(&self) -> Vec<Class> {
        let Mapped { graph, rule, .. } = self.mapped;
        let differs = |holds: fn([u8; 4], [u8; 4]) -> bool| {
            self.any(|vertex, image| {
                let pattern = rule.source(vertex);
                !pattern.is_wildcard() && holds(pattern.head(), graph.slot(image.into()).head())
            })
        };
        let alone = self.alone(Clause::Heads);
        let with_inputs = self.broken == [Clause::Heads, Clause::Inputs];
        vec![
            ("41, the kind alone", alone && differs(|one, other| one[0] != other[0])),
            (
                "41, the operator alone",
                alone && differs(|one, other| one[0] == other[0] && one[1] != other[1]),
            ),
            (
                "41, the input count, and inputs",
                with_inputs && differs(|one, other| one[..2] == other[..2] && one[2] != other[2]),
            ),
        ]
    }

    fn others(&self) -> Vec<Class> {
        vec![
            ("41, two places alike alone", self.alone(Clause::Distinct)),
            ("41, attributes alone", self.alone(Clause::Attributes)),
            ("41, inputs alone", self.alone(Clause::Inputs)),
        ]
    }

    /// Who names interior images from outside.
    fn interior(&self) -> Vec<Class> {
        if !self.alone(Clause::Interior) {
            return vec![];
        }
        let Mapped { graph, rule, images } = self.mapped;
        let looked_at = Match::new(graph, rule, images);
        let interior = self.mapped.interior_images();
        let namers: Vec<Namer> =
            interior.flat_map(|image| looked_at.naming(image).outside).collect();
        let only = |namer: Namer| namers.iter().all(|&one| one == namer);
        vec![
            ("41, an interior image as graph output alone", only(Namer::Output)),
            ("41, an interior image read by a vertex alone", only(Namer::Vertex)),
            (
                "41, an interior image read by a vertex that reaches no output alone",
                only(Namer::DeadVertex),
            ),
            (
                "41, an interior image read by the image of a rule input alone",
                only(Namer::RuleInput),
            ),
        ]
    }
}

/// The classes of a question that was refused for its map's length or for a block.
pub fn refused(question: &Question, reply: u64) -> Vec<Class> {
    let number = number_of(reply);
    if number == 1 {
        return wrong_length(question);
    }
    let (graph, rule) = (number < 30, number >= 30);
    let nowhere = question.map.iter().all(|&byte| byte == 255);
    let past = question.vertex >= MAX_VERTICES;
    let classes = vec![
        ("a bad graph, and no slot in the map", graph && nowhere),
        ("a bad graph, and a vertex past the map", graph && past),
        ("a bad rule, and no slot in the map", rule && nowhere),
        ("a bad rule, and a vertex past the map", rule && past),
    ];
    [classes, otherwise(question, number)].concat()
}

/// What would be replied to a map of the right length.
fn wrong_length(question: &Question) -> Vec<Class> {
    let Question { graph, rule, map, vertex } = *question;
    let mut right = map.to_vec();
    right.resize(MAP_LENGTH, 255);
    let number = number_of(is_read_elsewhere(graph, rule, &right, vertex));
    let is_match = matches!(number, 0 | 42);
    vec![
        ("1, a match but for what stands behind it", is_match && map.len() > MAP_LENGTH),
        ("1, a match but for what is missing", is_match && map.len() < MAP_LENGTH),
        ("1, no such vertex", number == 42),
    ]
}

/// Whether the map is a match of a graph whose counts or version alone are wrong.
fn otherwise(question: &Question, number: u8) -> Vec<Class> {
    let version = if number == 20 { Version::One } else { Version::Two };
    let graph = Graph::parse_but_counts(question.graph, version);
    let (Ok(graph), Ok(rule)) = (graph, Rule::parse(question.rule)) else {
        return vec![];
    };
    let images: &Images = &read_map(question.map);
    let is_match = Mapped { graph, rule, images }.is_match();
    vec![
        ("24, a match otherwise", number == 24 && is_match),
        ("24, no match otherwise", number == 24 && !is_match),
        ("20, version 1, a match otherwise", number == 20 && is_match),
    ]
}
