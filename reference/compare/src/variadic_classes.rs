//! What searches, rewritings and questions with variadic rules (request 8/13) were like.

use leafgraph_reference::attributes::{results, Results};
use leafgraph_reference::graph::Graph;
use leafgraph_reference::matching::{least_match, read_map, Images};
use leafgraph_reference::operators::PROJ;
use leafgraph_reference::reply::{number_of, value_of};
use leafgraph_reference::rule::{Rule, MAX_FIXED, MAX_VERTICES, SUM, TEMPLATE};
use leafgraph_reference::rules::Rules;

use crate::arguments::Arguments;
use crate::readers::Question;
use crate::rewriting::{Outcome, Verdicts};
use crate::tally::Class;
use crate::variadic::STAGE;
use crate::variadic_block::{Block, Record};
use crate::variadic_maps::{BEHIND, CHANGED, CUT, MIXED, OTHER_WIDTH};

/// Every class of these lists must occur.
pub const FOUND: [&str; 24] = [
    "n of 1",
    "n of 2",
    "n of 3",
    "n of 4",
    "n of 5",
    "n of 6",
    "two outputs",
    "another n matches too",
    "a lesser n matches at a greater slot",
    "a greater n matches at a greater slot",
    "another n with the same first image",
    "a match of another n before the start",
    "more than 16 vertices",
    "more than 32 vertices",
    "a sum in the source",
    "a sum over templates in the source",
    "version 1",
    "4, a match from 0",
    "4, start at or past N",
    "4, no match from 0",
    "1, 32 bytes with version 2",
    "1, 128 bytes with version 1",
    "1, a bad graph and a bad rule too",
    "30, a rule without a version, and 32 bytes",
];

pub const REWRITTEN: [&str; 25] = [
    "n of 1",
    "n of 2",
    "n of 3",
    "n of 4",
    "n of 5",
    "n of 6",
    "two outputs",
    "two outputs, n of 6",
    "a lesser n matches at a greater slot",
    "target copies not in the order of the block",
    "no target vertex",
    "more than 16 target vertices",
    "more than 16 removed vertices",
    "a sum in the target",
    "a sum over templates in the target",
    "the sides mean the same",
    "the sides mean the same, n of 6",
    "a vertex below what is replaced",
    "5, a sum without a result",
    "5, a partial sum is too large and the whole is not",
    "5, a Proj index below 1",
    "6, n of 2 or more",
    "7, n of 2 or more",
    "1, 32 bytes with version 2",
    "version 1",
];

pub const ASKED: [&str; 25] = [
    "yes, n of 1",
    "yes, n of 2",
    "yes, n of 3",
    "yes, n of 4",
    "yes, n of 5",
    "yes, n of 6",
    "no, n of 1",
    "no, n of 2",
    "no, n of 3",
    "no, n of 4",
    "no, n of 5",
    "no, n of 6",
    "a vertex past the block's S",
    "a match that is not the least",
    "S is the same for every n",
    "41, a match cut",
    "41, a match with one place changed",
    "41, a match with a place behind it",
    "41, a match with another width's length",
    "41, two matches mixed",
    "42, a rule input that is a copy",
    "42, another rule input",
    "42, past S and below 64",
    "42, 64 or more",
    "1, 32 bytes with version 2",
];

/// A search or a rewriting with sound blocks.
struct Sound<'a> {
    graph: Graph<'a>,
    rules: &'a Rules<'a>,
    block: Block,
    start: usize,
}

impl Sound<'_> {
    fn is_variadic(&self) -> bool {
        matches!(self.rules, Rules::Variadic(_))
    }

    /// The least match of each n.
    fn each_least(&self, start: usize) -> Vec<(Rule<'_>, Images)> {
        let least = |rule| least_match(self.graph, rule, start).map(|images| (rule, images));
        self.rules.fixed().filter_map(least).collect()
    }

    fn of_match(&self, rule: Rule, images: &Images) -> Vec<Class> {
        let image = |rule: Rule, images: &Images| images[usize::from(rule.source_output(0))];
        let (n, first) = (rule.width(), image(rule, images));
        let others = self.each_least(self.start);
        let other = |holds: &dyn Fn(usize, u16) -> bool| {
            others
                .iter()
                .any(|(one, images)| one.width() != n && holds(one.width(), image(*one, images)))
        };
        let before = self.each_least(0);
        let is_before = |(one, images): &(Rule, Images)| {
            one.width() != n && usize::from(image(*one, images)) < self.start
        };
        vec![
            ("another n matches too", other(&|_, _| true)),
            ("a lesser n matches at a greater slot", other(&|width, at| width < n && at > first)),
            ("a greater n matches at a greater slot", other(&|width, at| width > n && at > first)),
            ("another n with the same first image", other(&|_, at| at == first)),
            ("a match of another n before the start", before.iter().any(is_before)),
        ]
    }
}

/// The class "n of" this, of those that begin a list.
fn of_width(names: &[&'static str], rule: Rule) -> Class {
    (names[rule.width() - 1], true)
}

/// Whether a record of the side has a sum, and one over templates.
fn sums(block: &Block, side: &[Record]) -> [bool; 2] {
    let uses: Vec<_> = side.iter().flat_map(|one| block.uses(one)).collect();
    let over_templates = uses.iter().any(|&one| one.sums > 0 && block.accesses_template(one));
    [uses.iter().any(|one| one.node.form == SUM), over_templates]
}

fn reads_version(rule: &[u8], version: u8) -> bool {
    rule.get(4..6) == Some(&[version, 0])
}

pub fn found(graph: &[u8], rule: &[u8], start: usize, map: &[u8], reply: u64) -> Vec<Class> {
    match number_of(reply) {
        0 | 4 => {}
        1 => return bad_lengths(graph, rule, map),
        30 => return vec![("30, a rule without a version, and 32 bytes", rule.len() < 6)],
        _ => return vec![],
    }
    let rules = Rules::parse(STAGE, rule).expect("it is sound");
    let graph = Graph::parse(graph).expect("it is sound");
    let block = Block::of(rule).expect("it is sound");
    let sound = Sound { graph, rules: &rules, block, start };
    if !sound.is_variadic() {
        return vec![("version 1", number_of(reply) == 0)];
    }
    if number_of(reply) == 4 {
        let from_0 = rules.least_match(graph, 0).is_some();
        let past = start >= graph.slot_count();
        return vec![
            ("4, a match from 0", from_0 && !past),
            ("4, start at or past N", from_0 && past),
            ("4, no match from 0", !from_0),
        ];
    }
    let images = read_map(map);
    let rule = rules.rule_of_match(graph, &images).expect("it was found");
    let [sum, over_templates] = sums(&sound.block, &sound.block.source);
    let mut classes = sound.of_match(rule, &images);
    classes.push(of_width(&FOUND, rule));
    classes.extend([
        ("two outputs", rule.output_count() == 2),
        ("more than 16 vertices", rule.source_count() > MAX_VERTICES),
        ("more than 32 vertices", rule.source_count() > 2 * MAX_VERTICES),
        ("a sum in the source", sum),
        ("a sum over templates in the source", over_templates),
    ]);
    classes
}

fn bad_lengths(graph: &[u8], rule: &[u8], map: &[u8]) -> Vec<Class> {
    let bad = Graph::parse(graph).is_err() && Rules::parse(STAGE, rule).is_err();
    vec![
        ("1, 32 bytes with version 2", map.len() == 32 && reads_version(rule, 2)),
        ("1, 128 bytes with version 1", map.len() == 128 && reads_version(rule, 1)),
        ("1, a bad graph and a bad rule too", bad),
    ]
}

pub fn rewritten(arguments: &Arguments, outcome: &Outcome) -> Vec<Class> {
    let Arguments { graph, rule, start, map, .. } = arguments;
    let number = number_of(outcome.reply);
    if number == 1 {
        return vec![("1, 32 bytes with version 2", map.len() == 32 && reads_version(rule, 2))];
    }
    let (Ok(graph), Ok(rules)) = (Graph::parse(graph), Rules::parse(STAGE, rule)) else {
        return vec![];
    };
    let block = Block::of(rule).expect("it is sound");
    let sound = Sound { graph, rules: &rules, block, start: *start };
    let found = rules.least_match(graph, *start);
    let Some((rule, images)) = found.filter(|_| sound.is_variadic()) else {
        return vec![("version 1", number == 0)];
    };
    match number {
        0 => sound.accepted(rule, &images, outcome.verdicts.as_ref()),
        5 => sound.without_result(rule, &images),
        _ => vec![
            ("6, n of 2 or more", number == 6 && rule.width() >= 2),
            ("7, n of 2 or more", number == 7 && rule.width() >= 2),
        ],
    }
}

impl Sound<'_> {
    fn accepted(&self, rule: Rule, images: &Images, verdicts: Option<&Verdicts>) -> Vec<Class> {
        let Rules::Variadic(expansions) = self.rules else { return vec![] };
        let origins: Vec<_> = expansions[rule.width() - 1].target_origins().collect();
        let [sum, over_templates] = sums(&self.block, &self.block.target);
        let same = verdicts.is_some_and(|verdicts| verdicts.lawless.same_meaning);
        let below = verdicts.is_some_and(|verdicts| verdicts.lawless.below > 0);
        let removed = rule.sources().filter(|one| !one.is_input_kind()).count();
        let of_match = self.of_match(rule, images);
        let lesser = "a lesser n matches at a greater slot";
        vec![
            of_width(&REWRITTEN, rule),
            ("two outputs", rule.output_count() == 2),
            ("two outputs, n of 6", rule.output_count() == 2 && rule.width() == 6),
            (lesser, of_match.contains(&(lesser, true))),
            ("target copies not in the order of the block", !origins.is_sorted()),
            ("no target vertex", rule.target_count() == 0),
            ("more than 16 target vertices", rule.target_count() > MAX_VERTICES),
            ("more than 16 removed vertices", removed > MAX_VERTICES),
            ("a sum in the target", sum),
            ("a sum over templates in the target", over_templates),
            ("the sides mean the same", same),
            ("the sides mean the same, n of 6", same && rule.width() == 6),
            ("a vertex below what is replaced", below),
        ]
    }

    fn without_result(&self, rule: Rule, images: &Images) -> Vec<Class> {
        let results = results(self.graph, rule, images);
        let (mut sum, mut partial, mut index) = (false, false, false);
        for (vertex, pattern) in rule.targets().enumerate() {
            let at = rule.target_index(vertex);
            for node in pattern.attributes() {
                let result = results.at(at, node);
                let is_sum = rule.node(node.into()).form == SUM;
                sum |= is_sum && result.is_none();
                partial |= is_sum && result.is_none() && whole_sum_fits(rule, &results, node);
                index |= pattern.kind() == PROJ && result.is_some_and(|result| result < 1);
            }
        }
        vec![
            ("5, a sum without a result", sum),
            ("5, a partial sum is too large and the whole is not", partial),
            ("5, a Proj index below 1", index),
        ]
    }
}

/// Whether all terms of this sum have results whose exact sum has 32 bits.
fn whole_sum_fits(rule: Rule, results: &Results, node: u8) -> bool {
    let term = rule.node(node.into()).a;
    let terms: Option<Vec<i32>> = rule.indices().map(|index| results.at(index, term)).collect();
    let sum = terms.map(|terms| terms.into_iter().map(i64::from).sum::<i64>());
    sum.is_some_and(|sum| i32::try_from(sum).is_ok())
}

pub fn asked(question: &Question, origin: &'static str, reply: u64) -> Vec<Class> {
    let Question { graph, rule, map, vertex } = *question;
    let number = number_of(reply);
    match number {
        0 | 42 => {}
        1 => {
            return vec![("1, 32 bytes with version 2", map.len() == 32 && reads_version(rule, 2))]
        }
        41 => {
            return vec![
                ("41, a match cut", origin == CUT),
                ("41, a match with one place changed", origin == CHANGED),
                ("41, a match with a place behind it", origin == BEHIND),
                ("41, a match with another width's length", origin == OTHER_WIDTH),
                ("41, two matches mixed", origin == MIXED),
            ]
        }
        _ => return vec![],
    }
    let rules = Rules::parse(STAGE, rule).expect("it is sound");
    let (graph, images) = (Graph::parse(graph).expect("it is sound"), read_map(map));
    let block = Block::of(rule).expect("it is sound");
    let rule = rules.rule_of_match(graph, &images).expect("it is a match");
    if rule.width() == 0 {
        return vec![];
    }
    if number == 42 {
        return no_vertex(rule, vertex);
    }
    let from = if value_of(reply) == 1 { 0 } else { 6 };
    let least = rules.least_match(graph, 0).map(|(_, images)| images);
    let alike = rules.fixed().all(|one| one.source_count() == rule.source_count());
    let templates = block.source.iter().any(|one| one.kind >= TEMPLATE);
    vec![
        of_width(&ASKED[from..], rule),
        ("a vertex past the block's S", vertex >= block.source.len()),
        ("a match that is not the least", least != Some(images)),
        ("S is the same for every n", alike && !templates),
    ]
}

fn no_vertex(rule: Rule, vertex: usize) -> Vec<Class> {
    let count = rule.source_count();
    let is_input = vertex < count && rule.source(vertex).is_input_kind();
    let is_copy = is_input && rule.source_index(vertex) > 0;
    vec![
        ("42, a rule input that is a copy", is_copy),
        ("42, another rule input", is_input && !is_copy),
        ("42, past S and below 64", (count..MAX_FIXED).contains(&vertex)),
        ("42, 64 or more", vertex >= MAX_FIXED),
    ]
}
