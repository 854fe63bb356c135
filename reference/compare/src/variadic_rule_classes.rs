//! What was wrong with refused variadic rules (request 8/13), and what sound ones were like.

use leafgraph_reference::reply::{number_of, place_of};
use leafgraph_reference::rule::{ANY, INDEX, MAX_FIXED, SUM, TARGET_BASE, TEMPLATE};
use leafgraph_reference::rule_faults::RuleFaults;
use leafgraph_reference::stage::Stage;

use crate::tally::Class;
use crate::variadic_block::{Block, Record, Use};
use crate::variadic_shape_classes::{shapes, SHAPES};

/// What a refused rule was refused for.
pub const FAULTS: [&str; 34] = [
    "30, a later kind too",
    "31, a later kind too",
    "32, a later kind too",
    "33, an expression too",
    "31, several vertices",
    "34, several nodes",
    "34, several vertices",
    "30, byte 14 is S",
    "30, byte 14 is 255",
    "30, byte 15 is T",
    "30, another version",
    "31, the source Tuple is another kind",
    "31, the source Tuple is marked",
    "31, the source Tuple has two inputs",
    "31, the target Tuple is another kind",
    "31, the target Tuple is marked",
    "31, the target Tuple has two inputs",
    "31, an unmarked source vertex names a template",
    "31, an unmarked target vertex names a template",
    "31, a kind past the last template",
    "31, a mark in version 1",
    "33, a source output is a template",
    "33, a target output is a template",
    "33, a target output is a template rule input",
    "34, a sum of any",
    "34, a sum with b or a number",
    "34, an index with a field",
    "34, a form past 9",
    "34, index without one in the source",
    "34, index without one in the target",
    "34, a template without index in the source",
    "34, a template without index in the target",
    "34, an access that is not below, under a sum",
    "34, an index or a sum in version 1",
];

/// What an expansion was refused for.
pub const EXPANSIONS: [&str; 6] = [
    "35, n of 2, in a template",
    "35, n of 2, in a shared vertex",
    "35, n of 5, the source is too large",
    "35, n of 6, the source is too large",
    "35, n of 5, the target is too large",
    "35, n of 6, the target is too large",
];

pub fn all_classes() -> Vec<&'static str> {
    [&SHAPES[..], &FAULTS, &EXPANSIONS].concat()
}

/// The classes of a rule that the check answers so.
pub fn classes(bytes: &[u8], reply: u64) -> Vec<Class> {
    let version = bytes.get(4..6);
    let Some(block) = Block::of(bytes) else {
        return vec![("30, another version", false)];
    };
    let is_first = version == Some(&[1, 0]);
    if version != Some(&[2, 0]) && !is_first {
        return vec![("30, another version", number_of(reply) == 30)];
    }
    let mut classes = match number_of(reply) {
        0 if !is_first => shapes(bytes, &block),
        30 if !is_first => header_faults(&block),
        31 => record_faults(&block, place_of(reply) as usize, is_first),
        33 if !is_first => output_faults(&block),
        34 => expression_faults(bytes, &block, place_of(reply) as usize, is_first),
        35 => expansion_faults(&block, place_of(reply) as usize),
        _ => vec![],
    };
    if number_of(reply) != 0 && !is_first {
        classes.extend(several_faults(&RuleFaults::at(Stage::Eight, bytes), number_of(reply)));
    }
    classes
}

/// What else is wrong with a rule that is refused with this number.
fn several_faults(faults: &RuleFaults, number: u8) -> Vec<Class> {
    let expression = !faults.nodes.is_empty() || !faults.uses.is_empty();
    let connection = !faults.connection.is_empty() || expression;
    let order = !faults.order.is_empty() || connection;
    let record = !faults.records.is_empty() || order;
    vec![
        ("30, a later kind too", number == 30 && record),
        ("31, a later kind too", number == 31 && order),
        ("32, a later kind too", number == 32 && connection),
        ("33, an expression too", number == 33 && expression),
        ("31, several vertices", number == 31 && faults.records.len() > 1),
        ("34, several nodes", number == 34 && faults.nodes.len() > 1),
        ("34, several vertices", number == 34 && faults.nodes.is_empty() && faults.uses.len() > 1),
    ]
}

fn header_faults(block: &Block) -> Vec<Class> {
    vec![
        ("30, byte 14 is S", block.source_tuple == block.source.len()),
        ("30, byte 14 is 255", block.source_tuple == 255),
        ("30, byte 15 is T", block.target_tuple == block.target.len()),
    ]
}

fn record_faults(block: &Block, place: usize, is_first: bool) -> Vec<Class> {
    let target = place.checked_sub(block.source.len());
    let one = target.map_or_else(|| &block.source[place], |vertex| &block.target[vertex]);
    if is_first {
        return vec![("31, a mark in version 1", (TEMPLATE..TEMPLATE + 6).contains(&one.kind))];
    }
    let is_source_tuple = target.is_none() && place == block.source_tuple;
    let is_target_tuple = target == Some(block.target_tuple);
    let (other, wide) = (one.kind % TEMPLATE != 4, one.inputs.len() == 2);
    let marked = one.kind == TEMPLATE + 4;
    let is_plain = !one.is_template() && !is_source_tuple && !is_target_tuple;
    let names_lower =
        |&input: &u8| usize::from(input) < place && block.source[usize::from(input)].is_template();
    vec![
        ("31, the source Tuple is another kind", is_source_tuple && other),
        ("31, the source Tuple is marked", is_source_tuple && marked),
        ("31, the source Tuple has two inputs", is_source_tuple && wide && one.kind == 4),
        ("31, the target Tuple is another kind", is_target_tuple && other),
        ("31, the target Tuple is marked", is_target_tuple && marked),
        ("31, the target Tuple has two inputs", is_target_tuple && wide && one.kind == 4),
        (
            "31, an unmarked source vertex names a template",
            is_plain && target.is_none() && one.inputs.iter().any(names_lower),
        ),
        (
            "31, an unmarked target vertex names a template",
            is_plain && target.is_some() && one.inputs.iter().any(|&one| block.names_template(one)),
        ),
        ("31, a kind past the last template", one.kind > TEMPLATE + 5),
    ]
}

fn output_faults(block: &Block) -> Vec<Class> {
    let source = |&output: &u8| block.source[usize::from(output)].is_template();
    let target = |own: bool| {
        let mut outputs = block.target_outputs.iter();
        outputs.any(|&place| block.names_template(place) && (place >= TARGET_BASE) == own)
    };
    vec![
        ("33, a source output is a template", block.source_outputs.iter().any(source)),
        ("33, a target output is a template", target(true)),
        ("33, a target output is a template rule input", target(false)),
    ]
}

/// Of a node where there is a bad one, else of a vertex's use.
fn expression_faults(bytes: &[u8], block: &Block, place: usize, is_first: bool) -> Vec<Class> {
    let faults = RuleFaults::at(Stage::Eight, bytes);
    if !faults.nodes.is_empty() {
        return node_faults(block, place, is_first);
    }
    let target = place.checked_sub(block.source.len());
    let one = target.map_or_else(|| &block.source[place], |vertex| &block.target[vertex]);
    if is_first || one.attributes.iter().any(|&node| usize::from(node) >= block.nodes.len()) {
        return vec![];
    }
    let uses = block.uses(one);
    let bare =
        |form: u8| uses.iter().any(|&use_| use_.node.form == form && block.needs_index(use_));
    let later =
        |use_: &Use| use_.node.form == 2 && usize::from(use_.node.a) >= place && use_.sums > 0;
    let (index, access) = (bare(INDEX), bare(2));
    let is_bare = !one.is_template();
    vec![
        ("34, index without one in the source", is_bare && index && target.is_none()),
        ("34, index without one in the target", is_bare && index && target.is_some()),
        ("34, a template without index in the source", is_bare && access && target.is_none()),
        ("34, a template without index in the target", is_bare && access && target.is_some()),
        (
            "34, an access that is not below, under a sum",
            target.is_none() && uses.iter().any(later),
        ),
    ]
}

fn node_faults(block: &Block, place: usize, is_first: bool) -> Vec<Class> {
    let node = block.nodes[place];
    let (is_sum, is_index) = (node.form == SUM, node.form == INDEX);
    if is_first {
        return vec![("34, an index or a sum in version 1", is_sum || is_index)];
    }
    let term = block.nodes.get(usize::from(node.a)).filter(|_| usize::from(node.a) < place);
    let has_field = node.b != 0 || node.number != 0;
    vec![
        ("34, a sum of any", is_sum && term.is_some_and(|term| term.form == ANY)),
        ("34, a sum with b or a number", is_sum && has_field),
        ("34, an index with a field", is_index && (has_field || node.a != 0)),
        ("34, a form past 9", node.form > SUM),
    ]
}

fn expansion_faults(block: &Block, place: usize) -> Vec<Class> {
    let copies = |side: &[Record]| side.iter().filter(|one| one.is_template()).count();
    let size = |side: &[Record]| side.len() + copies(side) * (place - 1);
    let [source, target] = [&block.source, &block.target].map(|side| size(side) > MAX_FIXED);
    let summed = |one: &Record| {
        block.uses(one).into_iter().any(|use_| use_.sums > 0 && block.accesses_template(use_))
    };
    let branch = &block.source[..block.source_tuple];
    let in_branch =
        |marked: bool| branch.iter().any(|one| one.is_template() == marked && summed(one));
    vec![
        ("35, n of 2, in a template", place == 2 && in_branch(true)),
        ("35, n of 2, in a shared vertex", place == 2 && in_branch(false)),
        ("35, n of 5, the source is too large", place == 5 && source),
        ("35, n of 6, the source is too large", place == 6 && source && !target),
        ("35, n of 5, the target is too large", place == 5 && target && !source),
        ("35, n of 6, the target is too large", place == 6 && target && !source),
    ]
}
