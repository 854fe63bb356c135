//! What was wrong with refused rules, so that the comparison can show that
//! every kind of fault was met alone, several times and with other kinds.

use leafgraph_reference::reply::{number_of, place_of};
use leafgraph_reference::rule_faults::RuleFaults;

use crate::graph_fault_classes::only_part;
use crate::tally::Class;

/// Every class must occur. What stands behind "too" is a later kind of fault,
/// and classes without it have no other kind.
pub const CLASSES: [&str; 48] = [
    "30, the mark",
    "30, byte 3",
    "30, the version",
    "30, the output count",
    "30, a source output at or above S",
    "30, an unused source output",
    "30, an unused target output",
    "30, bytes 14 and 15",
    "30, the length",
    "30, several parts of the header",
    "30, a record too",
    "30, the order too",
    "30, the connection too",
    "30, an expression too",
    "31, one source vertex",
    "31, one target vertex",
    "31, several source vertices",
    "31, several target vertices",
    "31, source and target vertices",
    "31, the order too",
    "31, the connection too",
    "31, an expression too",
    "32, two vertices differ",
    "32, several vertices differ",
    "32, ends one vertex early",
    "32, ends several vertices early",
    "32, the connection too",
    "32, an expression too",
    "33, outputs alike",
    "33, an output's kind",
    "33, an output that is read",
    "33, outputs not connected",
    "33, a target output",
    "33, a rule input unnamed",
    "33, a target vertex unused",
    "33, several faults",
    "33, an expression too",
    "34, one node",
    "34, several nodes",
    "34, one source vertex",
    "34, one target vertex",
    "34, several source vertices",
    "34, several target vertices",
    "34, source and target vertices",
    "34, a node, and a use by a vertex of a lower number",
    "34, a node, and a use by a vertex of a higher number",
    "34, any as an operand",
    "34, any as an operand of several nodes",
];

/// The classes of the header's parts, in the order of the check. A wrong S, T or
/// A mostly goes with a wrong length.
const HEADER_PARTS: [Option<&str>; 12] = [
    Some("30, the mark"),
    Some("30, byte 3"),
    Some("30, the version"),
    None,
    None,
    Some("30, the output count"),
    None,
    Some("30, a source output at or above S"),
    Some("30, an unused source output"),
    Some("30, an unused target output"),
    Some("30, bytes 14 and 15"),
    Some("30, the length"),
];

/// The classes of outputs and connection, in the order of the check.
const CONNECTION_PARTS: [Option<&str>; 7] = [
    Some("33, outputs alike"),
    Some("33, an output's kind"),
    Some("33, an output that is read"),
    Some("33, outputs not connected"),
    Some("33, a target output"),
    Some("33, a rule input unnamed"),
    Some("33, a target vertex unused"),
];

/// The classes of a rule that was refused with this reply.
pub fn classes(rule: &[u8], reply: u64) -> Vec<Class> {
    let faults = RuleFaults::of(rule);
    match number_of(reply) {
        30 => header(&faults),
        31 => records(&faults),
        32 => order(&faults),
        33 => connection(&faults),
        34 => expressions(&faults, place_of(reply) as usize),
        _ => vec![],
    }
}

fn has_bad_order(faults: &RuleFaults) -> bool {
    !faults.order.is_empty()
}

fn has_bad_connection(faults: &RuleFaults) -> bool {
    !faults.connection.is_empty()
}

fn has_bad_expression(faults: &RuleFaults) -> bool {
    !(faults.nodes.is_empty() && faults.uses.is_empty())
}

/// Whether there is a fault of a kind behind the records.
fn has_later_kind(faults: &RuleFaults) -> bool {
    has_bad_order(faults) || has_bad_connection(faults) || has_bad_expression(faults)
}

fn header(faults: &RuleFaults) -> Vec<Class> {
    let record = !faults.records.is_empty();
    let alone = !record && !has_later_kind(faults);
    let mut classes = vec![
        ("30, several parts of the header", alone && faults.header.len() > 1),
        ("30, a record too", record),
        ("30, the order too", has_bad_order(faults)),
        ("30, the connection too", has_bad_connection(faults)),
        ("30, an expression too", has_bad_expression(faults)),
    ];
    classes.extend(only_part(&HEADER_PARTS, &faults.header).map(|class| (class, alone)));
    classes
}

/// How many of these vertices are in the source, and how many in the target.
fn sides(faults: &RuleFaults, vertices: &[usize]) -> (usize, usize) {
    let source = vertices.iter().filter(|&&vertex| vertex < faults.source_count).count();
    (source, vertices.len() - source)
}

fn records(faults: &RuleFaults) -> Vec<Class> {
    let (source, target) = sides(faults, &faults.records);
    let alone = !has_later_kind(faults);
    vec![
        ("31, one source vertex", alone && source == 1 && target == 0),
        ("31, one target vertex", alone && source == 0 && target == 1),
        ("31, several source vertices", alone && source > 1 && target == 0),
        ("31, several target vertices", alone && source == 0 && target > 1),
        ("31, source and target vertices", alone && source > 0 && target > 0),
        ("31, the order too", has_bad_order(faults)),
        ("31, the connection too", has_bad_connection(faults)),
        ("31, an expression too", has_bad_expression(faults)),
    ]
}

/// Two vertices that trade their places are the least that can differ.
fn order(faults: &RuleFaults) -> Vec<Class> {
    let (vertices, ends) = (faults.order.len(), faults.ends_early);
    let alone = !(has_bad_connection(faults) || has_bad_expression(faults));
    vec![
        ("32, two vertices differ", alone && !ends && vertices == 2),
        ("32, several vertices differ", alone && !ends && vertices > 2),
        ("32, ends one vertex early", alone && ends && vertices == 1),
        ("32, ends several vertices early", alone && ends && vertices > 1),
        ("32, the connection too", has_bad_connection(faults)),
        ("32, an expression too", has_bad_expression(faults)),
    ]
}

fn connection(faults: &RuleFaults) -> Vec<Class> {
    let alone = !has_bad_expression(faults);
    let mut classes = vec![
        ("33, several faults", alone && faults.connection.len() > 1),
        ("33, an expression too", has_bad_expression(faults)),
    ];
    classes.extend(only_part(&CONNECTION_PARTS, &faults.connection).map(|class| (class, alone)));
    classes
}

fn expressions(faults: &RuleFaults, place: usize) -> Vec<Class> {
    let (nodes, (source, target)) = (faults.nodes.len(), sides(faults, &faults.uses));
    let uses = |holds: fn(usize, usize) -> bool| {
        nodes > 0 && faults.uses.iter().any(|&vertex| holds(vertex, place))
    };
    let over_any = nodes > 0 && faults.over_any.contains(&place);
    vec![
        ("34, one node", nodes == 1 && source + target == 0),
        ("34, several nodes", nodes > 1 && source + target == 0),
        ("34, one source vertex", nodes == 0 && source == 1 && target == 0),
        ("34, one target vertex", nodes == 0 && source == 0 && target == 1),
        ("34, several source vertices", nodes == 0 && source > 1 && target == 0),
        ("34, several target vertices", nodes == 0 && source == 0 && target > 1),
        ("34, source and target vertices", nodes == 0 && source > 0 && target > 0),
        ("34, a node, and a use by a vertex of a lower number", uses(|vertex, node| vertex < node)),
        (
            "34, a node, and a use by a vertex of a higher number",
            uses(|vertex, node| vertex > node),
        ),
        ("34, any as an operand", over_any),
        ("34, any as an operand of several nodes", over_any && faults.over_any.len() > 1),
    ]
}
