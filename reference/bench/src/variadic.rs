//! Rows for variadic rules (request 8/13): the same fixed rule as version 1 and as version
//! 2, with one output and with two. They are timed once the second program's stage, and so
//! the library, has the request.

use std::hint::black_box;

use leafgraph_reference::blocks::{
    any_node, call, call_pattern, constant_node, pattern, relu, target_place, template, tuple,
    variable, wildcard, GraphParts, PatternParts, RuleParts, VariadicParts, Vertex,
};
use leafgraph_reference::operators::{CAST, GAIN, MEAN, TUPLE};
use leafgraph_reference::reply::DONE;
use leafgraph_reference::stage::Stage;
use leafgraph_reference::MAP_LENGTH;

use crate::cases::{Answer, Case, FindMatch, Program, Rewrite, SIZES};

const CONCAT: u8 = 8;
/// The fields of the Tuple that the fixed rule has.
const FIELDS: u8 = 3;
const NONE: u64 = 4;

/// A row by its graph, for the two versions, and the number of the rule's outputs.
type Rows = ([&'static str; 2], u64, fn(u16) -> GraphParts, usize);

const SEARCHES: [Rows; 4] = [
    (
        ["match: variadic, 1 output, as version 1", "match: variadic, 1 output, as version 2"],
        DONE,
        |slots| heads(slots, Last::Matches),
        1,
    ),
    (
        ["match: variadic, 1, none, as version 1", "match: variadic, 1, none, as version 2"],
        NONE,
        |slots| heads(slots, Last::IsAsOthers),
        1,
    ),
    (
        ["match: variadic, 2 outputs, as version 1", "match: variadic, 2 outputs, as version 2"],
        DONE,
        |slots| pairs_of_heads(slots, Last::Matches),
        2,
    ),
    (
        ["match: variadic, 2, none, as version 1", "match: variadic, 2, none, as version 2"],
        NONE,
        |slots| pairs_of_heads(slots, Last::IsAsOthers),
        2,
    ),
];

const REWRITINGS: [Rows; 2] = [
    (
        ["rewrite: variadic, 1 output, as version 1", "rewrite: variadic, 1 output, as version 2"],
        DONE,
        |slots| heads(slots, Last::Matches),
        1,
    ),
    (
        [
            "rewrite: variadic, 2 outputs, as version 1",
            "rewrite: variadic, 2 outputs, as version 2",
        ],
        DONE,
        |slots| pairs_of_heads(slots, Last::Matches),
        2,
    ),
];

/// All rows, with the second program at the stage that has the request.
pub fn variadics() -> Vec<Case> {
    let find: [FindMatch; 2] = [leafgraph_proved::find_match, |graph, rule, start, map| {
        Stage::Eight.find_match(graph, rule, start, map)
    }];
    let rewrite: [Rewrite; 2] = [leafgraph_proved::rewrite, |graph, rule, start, map| {
        Stage::Eight.rewrite(graph, rule, start, map)
    }];
    let searches = SEARCHES.into_iter().flat_map(of_all_sizes).map(|row| row.case(find, searching));
    let rewritings = REWRITINGS.into_iter().flat_map(of_all_sizes);
    searches.chain(rewritings.map(|row| row.case(rewrite, rewriting))).collect()
}

/// One row.
struct Row {
    name: &'static str,
    reply: u64,
    graph: GraphParts,
    rule: Vec<u8>,
}

fn of_all_sizes((names, reply, graph, outputs): Rows) -> Vec<Row> {
    let rules = [fixed_rule(FIELDS, outputs).block(), variadic_rule(outputs).block()];
    let rows = names.into_iter().zip(rules).flat_map(|(name, rule)| {
        SIZES.map(|slots| Row { name, reply, graph: graph(slots), rule: rule.clone() })
    });
    rows.collect()
}

impl Row {
    /// The map stands behind the graph in the bytes that are lent.
    fn case<F: 'static>(self, programs: [F; 2], call: fn(&F, Lent) -> u64) -> Case {
        let graph = self.graph.block();
        let map_length = Stage::Eight.map_length(&self.rule);
        let [proved, second] = programs.map(|program| -> Program {
            let (graph, rule) = (graph.clone(), self.rule.clone());
            Box::new(move |lent| {
                lent.clear();
                lent.extend_from_slice(black_box(&graph));
                lent.resize(graph.len() + map_length, 0);
                let (table, map) = lent.split_at_mut(graph.len());
                let reply = call(&program, Lent { table, rule: black_box(&rule), map });
                Answer { reply, map: [0; MAP_LENGTH] }
            })
        });
        let slots = Some(self.graph.slots.len());
        Case { name: self.name, slots, reply: self.reply, proved, second, plain: None }
    }
}

struct Lent<'a> {
    table: &'a mut [u8],
    rule: &'a [u8],
    map: &'a mut [u8],
}

/// The graph is copied here too, though a search only reads it: in both versions alike.
fn searching(find_match: &FindMatch, lent: Lent) -> u64 {
    find_match(lent.table, lent.rule, black_box(0), lent.map)
}

fn rewriting(rewrite: &Rewrite, lent: Lent) -> u64 {
    rewrite(lent.table, lent.rule, black_box(0), lent.map)
}

fn gain(input: u8) -> PatternParts {
    call_pattern(GAIN, &[input], &[0; 3])
}

/// What reads the source Tuple: concat, and with two outputs mean.
fn outputs_over(tuple: u8, count: usize) -> Vec<PatternParts> {
    let readers = [CONCAT, MEAN].map(|operator| call_pattern(operator, &[tuple], &[0]));
    readers[..count].to_vec()
}

/// The target behind the inputs' Tuple: concat, and gain over it, for all outputs.
fn behind(tuple: PatternParts) -> Vec<PatternParts> {
    let concat = call_pattern(CONCAT, &[target_place(0)], &[1]);
    vec![tuple, concat, call_pattern(GAIN, &[target_place(1)], &[1; 3])]
}

/// concat over a gain in each field becomes one gain behind the concat.
fn variadic_rule(outputs: usize) -> VariadicParts {
    let branch = vec![template(wildcard()), template(gain(0)), pattern(TUPLE, 0, &[1], &[])];
    let rule = RuleParts {
        source: [branch, outputs_over(2, outputs)].concat(),
        target: behind(pattern(TUPLE, 0, &[0], &[])),
        source_outputs: (3..).take(outputs).collect(),
        target_outputs: vec![target_place(2); outputs],
        nodes: vec![any_node(), constant_node(1)],
    };
    VariadicParts { rule, source_tuple: 2, target_tuple: Some(0) }
}

/// The same for so many fields, in version 1.
fn fixed_rule(fields: u8, outputs: usize) -> RuleParts {
    let branch = |field: u8| [wildcard(), gain(2 * field)];
    let mut source: Vec<PatternParts> = (0..fields).flat_map(branch).collect();
    let tuple = |first: u8| {
        let inputs: Vec<u8> = (0..fields).map(|field| 2 * field + first).collect();
        pattern(TUPLE, 0, &inputs, &[])
    };
    source.push(tuple(1));
    source.extend(outputs_over(2 * fields, outputs));
    RuleParts {
        source,
        target: behind(tuple(0)),
        source_outputs: (2 * fields + 1..).take(outputs).collect(),
        target_outputs: vec![target_place(2); outputs],
        nodes: vec![any_node(), constant_node(1)],
    }
}

#[derive(Clone, Copy, PartialEq, Eq)]
enum Last {
    Matches,
    IsAsOthers,
}

/// As many heads over the same Variables as there is place for, made one after the other
/// from the number of their first slot; the rest are casts.
fn of_heads(slots: u16, last: Last, head: fn(u16, bool) -> Vec<Vertex>) -> GraphParts {
    let mut table = vec![variable(); FIELDS.into()];
    let length = head(0, true).len();
    let count = (usize::from(slots) - table.len()) / length;
    for number in 1..=count {
        let matches = number == count && last == Last::Matches;
        table.extend(head(table.len() as u16, matches));
    }
    table.resize(slots.into(), call(CAST, &[0], &[1]));
    GraphParts::new(table, &[0])
}

/// A gain over each Variable, but for the last one a relu where the head does not match,
/// and the Tuple of them.
fn fields(first: u16, matches: bool) -> Vec<Vertex> {
    let fields = u16::from(FIELDS);
    let gain = |input: u16| call(GAIN, &[input], &[1, 1, 1]);
    let mut table: Vec<Vertex> = (0..fields - 1).map(gain).collect();
    table.push(if matches { gain(fields - 1) } else { relu(fields - 1) });
    table.push(tuple(&(first..first + fields).collect::<Vec<u16>>()));
    table
}

/// For one output: a head fails at its last field.
fn heads(slots: u16, last: Last) -> GraphParts {
    of_heads(slots, last, |first, matches| {
        let mut head = fields(first, matches);
        head.push(call(CONCAT, &[first + u16::from(FIELDS)], &[1]));
        head
    })
}

/// For two outputs: every concat is a first image that passes, and every mean but the last
/// reads another vertex than its Tuple.
fn pairs_of_heads(slots: u16, last: Last) -> GraphParts {
    of_heads(slots, last, |first, matches| {
        let (mut head, tuple) = (fields(first, true), first + u16::from(FIELDS));
        head.push(call(CONCAT, &[tuple], &[1]));
        head.extend(match matches {
            true => [relu(0), call(MEAN, &[tuple], &[0])],
            false => [relu(tuple), call(MEAN, &[0], &[0])],
        });
        head
    })
}

#[cfg(test)]
mod tests {
    use super::*;

    /// The rows are about the answers that they tell, and both versions leave the same.
    #[test]
    fn rows_are_as_they_say() {
        let cases = variadics();
        let left: Vec<Vec<u8>> = cases
            .iter()
            .map(|case| {
                let mut lent = vec![];
                let answer = (case.second)(&mut lent);
                assert_eq!(answer.reply, case.reply, "{}, {:?}", case.name, case.slots);
                let graph = 24 + 48 * case.slots.expect("a graph");
                lent.truncate(graph + MAP_LENGTH);
                lent
            })
            .collect();
        for rows in left.chunks_exact(2 * SIZES.len()) {
            assert_eq!(rows[..SIZES.len()], rows[SIZES.len()..]);
        }
    }
}
