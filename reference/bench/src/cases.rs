//! What is timed: searches that have to look at everything or, to compare with,
//! at nothing, rewritings at the end of such a search, sweeps and squeezes that
//! change everything or nothing, imports, questions whether a stage is read
//! elsewhere, listings written and read, and the checks.

use std::hint::black_box;

use leafgraph_reference::blocks::{
    chain, dropped_constant, p7_rule, reversed_chain, rr, GraphParts, RuleParts,
};
use leafgraph_reference::graph::UNUSED;
use leafgraph_reference::listing::listing_of;
use leafgraph_reference::matching::write_map;
use leafgraph_reference::reply::{refuse_at, reply_of, DONE, GRAPH_CYCLE, YES};
use leafgraph_reference::rule::{MAX_FIXED, MAX_VERTICES};
use leafgraph_reference::MAP_LENGTH;

use crate::graphs::{
    chain_with_gaps, crowded, dead_chain, double_relus, first_double_relu, gain_and_mean,
    gains_and_means, hanging_from_cycle, in_a_chain, leading_to_cycle, most_places, nested_tuples,
    pairs, shared_const, side_by_side, two_relus, variables,
};
use crate::plain;

/// What a call leaves; only searches and rewritings write the map, and questions are
/// given one.
pub struct Answer {
    pub reply: u64,
    pub map: [u8; MAP_LENGTH],
}

/// A call. The bytes lent to it are what a rewriting, a sweep, a squeeze or an import
/// writes, anew from the same graph each time, or what a listing is written to or read
/// into; the other calls do not look at them.
pub type Program = Box<dyn Fn(&mut Vec<u8>) -> Answer>;

pub struct Case {
    pub name: &'static str,
    /// The graph's slots, where there is a graph.
    pub slots: Option<usize>,
    /// The reply that both programs give.
    pub reply: u64,
    pub proved: Program,
    pub second: Program,
    /// A plain program that does the same without judging what it is given, where there
    /// is one.
    pub plain: Option<Program>,
}

impl Case {
    /// In the order of a row's times.
    pub fn programs(&self) -> impl Iterator<Item = &Program> {
        [&self.proved, &self.second].into_iter().chain(&self.plain)
    }
}

pub const SIZES: [u16; 6] = [16, 32, 64, 128, 256, 512];
const FOUND: u64 = DONE;
const NONE: u64 = 4;
const NOT_A_MATCH: u64 = 41;
const NO_SUCH_VERTEX: u64 = 42;

/// The graph of a row by its number of slots, and the row's rule.
type Graph = fn(u16) -> GraphParts;
type Rule = fn() -> RuleParts;
/// The reply to a graph of so many slots.
type Reply = fn(u16) -> u64;
/// Where a search of a graph of so many slots starts.
type Start = fn(u16) -> usize;

const CHECKS: [(&str, Graph, Reply); 4] = [
    ("check graph: a chain", chain, |_| DONE),
    ("check graph: one slot in all places", crowded, |_| DONE),
    ("check graph: hangs from a cycle", hanging_from_cycle, cycle_in_last_two),
    ("check graph: leads to a cycle", leading_to_cycle, cycle_in_last_two),
];

/// The refusal of a graph in which only the last two slots are on a cycle.
fn cycle_in_last_two(slots: u16) -> u64 {
    reply_of(refuse_at(GRAPH_CYCLE, Some(usize::from(slots) - 2)))
}

const SEARCHES: [(&str, u64, Graph, Rule); 9] = [
    ("match: 1 output, first slots", FOUND, |slots| first_double_relu(slots, true), rr),
    (
        "match: 1 output, first slots, read outside",
        NONE,
        |slots| first_double_relu(slots, false),
        rr,
    ),
    ("match: 1 output, last slot", FOUND, |slots| double_relus(slots, true), rr),
    ("match: 1 output, none", NONE, |slots| double_relus(slots, false), rr),
    ("match: 2 outputs, last pair", FOUND, |slots| pairs(slots, true), p7_rule),
    ("match: 2 outputs, none", NONE, |slots| pairs(slots, false), p7_rule),
    ("match: attributes, last pair", FOUND, |slots| gains_and_means(slots, true), gain_and_mean),
    ("match: attributes, none", NONE, |slots| gains_and_means(slots, false), gain_and_mean),
    ("match: shared Const, last slot", FOUND, shared_const, const_dropped),
];

/// Rows that tell what the look at the outputs' kind, operator and counts takes,
/// with so many slots that pass it. None has a match. With no slot to look at, a
/// call does only what comes before the first look.
const LOOKS: [(&str, Graph, Rule, Start); 8] = [
    ("match: look, 1 output, no slot to look at", |slots| side_by_side(slots, 0), rr, at_end),
    ("match: look, 1 output, none passes", |slots| side_by_side(slots, 0), rr, at_0),
    ("match: look, 1 output, one in ten", |slots| side_by_side(slots, 10), rr, at_0),
    ("match: look, 1 output, all pass", |slots| side_by_side(slots, 1), rr, at_0),
    ("match: look, 2 outputs, no slot to look at", |slots| in_a_chain(slots, 0), two_relus, at_end),
    ("match: look, 2 outputs, none passes", |slots| in_a_chain(slots, 0), two_relus, at_0),
    ("match: look, 2 outputs, one in ten", |slots| in_a_chain(slots, 10), two_relus, at_0),
    ("match: look, 2 outputs, all pass", |slots| in_a_chain(slots, 1), two_relus, at_0),
];

fn at_0(_: u16) -> usize {
    0
}

/// No slot is at or above this start.
fn at_end(slots: u16) -> usize {
    slots.into()
}

const REWRITINGS: [(&str, u64, Graph, Rule, Course); 4] = [
    ("rewrite: 1 output, last slot", FOUND, |slots| double_relus(slots, true), rr, once),
    ("rewrite: 2 outputs, last pair", FOUND, |slots| pairs(slots, true), p7_rule, once),
    ("rewrite: shared Const, last slot", FOUND, shared_const, const_dropped, once),
    ("rewrite: to the end", NONE, chain, rr, to_the_end),
];

/// A call that changes a graph in place: a sweep, a squeeze or an import, on a graph
/// and a list. Only a squeeze takes the list.
type InPlace = fn(&mut [u8], &mut [u8]) -> u64;

/// Each of them in the library and in the second program.
const SWEEP: [InPlace; 2] =
    [|graph, _| leafgraph_proved::sweep(graph), |graph, _| leafgraph_reference::sweep(graph)];
const SQUEEZE: [InPlace; 2] = [leafgraph_proved::squeeze, leafgraph_reference::squeeze];

const CLEANUPS: [(&str, Graph, [InPlace; 2]); 7] = [
    ("sweep: a dead chain", dead_chain, SWEEP),
    ("sweep: all live", chain, SWEEP),
    ("sweep: all live, reversed", reversed_chain, SWEEP),
    ("sweep: every second slot Empty", chain_with_gaps, SWEEP),
    ("squeeze: a dead chain", dead_chain, SQUEEZE),
    ("squeeze: all live", chain, SQUEEZE),
    ("squeeze: every second slot Empty", chain_with_gaps, SQUEEZE),
];

/// Of either program; an import takes no list.
const IMPORT: [InPlace; 2] =
    [|graph, _| leafgraph_proved::import(graph), |graph, _| leafgraph_reference::import(graph)];

const IMPORTS: [(&str, Graph); 3] = [
    ("import: a chain", chain),
    ("import: a chain, reversed", reversed_chain),
    ("import: one slot in all places", crowded),
];

/// The images in a graph of so many slots, and a vertex to ask about.
type Images = fn(u16) -> Vec<u16>;
type Asked = (Images, usize);

/// The first three have the same blocks: the second does all that the first does but
/// to answer, and the third has a map that is refused at the first output's image. So
/// they tell what the answer takes, and what the test of the map takes. The last two do
/// so for the answer alone, with a rule that has as many places to count as a rule can.
const QUESTIONS: [(&str, u64, Graph, Rule, Asked); 6] = [
    ("read elsewhere: answered", YES, chain, rr, (last_of_chain, 2)),
    ("read elsewhere: no such vertex", NO_SUCH_VERTEX, chain, rr, (last_of_chain, 3)),
    ("read elsewhere: no match", NOT_A_MATCH, chain, rr, (past_chain, 2)),
    ("read elsewhere: 2 outputs", YES, |slots| pairs(slots, true), p7_rule, (last_pair, 1)),
    ("read elsewhere: most places", DONE, nested_tuples, most_places, (first_slots, 1)),
    (
        "read elsewhere: most places, no such vertex",
        NO_SUCH_VERTEX,
        nested_tuples,
        most_places,
        (first_slots, 16),
    ),
];

/// A call with bytes that it reads and bytes that it writes.
type ReadAndWrite = fn(&[u8], &mut [u8]) -> u64;

/// Of the library, of the second program and of the plain one.
const WRITE_LISTING: [ReadAndWrite; 3] =
    [leafgraph_proved::write_listing, leafgraph_reference::write_listing, plain::write_listing];
const READ_LISTING: [ReadAndWrite; 3] =
    [leafgraph_proved::read_listing, leafgraph_reference::read_listing, plain::read_listing];

/// Lines with one short number beside the slot's, and lines as long as they come.
/// Each is written into a text that has room for any listing, and into one with no more
/// room than this listing takes, and read.
const LISTINGS: [([&str; 3], Graph); 2] = [
    (
        ["write listing: a chain", "write listing: a chain, just room", "read listing: a chain"],
        chain,
    ),
    (
        [
            "write listing: all Variables",
            "write listing: all Variables, just room",
            "read listing: all Variables",
        ],
        variables,
    ),
];

/// No listing has more bytes.
const LISTING_ROOM: usize = 65535;

/// RR's last match in a chain.
fn last_of_chain(slots: u16) -> Vec<u16> {
    vec![slots - 3, slots - 2, slots - 1]
}

/// The same but for the output, which names no slot.
fn past_chain(slots: u16) -> Vec<u16> {
    vec![slots - 3, slots - 2, slots]
}

/// As many as a rule can have, in order.
fn first_slots(_: u16) -> Vec<u16> {
    (0..MAX_VERTICES as u16).collect()
}

/// The one match of P7's rule in `pairs`.
fn last_pair(slots: u16) -> Vec<u16> {
    vec![1, slots - 1, 0, slots - 2]
}

/// add(x, a Const) becomes relu(x).
fn const_dropped() -> RuleParts {
    dropped_constant(1)
}

/// All searches start at 0, but for those with no slot to look at.
pub fn searches() -> Vec<Case> {
    let of_all_sizes = |(name, reply, graph, rule): (_, _, Graph, Rule)| {
        SIZES.map(|slots| search(name, reply, graph(slots), rule(), 0))
    };
    let looks_of_all_sizes = |(name, graph, rule, start): (_, Graph, Rule, Start)| {
        SIZES.map(|slots| search(name, NONE, graph(slots), rule(), start(slots)))
    };
    let looks = LOOKS.into_iter().flat_map(looks_of_all_sizes);
    SEARCHES.into_iter().flat_map(of_all_sizes).chain(looks).collect()
}

/// All rewritings start at 0. Each timed call copies the graph first, in both
/// programs alike.
pub fn rewritings() -> Vec<Case> {
    let of_all_sizes = |(name, reply, graph, rule, course): (_, _, Graph, Rule, _)| {
        SIZES.map(|slots| rewriting(name, reply, graph(slots), rule(), course))
    };
    REWRITINGS.into_iter().flat_map(of_all_sizes).collect()
}

/// Each timed call copies the graph first, as in the rewritings.
pub fn cleanups() -> Vec<Case> {
    let of_all_sizes = |(name, graph, programs): (_, Graph, _)| {
        SIZES.map(|slots| in_place(name, graph(slots).block(), slots.into(), programs))
    };
    CLEANUPS.into_iter().flat_map(of_all_sizes).collect()
}

/// Blocks of version 1. Each timed call copies the block first, as in the rewritings.
pub fn imports() -> Vec<Case> {
    let of_all_sizes = |(name, graph): (_, Graph)| {
        SIZES.map(|slots| in_place(name, graph(slots).version_1_block(), slots.into(), IMPORT))
    };
    IMPORTS.into_iter().flat_map(of_all_sizes).collect()
}

pub fn questions() -> Vec<Case> {
    let of_all_sizes =
        |(name, reply, graph, rule, (images, vertex)): (_, _, Graph, Rule, Asked)| {
            SIZES.map(|slots| question(name, reply, graph(slots), rule(), (images(slots), vertex)))
        };
    QUESTIONS.into_iter().flat_map(of_all_sizes).collect()
}

/// Each timed call is lent the bytes that the last one left.
pub fn listings() -> Vec<Case> {
    let of_all_sizes = |([write, write_just, read], graph): ([&'static str; 3], Graph)| {
        let written = |name, room: fn(usize) -> usize| {
            SIZES.map(|slots| {
                let (block, text) = block_and_listing(graph(slots));
                let reply = DONE | (text.len() as u64) << 40;
                read_and_write(name, reply, slots, (block, room(text.len())), WRITE_LISTING)
            })
        };
        let read = SIZES.map(|slots| {
            let (block, text) = block_and_listing(graph(slots));
            read_and_write(read, DONE, slots, (text, block.len()), READ_LISTING)
        });
        let any_room = written(write, |_| LISTING_ROOM);
        let just_room = written(write_just, |length| length);
        any_room.into_iter().chain(just_room).chain(read).collect::<Vec<Case>>()
    };
    LISTINGS.into_iter().flat_map(of_all_sizes).collect()
}

fn block_and_listing(graph: GraphParts) -> (Vec<u8>, Vec<u8>) {
    (graph.block(), listing_of(&graph).into_bytes())
}

/// These bytes are read, and so many written.
fn read_and_write(
    name: &'static str,
    reply: u64,
    slots: u16,
    (bytes, room): (Vec<u8>, usize),
    programs: [ReadAndWrite; 3],
) -> Case {
    let [proved, second, plain] = programs.map(|call| -> Program {
        let bytes = bytes.clone();
        Box::new(move |lent| {
            lent.resize(room, 0);
            Answer { reply: call(black_box(&bytes), lent), map: [0; MAP_LENGTH] }
        })
    });
    Case { name, slots: Some(slots.into()), reply, proved, second, plain: Some(plain) }
}

pub fn checks() -> Vec<Case> {
    let of_all_sizes = |(name, graph, reply): (_, Graph, Reply)| {
        SIZES.map(|slots| check_graph(name, slots, graph(slots), reply(slots)))
    };
    let mut cases: Vec<Case> = CHECKS.into_iter().flat_map(of_all_sizes).collect();
    let block = rr().block();
    cases.push(Case {
        name: "check rule: RR",
        slots: None,
        reply: DONE,
        proved: check(leafgraph_proved::check_rule, &block),
        second: check(leafgraph_reference::check_rule, &block),
        plain: None,
    });
    cases
}

pub type FindMatch = fn(&[u8], &[u8], usize, &mut [u8]) -> u64;

fn search(
    name: &'static str,
    reply: u64,
    graph: GraphParts,
    rule: RuleParts,
    start: usize,
) -> Case {
    let program = |find_match: FindMatch| -> Program {
        let (graph, rule) = (graph.block(), rule.block());
        Box::new(move |_| {
            let mut map = [0; MAP_LENGTH];
            let reply = find_match(black_box(&graph), black_box(&rule), black_box(start), &mut map);
            Answer { reply, map }
        })
    };
    Case {
        name,
        slots: Some(graph.slots.len()),
        reply,
        proved: program(leafgraph_proved::find_match),
        second: program(leafgraph_reference::find_match),
        plain: None,
    }
}

type IsReadElsewhere = fn(&[u8], &[u8], &[u8], usize) -> u64;

fn question(
    name: &'static str,
    reply: u64,
    graph: GraphParts,
    rule: RuleParts,
    (mut images, vertex): (Vec<u16>, usize),
) -> Case {
    images.resize(MAX_FIXED, UNUSED);
    let mut map = [0; MAP_LENGTH];
    write_map(&mut map, &images.try_into().expect("as many as a map has"));
    let program = |is_read_elsewhere: IsReadElsewhere| -> Program {
        let (graph, rule) = (graph.block(), rule.block());
        Box::new(move |_| {
            let (graph, rule) = (black_box(&graph), black_box(&rule));
            let reply = is_read_elsewhere(graph, rule, black_box(&map), black_box(vertex));
            Answer { reply, map }
        })
    };
    Case {
        name,
        slots: Some(graph.slots.len()),
        reply,
        proved: program(leafgraph_proved::is_read_elsewhere),
        second: program(leafgraph_reference::is_read_elsewhere),
        plain: None,
    }
}

pub type Rewrite = fn(&mut [u8], &[u8], usize, &mut [u8]) -> u64;

/// How a table is rewritten.
type Course = fn(Rewrite, &mut [u8], &[u8], &mut [u8]) -> u64;

fn once(rewrite: Rewrite, table: &mut [u8], rule: &[u8], map: &mut [u8]) -> u64 {
    rewrite(table, black_box(rule), black_box(0), map)
}

/// Until a call is not accepted.
fn to_the_end(rewrite: Rewrite, table: &mut [u8], rule: &[u8], map: &mut [u8]) -> u64 {
    loop {
        let reply = once(rewrite, table, rule, map);
        if reply != FOUND {
            return reply;
        }
    }
}

fn rewriting(
    name: &'static str,
    reply: u64,
    graph: GraphParts,
    rule: RuleParts,
    course: Course,
) -> Case {
    let program = |rewrite: Rewrite| -> Program {
        let (graph, rule) = (graph.block(), rule.block());
        Box::new(move |table| {
            table.clear();
            table.extend_from_slice(black_box(&graph));
            let mut map = [0; MAP_LENGTH];
            let reply = course(rewrite, table, &rule, &mut map);
            Answer { reply, map }
        })
    };
    Case {
        name,
        slots: Some(graph.slots.len()),
        reply,
        proved: program(leafgraph_proved::rewrite),
        second: program(leafgraph_reference::rewrite),
        plain: None,
    }
}

/// The list stands behind the graph, so that both are compared.
fn in_place(name: &'static str, graph: Vec<u8>, slots: usize, programs: [InPlace; 2]) -> Case {
    let [proved, second] = programs.map(|call| -> Program {
        let graph = graph.clone();
        Box::new(move |lent| {
            lent.clear();
            lent.extend_from_slice(black_box(&graph));
            lent.resize(graph.len() + 2 * slots, 0);
            let (table, list) = lent.split_at_mut(graph.len());
            Answer { reply: call(table, list), map: [0; MAP_LENGTH] }
        })
    });
    Case { name, slots: Some(slots), reply: DONE, proved, second, plain: None }
}

fn check_graph(name: &'static str, slots: u16, graph: GraphParts, reply: u64) -> Case {
    let block = graph.block();
    Case {
        name,
        slots: Some(slots.into()),
        reply,
        proved: check(leafgraph_proved::check_graph, &block),
        second: check(leafgraph_reference::check_graph, &block),
        plain: None,
    }
}

fn check(check: fn(&[u8]) -> u64, block: &[u8]) -> Program {
    let block = block.to_vec();
    Box::new(move |_| Answer { reply: check(black_box(&block)), map: [0; MAP_LENGTH] })
}
