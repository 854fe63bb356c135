//! The comparison notices wrong programs: each one here is the proved library
//! with one thing spoilt.

use leafgraph_fuzz::comparison::compare;
use leafgraph_fuzz::input::{Control, Input, MAP};
use leafgraph_fuzz::library::{Library, Operation, PROVED, SECOND};
use leafgraph_fuzz::repair;
use leafgraph_fuzz::tally::Tally;
use leafgraph_reference::blocks::{
    constant_sum, dropped_constant, e1, rr, variable, GraphParts, RuleParts,
};
use leafgraph_reference::counts::write_true_counts;
use leafgraph_reference::generate::{sound_graph, sound_rule};
use leafgraph_reference::graph::Version;
use leafgraph_reference::random::Random;

fn input(graph: &GraphParts, rule: &RuleParts, start: u64) -> Vec<u8> {
    let control = Control { repairs: MAP, start, ..Control::default() };
    control.input_bytes(&graph.block(), &rule.block())
}

/// RR on E1, from this start.
fn p1(start: u64) -> Vec<u8> {
    input(&e1(), &rr(), start)
}

/// A rule with a Const and so many target vertices, on a graph without room
/// whose Const, slot 0, is read by the match alone.
fn private_constant(targets: u8) -> Vec<u8> {
    input(&constant_sum(variable(), &[], &[2]), &dropped_constant(targets), 0)
}

/// The same, and a second graph output names the Const.
fn constant_as_output(targets: u8) -> Vec<u8> {
    input(&constant_sum(variable(), &[], &[2, 0]), &dropped_constant(targets), 0)
}

/// The operation in which the difference is seen and the first thing said.
fn difference(library: &Library, bytes: &[u8]) -> (Operation, String) {
    let difference = compare(library, bytes, &mut Tally::new()).expect_err("a wrong program");
    (difference.operation, difference.faults[0].clone())
}

#[test]
fn right_programs_pass() {
    for library in [PROVED, SECOND] {
        let mut tally = Tally::new();
        for start in 0..7 {
            compare(&library, &p1(start), &mut tally).expect("no difference");
        }
        // In each version ten operations, and four calls on what they leave; in
        // version 2, from the five starts that find a match, four questions about it.
        assert_eq!(tally.calls(), 7 * 2 * 14 + 5 * 4);
    }
}

#[test]
fn another_reply_is_noticed_in_any_bit() {
    let check_rule = |rule: &[u8]| (PROVED.check_rule)(rule) | 1 << 63;
    let (operation, fault) = difference(&Library { check_rule, ..PROVED }, &p1(0));
    assert_eq!(operation, Operation::CheckRule);
    assert_eq!(fault, "the library replies 0x8000000000000000, the second program 0x0");
}

#[test]
fn another_map_is_noticed() {
    let find_match = |graph: &[u8], rule: &[u8], start: usize, map: &mut [u8]| {
        let reply = (PROVED.find_match)(graph, rule, start, map);
        map[31] = 0;
        reply
    };
    let (operation, fault) = difference(&Library { find_match, ..PROVED }, &p1(0));
    assert_eq!(operation, Operation::FindMatch);
    assert!(fault.starts_with("map after, 1 bytes differ, the first at 31"), "{fault}");
}

#[test]
fn another_graph_is_noticed() {
    let rewrite = |graph: &mut [u8], rule: &[u8], start: usize, map: &mut [u8]| {
        let reply = (PROVED.rewrite)(graph, rule, start, map);
        graph[100] ^= 4;
        reply
    };
    let library = Library { rewrite, ..PROVED };
    let (operation, fault) = difference(&library, &p1(0));
    assert_eq!(operation, Operation::Rewrite);
    assert!(fault.starts_with("graph after, 1 bytes differ, the first at 100"), "{fault}");
    let told = compare(&library, &p1(5), &mut Tally::new()).expect_err("a wrong program");
    assert!(told.to_string().contains("refuses, and has written the graph"), "{told}");
}

/// The program before request 1/13.
#[test]
fn a_shared_constant_refused_is_noticed() {
    let find_match =
        |graph: &[u8], rule: &[u8], start: usize, map: &mut [u8]| match graph[SECOND_OUTPUT] == 0 {
            true => 4,
            false => (PROVED.find_match)(graph, rule, start, map),
        };
    let library = Library { find_match, ..PROVED };
    compare(&library, &private_constant(1), &mut Tally::new()).expect("no difference");
    let (operation, fault) = difference(&library, &constant_as_output(1));
    assert_eq!(operation, Operation::FindMatch);
    assert_eq!(fault, "the library replies 0x4, the second program 0x0");
}

/// Where the second output place, low byte first, stands in a graph block.
const SECOND_OUTPUT: usize = 12;

/// The proved library's rewriting of the same graph with this second output,
/// or with only the first one; the old output count and second output are put
/// back, and counts are true both times.
fn rewrite_with_second_output(
    second: Option<u16>,
    graph: &mut [u8],
    rule: &[u8],
    start: usize,
    map: &mut [u8],
) -> u64 {
    let places = [8..10, SECOND_OUTPUT..SECOND_OUTPUT + 2];
    let old = places.clone().map(|place| [graph[place.start], graph[place.start + 1]]);
    let count = 1 + second.iter().count() as u16;
    let new = [count, second.unwrap_or(65535)].map(u16::to_le_bytes);
    let put = |graph: &mut [u8], numbers: [[u8; 2]; 2]| {
        for (place, number) in places.clone().into_iter().zip(numbers) {
            graph[place].copy_from_slice(&number);
        }
    };
    let mut table = graph.to_vec();
    put(&mut table, new);
    if repair::version_of(graph) == Some(Version::Two) {
        write_true_counts(&mut table);
    }
    let reply = (PROVED.rewrite)(&mut table, rule, start, map);
    if reply == 0 {
        put(&mut table, old);
        write_true_counts(&mut table);
        graph.copy_from_slice(&table);
    }
    reply
}

/// A program that forgets that a graph output keeps a Const, in the table and
/// in the room.
#[test]
fn a_shared_constant_removed_is_noticed() {
    let rewrite = |graph: &mut [u8], rule: &[u8], start: usize, map: &mut [u8]| {
        rewrite_with_second_output(None, graph, rule, start, map)
    };
    let library = Library { rewrite, ..PROVED };
    compare(&library, &private_constant(1), &mut Tally::new()).expect("no difference");
    let (operation, fault) = difference(&library, &constant_as_output(1));
    assert_eq!(operation, Operation::Rewrite);
    assert!(fault.starts_with("graph after, "), "{fault}");
    let (_, fault) = difference(&library, &constant_as_output(2));
    assert_eq!(fault, "the library replies 0x0, the second program 0x6");
}

/// A program that takes every matched Const for a graph output.
#[test]
fn a_private_constant_kept_is_noticed() {
    let rewrite = |graph: &mut [u8], rule: &[u8], start: usize, map: &mut [u8]| {
        rewrite_with_second_output(Some(0), graph, rule, start, map)
    };
    let library = Library { rewrite, ..PROVED };
    compare(&library, &constant_as_output(1), &mut Tally::new()).expect("no difference");
    let (operation, fault) = difference(&library, &private_constant(1));
    assert_eq!(operation, Operation::Rewrite);
    assert!(fault.starts_with("graph after, "), "{fault}");
    let (_, fault) = difference(&library, &private_constant(2));
    assert_eq!(fault, "the library replies 0x6, the second program 0x0");
}

#[test]
fn sound_blocks_need_no_repair() {
    let mut random = Random::new(1);
    for _ in 0..2000 {
        let (graph, rule) = (sound_graph(&mut random).block(), sound_rule(&mut random).block());
        let (mut graph_after, mut rule_after) = (graph.clone(), rule.clone());
        repair::graph_length(&mut graph_after);
        repair::graph_records(&mut graph_after, false);
        repair::rule_length(&mut rule_after);
        repair::rule_records(&mut rule_after);
        assert!(graph_after == graph && rule_after == rule);
    }
}

#[test]
fn any_bytes_are_cut() {
    let mut random = Random::new(2);
    for _ in 0..20000 {
        let length = random.below(400);
        let bytes = random.bytes(length);
        let input = Input::cut(&bytes);
        assert!(input.map.len() < 256 && input.further < 4);
    }
}

#[test]
fn without_repairs_the_blocks_arrive_as_they_are() {
    let control = Control { map_length: 7, start: u64::MAX, ..Control::default() };
    let input = Input::cut(&control.input_bytes(b"any graph", b"any rule"));
    assert_eq!(
        (input.graph.as_slice(), input.rule.as_slice()),
        (&b"any graph"[..], &b"any rule"[..])
    );
    assert_eq!((input.map.len(), input.start), (7, usize::MAX));
}
