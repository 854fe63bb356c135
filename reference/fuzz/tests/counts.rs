//! The comparison notices programs that get request 5/13 wrong: each one here is the
//! proved library with one thing spoilt.

use leafgraph_fuzz::cleanup_examples::cleanup_examples;
use leafgraph_fuzz::comparison::compare;
use leafgraph_fuzz::fault_examples::fault_examples;
use leafgraph_fuzz::input::{Control, Input, MAP};
use leafgraph_fuzz::library::{Library, Operation, PROVED};
use leafgraph_fuzz::repair::{set_version, version_of};
use leafgraph_fuzz::tally::Tally;
use leafgraph_reference::blocks::{
    constant_sum, dropped_constant, e1, relu, rr, variable, GraphParts, RuleParts,
};
use leafgraph_reference::counts::{write_counts, write_true_counts};
use leafgraph_reference::graph::{Graph, Version};
use leafgraph_reference::graph_faults::GraphFaults;
use leafgraph_reference::reply::number_of;

/// No repair but of the map and the list.
fn input(graph: &[u8], rule: &RuleParts) -> Vec<u8> {
    let control = Control { repairs: MAP, ..Control::default() };
    control.input_bytes(graph, &rule.block())
}

fn differs(library: &Library, bytes: &[u8]) -> bool {
    compare(library, bytes, &mut Tally::new()).is_err()
}

/// The names of the graphs with faults on which a difference is seen.
fn noticed_faults(library: &Library) -> Vec<&'static str> {
    let examples = fault_examples().into_iter().filter(|example| example.number < 30);
    let noticed = examples.filter(|example| differs(library, &input(&example.graph, &rr())));
    noticed.map(|example| example.name).collect()
}

/// The names of the graphs to sweep and to squeeze on which a difference is seen.
fn noticed_cleanups(library: &Library) -> Vec<&'static str> {
    let noticed = cleanup_examples()
        .into_iter()
        .filter(|example| differs(library, &input(&example.graph.block(), &example.rule)));
    noticed.map(|example| example.name).collect()
}

/// The operation in which the difference is seen on E1, and the first thing said.
fn difference_on_e1(library: &Library) -> (Operation, String) {
    let bytes = input(&e1().block(), &rr());
    let difference = compare(library, &bytes, &mut Tally::new()).expect_err("a wrong program");
    (difference.operation, difference.faults[0].clone())
}

/// The counts that a block stores.
fn counts(block: &[u8]) -> Vec<u16> {
    let records = block[24..].chunks_exact(48);
    records.map(|record| u16::from_le_bytes([record[40], record[41]])).collect()
}

#[test]
fn counts_not_looked_at_are_noticed() {
    let check_graph = |graph: &[u8]| match (PROVED.check_graph)(graph) {
        reply if number_of(reply) == 24 => 0,
        reply => reply,
    };
    let wrong = [
        "count-more",
        "count-less",
        "count-high-byte",
        "count-of-empty",
        "counts-several",
        "counts-of-readers",
        "counts-without-outputs",
        "counts-output-once",
        "counts-without-dead",
        "counts-traded",
    ];
    assert_eq!(noticed_faults(&Library { check_graph, ..PROVED }), wrong);
}

/// A program that looks at the low byte of a count, and one that does not look at
/// Empty slots.
#[test]
fn counts_half_looked_at_are_noticed() {
    fn without(graph: &[u8], forget: fn(&mut [u8])) -> u64 {
        let mut table = graph.to_vec();
        if Graph::parse_but_counts(graph, Version::Two).is_ok() {
            table[24..].chunks_exact_mut(48).for_each(forget);
        }
        (PROVED.check_graph)(&table)
    }
    let check_graph = |graph: &[u8]| without(graph, |record| record[41] = 0);
    assert_eq!(noticed_faults(&Library { check_graph, ..PROVED }), ["count-high-byte"]);
    let check_graph = |graph: &[u8]| {
        without(graph, |record| {
            if record[0] == 0 {
                record[40..42].fill(0);
            }
        })
    };
    assert_eq!(noticed_faults(&Library { check_graph, ..PROVED }), ["count-of-empty"]);
}

/// "after 23": counts that can be told before a cycle or a bad name is.
#[test]
fn a_count_before_a_cycle_is_noticed() {
    let check_graph = |graph: &[u8]| {
        let right = (PROVED.check_graph)(graph);
        match GraphFaults::of(graph).and_then(|faults| faults.counts.first().copied()) {
            Some(slot) if (22..=23).contains(&number_of(right)) => 24 | (slot as u64) << 8,
            _ => right,
        }
    };
    let names = noticed_faults(&Library { check_graph, ..PROVED });
    assert_eq!(names, ["count-and-cycle", "count-and-output"]);
}

/// A program that takes blocks of version 1 as they are.
#[test]
fn version_1_taken_is_noticed() {
    let sweep = |graph: &mut [u8]| {
        let mut table = graph.to_vec();
        if (PROVED.import)(&mut table) == 0 {
            return 0;
        }
        (PROVED.sweep)(graph)
    };
    let (operation, fault) = difference_on_e1(&Library { sweep, ..PROVED });
    assert_eq!(operation, Operation::Sweep);
    assert_eq!(fault, "the library replies 0x0, the second program 0x14");
}

/// An import that takes a block of version 2 and leaves it.
#[test]
fn version_2_imported_is_noticed() {
    let import = |graph: &mut [u8]| match (PROVED.check_graph)(graph) {
        0 => 0,
        _ => (PROVED.import)(graph),
    };
    let (operation, fault) = difference_on_e1(&Library { import, ..PROVED });
    assert_eq!(operation, Operation::Import);
    assert_eq!(fault, "the library replies 0x0, the second program 0x14");
}

/// Imports that write only the version, or only the counts.
#[test]
fn half_an_import_is_noticed() {
    let version: fn(&mut [u8]) -> u64 = |graph| {
        let reply = (PROVED.import)(graph);
        if reply == 0 {
            write_counts(graph, &[0; 512]);
        }
        reply
    };
    let only_counts: fn(&mut [u8]) -> u64 = |graph| {
        let reply = (PROVED.import)(graph);
        if reply == 0 {
            set_version(graph, Version::One);
        }
        reply
    };
    for (import, bytes) in [(version, 5), (only_counts, 1)] {
        let (operation, fault) = difference_on_e1(&Library { import, ..PROVED });
        assert_eq!(operation, Operation::Import);
        assert!(fault.starts_with(&format!("graph after, {bytes} bytes differ")), "{fault}");
    }
}

/// By version 1's rules bytes 40 and 41 are zero.
#[test]
fn an_import_that_ignores_old_counts_is_noticed() {
    let import = |graph: &mut [u8]| {
        let mut table = graph.to_vec();
        if version_of(graph) == Some(Version::One) && graph.len() > 24 {
            write_counts(&mut table, &[0; 512]);
        }
        let reply = (PROVED.import)(&mut table);
        if reply == 0 {
            graph.copy_from_slice(&table);
        }
        reply
    };
    assert_eq!(noticed_faults(&Library { import, ..PROVED }), ["version-1-with-counts"]);
}

/// What a swept vertex read keeps its count.
#[test]
fn a_sweep_that_keeps_counts_is_noticed() {
    let sweep = |graph: &mut [u8]| {
        let before = counts(graph);
        let reply = (PROVED.sweep)(graph);
        for (record, count) in graph[24..].chunks_exact_mut(48).zip(before) {
            if reply == 0 && record[0] != 0 {
                record[40..42].copy_from_slice(&count.to_le_bytes());
            }
        }
        reply
    };
    let names = [
        "dead-vertex",
        "dead-chain",
        "dead-chain-reversed",
        "variable-of-dead",
        "output-of-dead",
        "dead-vertex-moves",
        "dead-room",
    ];
    assert_eq!(noticed_cleanups(&Library { sweep, ..PROVED }), names);
}

/// Counts stay in their slots, and vertices move.
#[test]
fn a_squeeze_that_leaves_counts_is_noticed() {
    let squeeze = |graph: &mut [u8], list: &mut [u8]| {
        let before = if graph.len() < 24 { vec![] } else { counts(graph) };
        let reply = (PROVED.squeeze)(graph, list);
        if reply == 0 {
            write_counts(graph, &before);
        }
        reply
    };
    let names = noticed_cleanups(&Library { squeeze, ..PROVED });
    let moved = ["empty-first", "empty-between", "higher-input", "both-inputs"];
    assert!(moved.iter().all(|name| names.contains(name)), "{names:?}");
    assert!(!names.contains(&"all-live") && !names.contains(&"empty-behind"), "{names:?}");
}

/// Rewritings that leave the counts of vertices that stay: a Const that has lost a
/// reader, and a rule input that another stage reads now.
#[test]
fn a_rewriting_that_keeps_counts_is_noticed() {
    let rewrite = |graph: &mut [u8], rule: &[u8], start: usize, map: &mut [u8]| {
        let old = graph.to_vec();
        let reply = (PROVED.rewrite)(graph, rule, start, map);
        let slots = graph[24..].chunks_exact_mut(48).zip(old[24..].chunks_exact(48));
        for (new, old) in slots {
            if reply == 0 && new[..40] == old[..40] {
                new.copy_from_slice(old);
            }
        }
        reply
    };
    let library = Library { rewrite, ..PROVED };
    let relu_gone = RuleParts { target: vec![], target_outputs: vec![0], ..rr() };
    let shared = constant_sum(variable(), &[relu(0)], &[2, 3]);
    let private = constant_sum(variable(), &[], &[2]);
    let outputs = |outputs: &[u16]| GraphParts { outputs: outputs.to_vec(), ..e1() }.block();
    assert!(!differs(&library, &input(&private.block(), &dropped_constant(1))));
    assert!(differs(&library, &input(&shared.block(), &dropped_constant(1))));
    assert!(!differs(&library, &input(&outputs(&[4]), &relu_gone)));
    assert!(differs(&library, &input(&outputs(&[4, 4]), &relu_gone)));
}

/// Version 2 becomes version 1 without counts, version 1 becomes version 2 with true
/// ones, and any other version stays alone.
#[test]
fn each_input_is_tried_in_both_versions() {
    let (one, two) = (e1().version_1_block(), e1().block());
    let mut wrong = two.clone();
    write_counts(&mut wrong, &[9; 6]);
    let other = |graph: &[u8]| Input::cut(&input(graph, &rr())).in_other_version();
    let other_graph = |graph: &[u8]| other(graph).map(|input| input.graph);
    assert_eq!(other_graph(&two), Some(one.clone()));
    assert_eq!(other_graph(&wrong), Some(one.clone()));
    assert_eq!(other_graph(&one), Some(two.clone()));
    for version in [0, 3, 257, 258] {
        let mut graph = two.clone();
        graph[4..6].copy_from_slice(&u16::to_le_bytes(version));
        assert!(other(&graph).is_none());
    }
    assert!(other(&two[..5]).is_none());
    assert_eq!(other_graph(&two[..30]), Some(one[..30].to_vec()));
}

/// Counts are repaired where the input says so, and stay as they are elsewhere.
#[test]
fn counts_are_repaired() {
    let mut wrong = e1().block();
    write_counts(&mut wrong, &[9; 6]);
    let cut = |counts: bool, graph: &[u8]| {
        let control = Control { counts, ..Control::default() };
        Input::cut(&control.input_bytes(graph, &rr().block())).graph
    };
    assert_eq!(cut(true, &wrong), e1().block());
    assert_eq!(cut(false, &wrong), wrong);
    set_version(&mut wrong, Version::One);
    assert_eq!(cut(true, &wrong), wrong, "version 1 has no counts");
    let mut graph = e1().block();
    graph[24 + 48 * 3 + 4] = 0;
    let mut counted = graph.clone();
    write_true_counts(&mut counted);
    assert!(counted != graph && cut(true, &graph) == counted);
}
