//! The checks against the listings of all faults, on random damaged blocks.

use leafgraph_reference::blocks::*;
use leafgraph_reference::generate::*;
use leafgraph_reference::graph::Version;
use leafgraph_reference::graph_faults::GraphFaults;
use leafgraph_reference::random::Random;
use leafgraph_reference::reply::reply_of;
use leafgraph_reference::rule_faults::RuleFaults;
use leafgraph_reference::{check_graph, check_rule, import};

#[test]
fn cycles_and_what_is_beside_them() {
    let slots = vec![relu(2), variable(), add(1, 3), relu(2), relu(4), relu(0), add(9, 1)];
    let mut block = GraphParts::new(slots, &[5, 8]).block();
    block[24 + 48 * 5 + 47] = 1;
    let expected = GraphFaults {
        records: vec![5],
        inputs: vec![6],
        outputs: vec![1],
        cycles: vec![vec![2, 3], vec![4]],
        reading_from_cycles: vec![0],
        read_by_cycles: vec![1],
        ..GraphFaults::default()
    };
    assert_eq!(GraphFaults::of(&block), Some(expected));
}

#[test]
fn every_kind_of_a_rule() {
    let mut rule = p10_rule();
    rule.source.push(call_pattern(1, &[1, 2], &[]));
    rule.target_outputs = vec![17];
    rule.nodes[3] = operation_node(5, 0, 1);
    rule.source[1].attributes[2] = 10;
    let mut block = rule.block();
    block[14] = 1;
    block[16 + 16 * 4 + 5] = 0;
    let expected = RuleFaults {
        source_count: 4,
        // Bytes 14 and 15.
        header: vec![10],
        records: vec![4],
        order: vec![3],
        ends_early: true,
        // Vertex 3 reads the source output, target output 17 is nothing, and
        // nothing uses target vertex 0.
        connection: vec![2, 4, 6],
        nodes: vec![3],
        over_any: vec![3],
        uses: vec![1],
        expansions: vec![],
    };
    assert_eq!(RuleFaults::of(&block), expected);
}

#[test]
fn graphs_are_refused_with_the_first_fault() {
    let mut random = Random::new(16);
    for _ in 0..20_000 {
        for block in [damaged_graph(&mut random), noise_with_graph_header(&mut random)] {
            if let Some(faults) = GraphFaults::of(&block) {
                let reply = reply_of(faults.first().map_or(Ok(()), Err));
                assert_eq!(check_graph(&block), reply, "{faults:?}, {block:?}");
            }
        }
    }
}

#[test]
fn imports_are_refused_with_the_first_fault() {
    let mut random = Random::new(20);
    for _ in 0..10_000 {
        for mut block in
            [damaged_version_1_graph(&mut random), noise_with_version_1_header(&mut random)]
        {
            if let Some(faults) = GraphFaults::of_version(&block, Version::One) {
                let reply = reply_of(faults.first().map_or(Ok(()), Err));
                assert_eq!(import(&mut block), reply, "{faults:?}, {block:?}");
            }
        }
    }
}

/// Wrong counts are listed whatever else is wrong, but not those that a bad record
/// could make true.
#[test]
fn counts_beside_other_faults() {
    let slots = vec![variable(), add(0, 0), relu(1), add(2, 9), relu(4), relu(0)];
    let mut block = GraphParts::new(slots, &[2, 0]).block();
    let listed = |block: &[u8]| GraphFaults::of(block).expect("a small graph").counts;
    assert_eq!(listed(&block), [0; 0]);
    block[24 + 48 * 4 + 40] = 2;
    block[24 + 48 * 2 + 41] = 1;
    assert_eq!(listed(&block), [2, 4]);
    block[24 + 48 * 5 + 47] = 1;
    assert_eq!(listed(&block), [2], "slot 5 may read slot 4, too");
}

#[test]
fn rules_are_refused_with_the_first_fault() {
    let mut random = Random::new(17);
    for _ in 0..20_000 {
        for block in [damaged_rule(&mut random), noise_with_rule_header(&mut random)] {
            let faults = RuleFaults::of(&block);
            let reply = reply_of(faults.first().map_or(Ok(()), Err));
            assert_eq!(check_rule(&block), reply, "{faults:?}, {block:?}");
        }
    }
}
