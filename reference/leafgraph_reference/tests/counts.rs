//! Request 5/13: counts worked out by hand, versions, the import, and that counts
//! stay true.

mod common;

use common::{refused, run_match, run_rewrite, UNTOUCHED};
use leafgraph_reference::blocks::*;
use leafgraph_reference::counts::{true_counts, write_counts};
use leafgraph_reference::generate::{sequence, sound_graph};
use leafgraph_reference::graph::Graph;
use leafgraph_reference::operators::ADD;
use leafgraph_reference::random::Random;
use leafgraph_reference::recount::{count_faults, import_faults, FALSE_COUNT, OTHER_BYTES};
use leafgraph_reference::{check_graph, find_match, import, rewrite, squeeze, sweep};

/// The counts that a block stores.
fn stored(block: &[u8]) -> Vec<u16> {
    let records = block[24..].chunks_exact(48);
    records.map(|record| u16::from_le_bytes([record[40], record[41]])).collect()
}

/// This graph's block with these counts.
fn with_counts(graph: &GraphParts, counts: &[u16]) -> Vec<u8> {
    let mut block = graph.block();
    write_counts(&mut block, counts);
    block
}

/// Whether these counts alone are taken for this graph's.
fn assert_counts(graph: &GraphParts, counts: &[u16]) {
    assert_eq!(stored(&graph.block()), counts);
    assert_eq!(check_graph(&with_counts(graph, counts)), 0);
    for slot in 0..counts.len() {
        for wrong in [counts[slot].wrapping_sub(1), counts[slot] + 1, counts[slot] + 256] {
            let mut others = counts.to_vec();
            others[slot] = wrong;
            assert_eq!(check_graph(&with_counts(graph, &others)), refused(24, slot));
        }
    }
    let mut block = graph.version_1_block();
    assert_eq!((import(&mut block), stored(&block)), (0, counts.to_vec()));
    assert_eq!(block, graph.block());
}

/// "the number of input places"
#[test]
fn places_are_counted_and_not_readers() {
    assert_counts(&GraphParts::new(vec![variable(), add(0, 0)], &[1]), &[2, 1]);
    let slots = vec![tuple(&[2, 1, 2, 2]), variable(), variable(), add(2, 0)];
    assert_counts(&GraphParts::new(slots, &[3]), &[1, 1, 4, 1]);
}

/// ".. and graph outputs that name this slot"
#[test]
fn every_graph_output_counts() {
    assert_counts(&GraphParts::new(vec![variable(), relu(0)], &[1, 1]), &[1, 2]);
    assert_counts(&GraphParts::new(vec![variable(), relu(0)], &[0, 1, 0, 0]), &[4, 1]);
    assert_counts(&e1(), &[1, 1, 1, 1, 1, 0]);
}

/// A reader from which no output is reached, and one that nothing reads.
#[test]
fn a_dead_reader_counts() {
    let slots = vec![variable(), relu(0), relu(0), relu(2), constant(1)];
    assert_counts(&GraphParts::new(slots, &[1]), &[2, 1, 1, 0, 0]);
}

#[test]
fn counts_of_two_bytes() {
    let mut slots = vec![variable(), variable()];
    slots.resize(512, tuple(&[1; 6]));
    let counts: Vec<u16> = [vec![0, 510 * 6 + 1, 3], vec![0; 509]].concat();
    assert_counts(&GraphParts::new(slots, &[2, 1, 2, 2]), &counts);
}

/// Nothing names an Empty slot of a graph that is otherwise sound.
#[test]
fn an_empty_slot_counts_nothing() {
    for (low, high) in [(1, 0), (0, 1), (255, 255)] {
        let mut block = e1().block();
        (block[24 + 48 * 5 + 40], block[24 + 48 * 5 + 41]) = (low, high);
        assert_eq!(check_graph(&block), refused(24, 5));
    }
}

/// "place the lowest such slot"
#[test]
fn the_lowest_of_several_wrong_counts() {
    let wrong = |counts: [u16; 6]| check_graph(&with_counts(&e1(), &counts));
    assert_eq!(wrong([1, 1, 1, 1, 1, 0]), 0);
    assert_eq!(wrong([1, 1, 0, 2, 1, 1]), refused(24, 2));
    assert_eq!(wrong([1, 1, 1, 1, 0, 1]), refused(24, 4));
    assert_eq!(wrong([0; 6]), refused(24, 0));
}

/// "a wrong count is 24 [...] after 23"
#[test]
fn a_count_comes_after_a_cycle() {
    let cycle = GraphParts::new(vec![variable(), add(0, 2), relu(1)], &[1]);
    for counts in [[1, 2, 1], [0, 2, 1], [9, 9, 9]] {
        assert_eq!(check_graph(&with_counts(&cycle, &counts)), refused(23, 1));
    }
    let nameless = GraphParts::new(vec![variable(), relu(2), empty()], &[1]);
    assert_eq!(check_graph(&with_counts(&nameless, &[9, 9, 9])), refused(22, 1));
}

/// Document 01's "40-47 zero" but for the count.
#[test]
fn the_other_bytes_are_zero() {
    for slot in 0..6 {
        for offset in 42..48 {
            let mut block = with_counts(&e1(), &[7; 6]);
            block[24 + 48 * slot + offset] = 1;
            assert_eq!(check_graph(&block), refused(21, slot), "{slot} {offset}");
        }
    }
}

/// A wrong count before a bad rule, before a search without a match and before a
/// list of a wrong length; a map of a wrong length before it.
#[test]
fn the_place_of_24_in_the_order() {
    let block = with_counts(&e1(), &[1, 1, 1, 3, 1, 0]);
    let (rule, bad) = (rr().block(), refused(24, 3));
    let mut map = [UNTOUCHED; 32];
    for (rule, start) in [(&rule[..], 0), (&rule[..], 9), (&rule[1..], 0)] {
        assert_eq!(find_match(&block, rule, start, &mut map), bad);
        let mut table = block.clone();
        assert_eq!((rewrite(&mut table, rule, start, &mut map), &table), (bad, &block));
    }
    assert_eq!(find_match(&block, &rule, 0, &mut map[1..]), 1);
    let mut table = block.clone();
    assert_eq!((sweep(&mut table), &table), (bad, &block));
    assert_eq!((squeeze(&mut table, &mut [UNTOUCHED; 3]), &table), (bad, &block));
    assert!(map == [UNTOUCHED; 32]);
}

/// This block with another version.
fn with_version(mut block: Vec<u8>, version: u16) -> Vec<u8> {
    block[4..6].copy_from_slice(&version.to_le_bytes());
    block
}

/// "other operations take version 2 only"; "any other version is 20"
#[test]
fn other_operations_take_version_2_only() {
    let others = [0, 1, 3, 257, 258, 512, 65535].map(|number| with_version(e1().block(), number));
    for block in others.into_iter().chain([e1().version_1_block()]) {
        let (mut table, mut map) = (block.clone(), [UNTOUCHED; 32]);
        assert_eq!(check_graph(&block), 20);
        assert_eq!(find_match(&block, &rr().block(), 0, &mut map), 20);
        assert_eq!(rewrite(&mut table, &rr().block(), 0, &mut map), 20);
        assert_eq!(sweep(&mut table), 20);
        assert_eq!(squeeze(&mut table, &mut [0; 12]), 20);
        assert!(table == block && map == [UNTOUCHED; 32]);
    }
}

/// The reply of an import that must leave every byte.
fn refusal(block: &[u8]) -> u64 {
    let mut table = block.to_vec();
    let reply = import(&mut table);
    assert!(reply != 0 && table == block, "{reply}");
    reply
}

#[test]
fn the_import_takes_version_1_only() {
    for version in [0, 2, 3, 256, 257, 258, 65535] {
        assert_eq!(refusal(&with_version(e1().block(), version)), 20);
        assert_eq!(refusal(&with_version(e1().version_1_block(), version)), 20);
    }
    let mut block = e1().version_1_block();
    assert_eq!(import(&mut block), 0);
    assert_eq!(refusal(&block), 20, "a second import");
}

/// By version 1's rules: "20 to 23", and never 24.
#[test]
fn the_import_of_a_bad_block() {
    let block = e1().version_1_block();
    for length in [0, 3, 23, 24, block.len() - 1, block.len() + 1] {
        let mut other = block.clone();
        other.resize(length, 0);
        assert_eq!(refusal(&other), 20, "{length} bytes");
    }
    for slot in 0..6 {
        for offset in 40..48 {
            let mut other = block.clone();
            other[24 + 48 * slot + offset] = 1;
            assert_eq!(refusal(&other), refused(21, slot), "{slot} {offset}");
        }
    }
    let of = |slots: Vec<Vertex>, outputs: &[u16]| {
        refusal(&GraphParts::new(slots, outputs).version_1_block())
    };
    assert_eq!(of(vec![variable(), projection(0, 0)], &[1]), refused(21, 1));
    assert_eq!(of(vec![variable(), relu(2), empty()], &[1]), refused(22, 1));
    assert_eq!(of(vec![variable(), relu(0)], &[1, 2]), refused(22, 1));
    assert_eq!(of(vec![variable(), add(0, 2), relu(1)], &[1]), refused(23, 1));
    assert_eq!(refusal(&with_version(e1().block(), 1)), refused(21, 0), "true counts");
}

/// P1: slot 2 is read by the new slot 3, which the output names.
#[test]
fn a_rewriting_writes_counts() {
    assert_eq!(stored(&run_rewrite(&e1(), &rr(), 0).graph), [1, 1, 1, 1, 0, 0]);
}

/// The readers of what is replaced are readers of the rule input now.
#[test]
fn a_rule_input_is_named_more_often() {
    let rule = RuleParts {
        source: vec![wildcard(), call_pattern(ADD, &[0, 0], &[])],
        target: vec![],
        source_outputs: vec![1],
        target_outputs: vec![0],
        nodes: vec![],
    };
    let graph = |slots| GraphParts::new(slots, &[1, 2, 1]);
    let before = graph(vec![variable(), add(0, 0), tuple(&[1, 1, 1])]);
    assert_eq!(stored(&before.block()), [2, 5, 1]);
    assert_eq!(stored(&run_rewrite(&before, &rule, 0).graph), [5, 0, 1]);
}

/// A matched Const that stays has lost the reader that went.
#[test]
fn a_constant_that_stays_is_named_less_often() {
    let graph = constant_sum(variable(), &[add(0, 0), relu(0)], &[2, 3, 0]);
    assert_eq!(stored(&graph.block()), [5, 1, 1, 1, 0]);
    let after = run_rewrite(&graph, &dropped_constant(1), 0);
    assert_eq!((after.reply, stored(&after.graph)), (0, vec![4, 1, 1, 1, 0]));
}

/// What a swept vertex read is named less often, down to 0.
#[test]
fn a_sweep_writes_counts() {
    let slots = vec![variable(), relu(0), add(0, 1), variable(), tuple(&[3, 3, 2])];
    let mut block = GraphParts::new(slots, &[1]).block();
    assert_eq!(stored(&block), [2, 2, 1, 2, 0]);
    assert_eq!((sweep(&mut block), stored(&block)), (0, vec![1, 1, 0, 0, 0]));
}

#[test]
fn a_squeeze_moves_counts() {
    let slots = vec![empty(), variable(), empty(), add(1, 1), relu(3), constant(2)];
    let mut block = GraphParts::new(slots, &[4, 3]).block();
    assert_eq!(stored(&block), [0, 2, 0, 2, 1, 0]);
    assert_eq!(squeeze(&mut block, &mut [0; 12]), 0);
    assert_eq!(stored(&block), [2, 2, 1, 0, 0, 0]);
}

/// An interior image is private by its count: P3 and the same graph without its
/// second output.
#[test]
fn the_search_looks_at_counts() {
    let outputs = |outputs: &[u16]| GraphParts { outputs: outputs.to_vec(), ..e1() };
    assert_eq!(run_match(&outputs(&[4, 3]), &rr(), 0).reply, 4);
    assert_eq!(run_match(&outputs(&[4, 4, 4]), &rr(), 0).reply, 0);
}

/// "rewriting, sweep and squeeze keep it true", in any order after an import.
#[test]
fn counts_stay_true_in_sequences() {
    let mut random = Random::new(18);
    let mut done = [0; 3];
    for _ in 0..400 {
        let sequence = sequence(&mut random);
        let rules: Vec<Vec<u8>> = sequence.rules.iter().map(|rule| rule.block()).collect();
        let mut block = sequence.graph.version_1_block();
        assert_eq!(import(&mut block), 0);
        for _ in 0..12 {
            let operation = random.below(3);
            let rule = &rules[random.below(rules.len())];
            let reply = match operation {
                0 => rewrite(&mut block, rule, 0, &mut [0; 32]),
                1 => sweep(&mut block),
                _ => squeeze(&mut block, &mut vec![0; 2 * sequence.graph.slots.len()]),
            };
            done[operation] += usize::from(reply == 0);
            assert_eq!(stored(&block), recounted(&block));
        }
    }
    assert!(done.iter().all(|&count| count > 300), "{done:?}");
}

/// Each wrong import, and wrong counts, are told by their own fault.
#[test]
fn wrong_imports_are_noticed() {
    let (old, new) = (e1().version_1_block(), e1().block());
    assert_eq!(import_faults(&old, &new), [""; 0]);
    assert_eq!(count_faults(&new), [""; 0]);
    let wrong = with_counts(&e1(), &[1, 1, 1, 1, 1, 1]);
    assert_eq!(import_faults(&old, &wrong), [FALSE_COUNT]);
    assert_eq!(import_faults(&old, &old), [FALSE_COUNT], "the version");
    let mut other = new.clone();
    other[24 + 16] = 2;
    assert_eq!(import_faults(&old, &other), [OTHER_BYTES]);
}

/// For each slot, how many of all places hold its number.
fn recounted(block: &[u8]) -> Vec<u16> {
    let number = |bytes: &[u8]| u16::from_le_bytes([bytes[0], bytes[1]]);
    let mut places: Vec<u16> = block[10..18].chunks(2).map(number).collect();
    for record in block[24..].chunks(48) {
        places.extend(record[4..16].chunks(2).map(number));
    }
    let slots = 0..(block.len() / 48) as u16;
    slots.map(|slot| places.iter().filter(|&&place| place == slot).count() as u16).collect()
}

#[test]
fn counts_are_those_of_all_places() {
    let mut random = Random::new(19);
    for _ in 0..500 {
        let block = sound_graph(&mut random).block();
        let graph = Graph::parse(&block).expect("a sound graph");
        let counts = true_counts(graph);
        assert_eq!(counts[..graph.slot_count()], recounted(&block));
    }
}
