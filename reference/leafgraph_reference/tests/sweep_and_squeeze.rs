//! Request 4/13: sweeps and squeezes worked out by hand, the order of refusals,
//! and tables that are wrong.

mod common;

use common::{refused, UNTOUCHED};
use leafgraph_reference::blocks::*;
use leafgraph_reference::cleanup::{self, squeeze_faults, sweep_faults};
use leafgraph_reference::generate::{sound_graph, sound_graph_of};
use leafgraph_reference::graph::Graph;
use leafgraph_reference::meaning::Meaning;
use leafgraph_reference::operators::MEAN;
use leafgraph_reference::random::Random;
use leafgraph_reference::squeeze::read_list;
use leafgraph_reference::{check_graph, rewrite, squeeze, sweep};

/// What a sweep that is done leaves.
fn swept(graph: &GraphParts) -> Vec<u8> {
    let mut table = graph.block();
    assert_eq!(sweep(&mut table), 0);
    table
}

/// What a squeeze that is done leaves, and its list.
fn squeezed(graph: &GraphParts) -> (Vec<u8>, Vec<u16>) {
    let mut table = graph.block();
    let mut list = vec![UNTOUCHED; 2 * graph.slots.len()];
    assert_eq!(squeeze(&mut table, &mut list), 0);
    (table, read_list(&list))
}

fn mean(input: u16) -> Vertex {
    call(MEAN, &[input], &[0])
}

#[test]
fn a_dead_chain_is_swept() {
    // relu(relu(relu(0))) reaches no output; slot 1 does.
    let slots = vec![variable(), mean(0), relu(0), relu(2), relu(3), empty()];
    let after = vec![variable(), mean(0), empty(), empty(), empty(), empty()];
    assert_eq!(swept(&GraphParts::new(slots, &[1])), GraphParts::new(after, &[1]).block());
}

/// The chain's slots go against its edges, and it reads a vertex that stays.
#[test]
fn a_dead_chain_in_any_order_is_swept() {
    let slots = vec![relu(3), mean(4), relu(1), relu(2), variable()];
    let after = vec![empty(), mean(4), empty(), empty(), variable()];
    assert_eq!(swept(&GraphParts::new(slots, &[1])), GraphParts::new(after, &[1]).block());
}

/// "except Variables, which the phone feeds by number": one that nothing reads,
/// one that only a removed vertex reads. A Const has no such leave.
#[test]
fn variables_stay_and_constants_go() {
    let slots = vec![variable(), constant(5), variable(), add(1, 2), relu(0), constant(5)];
    let after = vec![variable(), empty(), variable(), empty(), relu(0), empty()];
    assert_eq!(swept(&GraphParts::new(slots, &[4])), GraphParts::new(after, &[4]).block());
}

/// "A vertex that an output names" reaches itself, also where nothing reads it
/// and where what reads it goes.
#[test]
fn every_output_keeps_what_it_needs() {
    let slots = vec![variable(), relu(0), mean(1), relu(2), constant(3), relu(1)];
    let graph = |outputs: &[u16]| GraphParts::new(slots.clone(), outputs);
    let left = |outputs: &[u16]| {
        let table = swept(&graph(outputs));
        let kinds = table[24..].chunks(48).map(|record| record[0] != 0);
        kinds.collect::<Vec<bool>>()
    };
    assert_eq!(left(&[5]), [true, true, false, false, false, true]);
    assert_eq!(left(&[5, 2]), [true, true, true, false, false, true]);
    assert_eq!(left(&[0, 0, 4]), [true, false, false, false, true, false]);
    assert_eq!(left(&[1, 1, 1, 3]), [true, true, true, true, false, false]);
}

#[test]
fn nothing_is_swept_where_all_is_needed() {
    for graph in [e1(), p7_graph(), chain(1), chain(512), reversed_chain(512)] {
        assert_eq!(swept(&graph), graph.block());
    }
}

#[test]
fn vertices_move_down_in_their_order() {
    let slots = vec![empty(), variable(), empty(), empty(), mean(1), add(4, 1), empty()];
    let after = vec![variable(), mean(0), add(1, 0), empty(), empty(), empty(), empty()];
    let (table, list) = squeezed(&GraphParts::new(slots, &[5, 4, 5]));
    assert_eq!(table, GraphParts::new(after, &[2, 1, 2]).block());
    assert_eq!(list, [65535, 0, 65535, 65535, 1, 2, 65535]);
}

/// Slot 0 stays where it is, and what it reads has a higher number and moves.
#[test]
fn higher_inputs_are_followed() {
    let slots = vec![add(4, 2), empty(), relu(4), empty(), variable()];
    let after = vec![add(2, 1), relu(2), variable(), empty(), empty()];
    let (table, list) = squeezed(&GraphParts::new(slots, &[0]));
    assert_eq!(table, GraphParts::new(after, &[0]).block());
    assert_eq!(list, [0, 65535, 1, 65535, 2]);
}

/// Unread vertices move like others: a squeeze sweeps nothing.
#[test]
fn a_squeeze_removes_nothing() {
    let slots = vec![empty(), variable(), constant(9), relu(1), relu(3)];
    let after = vec![variable(), constant(9), relu(0), relu(2), empty()];
    let (table, list) = squeezed(&GraphParts::new(slots, &[1]));
    assert_eq!(table, GraphParts::new(after, &[0]).block());
    assert_eq!(list, [65535, 0, 1, 2, 3]);
}

/// The list is written also where nothing moves.
#[test]
fn nothing_moves_where_no_slot_is_empty_before_a_vertex() {
    for graph in [e1(), p8_graph(), chain(1), chain(512)] {
        let (table, list) = squeezed(&graph);
        assert_eq!(table, graph.block());
        let is_empty = |slot: usize| graph.slots[slot].kind == 0;
        let number = |slot: usize| if is_empty(slot) { 65535 } else { slot as u16 };
        assert_eq!(list, (0..graph.slots.len()).map(number).collect::<Vec<u16>>());
    }
}

/// Numbers of two bytes.
#[test]
fn the_last_slot_of_the_largest_graph_moves() {
    let mut slots = vec![variable(); 300];
    slots.resize(511, empty());
    slots.push(relu(299));
    let (table, list) = squeezed(&GraphParts::new(slots.clone(), &[511]));
    slots.swap(300, 511);
    assert_eq!(table, GraphParts::new(slots, &[300]).block());
    assert_eq!((list[299], list[300], list[511]), (299, 65535, 300));
}

/// "Refusals: bad graph as before, then 40 when the list is not 2N bytes."
#[test]
fn refusals_in_their_order() {
    let cycle = GraphParts::new(vec![variable(), relu(1)], &[0]).block();
    let mut record = e1().block();
    record[24 + 48 * 3 + 42] = 1;
    let mut count = e1().block();
    count[24 + 48 * 3 + 40] = 2;
    let name = GraphParts::new(vec![variable(), empty(), relu(0)], &[2, 1]).block();
    let bad = [
        (e1().block()[1..].to_vec(), 20),
        (record, refused(21, 3)),
        (name, refused(22, 1)),
        (cycle, refused(23, 1)),
        (count, refused(24, 3)),
    ];
    for (graph, reply) in &bad {
        let mut table = graph.clone();
        assert_eq!((sweep(&mut table), &table), (*reply, graph));
        for length in [0, 4, 6, 12, 1024] {
            let mut list = vec![UNTOUCHED; length];
            assert_eq!((squeeze(&mut table, &mut list), &table), (*reply, graph));
            assert!(list.iter().all(|&byte| byte == UNTOUCHED));
        }
    }
}

#[test]
fn other_lengths_of_the_list_are_refused() {
    // N is 6, and vertices would move.
    let slots = vec![variable(), empty(), relu(0), empty(), empty(), empty()];
    let graph = GraphParts::new(slots, &[2]).block();
    for length in [0, 1, 4, 6, 10, 11, 13, 14, 24, 32, 1024] {
        let (mut table, mut list) = (graph.clone(), vec![UNTOUCHED; length]);
        assert_eq!(squeeze(&mut table, &mut list), 40, "{length}");
        assert!(table == graph && list.iter().all(|&byte| byte == UNTOUCHED), "{length}");
    }
    assert_eq!(squeeze(&mut graph.clone(), &mut [0; 12]), 0);
}

/// Dead stages take the room that a rewriting needs, until they are swept; and
/// it goes on in the squeezed table.
#[test]
fn a_sweep_makes_room() {
    // dropped_constant(3) frees 2 slots and fills 3.
    let graph = constant_sum(variable(), &[relu(1), relu(3)], &[2]);
    let (mut table, rule) = (graph.block(), dropped_constant(3).block());
    assert_eq!(rewrite(&mut table, &rule, 0, &mut [0; 32]), 6);
    assert_eq!(sweep(&mut table), 0);
    assert_eq!(rewrite(&mut table, &rule, 0, &mut [0; 32]), 0);
    let after = vec![relu(1), variable(), relu(0), relu(2), empty()];
    assert_eq!(table, GraphParts::new(after, &[3]).block());
}

/// Both on many graphs, judged by what must hold of any way to do them; and done
/// twice, which changes nothing more.
#[test]
fn sweeps_and_squeezes_are_right_in_every_meaning() {
    let mut random = Random::new(12);
    let (mut removed, mut moved) = (0, 0);
    for _ in 0..3000 {
        let graph = sound_graph(&mut random);
        let (block, table) = (graph.block(), swept(&graph));
        let mut meaning = Meaning::lawless(random.number());
        let faults = |old: &[u8], new: &[u8], meaning: &mut Meaning| {
            sweep_faults(parsed(old), parsed(new), meaning)
        };
        assert_eq!(faults(&block, &table, &mut meaning), [""; 0], "{graph:?}");
        let mut again = table.clone();
        assert!(sweep(&mut again) == 0 && again == table);
        removed += usize::from(block != table);

        let (mut new, mut list) = (block.clone(), vec![0; 2 * graph.slots.len()]);
        assert_eq!(squeeze(&mut new, &mut list), 0);
        let faults = squeeze_faults(parsed(&block), parsed(&new), &list, &mut meaning);
        assert_eq!(faults, [""; 0], "{graph:?}");
        let mut again = new.clone();
        assert!(squeeze(&mut again, &mut list) == 0 && again == new);
        let vertices = graph.slots.iter().filter(|vertex| vertex.kind != 0).count();
        let same = read_list(&list).into_iter().take(vertices).eq(0..vertices as u16);
        assert!(same, "{graph:?}");
        moved += usize::from(block != new);
    }
    assert!(removed > 1500 && moved > 800, "{removed} {moved}");
}

fn parsed(block: &[u8]) -> Graph<'_> {
    Graph::parse(block).expect("a sound graph")
}

/// Each wrong sweep is told by its own fault.
#[test]
fn wrong_sweeps_are_noticed() {
    let slots = vec![variable(), relu(0), relu(1), relu(2), variable(), constant(1)];
    let graph = GraphParts::new(slots.clone(), &[1]);
    let faults = |slots: Vec<Vertex>, outputs: &[u16]| {
        let (old, new) = (graph.block(), GraphParts::new(slots, outputs).block());
        assert_eq!(check_graph(&new), 0);
        sweep_faults(parsed(&old), parsed(&new), &mut Meaning::lawless(1))
    };
    let with = |changes: &[(usize, Vertex)]| {
        let mut slots = slots.clone();
        changes.iter().for_each(|(slot, vertex)| slots[*slot] = vertex.clone());
        slots
    };
    let dead = || vec![(2, empty()), (3, empty()), (5, empty())];
    assert_eq!(faults(with(&dead()), &[1]), [""; 0]);
    assert_eq!(faults(slots.clone(), &[1]), [cleanup::NAMELESS_LEFT]);
    assert_eq!(faults(with(&dead()[1..]), &[1]), [cleanup::NAMELESS_LEFT]);
    assert_eq!(faults(with(&dead()), &[0]), [cleanup::OTHER_HEADER]);
    let without_variable = [dead(), vec![(4, empty())]].concat();
    assert_eq!(faults(with(&without_variable), &[1]), [cleanup::VARIABLE_GONE]);
    let changed = [dead(), vec![(1, mean(0))]].concat();
    let found = [cleanup::OTHER_RECORD, cleanup::OTHER_RESULT, cleanup::OTHER_OUTPUT];
    assert_eq!(faults(with(&changed), &[1]), found);
}

/// Each wrong squeeze is told by its own fault.
#[test]
fn wrong_squeezes_are_noticed() {
    let slots = vec![empty(), variable(), variable(), relu(1), mean(2)];
    let graph = GraphParts::new(slots, &[3, 4]);
    let faults = |slots: Vec<Vertex>, outputs: &[u16], list: &[u16]| {
        let (old, new) = (graph.block(), GraphParts::new(slots, outputs).block());
        let list: Vec<u8> = list.iter().flat_map(|number| number.to_le_bytes()).collect();
        assert_eq!(check_graph(&new), 0);
        squeeze_faults(parsed(&old), parsed(&new), &list, &mut Meaning::lawless(1))
    };
    let right = || vec![variable(), variable(), relu(0), mean(1), empty()];
    let list = [65535, 0, 1, 2, 3];
    assert_eq!(faults(right(), &[2, 3], &list), [""; 0]);
    for wrong in [[65535, 1, 0, 2, 3], [0, 0, 1, 2, 3], [65535, 0, 1, 2, 4], [4, 0, 1, 2, 3]] {
        assert_eq!(faults(right(), &[2, 3], &wrong), [cleanup::WRONG_LIST]);
    }
    let with = |slot: usize, vertex: Vertex| {
        let mut slots = right();
        slots[slot] = vertex;
        slots
    };
    assert_eq!(faults(with(4, variable()), &[2, 3], &list), [cleanup::OTHER_SLOTS]);
    assert_eq!(faults(graph.slots.clone(), &[3, 4], &list), [cleanup::OTHER_SLOTS]);
    let mut variable = variable();
    variable.attributes[0] = 2;
    assert_eq!(faults(with(0, variable), &[2, 3], &list), [cleanup::OTHER_CONTENT]);
    let not_followed = [cleanup::NOT_FOLLOWED, cleanup::OTHER_RESULT, cleanup::OTHER_OUTPUT];
    assert_eq!(faults(with(2, relu(1)), &[2, 3], &list), not_followed);
    let output = [cleanup::NOT_FOLLOWED, cleanup::OTHER_OUTPUT];
    assert_eq!(faults(right(), &[3, 2], &list), output);
}

/// A Variable's result follows it, and no other Variable's is taken for it.
#[test]
fn results_of_variables_follow_them() {
    let mut random = Random::new(13);
    let graph = sound_graph_of(&mut random, 60);
    let (block, (table, list)) = (graph.block(), squeezed(&graph));
    let moved: Vec<usize> = (0..60).filter(|&slot| list[slot] != 65535).collect();
    assert!(moved.iter().any(|&slot| usize::from(list[slot]) != slot), "nothing moves");
    let mut meaning = Meaning::lawless(5);
    let before = meaning.results(parsed(&block));
    let followed = meaning.results_after_moves(parsed(&table), &moved);
    let by_new_number = meaning.results(parsed(&table));
    assert!(moved.iter().all(|&slot| before[slot] == followed[usize::from(list[slot])]));
    assert!(moved.iter().any(|&slot| before[slot] != by_new_number[usize::from(list[slot])]));
}
