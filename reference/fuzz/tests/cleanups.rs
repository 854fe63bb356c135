//! The comparison notices programs that sweep or squeeze wrongly: each one here is
//! the proved library with one thing spoilt.

use leafgraph_fuzz::cleanup_examples::{cleanup_examples, CleanupExample};
use leafgraph_fuzz::comparison::compare;
use leafgraph_fuzz::input::{Control, Input};
use leafgraph_fuzz::library::{Library, Operation, PROVED, SECOND};
use leafgraph_fuzz::tally::Tally;
use leafgraph_reference::blocks::{e1, relu, rr, variable, GraphParts};
use leafgraph_reference::counts::write_true_counts;
use leafgraph_reference::operators::VARIABLE;

/// With a map and a list that are by so many bytes longer than they should be.
fn input(example: &CleanupExample, longer: i8) -> Vec<u8> {
    let map_length = 32u8.wrapping_add_signed(longer);
    let control = Control { map_length, ..Control::default() };
    control.input_bytes(&example.graph.block(), &example.rule.block())
}

/// The names of the examples on which a difference is seen.
fn noticed(library: &Library) -> Vec<&'static str> {
    let differs =
        |example: &CleanupExample| compare(library, &input(example, 0), &mut Tally::new()).is_err();
    let examples = cleanup_examples();
    examples.iter().filter(|example| differs(example)).map(|example| example.name).collect()
}

#[test]
fn right_programs_pass() {
    assert!(noticed(&PROVED).is_empty() && noticed(&SECOND).is_empty());
}

/// The records of a block.
fn records(graph: &mut [u8]) -> impl Iterator<Item = &mut [u8]> {
    graph[24..].chunks_exact_mut(48)
}

fn inputs(record: &[u8]) -> Vec<u16> {
    let places = record[4..4 + 2 * usize::from(record[2])].chunks_exact(2);
    places.map(|place| u16::from_le_bytes([place[0], place[1]])).collect()
}

/// An Empty slot's record.
fn make_empty(record: &mut [u8]) {
    record.fill(0);
    record[4..16].fill(255);
}

/// One look at each vertex: what nothing names goes, what it alone has read does
/// not.
#[test]
fn a_sweep_of_the_last_stage_alone_is_noticed() {
    let sweep = |graph: &mut [u8]| {
        let old = graph.to_vec();
        let reply = (PROVED.sweep)(graph);
        let read: Vec<u16> = records(&mut old.clone()).flat_map(|record| inputs(record)).collect();
        for (slot, (new, old)) in records(graph).zip(old[24..].chunks_exact(48)).enumerate() {
            if reply == 0 && read.contains(&(slot as u16)) {
                new.copy_from_slice(old);
            }
        }
        if reply == 0 {
            write_true_counts(graph);
        }
        reply
    };
    let names = noticed(&Library { sweep, ..PROVED });
    assert_eq!(names, ["dead-chain", "dead-chain-reversed", "dead-room"]);
}

#[test]
fn a_sweep_of_variables_is_noticed() {
    let sweep = |graph: &mut [u8]| {
        let reply = (PROVED.sweep)(graph);
        let outputs: Vec<u8> = graph[10..18].to_vec();
        let mut named: Vec<u16> = records(graph).flat_map(|record| inputs(record)).collect();
        named.extend(outputs.chunks_exact(2).map(|place| u16::from_le_bytes([place[0], place[1]])));
        for (slot, record) in records(graph).enumerate() {
            if reply == 0 && record[0] == VARIABLE && !named.contains(&(slot as u16)) {
                make_empty(record);
            }
        }
        reply
    };
    let names = noticed(&Library { sweep, ..PROVED });
    assert_eq!(names, ["unread-variable", "variable-of-dead"]);
}

/// A program that looks at the first graph output alone. Where another one names
/// what it removed the table is not even sound.
#[test]
fn a_sweep_by_the_first_output_is_noticed() {
    let sweep = |graph: &mut [u8]| {
        let mut spoilt = graph.to_vec();
        spoilt[8] = 1;
        spoilt[12..18].fill(255);
        let reply = (PROVED.sweep)(graph);
        if reply == 0 {
            write_true_counts(&mut spoilt);
            (PROVED.sweep)(&mut spoilt);
            graph[24..].copy_from_slice(&spoilt[24..]);
            write_true_counts(graph);
        }
        reply
    };
    assert_eq!(noticed(&Library { sweep, ..PROVED }), ["later-output"]);
}

#[test]
fn a_sweep_that_is_forgotten_is_noticed() {
    let names = noticed(&Library { sweep: |graph| (PROVED.check_graph)(graph), ..PROVED });
    let dead = [
        "dead-vertex",
        "dead-chain",
        "dead-chain-reversed",
        "dead-constant",
        "variable-of-dead",
        "output-of-dead",
        "dead-vertex-moves",
        "dead-room",
    ];
    assert_eq!(names, dead);
}

/// A program that leaves alone the records of vertices that keep their slots.
#[test]
fn inputs_that_do_not_follow_are_noticed() {
    let squeeze = |graph: &mut [u8], list: &mut [u8]| {
        let old = graph.to_vec();
        let reply = (PROVED.squeeze)(graph, list);
        let moves = list.chunks_exact(2).map(|number| u16::from_le_bytes([number[0], number[1]]));
        let slots = records(graph).zip(old[24..].chunks_exact(48)).zip(moves).zip(0..);
        for (((new, old), move_to), slot) in slots {
            if reply == 0 && move_to == slot {
                new.copy_from_slice(old);
            }
        }
        reply
    };
    assert_eq!(noticed(&Library { squeeze, ..PROVED }), ["higher-input"]);
}

#[test]
fn outputs_that_do_not_follow_are_noticed() {
    let squeeze = |graph: &mut [u8], list: &mut [u8]| {
        let header = graph[..24].to_vec();
        let reply = (PROVED.squeeze)(graph, list);
        graph[..24].copy_from_slice(&header);
        reply
    };
    // The first three have Empty slots only once they are swept.
    let renamed = [
        "dead-chain-reversed",
        "dead-constant",
        "variable-of-dead",
        "empty-first",
        "empty-between",
        "both-inputs",
        "dead-vertex-moves",
        "empty-in-three-places",
    ];
    assert_eq!(noticed(&Library { squeeze, ..PROVED }), renamed);
}

#[test]
fn a_squeeze_that_sweeps_is_noticed() {
    let squeeze = |graph: &mut [u8], list: &mut [u8]| {
        let reply = (PROVED.squeeze)(graph, list);
        (PROVED.sweep)(graph);
        reply
    };
    let (operation, _) = difference(&Library { squeeze, ..PROVED }, "dead-vertex-moves", 0);
    assert_eq!(operation, Operation::Squeeze);
    assert!(!noticed(&Library { squeeze, ..PROVED }).contains(&"empty-between"));
}

/// The operation in which the difference is seen on this example, and the first
/// thing said.
fn difference(library: &Library, name: &str, longer: i8) -> (Operation, String) {
    let examples = cleanup_examples();
    let example = examples.iter().find(|example| example.name == name).expect("an example");
    let outcome = compare(library, &input(example, longer), &mut Tally::new());
    let difference = outcome.expect_err("a wrong program");
    (difference.operation, difference.faults[0].clone())
}

/// The list of a squeeze that moves nothing is written, too.
#[test]
fn a_list_left_alone_is_noticed() {
    let squeeze = |graph: &mut [u8], list: &mut [u8]| {
        let (old, before) = (graph.to_vec(), list.to_vec());
        let reply = (PROVED.squeeze)(graph, list);
        if graph == old {
            list.copy_from_slice(&before);
        }
        reply
    };
    let (operation, fault) = difference(&Library { squeeze, ..PROVED }, "all-live", 0);
    assert_eq!(operation, Operation::Squeeze);
    assert!(fault.starts_with("list after, 7 bytes differ, the first at 1"), "{fault}");
}

/// An Empty slot "went" nowhere.
#[test]
fn another_number_for_empty_slots_is_noticed() {
    let squeeze = |graph: &mut [u8], list: &mut [u8]| {
        let reply = (PROVED.squeeze)(graph, list);
        let numbers = list.chunks_exact_mut(2).filter(|number| **number == [255, 255]);
        numbers.for_each(|number| number.fill(0));
        reply
    };
    let (operation, fault) = difference(&Library { squeeze, ..PROVED }, "empty-behind", 0);
    assert_eq!(operation, Operation::Squeeze);
    assert!(fault.starts_with("list after, 4 bytes differ, the first at 4"), "{fault}");
}

/// Lists that are wrong only where nothing moves. The first squeeze of this example
/// moves something, so they are those of the second.
#[test]
fn a_wrong_second_list_is_noticed() {
    let forgotten: fn(&mut [u8], &mut [u8]) -> u64 = |graph, list| {
        let (old, before) = (graph.to_vec(), list.to_vec());
        let reply = (PROVED.squeeze)(graph, list);
        if graph == old {
            list.copy_from_slice(&before);
        }
        reply
    };
    let another: fn(&mut [u8], &mut [u8]) -> u64 = |graph, list| {
        let old = graph.to_vec();
        let reply = (PROVED.squeeze)(graph, list);
        if graph == old {
            list[2] ^= 1;
        }
        reply
    };
    for squeeze in [forgotten, another] {
        let (operation, fault) = difference(&Library { squeeze, ..PROVED }, "empty-between", 0);
        assert_eq!(operation, Operation::Squeeze);
        assert_eq!(fault, "the same call once more changes something");
    }
}

#[test]
fn a_wrong_list_taken_is_noticed() {
    let squeeze = |graph: &mut [u8], list: &mut [u8]| {
        let right = 2 * (graph.len().saturating_sub(24) / 48);
        let length = if list.len() > right { right } else { list.len() };
        (PROVED.squeeze)(graph, &mut list[..length])
    };
    let library = Library { squeeze, ..PROVED };
    for shorter in [-1, -2] {
        let examples = cleanup_examples();
        let outcome = compare(&library, &input(&examples[0], shorter), &mut Tally::new());
        outcome.expect("no difference");
    }
    for longer in [1, 2, 40] {
        let (operation, fault) = difference(&library, "all-live", longer);
        assert_eq!(operation, Operation::Squeeze);
        assert_eq!(fault, "the library replies 0x0, the second program 0x28");
    }
}

/// "bad graph as before, then 40"
#[test]
fn the_list_before_the_graph_is_noticed() {
    let squeeze = |graph: &mut [u8], list: &mut [u8]| match 2 * usize::from(graph[6]) == list.len()
    {
        true => (PROVED.squeeze)(graph, list),
        false => 40,
    };
    let library = Library { squeeze, ..PROVED };
    let cycle = GraphParts::new(vec![variable(), relu(1)], &[0]);
    let example = CleanupExample { name: "a cycle", graph: cycle, rule: rr() };
    compare(&library, &input(&example, 0), &mut Tally::new()).expect("no difference");
    let outcome = compare(&library, &input(&example, -4), &mut Tally::new());
    let difference = outcome.expect_err("a wrong program");
    assert_eq!(difference.operation, Operation::Squeeze);
    assert_eq!(difference.faults[0], "the library replies 0x28, the second program 0x117");
}

#[test]
fn a_refusal_that_writes_is_noticed() {
    let squeeze = |graph: &mut [u8], list: &mut [u8]| {
        let reply = (PROVED.squeeze)(graph, list);
        list.fill(if reply == 0 { list[0] } else { 0 });
        reply
    };
    let (operation, fault) = difference(&Library { squeeze, ..PROVED }, "all-live", 1);
    assert_eq!(operation, Operation::Squeeze);
    assert!(fault.starts_with("list after, "), "{fault}");
    let sweep = |graph: &mut [u8]| {
        let reply = (PROVED.sweep)(graph);
        graph[30] = 0;
        reply
    };
    let example = CleanupExample {
        name: "a bad output",
        graph: GraphParts { outputs: vec![5], ..e1() },
        rule: rr(),
    };
    let outcome = compare(&Library { sweep, ..PROVED }, &input(&example, 0), &mut Tally::new());
    let told = outcome.expect_err("a wrong program").to_string();
    assert!(told.contains("refuses, and has written the graph"), "{told}");
}

/// The list is by as many bytes longer or shorter than 2N as the map is than 32.
#[test]
fn lists_are_cut() {
    let example = &cleanup_examples()[0];
    for (longer, length) in [(0, 8), (1, 9), (-1, 7), (-8, 0), (-32, 0), (100, 108)] {
        let input = Input::cut(&input(example, longer));
        assert_eq!(input.list.len(), length);
        assert_eq!(input.map.len(), 32usize.wrapping_add_signed(longer.into()));
    }
}
