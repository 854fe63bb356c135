//! The graph check, sentence by sentence: one edit to a sound block, and the
//! reply it must give.

mod common;

use common::refused;
use leafgraph_reference::blocks::*;
use leafgraph_reference::check_graph;
use leafgraph_reference::counts::write_true_counts;
use leafgraph_reference::operators::OPERATORS;

fn slot_at(slot: usize, offset: usize) -> usize {
    24 + 48 * slot + offset
}

/// E1 with these bytes from this place on.
fn edited(at: usize, bytes: &[u8]) -> Vec<u8> {
    let mut block = e1().block();
    block[at..at + bytes.len()].copy_from_slice(bytes);
    block
}

/// The reply to that.
fn with(at: usize, bytes: &[u8]) -> u64 {
    check_graph(&edited(at, bytes))
}

/// The same, with counts that are true again.
fn with_true_counts(at: usize, bytes: &[u8]) -> u64 {
    let mut block = edited(at, bytes);
    write_true_counts(&mut block);
    check_graph(&block)
}

#[test]
fn header_fields() {
    for at in [0, 1, 2, 3, 4, 5, 7, 9, 18, 19, 20, 21, 22, 23] {
        assert_eq!(with(at, &[0xee]), 20, "byte {at}");
    }
    for (at, bytes) in [(6, [5, 0]), (6, [7, 0]), (8, [0, 0]), (8, [5, 0])] {
        assert_eq!(with(at, &bytes), 20, "bytes {bytes:?} at {at}");
    }
    for place in 1..4 {
        assert_eq!(with(10 + 2 * place, &[4, 0]), 20, "an unused output place used");
    }
    assert_eq!(with(8, &[2, 0]), refused(22, 1), "a used output place unused");
    assert_eq!(with_true_counts(8, &[4, 0, 4, 0, 4, 0, 3, 0, 0, 0]), 0, "four outputs");
}

#[test]
fn lengths() {
    let block = e1().block();
    for length in [0, 3, 23, 24, 24 + 48, block.len() - 1, block.len() + 1, block.len() + 48] {
        let mut other = block.clone();
        other.resize(length, 0);
        assert_eq!(check_graph(&other), 20, "{length} bytes");
    }
}

#[test]
fn record_fields() {
    for slot in 0..6 {
        for offset in 42..48 {
            assert_eq!(with(slot_at(slot, offset), &[1]), refused(21, slot));
        }
        assert_eq!(with(slot_at(slot, 0), &[6]), refused(21, slot));
        assert_eq!(with(slot_at(slot, 1), &[15]), refused(21, slot));
        assert_eq!(with(slot_at(slot, 2), &[6]), refused(21, slot));
        assert_eq!(with(slot_at(slot, 3), &[6]), refused(21, slot));
        assert_eq!(with(slot_at(slot, 14), &[0, 0]), refused(21, slot), "last input place");
        assert_eq!(with(slot_at(slot, 36), &[0, 0, 0, 1]), refused(21, slot), "last attribute");
    }
    assert_eq!(with(slot_at(0, 16), &[0xff; 20]), 0, "any Variable attributes");
}

#[test]
fn names() {
    for number in [0, 2] {
        let bytes = u16::to_le_bytes(number);
        assert_eq!(with_true_counts(slot_at(3, 4), &bytes), 0, "slot 3 reads {number}");
    }
    for number in [5, 6, 258, 65535] {
        let bytes = u16::to_le_bytes(number);
        assert_eq!(with(slot_at(3, 4), &bytes), refused(22, 3), "slot 3 reads {number}");
        assert_eq!(with(slot_at(2, 6), &bytes), refused(22, 2), "slot 2 reads {number}");
        assert_eq!(with(10, &bytes), refused(22, 0), "output {number}");
    }
    for number in [3, 4] {
        let bytes = u16::to_le_bytes(number);
        assert_eq!(with(slot_at(3, 4), &bytes), refused(23, 3), "slot 3 reads {number}");
    }
}

#[test]
fn every_operator_has_its_counts() {
    for (index, entry) in OPERATORS.iter().enumerate() {
        for inputs in 0..=6 {
            for attributes in 0..=6 {
                let vertex = call(index as u8 + 1, &vec![0; inputs], &vec![7; attributes]);
                let block = GraphParts::new(vec![variable(), vertex], &[1]).block();
                let fits = inputs == usize::from(entry.inputs)
                    && attributes == usize::from(entry.attributes);
                let reply = if fits { 0 } else { refused(21, 1) };
                assert_eq!(check_graph(&block), reply, "{} {inputs} {attributes}", entry.name);
            }
        }
    }
}

#[test]
fn every_kind_has_its_counts() {
    for kind in [0, 1, 2, 4, 5, 6, 255] {
        for inputs in 0..=6 {
            for attributes in 0..=6 {
                let mut vertex = call(0, &vec![0; inputs], &vec![7; attributes]);
                vertex.kind = kind;
                let block = GraphParts::new(vec![variable(), vertex], &[0]).block();
                let fits = match kind {
                    0 => inputs == 0 && attributes == 0,
                    1 => inputs == 0 && attributes == 1,
                    2 => inputs == 0 && attributes == 5,
                    4 => inputs >= 1 && attributes == 0,
                    5 => inputs == 1 && attributes == 1,
                    _ => false,
                };
                assert_eq!(check_graph(&block), if fits { 0 } else { refused(21, 1) });
            }
        }
    }
}

#[test]
fn projection_index() {
    let bad = refused(21, 1);
    for (index, reply) in [(1, 0), (i32::MAX, 0), (0, bad), (-1, bad), (i32::MIN, bad)] {
        let graph = GraphParts::new(vec![variable(), projection(0, index)], &[0]);
        assert_eq!(check_graph(&graph.block()), reply);
    }
}

#[test]
fn cycles_anywhere() {
    let long = |slots: u16, back: u16| {
        let mut graph = chain(slots);
        graph.slots[usize::from(back)] = relu(slots - 1);
        graph.outputs = vec![back.saturating_sub(1)];
        check_graph(&graph.block())
    };
    assert_eq!(long(512, 0), refused(23, 0));
    assert_eq!(long(512, 1), refused(23, 1));
    assert_eq!(long(512, 511), refused(23, 511));
    assert_eq!(long(3, 1), refused(23, 1));
    assert_eq!(check_graph(&GraphParts::new(vec![empty()], &[0]).block()), refused(22, 0));
}

/// The reply to a graph of these slots with output 0.
fn reply(slots: Vec<Vertex>) -> u64 {
    check_graph(&GraphParts::new(slots, &[0]).block())
}

#[test]
fn slots_beside_a_cycle_are_not_on_it() {
    let reads = vec![relu(2), variable(), relu(3), relu(2)];
    assert_eq!(reply(reads), refused(23, 2), "slot 0 reads from the cycle");
    let read = vec![variable(), relu(0), add(1, 3), relu(2)];
    assert_eq!(reply(read), refused(23, 2), "slots 0 and 1 are read by the cycle");
    let far = vec![relu(1), relu(2), relu(3), relu(4), relu(4)];
    assert_eq!(reply(far), refused(23, 4), "a slot that reads itself, and four that hang from it");
    let between = vec![variable(), relu(2), relu(2), add(1, 4), relu(4)];
    assert_eq!(reply(between), refused(23, 2), "from one cycle, and read by none");
    let joined = vec![relu(3), relu(1), add(1, 3), add(2, 4), relu(3)];
    assert_eq!(reply(joined), refused(23, 1), "slot 0 reads from one of two cycles");
}

#[test]
fn the_lowest_of_several_cycles() {
    assert_eq!(reply(vec![variable(), relu(4), relu(2), relu(3), relu(1)]), refused(23, 1));
    assert_eq!(reply(vec![variable(), relu(2), relu(2), relu(3)]), refused(23, 2));
    assert_eq!(reply(vec![relu(4), variable(), variable(), relu(3), relu(0)]), refused(23, 0));
    let crossed = vec![variable(), add(2, 3), relu(1), relu(1)];
    assert_eq!(reply(crossed), refused(23, 1), "two cycles through one slot");
    let mut largest = reversed_chain(512);
    largest.slots[511] = relu(510);
    assert_eq!(check_graph(&largest.block()), refused(23, 510), "510 slots hang from the cycle");
}

#[test]
fn the_lowest_slot_of_several() {
    let mut block = e1().block();
    block[slot_at(4, 42)] = 1;
    assert_eq!(check_graph(&block), refused(21, 4));
    block[slot_at(1, 47)] = 1;
    assert_eq!(check_graph(&block), refused(21, 1));
    block[slot_at(5, 1)] = 1;
    assert_eq!(check_graph(&block), refused(21, 1));
    let misnamed =
        |reads: [u16; 3]| reply(vec![variable(), relu(reads[0]), add(reads[1], reads[2])]);
    assert_eq!(misnamed([3, 0, 9]), refused(22, 1));
    assert_eq!(misnamed([0, 9, 9]), refused(22, 2));
}

#[test]
fn outputs_are_looked_at_after_all_inputs() {
    let graph = |reads: u16, outputs: &[u16]| {
        let slots = vec![variable(), relu(0), relu(0), empty(), relu(0), relu(0), relu(reads)];
        check_graph(&GraphParts::new(slots, outputs).block())
    };
    assert_eq!(graph(0, &[1, 2, 4, 5]), 0);
    assert_eq!(graph(0, &[3, 2, 4, 5]), refused(22, 0));
    assert_eq!(graph(0, &[1, 2, 4, 3]), refused(22, 3));
    assert_eq!(graph(0, &[1, 7, 3, 65535]), refused(22, 1));
    assert_eq!(graph(3, &[1, 2, 4, 5]), refused(22, 6));
    assert_eq!(graph(3, &[3, 7, 4, 5]), refused(22, 6), "input and outputs");
}

#[test]
fn kinds_come_in_order() {
    let slots = vec![variable(), relu(9), relu(3), add(2, 2), projection(0, 1)];
    let mut block = GraphParts::new(slots, &[9]).block();
    block[slot_at(4, 16)] = 0;
    block[3] = 1;
    assert_eq!(check_graph(&block), 20);
    block[3] = 0;
    assert_eq!(check_graph(&block), refused(21, 4));
    block[slot_at(4, 16)] = 1;
    assert_eq!(check_graph(&block), refused(22, 1));
    block[slot_at(1, 4)] = 0;
    assert_eq!(check_graph(&block), refused(22, 0));
    block[10] = 1;
    assert_eq!(check_graph(&block), refused(23, 2));
    block[slot_at(2, 4)] = 1;
    assert_eq!(check_graph(&block), refused(24, 0));
    write_true_counts(&mut block);
    assert_eq!(check_graph(&block), 0);
}
