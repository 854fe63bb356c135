//! Sound graphs of every size.

use crate::blocks::{call, GraphParts, Vertex};
use crate::blocks::{constant, empty, projection, tuple, variable_of};
use crate::graph::MAX_SLOTS;
use crate::operators::{operator_of, ADD, CONST, OPERATORS, PLACES, RELU, VARIABLE};
use crate::random::Random;

use super::tables::{add_output, crowd, renumber};

/// A sound graph, mostly small, sometimes as large as they come.
pub fn sound_graph(random: &mut Random) -> GraphParts {
    match random.below(100) {
        0..=3 => long_chain(random),
        4 | 5 => crowded_graph(random),
        _ => {
            let slots = slot_count(random);
            sound_graph_of(random, slots)
        }
    }
}

/// A graph with a vertex that is named more than 255 times.
fn crowded_graph(random: &mut Random) -> GraphParts {
    let slots = random.within(1, 30);
    let mut graph = sound_graph_of(random, slots);
    let named = random.pick(&graph.outputs);
    crowd(random, &mut graph, named);
    let last = graph.slots.len() as u16 - 1;
    add_output(random, &mut graph, last);
    renumber(random, &mut graph, &mut []);
    graph
}

fn slot_count(random: &mut Random) -> usize {
    match random.below(100) {
        0..=64 => random.within(1, 12),
        65..=89 => random.within(13, 40),
        90..=96 => random.within(41, 160),
        97..=98 => random.within(161, 512),
        _ => random.pick(&[MAX_SLOTS, MAX_SLOTS, MAX_SLOTS - 1]),
    }
}

/// A sound graph of this many slots, if they are 1 to 512. Vertices are made in an order
/// that follows the edges and then put into slots that follow this order, go
/// against it or mix it.
pub fn sound_graph_of(random: &mut Random, slots: usize) -> GraphParts {
    let numbers = used_slots(random, slots);
    let mut table = vec![empty(); slots];
    let reach = random.pick(&[2, 4, 16, slots]);
    for (index, &number) in numbers.iter().enumerate() {
        let vertex = if index > 0 && random.chance(8) {
            let alike = random.pick(&numbers[..index]);
            table[usize::from(alike)].clone()
        } else {
            vertex_over(random, &numbers[..index], reach)
        };
        table[usize::from(number)] = vertex;
    }
    if random.chance(25) {
        put_constants(random, &mut table);
    }
    let outputs: Vec<u16> =
        (0..random.within(1, 4)).map(|_| late(random, &numbers, reach)).collect();
    GraphParts::new(table, &outputs)
}

/// Most Variables become Consts, and these get more readers: sources with
/// several Consts are cut out, and Consts that others read. A Const reads
/// nothing, so that no cycle is closed.
fn put_constants(random: &mut Random, table: &mut [Vertex]) {
    for vertex in table.iter_mut().filter(|vertex| vertex.kind == VARIABLE) {
        if random.chance(70) {
            *vertex = constant(attribute(random));
        }
    }
    let slots = 0..table.len() as u16;
    let constants: Vec<u16> =
        slots.filter(|&slot| table[usize::from(slot)].kind == CONST).collect();
    for input in table.iter_mut().flat_map(|vertex| &mut vertex.inputs) {
        if !constants.is_empty() && random.chance(20) {
            *input = random.pick(&constants);
        }
    }
}

/// A graph in which nearly every vertex reads the one before: the longest
/// paths, and after damage the longest cycles, with no shorter one beside.
fn long_chain(random: &mut Random) -> GraphParts {
    let slots = random.within(2, MAX_SLOTS);
    let numbers = used_slots(random, slots);
    let mut table = vec![empty(); slots];
    table[usize::from(numbers[0])] = leaf(random);
    for index in 1..numbers.len() {
        let mut input = numbers[index - 1];
        if random.chance(1) {
            input = random.pick(&numbers[..index]);
        }
        table[usize::from(numbers[index])] = match random.below(4) {
            0 => call(ADD, &[input, input], &[]),
            1 => tuple(&[input]),
            _ => call(RELU, &[input], &[]),
        };
    }
    let output = random.pick(&numbers);
    GraphParts::new(table, &[output])
}

/// A graph that is one long path, of vertices with one input each or with
/// the same one in several places: large sources can be cut out of it.
pub(super) fn deep_graph(random: &mut Random) -> GraphParts {
    let slots = random.within(17, 60);
    let mut numbers = used_slots(random, slots);
    let last = numbers.pop().expect("a slot in use");
    let mut table = vec![empty(); slots];
    let mut input = last;
    table[usize::from(last)] = leaf(random);
    for number in numbers {
        table[usize::from(number)] = vertex_over_one(random, input);
        input = number;
    }
    GraphParts::new(table, &[input])
}

fn vertex_over_one(random: &mut Random, input: u16) -> Vertex {
    match random.below(10) {
        0 => tuple(&vec![input; random.within(1, PLACES)]),
        1 => projection(input, attribute(random).max(1)),
        _ => {
            let operator = random.within(RELU.into(), OPERATORS.len()) as u8;
            let entry = operator_of(operator).expect("a number from 1 to 14");
            let attributes = (0..entry.attributes).map(|_| attribute(random));
            call(operator, &[input], &attributes.collect::<Vec<i32>>())
        }
    }
}

/// The slots that are not Empty, in the order of the edges.
fn used_slots(random: &mut Random, slots: usize) -> Vec<u16> {
    let empty = match random.below(4) {
        0 | 1 => 0,
        2 => random.below(slots.min(4)),
        _ => random.below(slots),
    };
    let mut numbers: Vec<u16> = (0..slots as u16).collect();
    if empty > 0 {
        random.shuffle(&mut numbers);
        numbers.truncate(slots - empty);
        numbers.sort_unstable();
    }
    match random.below(3) {
        0 => {}
        1 => numbers.reverse(),
        _ => random.shuffle(&mut numbers),
    }
    numbers
}

/// One of the numbers, from the last few in half of the cases.
fn late(random: &mut Random, numbers: &[u16], reach: usize) -> u16 {
    let few = reach.min(numbers.len());
    match random.chance(50) {
        true => numbers[numbers.len() - 1 - random.below(few)],
        false => random.pick(numbers),
    }
}

/// A vertex of any kind that reads only the slots given.
pub(super) fn vertex_over(random: &mut Random, slots: &[u16], reach: usize) -> Vertex {
    let kind = random.below(100);
    if slots.is_empty() || kind < 14 {
        return leaf(random);
    }
    let inputs = |random: &mut Random, count: usize| -> Vec<u16> {
        (0..count).map(|_| late(random, slots, reach)).collect()
    };
    match kind {
        14..=74 => {
            let operator = common_operator(random);
            let entry = operator_of(operator).expect("a number from 1 to 14");
            let inputs = inputs(random, usize::from(entry.inputs));
            let attributes = (0..entry.attributes).map(|_| attribute(random));
            call(operator, &inputs, &attributes.collect::<Vec<i32>>())
        }
        75..=88 => {
            let count = random.within(1, 6);
            tuple(&inputs(random, count))
        }
        _ => {
            let input = inputs(random, 1)[0];
            projection(input, attribute(random).max(1))
        }
    }
}

/// Few operators most of the time, so that patterns meet look-alikes.
pub(super) fn common_operator(random: &mut Random) -> u8 {
    match random.chance(50) {
        true => random.pick(&[1, 3, 7, 10, 12]),
        false => random.within(1, 14) as u8,
    }
}

pub(super) fn leaf(random: &mut Random) -> Vertex {
    match random.chance(70) {
        true => variable_of([(); 5].map(|()| attribute(random))),
        false => constant(attribute(random)),
    }
}

/// An attribute: small most of the time, so that some are equal.
pub(super) fn attribute(random: &mut Random) -> i32 {
    match random.below(20) {
        0..=12 => random.below(4) as i32,
        13..=16 => random.below(41) as i32 - 20,
        17 => random.pick(&[i32::MIN, i32::MIN + 1, -1, i32::MAX - 1, i32::MAX]),
        18 => random.pick(&[65535, 65536, -65536, 46340, 46341]),
        _ => random.number() as i32,
    }
}
