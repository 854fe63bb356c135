//! Counts that are wrong, each in a way that a program may get wrong.

use std::mem::replace;

use crate::blocks::GraphParts;
use crate::operators::EMPTY;
use crate::random::Random;

/// Makes some of a graph's true counts wrong, if it can.
type Mistake = fn(&mut Random, &GraphParts, &mut Vec<u16>);

const MISTAKES: [Mistake; 11] = [
    |random, _, counts| one_off(random, counts),
    |random, _, counts| (0..3).for_each(|_| one_off(random, counts)),
    |_, graph, counts| *counts = readers(graph),
    |_, graph, counts| *counts = of_readers(graph, |_| true),
    |_, graph, counts| *counts = with_outputs_once(graph),
    |_, graph, counts| *counts = without_dead_readers(graph),
    |random, _, counts| trade(random, counts),
    |random, graph, counts| count_empty(random, graph, counts),
    |random, _, counts| *any_of(random, counts) ^= 256,
    |_, _, counts| counts.fill(0),
    |random, _, counts| *any_of(random, counts) = random.number() as u16,
];

/// Counts of this graph, wrong by one of these mistakes. Sometimes they are true
/// by chance.
pub(super) fn wrong_counts(random: &mut Random, graph: &GraphParts) -> Vec<u16> {
    let mut counts = graph.counts();
    if !counts.is_empty() {
        random.pick(&MISTAKES)(random, graph, &mut counts);
    }
    counts
}

fn any_of<'a>(random: &mut Random, counts: &'a mut [u16]) -> &'a mut u16 {
    &mut counts[random.below(counts.len())]
}

fn one_off(random: &mut Random, counts: &mut [u16]) {
    let step = random.pick(&[1, -1]);
    let count = any_of(random, counts);
    *count = count.wrapping_add_signed(step);
}

/// A vertex that names a slot in several places counts once.
fn readers(graph: &GraphParts) -> Vec<u16> {
    let mut named: Vec<u16> = graph.outputs.clone();
    for vertex in &graph.slots {
        let mut inputs = vertex.inputs.clone();
        inputs.sort_unstable();
        inputs.dedup();
        named.extend(inputs);
    }
    graph.times_in(named.iter())
}

/// Input places alone, of the readers of which this holds.
fn of_readers(graph: &GraphParts, is_counted: impl Fn(usize) -> bool) -> Vec<u16> {
    let readers = graph.slots.iter().enumerate().filter(|(slot, _)| is_counted(*slot));
    graph.times_in(readers.flat_map(|(_, vertex)| &vertex.inputs))
}

/// A slot that several graph outputs name counts them as one.
fn with_outputs_once(graph: &GraphParts) -> Vec<u16> {
    let mut outputs = graph.outputs.clone();
    outputs.sort_unstable();
    outputs.dedup();
    let inputs = graph.slots.iter().flat_map(|vertex| &vertex.inputs);
    graph.times_in(inputs.chain(&outputs))
}

/// Readers from which no output is reached do not count.
fn without_dead_readers(graph: &GraphParts) -> Vec<u16> {
    let mut live = vec![false; graph.slots.len()];
    let mut open = graph.outputs.clone();
    while let Some(slot) = open.pop() {
        let is_new = live.get_mut(usize::from(slot)).is_some_and(|live| !replace(live, true));
        if is_new {
            open.extend(&graph.slots[usize::from(slot)].inputs);
        }
    }
    let inputs = of_readers(graph, |slot| live[slot]);
    let outputs = graph.times_in(graph.outputs.iter());
    inputs.iter().zip(outputs).map(|(inputs, outputs)| inputs + outputs).collect()
}

/// Two slots have each other's counts.
fn trade(random: &mut Random, counts: &mut [u16]) {
    let (one, other) = (random.below(counts.len()), random.below(counts.len()));
    counts.swap(one, other);
}

/// An Empty slot is named.
fn count_empty(random: &mut Random, graph: &GraphParts, counts: &mut [u16]) {
    let slots = 0..graph.slots.len();
    let empty: Vec<usize> = slots.filter(|&slot| graph.slots[slot].kind == EMPTY).collect();
    if !empty.is_empty() {
        counts[random.pick(&empty)] = random.pick(&[1, 2, 256, 65535]);
    }
}
