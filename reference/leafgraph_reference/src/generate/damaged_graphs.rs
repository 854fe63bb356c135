//! Graphs with one fault, or a few. What the damage leaves may be sound by
//! chance: the two programs must agree then too.

use crate::blocks::{call, empty, GraphParts, Vertex};
use crate::counts::{write_counts, write_true_counts};
use crate::fields::put_u16;
use crate::graph::{Graph, HEADER, MAX_SLOTS, RECORD, VERSION};
use crate::operators::{PROJ, RELU};
use crate::random::Random;

use super::damages::damages;
use super::graphs::{sound_graph, sound_graph_of, vertex_over};
use super::wrong_counts::wrong_counts;

/// Sorts of damage to the parts and to the bytes.
const PART_SORTS: usize = 10;
const BYTE_SORTS: usize = 12;

/// In so many of a hundred graphs with other damage the counts are wrong, too.
const COUNTS_TOO: usize = 12;
/// In so many of them the counts are those from before the damage to the bytes.
const OLD_COUNTS: usize = 25;
/// In so many of them the version is another one, too.
const VERSION_TOO: usize = 4;

/// A sound graph's block after one damage or a few.
pub fn damaged_graph(random: &mut Random) -> Vec<u8> {
    let parts = parts_to_damage(random);
    damaged_graph_of(random, parts)
}

/// Seldom with one slot too many.
fn parts_to_damage(random: &mut Random) -> GraphParts {
    match random.below(200) {
        0 => sound_graph_of(random, MAX_SLOTS + 1),
        _ => sound_graph(random),
    }
}

/// A sound graph's parts after one damage or a few that keep every record in the shape
/// of its kind; seldom with no vertex left.
pub fn damaged_parts(random: &mut Random) -> GraphParts {
    let mut parts = sound_graph(random);
    for sort in damages(random, PART_SORTS) {
        damage_parts(random, &mut parts, sort);
    }
    if random.chance(3) {
        parts.slots.fill(empty());
    }
    parts
}

/// This graph's block after one damage or a few. It may be a sound one of version
/// 1, or one with another version or wrong counts and no other damage.
pub fn damaged_graph_of(random: &mut Random, mut parts: GraphParts) -> Vec<u8> {
    let mut block = parts.block();
    match random.below(100) {
        0 | 1 => block = parts.version_1_block(),
        2..=5 => change_version(random, &mut block),
        6..=20 => write_counts(&mut block, &wrong_counts(random, &parts)),
        _ => {
            block = damaged_but_counts(random, &mut parts, GraphParts::block);
            damage_counts(random, &parts, &mut block);
        }
    }
    block
}

/// Counts that are true in spite of the damage, or else wrong, and seldom another
/// version.
fn damage_counts(random: &mut Random, parts: &GraphParts, block: &mut [u8]) {
    if block.len() < HEADER {
        return;
    }
    if !random.chance(OLD_COUNTS) {
        write_true_counts(block);
    }
    if random.chance(COUNTS_TOO) {
        write_counts(block, &wrong_counts(random, parts));
    }
    if random.chance(VERSION_TOO) {
        change_version(random, block);
    }
}

/// A sound graph's block of version 1 after one damage or a few. It may be a sound
/// one of version 2, or one with another version or with true counts in it and no
/// other damage.
pub fn damaged_version_1_graph(random: &mut Random) -> Vec<u8> {
    let mut parts = parts_to_damage(random);
    let mut block = parts.version_1_block();
    match random.below(100) {
        0 | 1 => block = parts.block(),
        2..=5 => change_version(random, &mut block),
        6..=8 => write_true_counts(&mut block),
        _ => block = damaged_but_counts(random, &mut parts, GraphParts::version_1_block),
    }
    block
}

/// A version that may differ in some bits only from one that is taken.
fn change_version(random: &mut Random, block: &mut [u8]) {
    let version = random.pick(&[0, 1, 2, 3, 256, 257, 258, 512, 65535]);
    put_u16(block, VERSION, version);
}

/// Damage to the parts, to the bytes of the block that is made of them, or to both.
fn damaged_but_counts(
    random: &mut Random,
    parts: &mut GraphParts,
    block_of: fn(&GraphParts) -> Vec<u8>,
) -> Vec<u8> {
    let in_parts = random.chance(50);
    if in_parts {
        for sort in damages(random, PART_SORTS) {
            damage_parts(random, parts, sort);
        }
    }
    let mut block = block_of(parts);
    if !in_parts || random.chance(15) {
        for sort in damages(random, BYTE_SORTS) {
            damage_bytes(random, &mut block, sort);
        }
    }
    block
}

/// Damage that keeps every record in the shape of its kind.
fn damage_parts(random: &mut Random, parts: &mut GraphParts, sort: usize) {
    match sort {
        0..=3 => close_cycle(random, parts),
        4 | 5 => misname_input(random, parts),
        6 => misname_output(random, parts),
        7 => {
            let slot = favoured(random, parts.slots.len());
            parts.slots[slot] = empty();
        }
        8 => {
            let slot = favoured(random, parts.slots.len());
            let all: Vec<u16> = (0..parts.slots.len() as u16).collect();
            parts.slots[slot] = vertex_over(random, &all, all.len());
        }
        _ => {
            let index = random.pick(&[0, -1, i32::MIN, 1, i32::MAX]);
            let projections = parts.slots.iter_mut().filter(|vertex| vertex.kind == PROJ);
            let mut projections: Vec<&mut Vertex> = projections.collect();
            if !projections.is_empty() {
                let any = random.below(projections.len());
                projections[any].attributes[0] = index;
            }
        }
    }
}

/// A slot: the first, the last or any.
fn favoured(random: &mut Random, slots: usize) -> usize {
    match random.below(4) {
        0 => 0,
        1 => slots - 1,
        _ => random.below(slots),
    }
}

/// An edge that closes a cycle through a slot: from what the slot reaches,
/// near or far, back to what reaches it.
fn close_cycle(random: &mut Random, parts: &mut GraphParts) {
    let through = favoured(random, parts.slots.len());
    if parts.slots[through].kind == 0 {
        return;
    }
    let below = reached(through, &readers(parts));
    let reader = near_or_far(random, &below);
    if parts.slots[through].inputs.is_empty() {
        parts.slots[through] = call(RELU, &[reader as u16], &[]);
        return;
    }
    let mut above = reached(through, &inputs(parts));
    above.retain(|&slot| !parts.slots[slot].inputs.is_empty());
    let start = near_or_far(random, &above);
    let place = random.below(parts.slots[start].inputs.len());
    parts.slots[start].inputs[place] = reader as u16;
}

/// The first, the last or any of these slots.
fn near_or_far(random: &mut Random, slots: &[usize]) -> usize {
    match random.below(3) {
        0 => slots[0],
        1 => slots[slots.len() - 1],
        _ => random.pick(slots),
    }
}

/// What each slot reads; an earlier damage may have left inputs that name no
/// slot.
fn inputs(parts: &GraphParts) -> Vec<Vec<usize>> {
    let slots = parts.slots.len();
    let of = |inputs: &Vec<u16>| {
        inputs.iter().map(|&input| input.into()).filter(|&input| input < slots).collect()
    };
    parts.slots.iter().map(|vertex| of(&vertex.inputs)).collect()
}

fn readers(parts: &GraphParts) -> Vec<Vec<usize>> {
    let mut readers = vec![vec![]; parts.slots.len()];
    for (slot, inputs) in inputs(parts).into_iter().enumerate() {
        for input in inputs {
            readers[input].push(slot);
        }
    }
    readers
}

/// All that the edges lead to, the start first, near ones before far ones.
fn reached(start: usize, edges: &[Vec<usize>]) -> Vec<usize> {
    let mut seen = vec![false; edges.len()];
    let mut order = vec![start];
    seen[start] = true;
    let mut next = 0;
    while next < order.len() {
        for &slot in &edges[order[next]] {
            if !seen[slot] {
                seen[slot] = true;
                order.push(slot);
            }
        }
        next += 1;
    }
    order
}

/// A number that names no vertex: an Empty slot, N, or something above.
fn bad_name(random: &mut Random, parts: &GraphParts) -> u16 {
    let slots = parts.slots.len();
    let empty: Vec<usize> = (0..slots).filter(|&slot| parts.slots[slot].kind == 0).collect();
    if !empty.is_empty() && random.chance(60) {
        return random.pick(&empty) as u16;
    }
    let above = slots as u16;
    random.pick(&[above, above + 1, 511, 512, 513, 32768, 65534, 65535])
}

fn misname_input(random: &mut Random, parts: &mut GraphParts) {
    let name = bad_name(random, parts);
    let first = favoured(random, parts.slots.len());
    let slots = parts.slots.len();
    let reader = (0..slots)
        .map(|step| (first + step) % slots)
        .find(|&slot| !parts.slots[slot].inputs.is_empty());
    if let Some(reader) = reader {
        let places = parts.slots[reader].inputs.len();
        let any = random.below(places);
        let place = random.pick(&[0, places - 1, any]);
        parts.slots[reader].inputs[place] = name;
    }
}

fn misname_output(random: &mut Random, parts: &mut GraphParts) {
    let name = bad_name(random, parts);
    let place = random.below(parts.outputs.len());
    parts.outputs[place] = name;
}

/// Damage to the bytes, whatever they mean.
fn damage_bytes(random: &mut Random, block: &mut Vec<u8>, sort: usize) {
    if block.len() < HEADER + RECORD {
        return block.push(random.byte());
    }
    match sort {
        0..=5 => set_field(random, block),
        6 => {
            let at = random.below(block.len());
            block[at] ^= 1 << random.below(8);
        }
        7 => change_length(random, block),
        8 | 9 => fill_unused_place(random, block),
        10 => swap_records(random, block),
        _ => change_slot_count(random, block),
    }
}

/// The fields of the header, and of a record, as (offset, width).
const HEADER_FIELDS: [(usize, usize); 17] = [
    (0, 1),
    (1, 1),
    (2, 1),
    (3, 1),
    (4, 2),
    (6, 2),
    (8, 2),
    (10, 2),
    (12, 2),
    (14, 2),
    (16, 2),
    (18, 1),
    (19, 1),
    (20, 1),
    (21, 1),
    (22, 1),
    (23, 1),
];

fn record_field(random: &mut Random) -> (usize, usize) {
    match random.below(10) {
        0..=3 => (random.below(4), 1),
        4..=6 => (4 + 2 * random.below(6), 2),
        7 | 8 => (16 + 4 * random.below(6), 4),
        _ => (40 + random.below(8), 1),
    }
}

/// One field to a value at the edge of what is allowed.
fn set_field(random: &mut Random, block: &mut [u8]) {
    let slots = (block.len() - HEADER) / RECORD;
    let (at, width) = match random.chance(40) {
        true => random.pick(&HEADER_FIELDS),
        false => {
            let (offset, width) = record_field(random);
            (HEADER + RECORD * favoured(random, slots) + offset, width)
        }
    };
    let mut old = [0; 8];
    old[..width].copy_from_slice(&block[at..at + width]);
    let value = edge_value(random, width, i64::from_le_bytes(old), slots as i64);
    block[at..at + width].copy_from_slice(&value.to_le_bytes()[..width]);
}

const BYTE_EDGES: [i64; 12] = [0, 1, 2, 3, 4, 5, 6, 7, 14, 15, 128, 255];
const NUMBER_EDGES: [i64; 9] = [0, 1, 4, 5, 512, 513, 32768, 65534, 65535];
const ATTRIBUTE_EDGES: [i64; 6] = [0, 1, -1, 1 << 24, i32::MIN as i64, i32::MAX as i64];

/// A value that some limit is near to, or that the old one is near to. Only
/// the lowest bytes of it are used.
fn edge_value(random: &mut Random, width: usize, old: i64, slots: i64) -> i64 {
    if random.chance(20) {
        return old + random.pick(&[1, -1, 256]);
    }
    match width {
        1 => random.pick(&BYTE_EDGES),
        2 if random.chance(30) => slots + random.pick(&[-1, 0, 1]),
        2 => random.pick(&NUMBER_EDGES),
        _ => random.pick(&ATTRIBUTE_EDGES),
    }
}

fn change_length(random: &mut Random, block: &mut Vec<u8>) {
    match random.below(6) {
        0 => {
            block.pop();
        }
        1 => block.push(0),
        2 => block.truncate(random.below(block.len())),
        3 => block.truncate(block.len() - RECORD),
        4 => {
            let record = block[block.len() - RECORD..].to_vec();
            block.extend(record);
        }
        _ => {
            let count = random.within(1, 60);
            block.extend(random.bytes(count));
        }
    }
}

/// Something in a place that the counts say is unused.
fn fill_unused_place(random: &mut Random, block: &mut [u8]) {
    let slots = (block.len() - HEADER) / RECORD;
    let slot = favoured(random, slots);
    let base = HEADER + RECORD * slot;
    let (inputs, attributes) = (usize::from(block[base + 2]), usize::from(block[base + 3]));
    let any = random.byte();
    let value = random.pick(&[0, 1, 254, any]);
    let at = match random.below(5) {
        0 => 18 + random.below(6),
        1 => base + 40 + random.below(8),
        2 if inputs < 6 => base + 4 + 2 * inputs + random.below(2 * (6 - inputs)),
        3 if attributes < 6 => base + 16 + 4 * attributes + random.below(4 * (6 - attributes)),
        _ => {
            let outputs = usize::from(block[8]).min(3);
            10 + 2 * outputs + random.below(2 * (4 - outputs))
        }
    };
    block[at] = value;
}

/// Two records trade places and nobody's inputs follow.
fn swap_records(random: &mut Random, block: &mut [u8]) {
    let slots = (block.len() - HEADER) / RECORD;
    let (one, other) = (favoured(random, slots), random.below(slots));
    for offset in 0..RECORD {
        block.swap(HEADER + RECORD * one + offset, HEADER + RECORD * other + offset);
    }
}

/// One slot more or less, with the length to it. A new slot is Empty or not.
fn change_slot_count(random: &mut Random, block: &mut Vec<u8>) {
    let slots = Graph::view(block).slot_count();
    let changed = if slots > 1 && random.chance(60) {
        block.truncate(block.len() - RECORD);
        slots - 1
    } else {
        let copied = favoured(random, (block.len() - HEADER) / RECORD);
        let record = block[HEADER + RECORD * copied..][..RECORD].to_vec();
        block.extend(record);
        (slots + 1) % 65536
    };
    block[6..8].copy_from_slice(&(changed as u16).to_le_bytes());
}
