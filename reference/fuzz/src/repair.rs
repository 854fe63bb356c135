//! Repairs of mutated blocks: what byte mutations break and hardly ever put
//! right again. What is right stays, so a sound block passes unchanged.
//! Nothing here is judged: the blocks may still be unsound in every other way.
//! Marks, versions and the headers' zero bytes are never repaired: a check that
//! forgot one of them must be met with bytes that are right but for it.

use std::ops::RangeInclusive;

use leafgraph_reference::counts::COUNT;
use leafgraph_reference::graph::{self, Version, MAX_SLOTS, OUTPUT_PLACES, VERSION};
use leafgraph_reference::operators::{
    operator_of, CALL, CONST, EMPTY, OPERATORS, PLACES, PROJ, TUPLE, VARIABLE, WILDCARD,
};
use leafgraph_reference::rule::{
    self, ACCESS, CONSTANT, MAX_NODES, MAX_OUTPUTS, MAX_VERTICES, PLUS, REMAINDER, TARGET_BASE,
};

/// The number itself where it is in the range, else one of the range.
fn into_range(number: usize, range: RangeInclusive<usize>) -> usize {
    match range.contains(&number) {
        true => number,
        false => range.start() + number % (range.end() - range.start() + 1),
    }
}

fn byte_into_range(byte: &mut u8, range: RangeInclusive<usize>) -> usize {
    let number = into_range((*byte).into(), range);
    *byte = number as u8;
    number
}

fn u16_at(bytes: &[u8], at: usize) -> usize {
    usize::from(u16::from_le_bytes([bytes[at], bytes[at + 1]]))
}

fn put_u16(bytes: &mut [u8], at: usize, number: usize) {
    bytes[at..at + 2].copy_from_slice(&(number as u16).to_le_bytes());
}

/// Kind, operator and counts by document 01's tables; the counts.
fn head(record: &mut [u8]) -> (usize, usize) {
    let kind = byte_into_range(&mut record[0], 0..=PROJ.into()) as u8;
    record[1] = match kind {
        CALL => into_range(record[1].into(), 1..=OPERATORS.len()) as u8,
        _ => 0,
    };
    let (inputs, attributes) = match kind {
        CONST => (0, 1),
        VARIABLE => (0, 5),
        CALL => {
            let operator = operator_of(record[1]).expect("in the range above");
            (operator.inputs.into(), operator.attributes.into())
        }
        TUPLE => (into_range(record[2].into(), 1..=PLACES), 0),
        PROJ => (1, 1),
        _ => (0, 0),
    };
    (record[2], record[3]) = (inputs as u8, attributes as u8);
    (inputs, attributes)
}

/// N by the bytes there are.
pub fn graph_length(block: &mut Vec<u8>) {
    let records = block.len().saturating_sub(graph::HEADER) / graph::RECORD;
    let slots = records.clamp(1, MAX_SLOTS);
    block.resize(graph::HEADER + graph::RECORD * slots, 0);
    put_u16(block, 6, slots);
}

/// The version that a block tells, if it is one that something takes.
pub fn version_of(block: &[u8]) -> Option<Version> {
    let told = block.get(VERSION..VERSION + 2)?;
    let is_told = |version: &Version| told == version.number().to_le_bytes();
    [Version::One, Version::Two].into_iter().find(is_told)
}

/// Writes the version into a block that tells one.
pub fn set_version(block: &mut [u8], version: Version) {
    put_u16(block, VERSION, version.number().into());
}

/// No count in any whole record.
pub fn remove_counts(block: &mut [u8]) {
    let records = block.get_mut(graph::HEADER..).into_iter();
    for record in records.flat_map(|records| records.chunks_exact_mut(graph::RECORD)) {
        put_u16(record, COUNT, 0);
    }
}

/// Outputs and all whole records, whatever the header says of their number.
/// An Empty slot that is named becomes a Variable. Counts stay in version 2, and
/// are zero bytes in every other one.
pub fn graph_records(block: &mut [u8], lower_inputs: bool) {
    if block.len() < graph::HEADER + graph::RECORD {
        return;
    }
    if version_of(block) != Some(Version::Two) {
        remove_counts(block);
    }
    let (header, records) = block.split_at_mut(graph::HEADER);
    let slots = records.len() / graph::RECORD;
    let mut named = outputs(header, slots);
    for (slot, record) in records.chunks_exact_mut(graph::RECORD).enumerate() {
        let limit = if lower_inputs { slot } else { slots };
        graph_record(record, limit);
        named.extend((0..record[2].into()).map(|place| u16_at(record, 4 + 2 * place)));
    }
    for slot in named {
        let record = &mut records[graph::RECORD * slot..graph::RECORD * (slot + 1)];
        if record[0] == EMPTY {
            record[0] = VARIABLE;
            graph_record(record, slots);
        }
    }
}

/// The used output places name slots; which ones.
fn outputs(header: &mut [u8], slots: usize) -> Vec<usize> {
    let count = into_range(u16_at(header, 8), 1..=OUTPUT_PLACES);
    put_u16(header, 8, count);
    let mut outputs = vec![];
    for place in 0..OUTPUT_PLACES {
        let at = 10 + 2 * place;
        if place < count {
            outputs.push(into_range(u16_at(header, at), 0..=slots - 1));
            put_u16(header, at, outputs[place]);
        } else {
            put_u16(header, at, graph::UNUSED.into());
        }
    }
    outputs
}

/// A record whose inputs are below the limit.
fn graph_record(record: &mut [u8], limit: usize) {
    let (mut inputs, mut attributes) = head(record);
    if inputs > 0 && limit == 0 {
        record[0] = VARIABLE;
        (inputs, attributes) = head(record);
    }
    for place in 0..PLACES {
        let at = 4 + 2 * place;
        let input = match place < inputs {
            true => into_range(u16_at(record, at), 0..=limit - 1),
            false => graph::UNUSED.into(),
        };
        put_u16(record, at, input);
    }
    record[16 + 4 * attributes..COUNT].fill(0);
    record[COUNT + 2..].fill(0);
    let index = i32::from_le_bytes([record[16], record[17], record[18], record[19]]);
    if record[0] == PROJ {
        record[16..20].copy_from_slice(&index.max(1).to_le_bytes());
    }
}

/// S and T within the bytes, A by the bytes that remain.
pub fn rule_length(block: &mut Vec<u8>) {
    let rest = block.len().saturating_sub(rule::HEADER);
    block.resize(block.len().max(rule::HEADER), 0);
    let records = rest / rule::PATTERN;
    let source = into_range(block[6].into(), 1..=MAX_VERTICES).min(records.max(1));
    let target = into_range(block[7].into(), 0..=MAX_VERTICES).min(records.saturating_sub(source));
    let patterns = rule::PATTERN * (source + target);
    let nodes = (rest.saturating_sub(patterns) / rule::NODE).min(MAX_NODES);
    block.resize(rule::HEADER + patterns + rule::NODE * nodes, 0);
    (block[6], block[7], block[9]) = (source as u8, target as u8, nodes as u8);
}

/// K, and outputs that name something.
fn rule_outputs(header: &mut [u8], source: usize, target: usize) {
    let outputs = byte_into_range(&mut header[8], 1..=MAX_OUTPUTS);
    for place in 0..MAX_OUTPUTS {
        if place < outputs {
            byte_into_range(&mut header[10 + place], 0..=source - 1);
            target_place(&mut header[12 + place], source, target);
        } else {
            (header[10 + place], header[12 + place]) = (rule::UNUSED, rule::UNUSED);
        }
    }
}

/// A place of the target side: a source vertex, as far as there are so many,
/// or one of the target vertices before this number.
fn target_place(place: &mut u8, source: usize, targets: usize) {
    let first = usize::from(TARGET_BASE);
    let number = usize::from(*place);
    if number >= source && !(first..first + targets).contains(&number) {
        let number = number % (source + targets);
        *place = if number < source { number } else { first + number - source } as u8;
    }
}

/// Outputs, records and nodes, as far as there are bytes for those that the
/// header tells of. A rule of version 2 stays as it is: its marks, index and sums are
/// nothing that version 1 has.
pub fn rule_records(block: &mut [u8]) {
    if block.len() < rule::HEADER || block[4..6] == [2, 0] {
        return;
    }
    let (header, rest) = block.split_at_mut(rule::HEADER);
    let [source, target, nodes] = [header[6], header[7], header[9]].map(usize::from);
    if source > 0 {
        rule_outputs(header, source, target);
    }
    let patterns = (rule::PATTERN * (source + target)).min(rest.len());
    let (patterns, expressions) = rest.split_at_mut(patterns);
    for (vertex, record) in patterns.chunks_exact_mut(rule::PATTERN).enumerate() {
        rule_record(record, vertex, source, nodes);
    }
    for (index, record) in expressions.chunks_exact_mut(rule::NODE).enumerate() {
        node(record, index, source);
    }
}

/// A source vertex names lower ones, a target vertex source vertices and
/// earlier target vertices.
fn rule_record(record: &mut [u8], vertex: usize, source: usize, nodes: usize) {
    let (mut inputs, mut attributes) = head(record);
    if vertex == 0 && inputs > 0 {
        record[0] = WILDCARD;
        (inputs, attributes) = head(record);
    }
    for input in &mut record[4..4 + inputs] {
        match vertex < source {
            true => _ = byte_into_range(input, 0..=vertex - 1),
            false => target_place(input, source, vertex - source),
        }
    }
    for attribute in &mut record[10..10 + attributes] {
        if nodes > 0 {
            byte_into_range(attribute, 0..=nodes - 1);
        }
    }
    record[4 + inputs..10].fill(rule::UNUSED);
    record[10 + attributes..].fill(rule::UNUSED);
}

/// Operands are earlier nodes, accesses name source vertices and places.
fn node(record: &mut [u8], index: usize, source: usize) {
    let mut form = byte_into_range(&mut record[0], 0..=REMAINDER.into()) as u8;
    if index == 0 && form >= PLUS {
        form = CONSTANT;
        record[0] = form;
    }
    record[3] = 0;
    if form == ACCESS {
        byte_into_range(&mut record[1], 0..=source.max(1) - 1);
        byte_into_range(&mut record[2], 1..=PLACES);
    } else if form >= PLUS {
        byte_into_range(&mut record[1], 0..=index - 1);
        byte_into_range(&mut record[2], 0..=index - 1);
    } else {
        record[1..3].fill(0);
    }
    if form != CONSTANT {
        record[4..].fill(0);
    }
}
