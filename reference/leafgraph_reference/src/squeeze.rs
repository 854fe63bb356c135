//! Request 4/13's squeeze. It moves vertices and removes none: "Unread vertices
//! are allowed", and N stays.

use crate::fields::{put_u16, u16_at};
use crate::graph::{write_empty, Graph, Slot, HEADER, MAX_SLOTS, RECORD};

/// In the list, what says that an old slot was Empty: "65535 for Empty".
pub const NOWHERE: u16 = 65535;

/// The new number of each old slot.
pub type Numbers = [u16; MAX_SLOTS];

/// "a lent list of N 16-bit numbers", in bytes.
pub fn list_length(graph: Graph) -> usize {
    2 * graph.slot_count()
}

/// "vertices move to the lowest slots in their old order"
pub fn new_numbers(graph: Graph) -> Numbers {
    let mut numbers = [NOWHERE; MAX_SLOTS];
    let slots = graph.slots().enumerate();
    let vertices = slots.filter(|(_, slot)| !slot.is_empty());
    for (new, (old, _)) in vertices.enumerate() {
        numbers[old] = new as u16;
    }
    numbers
}

/// Writes the whole new table into a buffer of the old one's length: "all inputs
/// and outputs follow", and the slots behind the vertices are Empty.
pub fn write_new_table(new: &mut [u8], old: Graph, numbers: &Numbers) {
    let (header, records) = new.split_at_mut(HEADER);
    header.copy_from_slice(&old.bytes()[..HEADER]);
    for (place, output) in old.outputs().enumerate() {
        put_u16(header, 10 + 2 * place, numbers[usize::from(output)]);
    }
    let mut records = records.chunks_exact_mut(RECORD);
    for vertex in old.slots().filter(|slot| !slot.is_empty()) {
        let record = records.next().expect("no more vertices than slots");
        write_moved(record, vertex, numbers);
    }
    records.for_each(write_empty);
}

/// A vertex in its new slot: its inputs are renamed, all else is as it was. Its
/// count, too: as many places name it as before, by its new number.
fn write_moved(record: &mut [u8], vertex: Slot, numbers: &Numbers) {
    record.copy_from_slice(vertex.record());
    for (place, input) in vertex.inputs().enumerate() {
        put_u16(record, 4 + 2 * place, numbers[usize::from(input)]);
    }
}

/// The list "says where each old slot went".
pub fn write_list(list: &mut [u8], numbers: &Numbers) {
    for (slot, place) in list.chunks_exact_mut(2).enumerate() {
        put_u16(place, 0, numbers[slot]);
    }
}

/// The numbers that a list holds.
pub fn read_list(list: &[u8]) -> Vec<u16> {
    list.chunks_exact(2).map(|place| u16_at(place, 0)).collect()
}
