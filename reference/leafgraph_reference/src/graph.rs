//! The graph block: a view of its fields, and the check.

use std::ops::Range;

use crate::counts::{wrong_counts, COUNT};
use crate::cycle::lowest_on_cycle;
use crate::fields::{all_zero, i32_at, put_i32, put_u16, u16_at};
use crate::operators::{counts_fit, EMPTY, PLACES, PROJ};
use crate::reply::{refuse_at, Refusal, GRAPH_COUNT, GRAPH_CYCLE, GRAPH_NAME, GRAPH_RECORD};

/// "N slots, 1 to 512."
pub const MAX_SLOTS: usize = 512;
/// "Length exactly 24 + 48N": the header's part.
pub const HEADER: usize = 24;
/// The slot record's part.
pub const RECORD: usize = 48;
/// The longest sound block.
pub const MAX_BLOCK: usize = HEADER + RECORD * MAX_SLOTS;
/// "Unused output and input places hold 65535."
pub const UNUSED: u16 = 65535;
/// "output count, 1 to 4"
pub const OUTPUT_PLACES: usize = 4;

/// Where the version stands in the header, a 16-bit number.
pub const VERSION: usize = 4;

/// A version of the graph block. By request 5/13 the import takes the first one,
/// and "other operations take version 2 only".
#[derive(Clone, Copy, Debug, PartialEq, Eq)]
pub enum Version {
    One,
    Two,
}

impl Version {
    pub const fn number(self) -> u16 {
        match self {
            Version::One => 1,
            Version::Two => 2,
        }
    }

    /// The bytes of a record that hold nothing: document 01's "40-47 zero", of
    /// which the count has taken two.
    fn unused_bytes(self) -> Range<usize> {
        match self {
            Version::One => 40..RECORD,
            Version::Two => 42..RECORD,
        }
    }
}

/// A block read as a graph. Outside this crate it is always a sound one, but for
/// the counts where these were not asked for.
#[derive(Clone, Copy)]
pub struct Graph<'a> {
    bytes: &'a [u8],
}

/// One slot record.
#[derive(Clone, Copy)]
pub struct Slot<'a> {
    record: &'a [u8],
}

impl<'a> Graph<'a> {
    /// The graph in these bytes, if they are a sound block of version 2. "A wrong
    /// count is 24, place the lowest such slot, after 23."
    pub fn parse(bytes: &'a [u8]) -> Result<Graph<'a>, Refusal> {
        let graph = Graph::parse_but_counts(bytes, Version::Two)?;
        refuse_at(GRAPH_COUNT, wrong_counts(graph).next())?;
        Ok(graph)
    }

    /// The graph in these bytes, if they are a sound block of this version,
    /// whatever its counts. The kinds of fault, in order: "length or header; a
    /// record against its kind; an input or output that names no vertex; a
    /// cycle". "The first kind that holds anywhere is given", with "the lowest
    /// slot [...] with that fault"; a graph output is "looked at after all
    /// inputs".
    pub fn parse_but_counts(bytes: &'a [u8], version: Version) -> Result<Graph<'a>, Refusal> {
        if !header_is_sound(bytes, version) {
            return Err(Refusal::GRAPH_HEADER);
        }
        let graph = Graph::view(bytes);
        refuse_at(GRAPH_RECORD, graph.slots().position(|slot| !slot.is_sound(version)))?;
        let misnamed = graph.slots().position(|slot| !graph.inputs_name_vertices(slot));
        refuse_at(GRAPH_NAME, misnamed)?;
        let misnamed = graph.outputs().position(|output| !graph.names_vertex(output));
        refuse_at(GRAPH_NAME, misnamed)?;
        refuse_at(GRAPH_CYCLE, lowest_on_cycle(graph))?;
        Ok(graph)
    }

    /// The same view without the check, for a table still being made.
    pub(crate) fn view(bytes: &'a [u8]) -> Graph<'a> {
        Graph { bytes }
    }

    pub fn bytes(self) -> &'a [u8] {
        self.bytes
    }

    /// N.
    pub fn slot_count(self) -> usize {
        usize::from(u16_at(self.bytes, 6))
    }

    pub fn output_count(self) -> usize {
        usize::from(u16_at(self.bytes, 8))
    }

    /// "Slots count from 0."
    pub fn slot(self, number: usize) -> Slot<'a> {
        let at = HEADER + RECORD * number;
        Slot { record: &self.bytes[at..at + RECORD] }
    }

    pub fn slots(self) -> impl Iterator<Item = Slot<'a>> {
        self.bytes[HEADER..]
            .chunks_exact(RECORD)
            .take(self.slot_count())
            .map(|record| Slot { record })
    }

    /// The numbers in the used output places.
    pub fn outputs(self) -> impl Iterator<Item = u16> + 'a {
        (0..self.output_count()).map(move |place| u16_at(self.bytes, 10 + 2 * place))
    }

    /// "Each input and each output names a slot that isn't Empty."
    pub(crate) fn names_vertex(self, number: u16) -> bool {
        let number = usize::from(number);
        number < self.slot_count() && !self.slot(number).is_empty()
    }

    pub(crate) fn inputs_name_vertices(self, slot: Slot) -> bool {
        slot.inputs().all(|input| self.names_vertex(input))
    }
}

/// "Header: bytes 0-2 `LGT`; 3 zero; 4-5 version 1; 6-7 N; 8-9 output count,
/// 1 to 4; 10-17 four output numbers; 18-23 zero", and the length. Whether each
/// part is right, for a block that has a header. "Unused output places count as
/// header." With the version that is taken, "any other version is 20".
pub(crate) fn header_parts(bytes: &[u8], version: Version) -> [bool; 8] {
    let graph = Graph::view(bytes);
    let (slots, outputs) = (graph.slot_count(), graph.output_count());
    [
        bytes[..3] == *b"LGT",
        bytes[3] == 0,
        u16_at(bytes, VERSION) == version.number(),
        (1..=MAX_SLOTS).contains(&slots),
        (1..=OUTPUT_PLACES).contains(&outputs),
        (outputs..OUTPUT_PLACES).all(|place| u16_at(bytes, 10 + 2 * place) == UNUSED),
        all_zero(&bytes[18..24]),
        bytes.len() == HEADER + RECORD * slots,
    ]
}

fn header_is_sound(bytes: &[u8], version: Version) -> bool {
    bytes.len() >= HEADER && header_parts(bytes, version) == [true; 8]
}

impl<'a> Slot<'a> {
    pub fn record(self) -> &'a [u8] {
        self.record
    }

    pub fn kind(self) -> u8 {
        self.record[0]
    }

    pub fn operator(self) -> u8 {
        self.record[1]
    }

    pub fn input_count(self) -> usize {
        usize::from(self.record[2])
    }

    pub fn attribute_count(self) -> usize {
        usize::from(self.record[3])
    }

    /// The stored count, in version 2.
    pub fn count(self) -> u16 {
        u16_at(self.record, COUNT)
    }

    /// All of the record that tells what vertex is in the slot, and not how often
    /// it is named.
    pub fn vertex_bytes(self) -> &'a [u8] {
        &self.record[..COUNT]
    }

    pub fn is_empty(self) -> bool {
        self.kind() == EMPTY
    }

    /// Input places count from 0 here.
    pub fn input(self, place: usize) -> u16 {
        u16_at(self.record, 4 + 2 * place)
    }

    /// Attribute places count from 0 here; document 01's place is one more.
    pub fn attribute(self, place: usize) -> i32 {
        i32_at(self.record, 16 + 4 * place)
    }

    pub fn inputs(self) -> impl Iterator<Item = u16> + 'a {
        (0..self.input_count()).map(move |place| self.input(place))
    }

    pub fn attributes(self) -> impl Iterator<Item = i32> + 'a {
        (0..self.attribute_count()).map(move |place| self.attribute(place))
    }

    /// Kind, operator and counts in one look.
    pub fn head(self) -> [u8; 4] {
        [self.record[0], self.record[1], self.record[2], self.record[3]]
    }

    /// The record against its kind: the table, unused places and bytes, and a
    /// Proj's "index, at least 1".
    pub(crate) fn is_sound(self, version: Version) -> bool {
        let [kind, operator, inputs, attributes] = self.head();
        counts_fit(kind, operator, inputs, attributes)
            && (self.input_count()..PLACES).all(|place| self.input(place) == UNUSED)
            && (self.attribute_count()..PLACES).all(|place| self.attribute(place) == 0)
            && all_zero(&self.record[version.unused_bytes()])
            && (kind != PROJ || self.attribute(0) >= 1)
    }
}

/// N as any bytes tell it, sound or not: 0 where they are too few.
pub fn slots_told(bytes: &[u8]) -> usize {
    bytes.get(6..8).map_or(0, |field| u16_at(field, 0).into())
}

/// The record at a slot of a table still being made.
pub(crate) fn record_mut(block: &mut [u8], slot: u16) -> &mut [u8] {
    let at = HEADER + RECORD * usize::from(slot);
    &mut block[at..at + RECORD]
}

/// The record of an Empty slot: there is exactly one, since nothing names it.
pub(crate) fn write_empty(record: &mut [u8]) {
    write_record(record, [EMPTY, 0, 0, 0], &[], &[]);
}

/// A whole record, its unused places included. Its count is 0.
pub(crate) fn write_record(record: &mut [u8], head: [u8; 4], inputs: &[u16], attributes: &[i32]) {
    record.fill(0);
    record[..4].copy_from_slice(&head);
    for place in 0..PLACES {
        let input = inputs.get(place).copied().unwrap_or(UNUSED);
        put_u16(record, 4 + 2 * place, input);
        let attribute = attributes.get(place).copied().unwrap_or(0);
        put_i32(record, 16 + 4 * place, attribute);
    }
}
