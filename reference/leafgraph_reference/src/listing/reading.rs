//! What a listing says, sound or not, or where a text stops being one.

use std::ops::RangeInclusive;

use super::cursor::{Cursor, Part, Stop};
use super::number::Fitting;
use super::WORDS;
use crate::blocks::{empty, GraphParts, Vertex};
use crate::graph::{MAX_SLOTS, OUTPUT_PLACES};
use crate::operators::{counts_fit, CALL, OPERATORS, PLACES};

/// Input and output numbers.
const NAMES: Fitting = 0..=u16::MAX as i64;
const ATTRIBUTES: Fitting = i32::MIN as i64..=i32::MAX as i64;

/// The parts of the graph that this text lists.
pub fn parts_of(text: &[u8]) -> Result<GraphParts, Stop> {
    let mut cursor = Cursor::new(text);
    cursor.one_of(&["graph "], Part::Opening)?;
    let size = cursor.number(1..=MAX_SLOTS as i64, Part::Size)?;
    cursor.one_of(&["\n"], Part::LineEnd)?;
    let mut slots = vec![empty(); size as usize];
    let mut least = 0;
    // Behind slot N - 1 no other can follow.
    while least < size && !cursor.is_at(b'o') {
        let slot = cursor.number(least..=size - 1, Part::Slot)?;
        slots[slot as usize] = vertex(&mut cursor)?;
        least = slot + 1;
    }
    cursor.one_of(&["out "], Part::Out)?;
    let outputs = List { counts: 1..=OUTPUT_PLACES, fitting: NAMES, part: Part::Output };
    let outputs = outputs.read(&mut cursor, "\n", Part::LineEnd)?;
    cursor.end()?;
    Ok(GraphParts { slots, outputs: outputs.into_iter().map(|number| number as u16).collect() })
}

/// A line behind its slot number.
fn vertex(cursor: &mut Cursor) -> Result<Vertex, Stop> {
    cursor.one_of(&[" "], Part::Between)?;
    let word = cursor.one_of(&WORDS.map(|(word, _)| word), Part::Word)?;
    let kind = WORDS.into_iter().find(|(other, _)| *other == word).map_or(0, |(_, kind)| kind);
    let mut operator = 0;
    if kind == CALL {
        cursor.one_of(&[" "], Part::Between)?;
        operator = cursor.number(1..=OPERATORS.len() as i64, Part::Operator)? as u8;
    }
    let fits = |inputs: usize, attributes: usize| {
        counts_fit(kind, operator, inputs as u8, attributes as u8)
    };
    let counts = counts_where(|inputs| (0..=PLACES).any(|attributes| fits(inputs, attributes)));
    cursor.one_of(&[" ["], Part::Between)?;
    let inputs = List { counts, fitting: NAMES, part: Part::Input };
    let inputs = inputs.read(cursor, "]", Part::Between)?;
    let counts = counts_where(|attributes| fits(inputs.len(), attributes));
    cursor.one_of(&[" {"], Part::Between)?;
    let attributes = List { counts, fitting: ATTRIBUTES, part: Part::Attribute };
    let attributes = attributes.read(cursor, "}", Part::Between)?;
    cursor.one_of(&["\n"], Part::LineEnd)?;
    Ok(Vertex {
        kind,
        operator,
        inputs: inputs.into_iter().map(|number| number as u16).collect(),
        attributes: attributes.into_iter().map(|number| number as i32).collect(),
    })
}

/// From the least count that fits to the greatest: all between fit, too.
fn counts_where(fits: impl Fn(usize) -> bool) -> RangeInclusive<usize> {
    let fitting = || (0..=PLACES).filter(|&count| fits(count));
    fitting().min().unwrap_or(0)..=fitting().max().unwrap_or(0)
}

/// Numbers with single spaces between them.
struct List {
    counts: RangeInclusive<usize>,
    fitting: Fitting,
    part: Part,
}

impl List {
    /// Takes the numbers, and what closes the list. No list may have no number or else
    /// several.
    fn read(self, cursor: &mut Cursor, close: &str, closing: Part) -> Result<Vec<i64>, Stop> {
        let mut numbers = vec![];
        while numbers.len() < *self.counts.end() {
            numbers.push(cursor.number(self.fitting.clone(), self.part)?);
            if numbers.len() == *self.counts.end() {
                break;
            }
            let may_close = self.counts.contains(&numbers.len());
            let next: &[&str] = if may_close { &[" ", close] } else { &[" "] };
            if cursor.one_of(next, if may_close { closing } else { Part::Between })? == close {
                return Ok(numbers);
            }
        }
        cursor.one_of(&[close], closing)?;
        Ok(numbers)
    }
}
