//! Where texts were refused with 44, so that the comparison can show that listings were
//! broken off and went wrong in each of their parts, and numbers in each of their ways.

use leafgraph_reference::graph::HEADER;
use leafgraph_reference::listing::{parts_of, Part, Stop};

use crate::tally::Class;

/// What was to stand at the place, where a byte stands there and where the text ends.
/// Every class must occur, and those of `NUMBERS` and `COUNTS`.
const PARTS: [(Part, &str, &str); 12] = [
    (Part::Opening, "44, in the opening", "44, ends in the opening"),
    (Part::Size, "44, in N", "44, ends in N"),
    (Part::Slot, "44, in a slot's number", "44, ends in a slot's number"),
    (Part::Word, "44, in a word", "44, ends in a word"),
    (Part::Operator, "44, in an operator", "44, ends in an operator"),
    (Part::Input, "44, in an input", "44, ends in an input"),
    (Part::Attribute, "44, in an attribute", "44, ends in an attribute"),
    (Part::Output, "44, in an output", "44, ends in an output"),
    (Part::Between, "44, in brackets and spaces", "44, ends in brackets and spaces"),
    (Part::Out, "44, in the word out", "44, ends in the word out"),
    (Part::LineEnd, "44, at a line's end", "44, ends at a line's end"),
    (Part::Nothing, "44, behind a listing", ""),
];

/// What is wrong with a number.
const NUMBERS: [&str; 17] = [
    "44, N is 0",
    "44, N above 512",
    "44, a slot N or above",
    "44, a slot that is not above the last",
    "44, a slot that could become one that fits",
    "44, a slot behind the last",
    "44, an operator 0",
    "44, an operator above 14",
    "44, an input above 65535",
    "44, an output above 65535",
    "44, an attribute above 2147483647",
    "44, an attribute below -2147483648",
    "44, a leading zero",
    "44, a zero behind a minus",
    "44, a minus alone",
    "44, a minus where none fits",
    "44, a plus",
];

/// What is wrong with counts, spaces and ends.
const COUNTS: [&str; 13] = [
    "44, too few inputs",
    "44, too many inputs",
    "44, too few attributes",
    "44, too many attributes",
    "44, no output",
    "44, too many outputs",
    "44, two spaces",
    "44, a space before a line's end",
    "44, a carriage return",
    "44, no text",
    "44, all but the last byte",
    "44, a place of two bytes",
    "44, a buffer without a header too",
];

pub fn all_classes() -> Vec<&'static str> {
    let parts = PARTS.iter().flat_map(|(_, byte, end)| [*byte, *end]);
    parts.filter(|name| !name.is_empty()).chain(NUMBERS).chain(COUNTS).collect()
}

/// The classes of a text that was refused, with a buffer of so many bytes.
pub fn classes(text: &[u8], buffer: usize) -> Vec<Class> {
    let Err(stop) = parts_of(text) else {
        return vec![];
    };
    let refused = Refused::new(text, stop);
    let mut classes = [refused.numbers(), refused.counts(), refused.ends()].concat();
    let part = PARTS.iter().find(|(part, _, _)| *part == stop.part);
    classes.extend(part.map(|(_, byte, end)| (if refused.ends { *end } else { *byte }, true)));
    classes.push(("44, a buffer without a header too", buffer < HEADER));
    classes
}

/// In which number or list of a line a text was refused.
#[derive(Clone, Copy, PartialEq, Eq)]
enum Field {
    Size,
    Slot,
    Operator,
    Input,
    Attribute,
    Output,
}

struct Refused<'a> {
    text: &'a [u8],
    stop: Stop,
    ends: bool,
    /// The byte at the place; 0 at the text's end.
    byte: u8,
    field: Field,
    /// The digits, and the minus, that stand before the place.
    run: &'a [u8],
}

impl<'a> Refused<'a> {
    fn new(text: &'a [u8], stop: Stop) -> Refused<'a> {
        let before = &text[..stop.place];
        let line = before.rsplit(|&byte| byte == b'\n').next().unwrap_or(before);
        let is_in_number = |byte: &&u8| byte.is_ascii_digit() || **byte == b'-';
        let run = before.iter().rev().take_while(is_in_number).count();
        Refused {
            text,
            stop,
            ends: stop.place == text.len(),
            byte: text.get(stop.place).copied().unwrap_or(0),
            field: field(line),
            run: &before[before.len() - run..],
        }
    }

    fn is_in(&self, field: Field) -> bool {
        self.field == field && !self.ends && self.stop.part != Part::Nothing
    }

    /// Whether a digit too many stands behind these digits, which are no zero.
    fn is_too_far(&self, field: Field) -> bool {
        let zero = matches!(self.run, b"" | b"0" | b"-");
        self.is_in(field) && self.byte.is_ascii_digit() && !zero
    }

    fn numbers(&self) -> Vec<Class> {
        let (digit, zero) = (self.byte.is_ascii_digit(), self.byte == b'0');
        let part = |part: Part| self.stop.part == part;
        let minus = self.run.first() == Some(&b'-');
        let slot = self.is_in(Field::Slot);
        let holds = [
            part(Part::Size) && zero,
            self.is_too_far(Field::Size),
            self.is_too_far(Field::Slot),
            slot && part(Part::Slot) && digit && self.run.is_empty(),
            slot && part(Part::Slot) && !digit && !self.run.is_empty(),
            part(Part::Out) && digit && self.run.is_empty(),
            part(Part::Operator) && zero && self.run.is_empty(),
            self.is_too_far(Field::Operator),
            self.is_too_far(Field::Input),
            self.is_too_far(Field::Output),
            self.is_too_far(Field::Attribute) && !minus,
            self.is_too_far(Field::Attribute) && minus,
            self.run == b"0" && digit,
            self.run == b"-" && zero,
            self.run == b"-" && !digit && !self.ends,
            self.byte == b'-' && self.run.is_empty() && !part(Part::Attribute),
            self.byte == b'+',
        ];
        NUMBERS.into_iter().zip(holds).collect()
    }

    fn counts(&self) -> Vec<Class> {
        let number = !self.run.is_empty();
        let line_end = self.byte == b'\n';
        vec![
            ("44, too few inputs", self.is_in(Field::Input) && self.byte == b']'),
            ("44, too many inputs", self.is_in(Field::Input) && self.byte == b' ' && number),
            ("44, too few attributes", self.is_in(Field::Attribute) && self.byte == b'}'),
            (
                "44, too many attributes",
                self.is_in(Field::Attribute) && self.byte == b' ' && number,
            ),
            ("44, no output", self.stop.part == Part::Out && line_end),
            ("44, too many outputs", self.is_in(Field::Output) && self.byte == b' ' && number),
        ]
    }

    fn ends(&self) -> Vec<Class> {
        let (place, length) = (self.stop.place, self.text.len());
        let last = place.checked_sub(1).map(|before| self.text[before]);
        let whole = || parts_of(&[self.text, b"\n"].concat()).is_ok();
        vec![
            ("44, two spaces", self.byte == b' ' && last == Some(b' ')),
            (
                "44, a space before a line's end",
                self.byte == b' ' && self.text.get(place + 1) == Some(&b'\n'),
            ),
            ("44, a carriage return", self.byte == b'\r'),
            ("44, no text", length == 0),
            ("44, all but the last byte", self.ends && whole()),
            ("44, a place of two bytes", place > 255),
        ]
    }
}

/// By what stands before the place in its line.
fn field(line: &[u8]) -> Field {
    let has = |byte: u8| line.contains(&byte);
    match line.first() {
        Some(b'g') => Field::Size,
        Some(b'o') => Field::Output,
        _ if has(b'{') => Field::Attribute,
        _ if has(b'[') => Field::Input,
        _ if has(b' ') => Field::Operator,
        _ => Field::Slot,
    }
}
