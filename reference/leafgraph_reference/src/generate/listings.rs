//! Listings, sound and unsound, and texts that are only just none (request 7/13).

use crate::blocks::{empty, GraphParts, Vertex};
use crate::listing::listing_of;
use crate::operators::{counts_fit, CALL, OPERATORS, PLACES, PROJ};
use crate::random::Random;

use super::damaged_graphs::damaged_parts;
use super::graphs::{attribute, sound_graph};

/// A text that is a listing, or that mostly was one before a change or two; and what
/// was done to it.
pub fn any_text(random: &mut Random) -> (&'static str, Vec<u8>) {
    match random.below(20) {
        0 => ("random bytes", any_bytes(random)),
        1 => ("pieces of listings", pieces(random)),
        2 => ("a listing of any numbers", listing_of(&any_parts(random)).into_bytes()),
        3..=5 => ("an unsound graph's listing", listing_of(&damaged_parts(random)).into_bytes()),
        6..=10 => ("a sound graph's listing", listing_of(&sound_graph(random)).into_bytes()),
        _ => changed_listing(random),
    }
}

/// Parts within the shape, of which hardly any are sound.
fn any_parts(random: &mut Random) -> GraphParts {
    let slots = random.within(1, 12);
    let empty_slots = random.pick(&[0, 20, 60, 100]);
    let name = |random: &mut Random| match random.below(4) {
        0 => random.number() as u16,
        1 => random.pick(&[9, 10, 99, 100, 512, 9999, 10000, 65535]),
        _ => random.below(slots) as u16,
    };
    let vertices = (0..slots).map(|_| match random.chance(empty_slots) {
        true => empty(),
        false => any_vertex(random, name),
    });
    let vertices: Vec<Vertex> = vertices.collect();
    let outputs: Vec<u16> = (0..random.within(1, 4)).map(|_| name(random)).collect();
    GraphParts::new(vertices, &outputs)
}

/// A vertex with counts by the tables, whatever it names.
fn any_vertex(random: &mut Random, name: impl Fn(&mut Random) -> u16) -> Vertex {
    let kind = random.within(1, PROJ.into()) as u8;
    let operator = if kind == CALL { random.within(1, OPERATORS.len()) as u8 } else { 0 };
    let counts = (0..=PLACES).flat_map(|inputs| (0..=PLACES).map(move |other| (inputs, other)));
    let fits = |&(inputs, attributes): &(usize, usize)| {
        counts_fit(kind, operator, inputs as u8, attributes as u8)
    };
    let (inputs, attributes) = random.pick(&counts.filter(fits).collect::<Vec<_>>());
    Vertex {
        kind,
        operator,
        inputs: (0..inputs).map(|_| name(random)).collect(),
        attributes: (0..attributes).map(|_| attribute(random)).collect(),
    }
}

fn any_bytes(random: &mut Random) -> Vec<u8> {
    let length = random.below(40);
    let bytes = random.bytes(length);
    let start = random.pick(&[&b""[..], b"graph ", b"graph 1\n", b"graph 3\n0 const [] {"]);
    [start, &bytes].concat()
}

/// What listings are made of, in any order.
const PIECES: [&[u8]; 24] = [
    b"graph ",
    b"\n",
    b" ",
    b"const",
    b"variable",
    b"call",
    b"tuple",
    b"proj",
    b" [",
    b"[",
    b"]",
    b"] {",
    b"{",
    b"}",
    b"}\n",
    b"out ",
    b"out",
    b"0",
    b"1",
    b"7",
    b"-",
    b"-1",
    b"65535",
    b"graph 2\n0 const [] {5}\n",
];

fn pieces(random: &mut Random) -> Vec<u8> {
    let count = random.within(1, 12);
    let mut text = random.pick(&[&b""[..], b"graph 3\n", b"graph 12\n"]).to_vec();
    (0..count).for_each(|_| text.extend(random.pick(&PIECES)));
    text
}

/// Changes a text, if it can.
type Change = fn(&mut Random, &mut Vec<u8>);

const CHANGES: [(&str, Change); 15] = [
    ("a byte replaced", |random, text| {
        let at = random.below(text.len());
        text[at] = any_byte(random);
    }),
    ("a byte put in", |random, text| {
        let at = random.below(text.len() + 1);
        let byte = any_byte(random);
        text.insert(at, byte);
    }),
    ("a byte taken out", |random, text| {
        let at = random.below(text.len());
        text.remove(at);
    }),
    ("a byte doubled", |random, text| {
        let at = random.below(text.len());
        text.insert(at, text[at]);
    }),
    ("cut", |random, text| {
        let length = random.below(text.len());
        text.truncate(length);
    }),
    ("cut before the last bytes", |random, text| {
        let less = random.within(1, 4);
        text.truncate(text.len().saturating_sub(less));
    }),
    ("more behind", |random, text| {
        let again = text.clone();
        let more = random.pick(&[&b"\n"[..], b" ", b"0", b"out 0\n", b"\0", &again]).to_vec();
        text.extend(more);
    }),
    ("two lines swapped", |random, text| {
        change_lines(random, text, |lines, one, other| lines.swap(one, other));
    }),
    ("a line doubled", |random, text| {
        change_lines(random, text, |lines, one, _| lines.insert(one, lines[one].clone()));
    }),
    ("a line taken out", |random, text| {
        change_lines(random, text, |lines, one, _| _ = lines.remove(one));
    }),
    ("a digit changed", |random, text| change_digit(random, text)),
    ("a number changed", change_number),
    ("a number changed near a bound", change_number_to_bound),
    ("a number too many", |random, text| {
        put_number(random, text, |random, old| [old, b" ", random.pick(&[b"0", b"1"])].concat());
    }),
    ("a number too few", take_number),
];

/// A sound graph's listing, or an unsound one's, with one change, seldom several.
fn changed_listing(random: &mut Random) -> (&'static str, Vec<u8>) {
    let parts = match random.below(8) {
        0 => damaged_parts(random),
        1 => any_parts(random),
        _ => sound_graph(random),
    };
    let mut text = listing_of(&parts).into_bytes();
    let mut last = "";
    for _ in 0..random.pick(&[1, 1, 1, 1, 2, 3]) {
        let (name, change) = random.pick(&CHANGES);
        if !text.is_empty() {
            change(random, &mut text);
            last = name;
        }
    }
    (last, text)
}

/// Mostly one that listings have.
fn any_byte(random: &mut Random) -> u8 {
    match random.chance(85) {
        true => random.pick(b"0123456789 \n[]{}-+cvtpo\r\t"),
        false => random.byte(),
    }
}

/// Changes the lines, given two of their numbers.
fn change_lines(
    random: &mut Random,
    text: &mut Vec<u8>,
    change: fn(&mut Vec<Vec<u8>>, usize, usize),
) {
    let mut lines: Vec<Vec<u8>> =
        text.split_inclusive(|&byte| byte == b'\n').map(|line| line.to_vec()).collect();
    let (one, other) = (random.below(lines.len()), random.below(lines.len()));
    change(&mut lines, one, other);
    *text = lines.concat();
}

fn is_in_number(byte: &u8) -> bool {
    byte.is_ascii_digit() || *byte == b'-'
}

fn change_digit(random: &mut Random, text: &mut [u8]) {
    let digits: Vec<usize> = (0..text.len()).filter(|&at| text[at].is_ascii_digit()).collect();
    if !digits.is_empty() {
        text[random.pick(&digits)] = random.pick(b"0123456789");
    }
}

/// Puts another text in the place of a number, often of one in the first lines or the
/// last one, given what stood there.
fn put_number(
    random: &mut Random,
    text: &mut Vec<u8>,
    new: impl Fn(&mut Random, &[u8]) -> Vec<u8>,
) {
    let begins = |&at: &usize| is_in_number(&text[at]) && (at == 0 || !is_in_number(&text[at - 1]));
    let numbers: Vec<usize> = (0..text.len()).filter(begins).collect();
    if numbers.is_empty() {
        return;
    }
    let (any, last) = (random.below(numbers.len()), numbers.len() - 1);
    let from = numbers[random.pick(&[0, 1.min(last), last, any, any, any])];
    let length = text[from..].iter().take_while(|byte| is_in_number(byte)).count();
    let number = new(random, &text[from..from + length]);
    text.splice(from..from + length, number);
}

/// Takes a number out, with the space before it.
fn take_number(random: &mut Random, text: &mut Vec<u8>) {
    let begins = |&at: &usize| text[at - 1] == b' ' && is_in_number(&text[at]);
    let numbers: Vec<usize> = (1..text.len()).filter(begins).collect();
    if !numbers.is_empty() {
        let from = random.pick(&numbers);
        let length = text[from..].iter().take_while(|byte| is_in_number(byte)).count();
        text.drain(from - 1..from + length);
    }
}

/// One more or less, or a zero or a minus too many.
fn change_number(random: &mut Random, text: &mut Vec<u8>) {
    put_number(random, text, |random, old| {
        let value: i64 =
            std::str::from_utf8(old).ok().and_then(|old| old.parse().ok()).unwrap_or(0);
        match random.below(8) {
            0 | 1 => (value + 1).to_string().into_bytes(),
            2 | 3 => (value - 1).to_string().into_bytes(),
            4 => [b"0", old].concat(),
            5 => [old, b"0"].concat(),
            6 => [b"-", old].concat(),
            _ => vec![],
        }
    });
}

/// Where some field begins or ends.
const BOUNDS: [&str; 27] = [
    "0",
    "-0",
    "00",
    "01",
    "-01",
    "1",
    "-1",
    "4",
    "14",
    "15",
    "99",
    "511",
    "512",
    "513",
    "1000",
    "32768",
    "65535",
    "65536",
    "70000",
    "100000",
    "2147483647",
    "2147483648",
    "-2147483648",
    "-2147483649",
    "4294967296",
    "99999999999999999999",
    "-",
];

fn change_number_to_bound(random: &mut Random, text: &mut Vec<u8>) {
    put_number(random, text, |random, _| random.pick(&BOUNDS).into());
}
