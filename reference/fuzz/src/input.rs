//! How the bytes of a fuzz input are cut into the arguments of a call.
//!
//! | Bytes | What |
//! |---|---|
//! | 0 | repairs, a bit each |
//! | 1 | map length; the list, and the buffers that a listing is written to or read into, are by as many bytes longer or shorter than they should be as this is than 32 |
//! | 2 | the first byte of the map, of the list and of those buffers before the call; each further one is one more |
//! | 3 | bits 0-1 further rewritings after an accepted one; bits 2-4 and 5-7 by how many bytes graph and rule are shifted in memory |
//! | 4-11 | start, and the vertex that is asked about, little-endian |
//! | 12-13 | little-endian: bits 0-14 graph length, at most all that follow; bit 15 one more repair, of counts |
//! | 14- | the graph block, then the rule block up to the end |
//!
//! Bytes 0 to 13 that are missing count as 0. No field names an operation: all
//! ten are called with each input, and once more with the same graph in the
//! other version, where it is one of version 1 or 2. N is what the graph block's
//! bytes 6-7 say, 0 where there are none, and 512 where they say more. Where a search
//! finds a match, every vertex of it is asked about, too. The text that is read is the
//! graph's own listing, where it has one and the input brings no other.
//!
//! With all bits of byte 0 and bit 15 of bytes 12-13 off any graph and rule whatever
//! reach the library, and with bit 0 alone any map and any text. A block that has been mutated
//! would mostly fail at its lengths, though, and never get further; so each bit
//! repairs one thing that byte mutations break:
//!
//! | Bit | Repair |
//! |---|---|
//! | 0 | the rule begins at the first mark `LGR`, whatever the graph length says: bytes may be put in or taken out of either block. Where a mark `LGM` follows, the rule ends there, and the bytes behind it are the map before the call. Where a mark `LGL` follows, rule or map end there, and the bytes behind it are the text that is read |
//! | 1 | the map is as long as the rule's version says, cut or filled up with 255 where it is given, the list 2N, and the buffers of listings as long as they should be |
//! | 2 | the start is taken modulo 600, a little more than the most slots |
//! | 3 | the graph's length: N by the bytes there are, no part of a record |
//! | 4 | the graph's outputs and records: counts by kind and operator, unused places and bytes, inputs and outputs below N; a named Empty slot becomes a Variable |
//! | 5 | inputs name lower slots, so that there is no cycle (with bit 4 only) |
//! | 6 | the rule's length: S and T within the bytes, A by the bytes that remain |
//! | 7 | the rule's outputs, records and nodes: counts, unused places, lower vertices and nodes; not of a rule of version 2 |
//! | 15 of bytes 12-13 | the counts of a graph block of version 2 are true |
//!
//! What is right already stays as it is, so a sound block passes unchanged. The
//! headers' marks, versions and zero bytes are never repaired.

use leafgraph_reference::blocks::GraphParts;
use leafgraph_reference::counts::write_true_counts;
use leafgraph_reference::graph::{slots_told, Graph, Version, HEADER, MAX_SLOTS, RECORD};
use leafgraph_reference::listing::listing_of;
use leafgraph_reference::random::mixed;
use leafgraph_reference::stage::STAGE;
use leafgraph_reference::MAP_LENGTH;

use crate::repair::{self, version_of};

pub const CUT_AT_MARK: u8 = 1;
pub const MAP: u8 = 1 << 1;
pub const START: u8 = 1 << 2;
pub const GRAPH_LENGTH: u8 = 1 << 3;
pub const GRAPH_RECORDS: u8 = 1 << 4;
pub const LOWER_INPUTS: u8 = 1 << 5;
pub const RULE_LENGTH: u8 = 1 << 6;
pub const RULE_RECORDS: u8 = 1 << 7;

/// The bytes before the blocks.
const CONTROL: usize = 14;
const RULE_MARK: &[u8] = b"LGR";
/// No block has these marks: they only say where an input's map and text begin.
const MAP_MARK: &[u8] = b"LGM";
const TEXT_MARK: &[u8] = b"LGL";
const STARTS: u64 = 600;
/// In the 16 bits of the graph length, what says that counts are repaired.
const COUNTS: u16 = 1 << 15;

/// What the first bytes of an input say.
#[derive(Clone, Copy, Debug, Default)]
pub struct Control {
    pub repairs: u8,
    /// Whether counts are repaired.
    pub counts: bool,
    pub map_length: u8,
    pub map_byte: u8,
    pub steps_and_shifts: u8,
    pub start: u64,
}

/// The arguments of the calls.
#[derive(Clone, Debug)]
pub struct Input {
    pub graph: Vec<u8>,
    pub rule: Vec<u8>,
    /// Where a search starts, and the vertex that is asked about.
    pub start: usize,
    pub map: Vec<u8>,
    pub list: Vec<u8>,
    /// The text that is read.
    pub text: Vec<u8>,
    /// By how many bytes the buffers of listings are longer than they should be.
    pub spare: isize,
    /// The first byte of these buffers.
    pub first: u8,
    /// How many rewritings may follow an accepted one.
    pub further: usize,
    /// By how many bytes graph, rule, map, list, text and buffer are shifted in memory.
    pub shifts: [usize; 6],
    /// Draws the meanings under which demand 3 is judged: the same input must
    /// always be judged alike.
    pub seed: u64,
}

impl Control {
    /// An input of these blocks. The graph length has 15 bits, so of a longer
    /// graph the rest would be cut to the rule.
    pub fn input_bytes(&self, graph: &[u8], rule: &[u8]) -> Vec<u8> {
        let mut bytes = vec![self.repairs, self.map_length, self.map_byte, self.steps_and_shifts];
        bytes.extend(self.start.to_le_bytes());
        let counts = if self.counts { COUNTS } else { 0 };
        bytes.extend((graph.len() as u16 & !COUNTS | counts).to_le_bytes());
        bytes.extend(graph);
        bytes.extend(rule);
        bytes
    }

    /// An input of these blocks with this map. Without the cut at marks, the rule would
    /// take it for its own end.
    pub fn input_bytes_with_map(&self, graph: &[u8], rule: &[u8], map: &[u8]) -> Vec<u8> {
        [&self.input_bytes(graph, rule), MAP_MARK, map].concat()
    }

    /// An input with this text, and no block.
    pub fn input_bytes_with_text(&self, text: &[u8]) -> Vec<u8> {
        [&self.input_bytes(&[], &[]), TEXT_MARK, text].concat()
    }

    fn repairs(&self, what: u8) -> bool {
        self.repairs & what != 0
    }

    /// Where the graph ends and the rule begins.
    fn cut(&self, blocks: &[u8], graph_length: u16) -> usize {
        let mark = self.position_of(RULE_MARK, blocks);
        mark.unwrap_or(usize::from(graph_length).min(blocks.len()))
    }

    /// Where this mark stands first, if marks are looked for.
    fn position_of(&self, mark: &[u8], bytes: &[u8]) -> Option<usize> {
        match self.repairs(CUT_AT_MARK) {
            true => bytes.windows(mark.len()).position(|part| part == mark),
            false => None,
        }
    }

    /// All before the text, and the text where there is one.
    fn cut_text<'a>(&self, bytes: &'a [u8]) -> (&'a [u8], Option<&'a [u8]>) {
        match self.position_of(TEXT_MARK, bytes) {
            Some(at) => (&bytes[..at], Some(&bytes[at + TEXT_MARK.len()..])),
            None => (bytes, None),
        }
    }

    /// The rule's bytes, and the map before the call.
    fn cut_map(&self, rule: &[u8]) -> (Vec<u8>, Vec<u8>) {
        match self.position_of(MAP_MARK, rule) {
            Some(at) => {
                let mut map = rule[at + MAP_MARK.len()..].to_vec();
                let rule = rule[..at].to_vec();
                if self.repairs(MAP) {
                    map.resize(STAGE.map_length(&rule), 255);
                }
                (rule, map)
            }
            None if self.repairs(MAP) => (rule.to_vec(), self.counting(STAGE.map_length(rule))),
            None => (rule.to_vec(), self.counting(self.map_length.into())),
        }
    }

    fn repair_blocks(&self, graph: &mut Vec<u8>, rule: &mut Vec<u8>) {
        if self.repairs(GRAPH_LENGTH) {
            repair::graph_length(graph);
        }
        if self.repairs(GRAPH_RECORDS) {
            repair::graph_records(graph, self.repairs(LOWER_INPUTS));
        }
        if self.counts && version_of(graph) == Some(Version::Two) {
            write_true_counts(graph);
        }
        if self.repairs(RULE_LENGTH) {
            repair::rule_length(rule);
        }
        if self.repairs(RULE_RECORDS) {
            repair::rule_records(rule);
        }
    }

    fn map_length(&self) -> usize {
        match self.repairs(MAP) {
            true => MAP_LENGTH,
            false => self.map_length.into(),
        }
    }

    fn list_length(&self, graph: &[u8]) -> usize {
        let right = 2 * slots_told(graph).min(MAX_SLOTS);
        (right + self.map_length()).saturating_sub(MAP_LENGTH)
    }

    /// So many bytes as they are before a call.
    fn counting(&self, length: usize) -> Vec<u8> {
        counting_from(self.map_byte, length)
    }

    fn start(&self) -> usize {
        match self.repairs(START) {
            true => (self.start % STARTS) as usize,
            false => self.start as usize,
        }
    }
}

fn counting_from(first: u8, length: usize) -> Vec<u8> {
    (0..length).map(|at| first.wrapping_add(at as u8)).collect()
}

/// The listing of a sound graph; no bytes for any other.
fn listing(graph: &[u8]) -> Vec<u8> {
    let graph = Graph::parse(graph).ok();
    graph.map_or(vec![], |graph| listing_of(&GraphParts::of(graph)).into_bytes())
}

/// N as the digits behind a text's first word tell it, at most 512; 0 where there are
/// none.
fn slots_listed(text: &[u8]) -> usize {
    let digits = text.get("graph ".len()..).into_iter().flatten();
    let digits = digits.take_while(|byte| byte.is_ascii_digit()).take(4);
    digits.fold(0, |slots, digit| 10 * slots + usize::from(digit - b'0')).min(MAX_SLOTS)
}

impl Input {
    pub fn cut(bytes: &[u8]) -> Input {
        let mut head = [0; CONTROL];
        let (known, blocks) = bytes.split_at(bytes.len().min(CONTROL));
        head[..known.len()].copy_from_slice(known);
        let [repairs, map_length, map_byte, steps_and_shifts, rest @ ..] = head;
        let (start, graph_length) = rest.split_at(8);
        let start = u64::from_le_bytes(start.try_into().expect("eight bytes"));
        let length = u16::from_le_bytes(graph_length.try_into().expect("two bytes"));
        let counts = length & COUNTS != 0;
        let control = Control { repairs, counts, map_length, map_byte, steps_and_shifts, start };
        let (blocks, text) = control.cut_text(blocks);
        let (graph, rule) = blocks.split_at(control.cut(blocks, length & !COUNTS));
        let (mut graph, (mut rule, map)) = (graph.to_vec(), control.cut_map(rule));
        control.repair_blocks(&mut graph, &mut rule);
        let (bits, shift) = (usize::from(steps_and_shifts), usize::from(map_byte));
        Input {
            map,
            list: control.counting(control.list_length(&graph)),
            text: text.map_or_else(|| listing(&graph), <[u8]>::to_vec),
            spare: control.map_length() as isize - MAP_LENGTH as isize,
            first: map_byte,
            graph,
            rule,
            start: control.start(),
            further: bits & 3,
            shifts: [bits >> 2 & 7, bits >> 5 & 7, shift, shift, shift + 1, shift + 2],
            seed: mixed(u64::from_le_bytes(head[..8].try_into().expect("eight bytes"))),
        }
    }

    /// What the graph's listing is written to.
    pub fn text_buffer(&self) -> Vec<u8> {
        self.buffer(listing(&self.graph).len())
    }

    /// What the text is read into, as long as its N says.
    pub fn graph_buffer(&self) -> Vec<u8> {
        self.buffer(HEADER + RECORD * slots_listed(&self.text))
    }

    fn buffer(&self, right: usize) -> Vec<u8> {
        counting_from(self.first, right.saturating_add_signed(self.spare))
    }

    /// The same with the graph's block in the other version: with true counts, or
    /// without counts; and with its listing where there was no text. None where it is of
    /// neither version.
    pub fn in_other_version(&self) -> Option<Input> {
        let mut other = self.clone();
        let graph = &mut other.graph;
        match version_of(graph)? {
            Version::One => {
                repair::set_version(graph, Version::Two);
                write_true_counts(graph);
            }
            Version::Two => {
                repair::set_version(graph, Version::One);
                repair::remove_counts(graph);
            }
        }
        if other.text.is_empty() {
            other.text = listing(&other.graph);
        }
        Some(other)
    }
}
