//! "Inside, a reply is one of two cases, done or a refusal with its number
//! and place record". Request 2/13 tells the kinds of fault apart, "20 to 23
//! replace 2 and 30 to 34 replace 3", and gives the place; request 5/13 adds 24 and
//! request 8/13 adds 35.
//! From request 6/13 on done may have a value: 1 for yes and 0 for no, and in request
//! 7/13 the length of a text that was written.

/// A graph's "record against its kind", with its slot.
pub const GRAPH_RECORD: u8 = 21;
/// A graph's "input or output that names no vertex", with the slot that has
/// the input, or with the output's place.
pub const GRAPH_NAME: u8 = 22;
/// "a cycle", with a slot on it.
pub const GRAPH_CYCLE: u8 = 23;
/// "a wrong count", with its slot.
pub const GRAPH_COUNT: u8 = 24;
/// A rule's "record, with its input places", with its vertex.
pub const RULE_RECORD: u8 = 31;
/// "visiting order", with "the first vertex that differs from the traversal".
pub const RULE_ORDER: u8 = 32;
/// "an expression, nodes first, then each vertex's use of them", with the node
/// or the vertex.
pub const RULE_EXPRESSION: u8 = 34;
/// "an expansion for n up to 6 isn't a sound rule", with "the least such n".
pub const RULE_EXPANSION: u8 = 35;

/// A text that is no listing, with "the place of the first byte at which no listing can
/// go on, or the text's length where it ends early".
pub const NO_LISTING: u8 = 44;

/// A refusal: its number and its place.
#[derive(Clone, Copy, Debug, PartialEq, Eq)]
pub struct Refusal {
    pub number: u8,
    pub place: u32,
}

impl Refusal {
    /// "map buffer isn't 32 bytes", or with request 8/13 128 "where rule bytes 4-5 read 2"
    pub const MAP_LENGTH: Refusal = Refusal::without_place(1);
    /// A graph's "length or header"
    pub const GRAPH_HEADER: Refusal = Refusal::without_place(20);
    /// A rule's "length or header, with source output numbers at or above S"
    pub const RULE_HEADER: Refusal = Refusal::without_place(30);
    /// "outputs and connection, with unnamed rule inputs, unused target vertices
    /// and bad target outputs"
    pub const RULE_CONNECTION: Refusal = Refusal::without_place(33);
    /// "no match from s"
    pub const NO_MATCH: Refusal = Refusal::without_place(4);
    /// "a target attribute has no result, or a Proj index is below 1"
    pub const NO_RESULT: Refusal = Refusal::without_place(5);
    /// "T exceeds Empty slots plus removed ones"
    pub const NO_ROOM: Refusal = Refusal::without_place(6);
    /// "the table so made would have a cycle"
    pub const CYCLE: Refusal = Refusal::without_place(7);
    /// "40 when the list is not 2N bytes"
    pub const LIST_LENGTH: Refusal = Refusal::without_place(40);
    /// "41 when the map isn't a match (any, with 65535 from S on)"
    pub const NOT_A_MATCH: Refusal = Refusal::without_place(41);
    /// "42 when it is no such vertex": not a non-input source vertex
    pub const NO_SUCH_VERTEX: Refusal = Refusal::without_place(42);
    /// "43 text buffer shorter than the listing"
    pub const TEXT_LENGTH: Refusal = Refusal::without_place(43);
    /// "45 unsound graph", in a listing
    pub const UNSOUND_LISTING: Refusal = Refusal::without_place(45);
    /// "46 graph buffer not exactly 24 + 48N bytes"
    pub const BLOCK_LENGTH: Refusal = Refusal::without_place(46);

    /// "wherever no request names a place, 0"
    const fn without_place(number: u8) -> Refusal {
        Refusal { number, place: 0 }
    }
}

/// Refuses with this number at this place, if there is one.
pub fn refuse_at(number: u8, place: Option<usize>) -> Result<(), Refusal> {
    match place {
        Some(place) => Err(Refusal { number, place: place as u32 }),
        None => Ok(()),
    }
}

/// Done, with the value 0, which is no to a question.
pub const DONE: u64 = 0;
/// Done, and yes to a question.
pub const YES: u64 = 1 << VALUE;

/// Where the value begins.
const VALUE: u32 = 40;

/// The 64-bit reply: number in bits 0 to 7, place in bits 8 to 39.
pub fn reply_of(outcome: Result<(), Refusal>) -> u64 {
    match outcome {
        Ok(()) => DONE,
        Err(refusal) => u64::from(refusal.number) | u64::from(refusal.place) << 8,
    }
}

/// The reply to a question, with its answer as the value.
pub fn reply_to_question(outcome: Result<bool, Refusal>) -> u64 {
    reply_with_value(outcome.map(u32::from))
}

/// The reply with a value, in bits 40 to 63, where it is done.
pub fn reply_with_value(outcome: Result<u32, Refusal>) -> u64 {
    match outcome {
        Ok(value) => DONE | u64::from(value) << VALUE,
        Err(refusal) => reply_of(Err(refusal)),
    }
}

/// The number in a reply.
pub fn number_of(reply: u64) -> u8 {
    reply as u8
}

/// The place in a reply.
pub fn place_of(reply: u64) -> u32 {
    (reply >> 8) as u32
}

/// The value in a reply.
pub fn value_of(reply: u64) -> u32 {
    (reply >> VALUE) as u32
}
