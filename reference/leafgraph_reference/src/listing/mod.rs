//! Request 7/13: "Write a graph as text and read it back. Lines end in byte 10,
//! numbers are decimal without leading zeros, a minus only before a nonzero number,
//! single spaces. Whole, the last slot Empty:
//!
//! ```text
//! graph 3
//! 0 variable [] {1 3 8 8 1}
//! 1 call 7 [0] {}
//! out 1
//! ```
//!
//! Slots ascend, Empty ones are omitted; the words are const, variable, call, tuple,
//! proj, and only call has an operator number."
//!
//! "For refusals a listing is any text of this shape: N from 1 to 512, slots ascending
//! below N, counts by document 01's tables, 1 to 4 outputs, each number within its
//! field; soundness is judged after." A graph's parts stand for what a listing says:
//! they need not be sound. Fields are those of the block: input and output numbers have
//! 16 bits, so that 65535 is within its field and names no vertex, operators are 1 to
//! 14, and attributes have 32 bits and a sign, a Proj's index too.

mod cursor;
mod number;
mod reading;
mod writing;

pub use cursor::{Part, Stop};
pub use number::{begins_number, number_in};
pub use reading::parts_of;
pub use writing::listing_of;

use crate::operators::{CALL, CONST, PROJ, TUPLE, VARIABLE};

/// "the words are const, variable, call, tuple, proj", each with its kind.
const WORDS: [(&str, u8); 5] =
    [("const", CONST), ("variable", VARIABLE), ("call", CALL), ("tuple", TUPLE), ("proj", PROJ)];
