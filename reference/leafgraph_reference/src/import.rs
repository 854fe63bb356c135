//! Request 5/13's import, in place.

use crate::counts::{true_counts, write_counts};
use crate::fields::put_u16;
use crate::graph::{Graph, Version, VERSION};
use crate::reply::Refusal;

/// "turns a sound version 1 block into version 2", by version 1's rules: it has no
/// counts that could be wrong. All bytes but the version and the counts stay.
pub fn import(block: &mut [u8]) -> Result<(), Refusal> {
    let counts = true_counts(Graph::parse_but_counts(block, Version::One)?);
    put_u16(block, VERSION, Version::Two.number());
    write_counts(block, &counts);
    Ok(())
}
