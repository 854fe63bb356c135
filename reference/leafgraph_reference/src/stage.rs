//! The one switch of this program: which requests of document 02 it answers by.

/// The papers as they stand after a request.
#[derive(Clone, Copy, Debug, PartialEq, Eq)]
pub enum Stage {
    /// Document 01 with the requests up to 7/13.
    Seven,
    /// Request 8/13 too: "a variadic rule, version 2 of the rule block".
    Eight,
}

/// The stage of this crate's functions, which must be the proved library's.
pub const STAGE: Stage = Stage::Seven;

impl Stage {
    /// Whether a rule block may have this version.
    pub(crate) fn takes_rule_version(self, version: u16) -> bool {
        version == 1 || (version == 2 && self == Stage::Eight)
    }
}
