//! The fuzz target. Any bytes are cut into the arguments of the ten
//! operations (`input` has the layout); the proved library is called with them
//! through its C entry points and the second program beside it, and all that
//! comes back must be the same.
//!
//! `entry` is what libFuzzer calls. The binaries need no fuzzer: `fuzz_replay`
//! runs kept inputs, `fuzz_seeds` writes the inputs that fuzzing starts from.

pub mod cleanup_examples;
pub mod comparison;
mod entry;
pub mod fault_examples;
pub mod input;
pub mod judgement;
pub mod layered;
pub mod library;
pub mod listing_examples;
pub mod question_examples;
pub mod repair;
pub mod tally;
pub mod variadic_examples;
