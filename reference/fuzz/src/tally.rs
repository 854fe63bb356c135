//! How many calls were compared, and what was replied.

use std::fmt::Write;

use leafgraph_reference::reply::number_of;

use crate::library::{Operation, OPERATIONS};

/// A number has 8 bits.
const NUMBERS: usize = 256;

/// The second program's replies by number, counted for each operation.
#[derive(Clone)]
pub struct Tally {
    counts: [[u64; NUMBERS]; OPERATIONS.len()],
}

impl Default for Tally {
    fn default() -> Tally {
        Tally::new()
    }
}

impl Tally {
    pub const fn new() -> Tally {
        Tally { counts: [[0; NUMBERS]; OPERATIONS.len()] }
    }

    pub fn record(&mut self, operation: Operation, reply: u64) {
        self.counts[operation as usize][usize::from(number_of(reply))] += 1;
    }

    pub fn calls(&self) -> u64 {
        self.counts.iter().flatten().sum()
    }

    /// Numbers that an operation can reply and has not replied.
    pub fn missing(&self) -> Vec<String> {
        let mut missing = vec![];
        for operation in OPERATIONS {
            for number in operation.numbers() {
                if self.counts[operation as usize][usize::from(number)] == 0 {
                    missing.push(format!("{} never replied {number}", operation.name()));
                }
            }
        }
        missing
    }

    /// A line for each operation.
    pub fn report(&self) -> String {
        let mut text = String::new();
        for operation in OPERATIONS {
            let counts = self.counts[operation as usize];
            let given = counts.iter().enumerate().filter(|(_, &count)| count > 0);
            let given: Vec<String> =
                given.map(|(number, count)| format!("{number}: {count}")).collect();
            let calls: u64 = counts.iter().sum();
            writeln!(
                text,
                "  {:20}  {calls} calls, replies {}",
                operation.name(),
                given.join(", ")
            )
            .expect("text");
        }
        text
    }
}
