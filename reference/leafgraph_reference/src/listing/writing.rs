//! The listing of a graph.

use std::fmt::{Display, Write};

use super::WORDS;
use crate::blocks::GraphParts;
use crate::operators::CALL;

/// The text that lists these parts. "Every sound graph has one listing"; of parts that
/// are not sound it is a text of the same shape, as far as they are within theirs.
pub fn listing_of(parts: &GraphParts) -> String {
    let mut text = format!("graph {}\n", parts.slots.len());
    for (slot, vertex) in parts.slots.iter().enumerate() {
        let word = WORDS.into_iter().find(|(_, kind)| *kind == vertex.kind);
        let Some((word, kind)) = word else {
            continue; // "Empty ones are omitted"
        };
        let operator = if kind == CALL { format!(" {}", vertex.operator) } else { String::new() };
        let (inputs, attributes) = (spaced(&vertex.inputs), spaced(&vertex.attributes));
        writeln!(text, "{slot} {word}{operator} [{inputs}] {{{attributes}}}").expect("text");
    }
    text + &format!("out {}\n", spaced(&parts.outputs))
}

fn spaced(numbers: &[impl Display]) -> String {
    let texts: Vec<String> = numbers.iter().map(|number| number.to_string()).collect();
    texts.join(" ")
}
