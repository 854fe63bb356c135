//! Request 6/13: "Is anyone else reading this stage?" It is answered by looking at
//! every place of the graph, whatever the stored counts say.

use crate::graph::Graph;
use crate::matching::Images;
use crate::rule::Rule;

/// A map of a rule's source vertices into a graph, match or not.
#[derive(Clone, Copy)]
pub struct Mapped<'a> {
    pub graph: Graph<'a>,
    pub rule: Rule<'a>,
    pub images: &'a Images,
}

impl<'a> Mapped<'a> {
    /// Whether this slot "is a graph output or is read by something other than the
    /// image of a non-input source vertex". A reader counts whether or not it
    /// reaches an output.
    pub fn is_read_elsewhere(self, slot: u16) -> bool {
        self.graph.outputs().any(|output| output == slot)
            || self.readers_of(slot).any(|reader| !self.is_inside(reader))
    }

    /// The slots that read this one, each once.
    fn readers_of(self, slot: u16) -> impl Iterator<Item = u16> + 'a {
        let slots = self.graph.slots().zip(0..);
        slots
            .filter(move |(reader, _)| reader.inputs().any(|input| input == slot))
            .map(|(_, own)| own)
    }

    /// Whether this slot is the image of a non-input source vertex.
    pub fn is_inside(self, slot: u16) -> bool {
        let mut pairs = self.rule.sources().zip(self.images);
        pairs.any(|(pattern, &image)| image == slot && !pattern.is_input_kind())
    }
}
