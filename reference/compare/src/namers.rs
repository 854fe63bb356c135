//! Who names the image of a source vertex.

use leafgraph_reference::graph::Graph;
use leafgraph_reference::rule::Rule;
use leafgraph_reference::sweep::{live_slots, Slots};

/// What names a slot and is not the image of a non-input source vertex.
#[derive(Clone, Copy, PartialEq, Eq)]
pub enum Namer {
    /// The image of a rule input.
    RuleInput,
    /// Another vertex, from which a graph output is reached.
    Vertex,
    /// Another vertex, from which none is reached.
    DeadVertex,
    Output,
}

/// All that names a slot.
#[derive(Default)]
pub struct Naming {
    /// A vertex that names the slot in several places stands here once.
    pub outside: Vec<Namer>,
    /// The images of non-input source vertices among its readers, and how many of
    /// their input places name it.
    pub inner_readers: usize,
    pub inner_reads: usize,
}

impl Naming {
    pub fn is_outside(&self) -> bool {
        !self.outside.is_empty()
    }

    /// Whether nothing else outside names the slot, so that a program which forgets
    /// such namers takes it for private.
    pub fn is_outside_only_by(&self, namer: Namer) -> bool {
        self.is_outside() && self.outside.iter().all(|&one| one == namer)
    }

    pub fn is_read_and_output(&self) -> bool {
        let is_output = |&namer: &Namer| namer == Namer::Output;
        self.outside.iter().any(is_output) && !self.outside.iter().all(is_output)
    }
}

/// A map into a graph, to ask who names what.
pub struct Match<'a> {
    graph: Graph<'a>,
    rule: Rule<'a>,
    images: &'a [u16],
    live: Slots,
}

impl<'a> Match<'a> {
    pub fn new(graph: Graph<'a>, rule: Rule<'a>, images: &'a [u16]) -> Match<'a> {
        Match { graph, rule, images, live: live_slots(graph) }
    }

    pub fn naming(&self, slot: u16) -> Naming {
        let mut naming = Naming::default();
        for (reader, vertex) in self.graph.slots().enumerate() {
            let reads = vertex.inputs().filter(|&input| input == slot).count();
            if reads > 0 {
                match self.namer(reader) {
                    Some(namer) => naming.outside.push(namer),
                    None => {
                        naming.inner_readers += 1;
                        naming.inner_reads += reads;
                    }
                }
            }
        }
        let outputs = self.graph.outputs().filter(|&output| output == slot);
        naming.outside.extend(outputs.map(|_| Namer::Output));
        naming
    }

    /// None for the image of a non-input source vertex.
    fn namer(&self, reader: usize) -> Option<Namer> {
        match self.images.iter().position(|&image| usize::from(image) == reader) {
            Some(vertex) => self.rule.is_rule_input(vertex as u8).then_some(Namer::RuleInput),
            None if self.live[reader] => Some(Namer::Vertex),
            None => Some(Namer::DeadVertex),
        }
    }
}
