//! The ten operations, of either program.

use leafgraph_reference::reply::RULE_EXPANSION;
use leafgraph_reference::stage::{Stage, STAGE};

/// One of document 01's four operations, of request 4/13's two, request 5/13's or
/// 6/13's, or one of request 7/13's two.
#[derive(Clone, Copy, Debug, PartialEq, Eq)]
pub enum Operation {
    CheckGraph,
    CheckRule,
    FindMatch,
    Rewrite,
    Sweep,
    Squeeze,
    Import,
    IsReadElsewhere,
    WriteListing,
    ReadListing,
}

pub const OPERATIONS: [Operation; 10] = [
    Operation::CheckGraph,
    Operation::CheckRule,
    Operation::FindMatch,
    Operation::Rewrite,
    Operation::Sweep,
    Operation::Squeeze,
    Operation::Import,
    Operation::IsReadElsewhere,
    Operation::WriteListing,
    Operation::ReadListing,
];

impl Operation {
    pub fn name(self) -> &'static str {
        match self {
            Operation::CheckGraph => "lg_check_graph",
            Operation::CheckRule => "lg_check_rule",
            Operation::FindMatch => "lg_find_match",
            Operation::Rewrite => "lg_rewrite",
            Operation::Sweep => "lg_sweep",
            Operation::Squeeze => "lg_squeeze",
            Operation::Import => "lg_import",
            Operation::IsReadElsewhere => "lg_is_read_elsewhere",
            Operation::WriteListing => "lg_write_listing",
            Operation::ReadListing => "lg_read_listing",
        }
    }

    /// Whether the operation writes the graph that it is given, where it is done.
    pub fn writes_graph(self) -> bool {
        use Operation::{Import, Rewrite, Squeeze, Sweep};
        matches!(self, Rewrite | Sweep | Squeeze | Import)
    }

    /// "Checking a graph gives 0 or 2, a rule 0 or 3, matching 0 to 4,
    /// rewriting 0 to 7", where "20 to 23 replace 2 and 30 to 34 replace 3"; sweep
    /// and squeeze "bad graph as before, then 40", which is the squeeze's alone.
    /// "A wrong count is 24", and version 1 has none. The question has "1, the graph
    /// and rule ones, then 41 [...], 42"; "writing gives the graph ones, then 43 [...];
    /// reading gives 44 [...], 45 [...], 46".
    pub fn numbers(self) -> impl Iterator<Item = u8> {
        let has_variadic = STAGE == Stage::Eight;
        let numbers = self.all_numbers().iter().copied();
        numbers.filter(move |&number| number != RULE_EXPANSION || has_variadic)
    }

    /// With request 8/13's "35 [...], after 34".
    fn all_numbers(self) -> &'static [u8] {
        match self {
            Operation::CheckGraph | Operation::Sweep => &[0, 20, 21, 22, 23, 24],
            Operation::CheckRule => &[0, 30, 31, 32, 33, 34, 35],
            Operation::FindMatch => &[0, 1, 20, 21, 22, 23, 24, 30, 31, 32, 33, 34, 35, 4],
            Operation::Rewrite => &[0, 1, 20, 21, 22, 23, 24, 30, 31, 32, 33, 34, 35, 4, 5, 6, 7],
            Operation::Squeeze => &[0, 20, 21, 22, 23, 24, 40],
            Operation::Import => &[0, 20, 21, 22, 23],
            Operation::IsReadElsewhere => {
                &[0, 1, 20, 21, 22, 23, 24, 30, 31, 32, 33, 34, 35, 41, 42]
            }
            Operation::WriteListing => &[0, 20, 21, 22, 23, 24, 43],
            Operation::ReadListing => &[0, 44, 45, 46],
        }
    }
}

/// What one program has for the ten operations. A test puts a wrong program
/// here to see that the comparison notices.
#[derive(Clone, Copy)]
pub struct Library {
    pub check_graph: fn(&[u8]) -> u64,
    pub check_rule: fn(&[u8]) -> u64,
    pub find_match: fn(&[u8], &[u8], usize, &mut [u8]) -> u64,
    pub rewrite: fn(&mut [u8], &[u8], usize, &mut [u8]) -> u64,
    pub sweep: fn(&mut [u8]) -> u64,
    pub squeeze: fn(&mut [u8], &mut [u8]) -> u64,
    pub import: fn(&mut [u8]) -> u64,
    pub is_read_elsewhere: fn(&[u8], &[u8], &[u8], usize) -> u64,
    pub write_listing: fn(&[u8], &mut [u8]) -> u64,
    pub read_listing: fn(&[u8], &mut [u8]) -> u64,
}

/// The proved library, through its C entry points.
pub const PROVED: Library = Library {
    check_graph: leafgraph_proved::check_graph,
    check_rule: leafgraph_proved::check_rule,
    find_match: leafgraph_proved::find_match,
    rewrite: leafgraph_proved::rewrite,
    sweep: leafgraph_proved::sweep,
    squeeze: leafgraph_proved::squeeze,
    import: leafgraph_proved::import,
    is_read_elsewhere: leafgraph_proved::is_read_elsewhere,
    write_listing: leafgraph_proved::write_listing,
    read_listing: leafgraph_proved::read_listing,
};

/// The second program.
pub const SECOND: Library = Library {
    check_graph: leafgraph_reference::check_graph,
    check_rule: leafgraph_reference::check_rule,
    find_match: leafgraph_reference::find_match,
    rewrite: leafgraph_reference::rewrite,
    sweep: leafgraph_reference::sweep,
    squeeze: leafgraph_reference::squeeze,
    import: leafgraph_reference::import,
    is_read_elsewhere: leafgraph_reference::is_read_elsewhere,
    write_listing: leafgraph_reference::write_listing,
    read_listing: leafgraph_reference::read_listing,
};

/// The second program with request 8/13, whatever its own stage is.
pub const SECOND_WITH_VARIADIC: Library = Library {
    check_rule: |rule| Stage::Eight.check_rule(rule),
    find_match: |graph, rule, start, map| Stage::Eight.find_match(graph, rule, start, map),
    rewrite: |graph, rule, start, map| Stage::Eight.rewrite(graph, rule, start, map),
    is_read_elsewhere: |graph, rule, map, vertex| {
        Stage::Eight.is_read_elsewhere(graph, rule, map, vertex)
    },
    ..SECOND
};

/// What a call is lent, each part of it in bytes that may be written.
pub struct Lent<'a> {
    pub graph: &'a mut [u8],
    pub rule: &'a mut [u8],
    pub map: &'a mut [u8],
    pub list: &'a mut [u8],
    /// A text to read.
    pub text: &'a mut [u8],
    /// Where a listing is written to, or the graph that a text is read as.
    pub buffer: &'a mut [u8],
}

impl Library {
    /// Calls one operation with those of these that it takes. The number is where a
    /// search starts, or a vertex.
    pub fn call(&self, operation: Operation, lent: Lent, number: usize) -> u64 {
        let Lent { graph, rule, map, list, text, buffer } = lent;
        match operation {
            Operation::CheckGraph => (self.check_graph)(graph),
            Operation::CheckRule => (self.check_rule)(rule),
            Operation::FindMatch => (self.find_match)(graph, rule, number, map),
            Operation::Rewrite => (self.rewrite)(graph, rule, number, map),
            Operation::Sweep => (self.sweep)(graph),
            Operation::Squeeze => (self.squeeze)(graph, list),
            Operation::Import => (self.import)(graph),
            Operation::IsReadElsewhere => (self.is_read_elsewhere)(graph, rule, map, number),
            Operation::WriteListing => (self.write_listing)(graph, buffer),
            Operation::ReadListing => (self.read_listing)(text, buffer),
        }
    }
}
