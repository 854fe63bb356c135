//! A reading of a variadic rule's block (request 8/13), for the classes of the calls with
//! it alone.

use leafgraph_reference::rule::{Node, ACCESS, INDEX, PLUS, REMAINDER, SUM, TARGET_BASE, TEMPLATE};

const HEADER: usize = 16;
const RECORD: usize = 16;
const NODE: usize = 8;

/// One record.
pub struct Record {
    /// With the mark.
    pub kind: u8,
    pub inputs: Vec<u8>,
    pub attributes: Vec<u8>,
}

impl Record {
    pub fn is_template(&self) -> bool {
        self.kind >= TEMPLATE
    }

    pub fn is_rule_input(&self) -> bool {
        matches!(self.kind % TEMPLATE, 0 | 2)
    }
}

/// A block that is as long as its counts say.
pub struct Block {
    pub source: Vec<Record>,
    pub target: Vec<Record>,
    pub nodes: Vec<Node>,
    pub source_outputs: Vec<u8>,
    pub target_outputs: Vec<u8>,
    pub source_tuple: usize,
    /// 255 where there is none.
    pub target_tuple: usize,
}

/// A node that a vertex uses, itself or through nodes.
#[derive(Clone, Copy, PartialEq, Eq)]
pub struct Use {
    pub node: Node,
    /// How many sums are over it.
    pub sums: usize,
}

impl Block {
    /// None where the block is not so long, or its counts are past all limits.
    pub fn of(bytes: &[u8]) -> Option<Block> {
        let header = bytes.get(..HEADER)?;
        let [source, target, outputs, nodes] = [6, 7, 8, 9].map(|at| usize::from(header[at]));
        let records = source + target;
        if outputs > 2 || bytes.len() != HEADER + RECORD * records + NODE * nodes {
            return None;
        }
        let (patterns, rest) = bytes[HEADER..].split_at(RECORD * records);
        let mut patterns: Vec<Record> = patterns.chunks_exact(RECORD).map(record).collect();
        let target = patterns.split_off(source);
        Some(Block {
            source: patterns,
            target,
            nodes: rest.chunks_exact(NODE).map(node).collect(),
            source_outputs: header[10..10 + outputs].to_vec(),
            target_outputs: header[12..12 + outputs].to_vec(),
            source_tuple: header[14].into(),
            target_tuple: header[15].into(),
        })
    }

    /// Whether a target place names a template.
    pub fn names_template(&self, place: u8) -> bool {
        let (side, number) = match place.checked_sub(TARGET_BASE) {
            Some(number) => (&self.target, number),
            None => (&self.source, place),
        };
        side.get(usize::from(number)).is_some_and(Record::is_template)
    }

    /// The source vertices from which this one is reached, itself too. Inputs must be
    /// lower.
    pub fn reaching(&self, vertex: usize) -> Vec<usize> {
        let mut reaching = vec![vertex];
        let mut at = 0;
        while at < reaching.len() {
            for input in self.source[reaching[at]].inputs.iter().map(|&input| usize::from(input)) {
                if !reaching.contains(&input) {
                    reaching.push(input);
                }
            }
            at += 1;
        }
        reaching
    }

    /// What a record uses. All nodes must be sound.
    pub fn uses(&self, record: &Record) -> Vec<Use> {
        let mut uses = vec![];
        for &number in &record.attributes {
            self.add_uses(number, 0, &mut uses);
        }
        uses
    }

    fn add_uses(&self, number: u8, sums: usize, uses: &mut Vec<Use>) {
        let node = self.nodes[usize::from(number)];
        let own = Use { node, sums };
        if uses.contains(&own) {
            return;
        }
        uses.push(own);
        match node.form {
            SUM => self.add_uses(node.a, sums + 1, uses),
            PLUS..=REMAINDER => {
                self.add_uses(node.a, sums, uses);
                self.add_uses(node.b, sums, uses);
            }
            _ => {}
        }
    }

    /// Whether this accesses a template.
    pub fn accesses_template(&self, one: Use) -> bool {
        one.node.form == ACCESS && self.source[usize::from(one.node.a)].is_template()
    }

    /// Whether this needs an index that no sum gives.
    pub fn needs_index(&self, one: Use) -> bool {
        one.sums == 0 && (one.node.form == INDEX || self.accesses_template(one))
    }
}

fn record(bytes: &[u8]) -> Record {
    let counts = [bytes[2], bytes[3]].map(|count| usize::from(count).min(6));
    Record {
        kind: bytes[0],
        inputs: bytes[4..4 + counts[0]].to_vec(),
        attributes: bytes[10..10 + counts[1]].to_vec(),
    }
}

fn node(bytes: &[u8]) -> Node {
    let number = i32::from_le_bytes([bytes[4], bytes[5], bytes[6], bytes[7]]);
    Node { form: bytes[0], a: bytes[1], b: bytes[2], number }
}
