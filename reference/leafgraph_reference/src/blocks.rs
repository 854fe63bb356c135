//! Builders of graph and rule blocks, for tests, examples and the comparison, and for
//! what a listing says.
//!
//! They write what they are told, sound or not: counts of inputs, of attributes
//! and of what names a slot follow from the lists given, unused places and zero
//! bytes are filled in as the papers say, and nothing is judged.

use crate::counts::write_counts;
use crate::fields::{put_i32, put_u16};
use crate::graph::{self, write_record, Graph, Slot, Version, OUTPUT_PLACES, VERSION};
use crate::operators::{
    ADD, CALL, CONST, CONV2D, EMPTY, GAIN, MEAN, PROJ, RELU, SUB, TUPLE, VARIABLE, WILDCARD,
};
use crate::rule::{
    self, Node, Rule, ACCESS, ANY, CONSTANT, INDEX, SUM, TARGET_BASE, TEMPLATE, TIMES,
};

/// One slot of a graph.
#[derive(Clone, Debug, PartialEq, Eq)]
pub struct Vertex {
    pub kind: u8,
    pub operator: u8,
    pub inputs: Vec<u16>,
    pub attributes: Vec<i32>,
}

/// A graph before it is written as bytes.
#[derive(Clone, Debug, PartialEq, Eq)]
pub struct GraphParts {
    pub slots: Vec<Vertex>,
    pub outputs: Vec<u16>,
}

fn vertex(kind: u8, operator: u8, inputs: &[u16], attributes: &[i32]) -> Vertex {
    Vertex { kind, operator, inputs: inputs.to_vec(), attributes: attributes.to_vec() }
}

pub fn empty() -> Vertex {
    vertex(EMPTY, 0, &[], &[])
}

pub fn constant(number: i32) -> Vertex {
    vertex(CONST, 0, &[], &[number])
}

/// A Variable with the attributes {1 3 8 8 1}.
pub fn variable() -> Vertex {
    vertex(VARIABLE, 0, &[], &[1, 3, 8, 8, 1])
}

pub fn variable_of(attributes: [i32; 5]) -> Vertex {
    vertex(VARIABLE, 0, &[], &attributes)
}

pub fn call(operator: u8, inputs: &[u16], attributes: &[i32]) -> Vertex {
    vertex(CALL, operator, inputs, attributes)
}

pub fn relu(input: u16) -> Vertex {
    call(RELU, &[input], &[])
}

pub fn add(left: u16, right: u16) -> Vertex {
    call(ADD, &[left, right], &[])
}

pub fn tuple(inputs: &[u16]) -> Vertex {
    vertex(TUPLE, 0, inputs, &[])
}

pub fn projection(input: u16, index: i32) -> Vertex {
    vertex(PROJ, 0, &[input], &[index])
}

impl Vertex {
    /// The slot record, with a count of 0. At most six inputs and six attributes.
    pub fn record(&self) -> [u8; graph::RECORD] {
        let counts = [self.inputs.len() as u8, self.attributes.len() as u8];
        let head = [self.kind, self.operator, counts[0], counts[1]];
        let mut record = [0; graph::RECORD];
        write_record(&mut record, head, &self.inputs, &self.attributes);
        record
    }
}

impl GraphParts {
    pub fn new(slots: Vec<Vertex>, outputs: &[u16]) -> GraphParts {
        GraphParts { slots, outputs: outputs.to_vec() }
    }

    /// What a sound graph has.
    pub fn of(graph: Graph) -> GraphParts {
        let parts = |slot: Slot| Vertex {
            kind: slot.kind(),
            operator: slot.operator(),
            inputs: slot.inputs().collect(),
            attributes: slot.attributes().collect(),
        };
        GraphParts { slots: graph.slots().map(parts).collect(), outputs: graph.outputs().collect() }
    }

    /// The block, with true counts. At most four outputs, six inputs and six
    /// attributes.
    pub fn block(&self) -> Vec<u8> {
        let mut bytes = self.block_of(Version::Two);
        write_counts(&mut bytes, &self.counts());
        bytes
    }

    /// The block as it was before request 5/13, for the import.
    pub fn version_1_block(&self) -> Vec<u8> {
        self.block_of(Version::One)
    }

    /// How many input places and outputs name each slot.
    pub fn counts(&self) -> Vec<u16> {
        let inputs = self.slots.iter().flat_map(|vertex| &vertex.inputs);
        self.times_in(inputs.chain(&self.outputs))
    }

    /// How often each slot is among these numbers, some of which may name none.
    pub(crate) fn times_in<'a>(&self, numbers: impl Iterator<Item = &'a u16>) -> Vec<u16> {
        let mut times = vec![0; self.slots.len()];
        for &number in numbers {
            times.get_mut(usize::from(number)).into_iter().for_each(|times| *times += 1);
        }
        times
    }

    /// Without counts.
    fn block_of(&self, version: Version) -> Vec<u8> {
        let mut bytes = vec![0; graph::HEADER + graph::RECORD * self.slots.len()];
        bytes[..3].copy_from_slice(b"LGT");
        put_u16(&mut bytes, VERSION, version.number());
        put_u16(&mut bytes, 6, self.slots.len() as u16);
        put_u16(&mut bytes, 8, self.outputs.len() as u16);
        for place in 0..OUTPUT_PLACES {
            let output = self.outputs.get(place).copied().unwrap_or(graph::UNUSED);
            put_u16(&mut bytes, 10 + 2 * place, output);
        }
        let records = bytes[graph::HEADER..].chunks_exact_mut(graph::RECORD);
        for (record, vertex) in records.zip(&self.slots) {
            record.copy_from_slice(&vertex.record());
        }
        bytes
    }
}

/// One pattern of a rule. Attributes are numbers of nodes.
#[derive(Clone, Debug, PartialEq, Eq)]
pub struct PatternParts {
    pub kind: u8,
    pub operator: u8,
    pub inputs: Vec<u8>,
    pub attributes: Vec<u8>,
}

/// A rule before it is written as bytes.
#[derive(Clone, Debug, PartialEq, Eq)]
pub struct RuleParts {
    pub source: Vec<PatternParts>,
    pub target: Vec<PatternParts>,
    pub source_outputs: Vec<u8>,
    pub target_outputs: Vec<u8>,
    pub nodes: Vec<Node>,
}

pub fn pattern(kind: u8, operator: u8, inputs: &[u8], attributes: &[u8]) -> PatternParts {
    PatternParts { kind, operator, inputs: inputs.to_vec(), attributes: attributes.to_vec() }
}

pub fn wildcard() -> PatternParts {
    pattern(WILDCARD, 0, &[], &[])
}

pub fn call_pattern(operator: u8, inputs: &[u8], attributes: &[u8]) -> PatternParts {
    pattern(CALL, operator, inputs, attributes)
}

/// The same pattern marked as a template.
pub fn template(pattern: PatternParts) -> PatternParts {
    PatternParts { kind: pattern.kind + TEMPLATE, ..pattern }
}

/// The place of target vertex t.
pub fn target_place(vertex: u8) -> u8 {
    TARGET_BASE + vertex
}

pub fn any_node() -> Node {
    node(ANY, 0, 0, 0)
}

pub fn constant_node(number: i32) -> Node {
    node(CONSTANT, 0, 0, number)
}

/// Attribute place (from 1) of a source vertex.
pub fn access_node(vertex: u8, place: u8) -> Node {
    node(ACCESS, vertex, place, 0)
}

/// One of the forms 3 to 7 over two earlier nodes.
pub fn operation_node(form: u8, left: u8, right: u8) -> Node {
    node(form, left, right, 0)
}

/// The index, in a template or under a sum.
pub fn index_node() -> Node {
    node(INDEX, 0, 0, 0)
}

/// The sum of an earlier node.
pub fn sum_node(term: u8) -> Node {
    node(SUM, term, 0, 0)
}

pub fn node(form: u8, a: u8, b: u8, number: i32) -> Node {
    Node { form, a, b, number }
}

impl RuleParts {
    /// What a rule has. The nodes of a fixed rule of request 8/13 are still the block's.
    pub fn of(rule: Rule) -> RuleParts {
        let parts = |one: rule::Pattern| PatternParts {
            kind: one.kind(),
            operator: one.operator(),
            inputs: one.inputs().collect(),
            attributes: one.attributes().collect(),
        };
        RuleParts {
            source: rule.sources().map(parts).collect(),
            target: rule.targets().map(parts).collect(),
            source_outputs: rule.source_outputs().collect(),
            target_outputs: rule.target_outputs().collect(),
            nodes: (0..rule.node_count()).map(|node| rule.node(node)).collect(),
        }
    }

    /// The block; K is the number of source outputs. At most two outputs a
    /// side.
    pub fn block(&self) -> Vec<u8> {
        let counts = [&self.source, &self.target].map(|side| side.len() as u8);
        let mut bytes = b"LGR\0\x01\0".to_vec();
        bytes.extend(counts);
        bytes.extend([self.source_outputs.len() as u8, self.nodes.len() as u8]);
        for outputs in [&self.source_outputs, &self.target_outputs] {
            bytes.extend(padded(outputs, rule::MAX_OUTPUTS));
        }
        bytes.extend([0, 0]);
        for pattern in self.source.iter().chain(&self.target) {
            let counts = [&pattern.inputs, &pattern.attributes].map(|list| list.len() as u8);
            bytes.extend([pattern.kind, pattern.operator, counts[0], counts[1]]);
            bytes.extend(padded(&pattern.inputs, 6));
            bytes.extend(padded(&pattern.attributes, 6));
        }
        for node in &self.nodes {
            let mut record = [node.form, node.a, node.b, 0, 0, 0, 0, 0];
            put_i32(&mut record, 4, node.number);
            bytes.extend(record);
        }
        bytes
    }
}

/// A variadic rule (request 8/13) before it is written as bytes.
#[derive(Clone, Debug, PartialEq, Eq)]
pub struct VariadicParts {
    pub rule: RuleParts,
    pub source_tuple: u8,
    pub target_tuple: Option<u8>,
}

impl VariadicParts {
    /// The block, in version 2.
    pub fn block(&self) -> Vec<u8> {
        self.named_in(self.rule.block())
    }

    /// These bytes as a block of version 2 with these Tuples, as far as they have a
    /// header.
    pub fn named_in(&self, mut block: Vec<u8>) -> Vec<u8> {
        if let Some(header) = block.get_mut(..rule::HEADER) {
            header[4] = 2;
            header[14] = self.source_tuple;
            header[15] = self.target_tuple.unwrap_or(rule::UNUSED);
        }
        block
    }
}

/// These places, and 255 in the unused ones.
fn padded(places: &[u8], count: usize) -> Vec<u8> {
    let mut padded = places.to_vec();
    padded.resize(count, rule::UNUSED);
    padded
}

/// "E1: slots 0, 1 Variable; 2 conv2d(0,1); 3 relu(2); 4 relu(3); 5 Empty;
/// output 4."
pub fn e1() -> GraphParts {
    let conv2d = call(CONV2D, &[0, 1], &[1, 1, 1, 1]);
    let slots = vec![variable(), variable(), conv2d, relu(2), relu(3), empty()];
    GraphParts::new(slots, &[4])
}

/// "RR: source 0 wildcard, 1 relu(0), 2 relu(1); target relu of input 0."
pub fn rr() -> RuleParts {
    let relu = |input| call_pattern(RELU, &[input], &[]);
    RuleParts {
        source: vec![wildcard(), relu(0), relu(1)],
        target: vec![relu(0)],
        source_outputs: vec![2],
        target_outputs: vec![target_place(0)],
        nodes: vec![],
    }
}

/// P7's rule: "source outputs relu(x) and add(x,y) [...]; both target outputs
/// sub(x,y)".
pub fn p7_rule() -> RuleParts {
    RuleParts {
        source: vec![
            wildcard(),
            call_pattern(RELU, &[0], &[]),
            wildcard(),
            call_pattern(ADD, &[0, 2], &[]),
        ],
        target: vec![call_pattern(SUB, &[0, 2], &[])],
        source_outputs: vec![1, 3],
        target_outputs: vec![target_place(0); 2],
        nodes: vec![],
    }
}

/// P7's graph: slots "0 Variable, 1 relu(0), 2 mean(1)", 3 add(0,2), output 3.
pub fn p7_graph() -> GraphParts {
    let slots = vec![variable(), relu(0), call(MEAN, &[1], &[0]), add(0, 2)];
    GraphParts::new(slots, &[3])
}

/// P8's graph: "Slots 0, 1 Variable, 2 relu(0), 3 relu(1), 4 add(1,0), output
/// 4".
pub fn p8_graph() -> GraphParts {
    let slots = vec![variable(), variable(), relu(0), relu(1), add(1, 0)];
    GraphParts::new(slots, &[4])
}

/// P10's rule: "gain over gain, attributes multiplied".
pub fn p10_rule() -> RuleParts {
    let gain = |input, nodes: [u8; 3]| call_pattern(GAIN, &[input], &nodes);
    let mut nodes = vec![any_node()];
    for place in 1..=3 {
        let left = nodes.len() as u8;
        nodes.extend([access_node(1, place), access_node(2, place)]);
        nodes.push(operation_node(TIMES, left, left + 1));
    }
    RuleParts {
        source: vec![wildcard(), gain(0, [0; 3]), gain(1, [0; 3])],
        target: vec![gain(0, [3, 6, 9])],
        source_outputs: vec![2],
        target_outputs: vec![target_place(0)],
        nodes,
    }
}

/// Slots 0 Variable, 1 gain(0) and 2 gain(1) with these attributes, output 2.
pub fn p10_graph(first: [i32; 3], second: [i32; 3]) -> GraphParts {
    let slots = vec![variable(), call(GAIN, &[0], &first), call(GAIN, &[1], &second)];
    GraphParts::new(slots, &[2])
}

/// A rule for request 1/13: add(x, c), c any Const, becomes relu(x), or so many
/// relus over it.
pub fn dropped_constant(targets: u8) -> RuleParts {
    let read = |vertex: u8| vertex.checked_sub(1).map_or(0, target_place);
    let constant = pattern(CONST, 0, &[], &[0]);
    RuleParts {
        source: vec![wildcard(), constant, call_pattern(ADD, &[0, 1], &[])],
        target: (0..targets).map(|vertex| call_pattern(RELU, &[read(vertex)], &[])).collect(),
        source_outputs: vec![2],
        target_outputs: vec![target_place(targets - 1)],
        nodes: vec![any_node()],
    }
}

/// A graph for it: slots 0 Const, 1 the vertex x, 2 add(1,0), then others.
pub fn constant_sum(x: Vertex, others: &[Vertex], outputs: &[u16]) -> GraphParts {
    GraphParts::new([vec![constant(7), x, add(1, 0)], others.to_vec()].concat(), outputs)
}

/// Slot 0 a Variable, slot k relu(k - 1), the last one the output.
pub fn chain(slots: u16) -> GraphParts {
    let vertices = (0..slots).map(|slot| match slot {
        0 => variable(),
        _ => relu(slot - 1),
    });
    GraphParts::new(vertices.collect(), &[slots.saturating_sub(1)])
}

/// The last slot a Variable, slot k relu(k + 1), slot 0 the output.
pub fn reversed_chain(slots: u16) -> GraphParts {
    let vertices = (0..slots).map(|slot| match slots - slot {
        1 => variable(),
        _ => relu(slot + 1),
    });
    GraphParts::new(vertices.collect(), &[0])
}
