//! Request 8/13 on top of a library that has version 1 only: each fixed rule that a
//! variadic one stands for is written as a rule of version 1, as far as it fits into one,
//! and the library is called with it. This is a second telling of the expansion, by which
//! the second program is tried, and what wrong programs are made of: each slip spoils one
//! thing in it.

use std::collections::HashMap;

use leafgraph_reference::blocks::{
    access_node, constant_node, operation_node, pattern, target_place, RuleParts, VariadicParts,
};
use leafgraph_reference::reply::{number_of, place_of, Refusal, RULE_EXPANSION};
use leafgraph_reference::rule::{
    Node, ACCESS, ANY, CONSTANT, INDEX, MAX_NODES, MAX_VERTICES, MAX_WIDTH, PLUS, SUM, TARGET_BASE,
    TEMPLATE,
};
use leafgraph_reference::stage::Stage;
use leafgraph_reference::{MAP_LENGTH, VARIADIC_MAP_LENGTH};

use crate::library::{Library, PROVED};

/// What is wrong with a program.
#[derive(Clone, Copy, Debug, PartialEq, Eq)]
pub enum Slip {
    None,
    /// A template is copied once for all fields.
    CopiedOnce,
    /// A shared vertex of a branch is copied for each field.
    SharedCopied,
    /// In a sum the index of what is around it is taken, where there is one.
    OuterIndex,
    /// The target is numbered in the order of the block.
    BlockOrder,
    /// Of the faults 35 only too many vertices are seen.
    SizeOnly,
    /// The match of the least n is taken.
    LeastWidth,
    /// A map of 32 bytes is taken.
    ShortMap,
}

/// The slips by number.
pub const SLIPS: [Slip; 8] = [
    Slip::None,
    Slip::CopiedOnce,
    Slip::SharedCopied,
    Slip::OuterIndex,
    Slip::BlockOrder,
    Slip::SizeOnly,
    Slip::LeastWidth,
    Slip::ShortMap,
];

/// The program with the slip of this number.
pub fn layered<const SLIP: usize>() -> Library {
    Library {
        check_rule: |rule| check_rule(SLIPS[SLIP], rule),
        find_match: |graph, rule, start, map| find_match(SLIPS[SLIP], graph, rule, start, map),
        rewrite: |graph, rule, start, map| rewrite(SLIPS[SLIP], graph, rule, start, map),
        is_read_elsewhere: |graph, rule, map, vertex| {
            is_read_elsewhere(SLIPS[SLIP], graph, rule, map, vertex)
        },
        ..PROVED
    }
}

fn check_rule(slip: Slip, rule: &[u8]) -> u64 {
    let reply = Stage::Eight.check_rule(rule);
    let is_by_order = number_of(reply) == RULE_EXPANSION && place_of(reply) == 2;
    if slip == Slip::SizeOnly && is_by_order {
        0
    } else {
        reply
    }
}

fn find_match(slip: Slip, graph: &[u8], rule: &[u8], start: usize, map: &mut [u8]) -> u64 {
    if slip == Slip::ShortMap && is_short(rule, map) {
        return with_long_map(map, |map| Stage::Eight.find_match(graph, rule, start, map));
    }
    let mut right = map.to_vec();
    let reply = Stage::Eight.find_match(graph, rule, start, &mut right);
    let Some(fixed) = fixed_rules(slip, rule).filter(|_| [0, 4].contains(&number_of(reply))) else {
        map.copy_from_slice(&right);
        return reply;
    };
    match least_match(slip, &fixed, graph, start) {
        Some((_, found)) => {
            map.copy_from_slice(&found);
            0
        }
        None => Refusal::NO_MATCH.number.into(),
    }
}

fn rewrite(slip: Slip, graph: &mut [u8], rule: &[u8], start: usize, map: &mut [u8]) -> u64 {
    if slip == Slip::ShortMap && is_short(rule, map) {
        return with_long_map(map, |map| Stage::Eight.rewrite(graph, rule, start, map));
    }
    let (mut new, mut right) = (graph.to_vec(), map.to_vec());
    let reply = Stage::Eight.rewrite(&mut new, rule, start, &mut right);
    let is_after_checks = [0, 4, 5, 6, 7].contains(&number_of(reply));
    let Some(fixed) = fixed_rules(slip, rule).filter(|_| is_after_checks) else {
        graph.copy_from_slice(&new);
        map.copy_from_slice(&right);
        return reply;
    };
    let Some((chosen, found)) = least_match(slip, &fixed, graph, start) else {
        return Refusal::NO_MATCH.number.into();
    };
    let reply = (PROVED.rewrite)(graph, &fixed[chosen].block(), start, &mut [0; MAP_LENGTH]);
    if reply == 0 {
        map.copy_from_slice(&found);
    }
    reply
}

fn is_read_elsewhere(slip: Slip, graph: &[u8], rule: &[u8], map: &[u8], vertex: usize) -> u64 {
    let mut long = map.to_vec();
    if slip == Slip::ShortMap && is_short(rule, map) {
        long.resize(VARIADIC_MAP_LENGTH, 255);
    }
    let reply = Stage::Eight.is_read_elsewhere(graph, rule, &long, vertex);
    let is_after_checks = [0, 41, 42].contains(&number_of(reply));
    let Some(fixed) = fixed_rules(slip, rule).filter(|_| is_after_checks) else {
        return reply;
    };
    let (own, behind) = long.split_at(MAP_LENGTH);
    if behind.iter().any(|&byte| byte != 255) {
        return Refusal::NOT_A_MATCH.number.into();
    }
    let replies =
        fixed.iter().map(|one| (PROVED.is_read_elsewhere)(graph, &one.block(), own, vertex));
    let mut answers = replies.filter(|&reply| [0, 42].contains(&number_of(reply)));
    answers.next().unwrap_or(Refusal::NOT_A_MATCH.number.into())
}

fn is_short(rule: &[u8], map: &[u8]) -> bool {
    rule.get(4..6) == Some(&[2, 0]) && map.len() == MAP_LENGTH
}

fn with_long_map(map: &mut [u8], call: impl FnOnce(&mut [u8]) -> u64) -> u64 {
    let mut long = [255; VARIADIC_MAP_LENGTH];
    long[..MAP_LENGTH].copy_from_slice(map);
    let reply = call(&mut long);
    map.copy_from_slice(&long[..MAP_LENGTH]);
    reply
}

/// The rule that has the least match, by its place in the list, and that match's map.
fn least_match(
    slip: Slip,
    fixed: &[RuleParts],
    graph: &[u8],
    start: usize,
) -> Option<(usize, Vec<u8>)> {
    let mut found = vec![];
    for (place, rule) in fixed.iter().enumerate() {
        let mut map = vec![0; MAP_LENGTH];
        if (PROVED.find_match)(graph, &rule.block(), start, &mut map) == 0 {
            let images = rule.source_outputs.iter().map(|&output| {
                let at = 2 * usize::from(output);
                u16::from_le_bytes([map[at], map[at + 1]])
            });
            let images: Vec<u16> = images.collect();
            map.resize(VARIADIC_MAP_LENGTH, 255);
            found.push((images, place, map));
        }
    }
    if slip != Slip::LeastWidth {
        found.sort();
    }
    found.into_iter().next().map(|(_, place, map)| (place, map))
}

/// The rules of version 1 that a sound variadic rule stands for, from n = 1 on. None where
/// it is none, or one of them does not fit.
pub fn fixed_rules(slip: Slip, rule: &[u8]) -> Option<Vec<RuleParts>> {
    let is_sound = rule.get(4..6) == Some(&[2, 0]) && Stage::Eight.check_rule(rule) == 0;
    let parts = is_sound.then(|| parts_of(rule))?;
    (1..=MAX_WIDTH as u8).map(|width| Writer::fixed_rule(slip, &parts, width)).collect()
}

/// What a sound block has.
fn parts_of(block: &[u8]) -> VariadicParts {
    let [source, target, outputs] = [6, 7, 8].map(|at| usize::from(block[at]));
    let (records, nodes) = block[16..].split_at(16 * (source + target));
    let mut records: Vec<_> = records
        .chunks_exact(16)
        .map(|record| {
            let (inputs, attributes) = (usize::from(record[2]), usize::from(record[3]));
            let inputs = &record[4..4 + inputs];
            pattern(record[0], record[1], inputs, &record[10..10 + attributes])
        })
        .collect();
    let target = records.split_off(source);
    let node = |node: &[u8]| Node {
        form: node[0],
        a: node[1],
        b: node[2],
        number: i32::from_le_bytes([node[4], node[5], node[6], node[7]]),
    };
    VariadicParts {
        rule: RuleParts {
            source: records,
            target,
            source_outputs: block[10..10 + outputs].to_vec(),
            target_outputs: block[12..12 + outputs].to_vec(),
            nodes: nodes.chunks_exact(8).map(node).collect(),
        },
        source_tuple: block[14],
        target_tuple: Some(block[15]).filter(|&tuple| tuple != 255),
    }
}

/// A vertex or a node at an index; 0 where there is none.
type At = (u8, u8);

/// Writes one fixed rule.
struct Writer<'a> {
    slip: Slip,
    parts: &'a VariadicParts,
    width: u8,
    source: Vec<At>,
    target: Vec<At>,
    nodes: Vec<Node>,
    known: HashMap<At, u8>,
}

impl Writer<'_> {
    fn fixed_rule(slip: Slip, parts: &VariadicParts, width: u8) -> Option<RuleParts> {
        let (nodes, known) = (vec![], HashMap::new());
        let mut writer =
            Writer { slip, parts, width, source: vec![], target: vec![], nodes, known };
        let rule = &parts.rule;
        rule.source_outputs.iter().for_each(|&output| writer.visit_source((output, 0)));
        rule.target_outputs.iter().for_each(|&output| writer.visit_target(output, 0));
        if slip == Slip::BlockOrder {
            writer.target.sort_unstable();
        }
        writer.written()
    }

    fn written(mut self) -> Option<RuleParts> {
        let rule = &self.parts.rule;
        let (mut source, mut target) = (vec![], vec![]);
        for at in self.source.clone() {
            let one = &rule.source[usize::from(at.0)];
            let inputs = self.source_inputs(at).into_iter().map(|input| self.source_number(input));
            let inputs: Vec<u8> = inputs.collect();
            let attributes = self.attributes(&one.attributes, at.1)?;
            source.push(pattern(one.kind % TEMPLATE, one.operator, &inputs, &attributes));
        }
        for at in self.target.clone() {
            let one = &rule.target[usize::from(at.0)];
            let inputs = self.target_inputs(at).into_iter();
            let inputs: Vec<u8> = inputs.map(|(place, index)| self.place(place, index)).collect();
            let attributes = self.attributes(&one.attributes, at.1)?;
            target.push(pattern(one.kind % TEMPLATE, one.operator, &inputs, &attributes));
        }
        let source_outputs = rule.source_outputs.iter().map(|&one| self.source_number((one, 0)));
        let target_outputs = rule.target_outputs.iter().map(|&one| self.place(one, 0));
        let outputs = [source_outputs.collect(), target_outputs.collect()];
        let fits = source.len() <= MAX_VERTICES && target.len() <= MAX_VERTICES;
        let [source_outputs, target_outputs] = outputs;
        let nodes = self.nodes;
        fits.then_some(RuleParts { source, target, source_outputs, target_outputs, nodes })
    }

    /// The copy that is meant where a vertex of this kind is named at an index.
    fn copy(&self, vertex: u8, kind: u8, index: u8) -> At {
        match kind >= TEMPLATE {
            true if self.slip == Slip::CopiedOnce => (vertex, index.min(1)),
            true => (vertex, index),
            false if self.slip == Slip::SharedCopied => (vertex, index),
            false => (vertex, 0),
        }
    }

    fn source_copy(&self, vertex: u8, index: u8) -> At {
        self.copy(vertex, self.parts.rule.source[usize::from(vertex)].kind, index)
    }

    fn target_copy(&self, vertex: u8, index: u8) -> At {
        self.copy(vertex, self.parts.rule.target[usize::from(vertex)].kind, index)
    }

    fn source_inputs(&self, (vertex, index): At) -> Vec<At> {
        let inputs = &self.parts.rule.source[usize::from(vertex)].inputs;
        match vertex == self.parts.source_tuple {
            true => (1..=self.width).map(|index| self.source_copy(inputs[0], index)).collect(),
            false => inputs.iter().map(|&input| self.source_copy(input, index)).collect(),
        }
    }

    fn target_inputs(&self, (vertex, index): At) -> Vec<At> {
        let inputs = &self.parts.rule.target[usize::from(vertex)].inputs;
        match Some(vertex) == self.parts.target_tuple {
            true => (1..=self.width).map(|index| (inputs[0], index)).collect(),
            false => inputs.iter().map(|&place| (place, index)).collect(),
        }
    }

    fn visit_source(&mut self, at: At) {
        if !self.source.contains(&at) {
            self.source_inputs(at).into_iter().for_each(|input| self.visit_source(input));
            self.source.push(at);
        }
    }

    fn visit_target(&mut self, place: u8, index: u8) {
        let Some(vertex) = place.checked_sub(TARGET_BASE) else {
            return;
        };
        let at = self.target_copy(vertex, index);
        if !self.target.contains(&at) {
            for (place, index) in self.target_inputs(at) {
                self.visit_target(place, index);
            }
            self.target.push(at);
        }
    }

    fn source_number(&self, at: At) -> u8 {
        let number = self.source.iter().position(|&one| one == at);
        number.unwrap_or(MAX_VERTICES) as u8
    }

    fn place(&self, place: u8, index: u8) -> u8 {
        let Some(vertex) = place.checked_sub(TARGET_BASE) else {
            return self.source_number(self.source_copy(place, index));
        };
        let at = self.target_copy(vertex, index);
        let number = self.target.iter().position(|&one| one == at);
        target_place(number.unwrap_or(MAX_VERTICES) as u8)
    }

    fn attributes(&mut self, nodes: &[u8], index: u8) -> Option<Vec<u8>> {
        nodes.iter().map(|&node| self.node(node, index)).collect()
    }

    fn push(&mut self, node: Node) -> Option<u8> {
        self.nodes.push(node);
        (self.nodes.len() <= MAX_NODES).then(|| self.nodes.len() as u8 - 1)
    }

    /// The number of a node for this one at an index, which is made where there is none
    /// yet. None where there is no room.
    fn node(&mut self, number: u8, index: u8) -> Option<u8> {
        if let Some(&known) = self.known.get(&(number, index)) {
            return Some(known);
        }
        let node = self.parts.rule.nodes[usize::from(number)];
        let made = match node.form {
            ANY | CONSTANT => self.push(node)?,
            INDEX => self.push(constant_node(index.into()))?,
            ACCESS => {
                let accessed = self.source_copy(node.a, index);
                self.push(access_node(self.source_number(accessed), node.b))?
            }
            SUM => self.sum(node.a, index)?,
            form => {
                let (left, right) = (self.node(node.a, index)?, self.node(node.b, index)?);
                self.push(operation_node(form, left, right))?
            }
        };
        self.known.insert((number, index), made);
        Some(made)
    }

    fn sum(&mut self, term: u8, index: u8) -> Option<u8> {
        let is_outer = self.slip == Slip::OuterIndex && index > 0;
        let mut sum = self.node(term, if is_outer { index } else { 1 })?;
        for own in 2..=self.width {
            let term = self.node(term, if is_outer { index } else { own })?;
            sum = self.push(operation_node(PLUS, sum, term))?;
        }
        Some(sum)
    }
}
