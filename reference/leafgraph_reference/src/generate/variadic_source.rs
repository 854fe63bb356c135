//! The source side of a random variadic rule (request 8/13): a branch of templates and
//! shared vertices under a Tuple, and what stands over it.

use crate::blocks::{pattern, template, PatternParts};
use crate::operators::{CALL, CONST, OPERATORS, PROJ, RELU, TUPLE, VARIABLE, WILDCARD};
use crate::random::Random;
use crate::rule::{MAX_VERTICES, TEMPLATE};

/// In so many of a hundred rules a branch is a long chain: its copies may be too many.
pub(super) const LONG: usize = 6;

/// A source whose attributes all name node 0.
pub(super) struct VariadicSource {
    pub source: Vec<PatternParts>,
    pub outputs: Vec<u8>,
    pub tuple: u8,
}

/// Which outputs the Tuple reaches.
#[derive(Clone, Copy)]
enum Plan {
    One,
    First,
    Second,
    Both,
}

pub(super) fn variadic_source(random: &mut Random) -> VariadicSource {
    let is_long = random.chance(LONG);
    let depth = match is_long {
        true => random.within(8, MAX_VERTICES - 3),
        false => random.pick(&[0, 1, 1, 2, 2, 3]),
    };
    let mut side = Growing { source: vec![], outputs: vec![], depth, is_long };
    let plan = random.pick(&[Plan::One, Plan::One, Plan::First, Plan::Second, Plan::Both]);
    let tuple = match plan {
        Plan::One => side.grow_one(random),
        Plan::First => side.grow_under_first(random),
        Plan::Second => side.grow_under_second(random),
        Plan::Both => side.grow_under_both(random),
    };
    VariadicSource { source: side.source, outputs: side.outputs, tuple }
}

/// Vertices are added once their inputs are, which is the visiting order as long as new
/// inputs are named from left to right.
struct Growing {
    source: Vec<PatternParts>,
    outputs: Vec<u8>,
    depth: usize,
    is_long: bool,
}

pub(super) fn is_template(pattern: &PatternParts) -> bool {
    pattern.kind >= TEMPLATE
}

/// Kind, operator, number of inputs and of attributes of a vertex that has inputs.
pub(super) fn any_inner(random: &mut Random) -> (u8, u8, usize, usize) {
    match random.below(12) {
        0 => (TUPLE, 0, random.pick(&[1, 2, 2, 3, 6]), 0),
        1 => (PROJ, 0, 1, 1),
        _ => {
            let number = random.within(1, OPERATORS.len());
            let operator = OPERATORS[number - 1];
            let counts = (operator.inputs.into(), operator.attributes.into());
            (CALL, number as u8, counts.0, counts.1)
        }
    }
}

impl Growing {
    fn push(&mut self, pattern: PatternParts) -> u8 {
        self.source.push(pattern);
        (self.source.len() - 1) as u8
    }

    /// The Tuple is the output, or under it.
    fn grow_one(&mut self, random: &mut Random) -> u8 {
        let tuple = self.tuple(random);
        let output = match random.chance(15) {
            true => tuple,
            false => self.over(random, vec![tuple]),
        };
        self.outputs.push(output);
        tuple
    }

    fn grow_under_first(&mut self, random: &mut Random) -> u8 {
        let common = self.shared(random, 1);
        let tuple = self.tuple(random);
        let first = self.over(random, vec![common, tuple]);
        self.outputs.push(first);
        let second = self.over(random, vec![common]);
        self.outputs.push(second);
        tuple
    }

    fn grow_under_second(&mut self, random: &mut Random) -> u8 {
        let common = self.shared(random, 1);
        let first = self.over(random, vec![common]);
        self.outputs.push(first);
        let tuple = self.tuple(random);
        let second = self.over(random, vec![common, tuple]);
        self.outputs.push(second);
        tuple
    }

    fn grow_under_both(&mut self, random: &mut Random) -> u8 {
        let tuple = self.tuple(random);
        let common = match random.chance(50) {
            true => tuple,
            false => self.over(random, vec![tuple]),
        };
        for _ in 0..2 {
            let output = self.over(random, vec![common]);
            self.outputs.push(output);
        }
        tuple
    }

    /// The Tuple with its branch, which is now and then no template.
    fn tuple(&mut self, random: &mut Random) -> u8 {
        let branch = match random.chance(20) {
            true => self.branch(random, self.depth),
            false => self.template(random, self.depth),
        };
        self.push(pattern(TUPLE, 0, &[branch], &[]))
    }

    /// An unmarked vertex that reads these, which are in the order of their numbers, and
    /// perhaps more behind them.
    fn over(&mut self, random: &mut Random, mut inputs: Vec<u8>) -> u8 {
        let fitting = (0..8).map(|_| any_inner(random)).find(|one| one.2 >= inputs.len());
        let (kind, operator, count, attributes) = fitting.unwrap_or((TUPLE, 0, inputs.len(), 0));
        while inputs.len() < count {
            inputs.push(self.shared(random, 0));
        }
        let made = self.push(pattern(kind, operator, &inputs, &vec![0; attributes]));
        match random.chance(15) {
            true => self.over(random, vec![made]),
            false => made,
        }
    }

    /// A vertex that a template or the Tuple may name.
    fn branch(&mut self, random: &mut Random, depth: usize) -> u8 {
        let known: Vec<u8> = self.nameable(|_| true);
        if !known.is_empty() && random.chance(20) {
            return random.pick(&known);
        }
        match random.chance(20) {
            true => self.shared(random, depth.min(1)),
            false => self.template(random, depth),
        }
    }

    fn template(&mut self, random: &mut Random, depth: usize) -> u8 {
        if self.is_long && depth > 0 {
            let below = self.template(random, depth - 1);
            return self.push(template(pattern(CALL, RELU, &[below], &[])));
        }
        if depth == 0 || random.chance(20) {
            let leaf = leaf(random);
            return self.push(template(leaf));
        }
        let (kind, operator, count, attributes) = any_inner(random);
        let inputs: Vec<u8> = (0..count).map(|_| self.branch(random, depth - 1)).collect();
        self.push(template(pattern(kind, operator, &inputs, &vec![0; attributes])))
    }

    /// A vertex that any may name.
    fn shared(&mut self, random: &mut Random, depth: usize) -> u8 {
        let known = self.nameable(|pattern| !is_template(pattern));
        if !known.is_empty() && random.chance(40) {
            return random.pick(&known);
        }
        if depth == 0 || random.chance(50) {
            let leaf = leaf(random);
            return self.push(leaf);
        }
        let (kind, operator, count, attributes) = any_inner(random);
        let inputs: Vec<u8> = (0..count).map(|_| self.shared(random, depth - 1)).collect();
        self.push(pattern(kind, operator, &inputs, &vec![0; attributes]))
    }

    /// The vertices so far that are no outputs and for which this holds.
    fn nameable(&self, holds: fn(&PatternParts) -> bool) -> Vec<u8> {
        let vertices = (0..).zip(&self.source);
        let named = vertices.filter(|(vertex, one)| holds(one) && !self.outputs.contains(vertex));
        named.map(|(vertex, _)| vertex).collect()
    }
}

fn leaf(random: &mut Random) -> PatternParts {
    match random.below(10) {
        0..=5 => pattern(WILDCARD, 0, &[], &[]),
        6 | 7 => pattern(VARIABLE, 0, &[], &[0; 5]),
        _ => pattern(CONST, 0, &[], &[0]),
    }
}
