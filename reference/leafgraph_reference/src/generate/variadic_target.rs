//! The target side of a random variadic rule (request 8/13).

use crate::blocks::{access_node, pattern, target_place, template, PatternParts};
use crate::operators::{CONST, PLACES, TUPLE, VARIABLE, WILDCARD};
use crate::random::Random;
use crate::rule::{TARGET_BASE, TEMPLATE};

use super::variadic_nodes::VariadicNodes;
use super::variadic_source::{any_inner, is_template, VariadicSource, LONG};

/// A target whose attributes all name node 0.
pub(super) struct VariadicTarget {
    pub target: Vec<PatternParts>,
    pub outputs: Vec<u8>,
    pub tuple: Option<u8>,
}

/// A target for this source that names every rule input and uses every target vertex.
/// It has a Tuple where a template is a rule input, and else mostly.
pub(super) fn variadic_target(
    random: &mut Random,
    source: &[PatternParts],
    outputs: usize,
) -> VariadicTarget {
    let inputs = (0..).zip(source).filter(|(_, one)| is_rule_input(one));
    let (copied, shared): (Vec<_>, Vec<_>) = inputs.partition(|(_, one)| is_template(one));
    let [copied, shared] = [copied, shared].map(|list| list.iter().map(|one| one.0).collect());
    let mut side = Building { target: vec![], copied, shared };
    let tuple = match !side.copied.is_empty() || random.chance(60) {
        true => Some(side.tuple(random)),
        false => None,
    };
    let outputs = side.outputs(random, tuple, outputs);
    let target = VariadicTarget { target: side.target, outputs, tuple };
    match random.chance(40) {
        true => target.in_another_order(random),
        false => target,
    }
}

/// A target that means what the source means, whatever the operators mean: a copy of all
/// that is no rule input, with the attributes of the images. None where the nodes do not
/// suffice.
pub(super) fn copied_target(
    side: &VariadicSource,
    nodes: &mut VariadicNodes,
) -> Option<VariadicTarget> {
    let mut target: Vec<PatternParts> = vec![];
    let mut places: Vec<u8> = vec![];
    for (vertex, one) in (0..).zip(&side.source) {
        if is_rule_input(one) {
            places.push(vertex);
            continue;
        }
        let mut copy = one.clone();
        copy.inputs.iter_mut().for_each(|input| *input = places[usize::from(*input)]);
        for (place, node) in (1..).zip(&mut copy.attributes) {
            *node = nodes.push_if_room(access_node(vertex, place))?;
        }
        places.push(target_place(target.len() as u8));
        target.push(copy);
    }
    let outputs = side.outputs.iter().map(|&output| places[usize::from(output)]).collect();
    let tuple = Some(places[usize::from(side.tuple)] - TARGET_BASE);
    Some(VariadicTarget { target, outputs, tuple })
}

fn is_rule_input(one: &PatternParts) -> bool {
    [WILDCARD, VARIABLE].contains(&(one.kind % TEMPLATE))
}

struct Building {
    target: Vec<PatternParts>,
    /// Rule inputs that are templates, and the others.
    copied: Vec<u8>,
    shared: Vec<u8>,
}

impl Building {
    fn push(&mut self, pattern: PatternParts) -> u8 {
        self.target.push(pattern);
        target_place(self.target.len() as u8 - 1)
    }

    /// The target Tuple's number, with a branch that names all rule inputs that are
    /// templates.
    fn tuple(&mut self, random: &mut Random) -> u8 {
        let mut open = self.copied.clone();
        random.shuffle(&mut open);
        if random.chance(20) {
            let marked = random.chance(50);
            open.push(self.constant(marked));
        }
        if open.is_empty() && !self.shared.is_empty() {
            open.push(random.pick(&self.shared));
        }
        if open.is_empty() {
            open.push(self.constant(true));
        }
        let more = if random.chance(LONG) { 95 } else { 40 };
        while open.len() > 1 || random.chance(more) {
            self.join(random, &mut open, true);
        }
        self.push(pattern(TUPLE, 0, &[open[0]], &[])) - TARGET_BASE
    }

    /// The target outputs, with vertices over the Tuple and over the other rule inputs, so
    /// that all are used.
    fn outputs(&mut self, random: &mut Random, tuple: Option<u8>, count: usize) -> Vec<u8> {
        let mut open: Vec<u8> = tuple.into_iter().map(target_place).chain(self.unnamed()).collect();
        if open.is_empty() {
            open.push(self.constant(false));
        }
        while open.len() > count || random.chance(30) {
            self.join(random, &mut open, false);
        }
        while open.len() < count {
            let unmarked = (0..).zip(&self.target).filter(|(_, one)| !is_template(one));
            let places = unmarked.map(|(vertex, _)| target_place(vertex));
            let places: Vec<u8> = places.chain(self.shared.iter().copied()).collect();
            open.push(random.pick(&places));
        }
        random.shuffle(&mut open);
        open
    }

    /// Rule inputs that are no templates and that nothing names yet; some of the others
    /// too.
    fn unnamed(&self) -> Vec<u8> {
        let named = |place: &u8| self.target.iter().any(|one| one.inputs.contains(place));
        self.shared.iter().copied().filter(|place| !named(place)).collect()
    }

    fn constant(&mut self, marked: bool) -> u8 {
        let constant = pattern(CONST, 0, &[], &[0]);
        self.push(if marked { template(constant) } else { constant })
    }

    /// One vertex over the first of the open places, or over several, in their stead.
    fn join(&mut self, random: &mut Random, open: &mut Vec<u8>, marked: bool) {
        let (mut kind, mut operator, mut count, mut attributes) = any_inner(random);
        if open.len() > 3 {
            (kind, operator, count, attributes) = (TUPLE, 0, open.len().min(PLACES), 0);
        }
        let mut inputs: Vec<u8> = open.drain(..count.min(open.len())).collect();
        while inputs.len() < count {
            let again = random.pick(&inputs);
            let more: Vec<u8> = self.shared.iter().copied().chain([again]).collect();
            inputs.push(random.pick(&more));
        }
        let made = pattern(kind, operator, &inputs, &vec![0; attributes]);
        let made = self.push(if marked { template(made) } else { made });
        open.push(made);
    }
}

impl VariadicTarget {
    /// The same vertices in another order in which each names only earlier ones.
    fn in_another_order(self, random: &mut Random) -> VariadicTarget {
        let mut order: Vec<usize> = vec![];
        while order.len() < self.target.len() {
            let is_placed = |&place: &u8| {
                place.checked_sub(TARGET_BASE).is_none_or(|one| order.contains(&one.into()))
            };
            let ready: Vec<usize> = (0..self.target.len())
                .filter(|one| !order.contains(one))
                .filter(|&one| self.target[one].inputs.iter().all(is_placed))
                .collect();
            order.push(random.pick(&ready));
        }
        let number = |old: u8| {
            let new = order.iter().position(|&one| one == usize::from(old));
            new.expect("all are placed") as u8
        };
        let place = |&old: &u8| match old.checked_sub(TARGET_BASE) {
            Some(old) => target_place(number(old)),
            None => old,
        };
        let renamed = |&old: &usize| {
            let one = &self.target[old];
            PatternParts { inputs: one.inputs.iter().map(place).collect(), ..one.clone() }
        };
        VariadicTarget {
            target: order.iter().map(renamed).collect(),
            outputs: self.outputs.iter().map(place).collect(),
            tuple: self.tuple.map(number),
        }
    }
}
