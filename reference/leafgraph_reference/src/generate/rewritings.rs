//! Cases for rewriting: a match, cut out or put in; a target; readers of what is
//! replaced; and as much room as the target takes, or just too little.

use crate::blocks::{empty, GraphParts, RuleParts};
use crate::graph::{Graph, MAX_SLOTS, UNUSED};
use crate::operators::{CONST, EMPTY};
use crate::random::Random;
use crate::removal::removed_slots;
use crate::rule::{Rule, MAX_FIXED};

use super::constants::share_constants;
use super::cuts::{Case, Cut};
use super::graphs::leaf;
use super::insertion::{insert_match, SourceSide};
use super::lawful::lawful_rules;
use super::rules::{is_input_kind, rule_with_random_target};
use super::searches::{base_graph, change_scene, cut_scene, inserted_scene, start, Scene};
use super::tables::{add_output, add_vertex, crowd, empty_slots, read_instead, reader, renumber};
use super::targets::{rule_with_copied_target, rule_with_fitting_target, Merging};

/// A case for rewriting, and how its rule was made.
pub fn rewriting_case(random: &mut Random) -> (&'static str, Case) {
    loop {
        let made = match random.chance(25) {
            true => lawful_rule(random),
            false => random_rule(random),
        };
        if let Some((name, matched)) = made {
            return (name, matched.finished(random));
        }
    }
}

/// A rule and a graph with a match of it, as far as is known.
pub(super) struct Matched {
    pub graph: GraphParts,
    pub rule: RuleParts,
    pub images: Vec<u16>,
}

/// A rule whose two sides mean the same, with a match put in.
fn lawful_rule(random: &mut Random) -> Option<(&'static str, Matched)> {
    let mut rules = lawful_rules();
    let rule = rules.swap_remove(random.below(rules.len()));
    let mut graph = base_graph(random);
    let images = insert_match(random, &mut graph, SourceSide::of(&rule))?;
    Some(("lawful rule", Matched { graph, rule, images }))
}

/// A random source, cut out or put in, with a target made for it.
fn random_rule(random: &mut Random) -> Option<(&'static str, Matched)> {
    let mut scene = match random.chance(50) {
        true => cut_scene(random),
        false => inserted_scene(random)?,
    };
    if random.chance(10) {
        change_scene(random, &mut scene);
    }
    let Scene { graph, cut } = scene;
    let images = cut.images.clone();
    let (name, rule) = rule_for(random, &graph, cut)?;
    Some((name, Matched { graph, rule, images }))
}

/// A rule with this source, and how its target was made. None where the nodes
/// do not suffice.
pub(super) fn rule_for(
    random: &mut Random,
    graph: &GraphParts,
    cut: Cut,
) -> Option<(&'static str, RuleParts)> {
    match random.below(20) {
        0..=9 => Some(("fitting target", rule_with_fitting_target(random, graph, cut))),
        10 | 11 => {
            let Cut { source, outputs, expressions, .. } = cut;
            let rule = rule_with_random_target(random, source, outputs, expressions);
            Some(("random target", rule))
        }
        12..=14 => {
            let merging = random.pick(&[Merging::Never, Merging::InEveryMatch]);
            rule_with_copied_target(graph, cut, merging).map(|rule| ("copied target", rule))
        }
        _ => {
            let rule = rule_with_copied_target(graph, cut, Merging::InThisMatch)?;
            Some(("merged target", rule))
        }
    }
}

impl Matched {
    /// The case, once the match's Consts are shared, what it replaces is read,
    /// there is the room that is wanted, and the slots are in some order.
    pub fn finished(mut self, random: &mut Random) -> Case {
        share_constants(random, &mut self.graph, &self.rule.source, &self.images);
        self.add_readers(random);
        if random.chance(1) {
            self.add_crowd(random);
        }
        self.add_outputs(random);
        self.set_room(random);
        if random.chance(60) {
            renumber(random, &mut self.graph, &mut self.images);
        }
        let first_image = self.replaced()[0].into();
        let start = match random.chance(60) {
            true => 0,
            false => start(random, self.graph.slots.len(), first_image),
        };
        Case { graph: self.graph, rule: self.rule, start }
    }

    /// The images of the source outputs.
    fn replaced(&self) -> Vec<u16> {
        let outputs = self.rule.source_outputs.iter();
        outputs.map(|&output| self.images[usize::from(output)]).collect()
    }

    /// Whether this is the image of a non-input source vertex.
    fn is_inside(&self, slot: u16) -> bool {
        let mut pairs = self.rule.source.iter().zip(&self.images);
        pairs.any(|(pattern, &image)| image == slot && !is_input_kind(pattern.kind))
    }

    /// Readers of what is replaced, so that there are places to redirect. They
    /// read nothing else inside the match.
    fn add_readers(&mut self, random: &mut Random) {
        for read in self.replaced() {
            for _ in 0..random.pick(&[0, 0, 1, 1, 2, 3]) {
                let other = self.outside(random).unwrap_or(read);
                let reader = reader(random, read, other);
                add_vertex(random, &mut self.graph, reader);
            }
            if random.chance(30) {
                if let Some(reader) = self.outside(random) {
                    read_instead(random, &mut self.graph, reader, read);
                }
            }
        }
    }

    /// Very many readers of an image that may have others.
    fn add_crowd(&mut self, random: &mut Random) {
        let is_output = |vertex: usize| self.rule.source_outputs.contains(&(vertex as u8));
        let is_free = |vertex: &usize| {
            let kind = self.rule.source[*vertex].kind;
            is_input_kind(kind) || kind == CONST || is_output(*vertex)
        };
        let free: Vec<usize> = (0..self.images.len()).filter(is_free).collect();
        let read = self.images[random.pick(&free)];
        crowd(random, &mut self.graph, read);
    }

    /// Some vertex outside the match, or the image of a rule input.
    fn outside(&self, random: &mut Random) -> Option<u16> {
        let slots = 0..self.graph.slots.len() as u16;
        let is_used = |slot: u16| self.graph.slots[usize::from(slot)].kind != EMPTY;
        let outside: Vec<u16> =
            slots.filter(|&slot| is_used(slot) && !self.is_inside(slot)).collect();
        (!outside.is_empty()).then(|| random.pick(&outside))
    }

    /// Graph outputs that name what is replaced, the same one several times,
    /// too.
    fn add_outputs(&mut self, random: &mut Random) {
        let replaced = self.replaced();
        for _ in 0..random.pick(&[0, 1, 1, 2, 3]) {
            let output = random.pick(&replaced);
            add_output(random, &mut self.graph, output);
        }
    }

    /// How many slots are freed.
    fn removed(&self) -> usize {
        let (graph, rule) = (self.graph.block(), self.rule.block());
        let mut images = [UNUSED; MAX_FIXED];
        images[..self.images.len()].copy_from_slice(&self.images);
        let removed = removed_slots(Graph::view(&graph), Rule::view(&rule), &images);
        removed.iter().filter(|&&removed| removed).count()
    }

    /// Sets the number of Empty slots: more than the target takes, exactly as
    /// many, one too few where the removal alone does not give enough, as many
    /// as would do if no Const stayed, or leaves them as they are.
    fn set_room(&mut self, random: &mut Random) {
        let (targets, removed) = (self.rule.target.len(), self.removed());
        let needed = targets.saturating_sub(removed);
        let inside = self.images.iter().filter(|&&image| self.is_inside(image)).count();
        let wanted = match random.below(12) {
            0 | 1 => return,
            2..=4 => needed,
            5 => needed.saturating_sub(1),
            6 => targets.saturating_sub(inside),
            _ => needed + random.below(4),
        };
        let mut spare = empty_slots(&self.graph);
        while spare.len() > wanted {
            let slot = spare.swap_remove(random.below(spare.len()));
            self.graph.slots[slot] = leaf(random);
        }
        let place = MAX_SLOTS - self.graph.slots.len();
        let missing = (wanted - spare.len()).min(place);
        self.graph.slots.extend(vec![empty(); missing]);
    }
}
