//! Maps to ask about: matches, the least and others, what is nearly one, and any.

use leafgraph_reference::generate::Case;
use leafgraph_reference::graph::{Graph, Slot, UNUSED};
use leafgraph_reference::matching::{least_match, write_map, Images};
use leafgraph_reference::random::Random;
use leafgraph_reference::rule::{Rule, MAX_FIXED, MAX_VERTICES};
use leafgraph_reference::MAP_LENGTH;

/// A map of the rule into the graph of a sound case, and what it is.
pub fn any_map(random: &mut Random, case: &Case) -> (&'static str, Vec<u8>) {
    let (graph, rule) = (case.graph.block(), case.rule.block());
    let blocks = Blocks {
        graph: Graph::parse(&graph).expect("a sound graph"),
        rule: Rule::parse(&rule).expect("a sound rule"),
    };
    let (name, images) = match random.below(100) {
        0..=41 => ("a search's map", blocks.found(random)),
        42..=66 => ("a map by its outputs", blocks.by_outputs(random)),
        67..=83 => ("one place changed", blocks.changed(random)),
        84..=88 => ("a place behind changed", blocks.changed_behind(random)),
        89..=95 => ("random slots", blocks.random_slots(random)),
        96 => ("one number in all places", [blocks.any_slot(random); MAX_FIXED]),
        97 => ("65535 in all places", [UNUSED; MAX_FIXED]),
        _ => return ("random bytes", random.bytes(MAP_LENGTH)),
    };
    (name, map_bytes(&images))
}

pub fn map_bytes(images: &Images) -> Vec<u8> {
    let mut map = vec![0; MAP_LENGTH];
    write_map(&mut map, images);
    map
}

/// Sound blocks.
#[derive(Clone, Copy)]
struct Blocks<'a> {
    graph: Graph<'a>,
    rule: Rule<'a>,
}

impl<'a> Blocks<'a> {
    fn any_slot(self, random: &mut Random) -> u16 {
        random.below(self.graph.slot_count()) as u16
    }

    /// What a search finds from any slot on; from a random one there may be no match,
    /// and then it starts at 0. Where there is none either, a map by its outputs.
    fn found(self, random: &mut Random) -> Images {
        let start = random.below(self.graph.slot_count());
        let found = [start, 0].into_iter().find_map(|s| least_match(self.graph, self.rule, s));
        found.unwrap_or_else(|| self.by_outputs(random))
    }

    /// "Output images fix the whole map": the one that some images of the outputs
    /// fix, whether or not it is a match. With two outputs it may be one that no
    /// search finds, since the second image is not the least.
    fn by_outputs(self, random: &mut Random) -> Images {
        let mut images = [UNUSED; MAX_FIXED];
        for output in self.rule.source_outputs().map(usize::from) {
            images[output] = self.output_image(random, output);
        }
        for vertex in (0..self.rule.source_count()).rev() {
            if let Some(slot) = self.slot(images[vertex]) {
                let inputs = self.rule.source(vertex).inputs().zip(slot.inputs());
                inputs.for_each(|(input, image)| images[usize::from(input)] = image);
            }
        }
        images
    }

    fn slot(self, image: u16) -> Option<Slot<'a>> {
        let number = usize::from(image);
        (number < self.graph.slot_count()).then(|| self.graph.slot(number))
    }

    /// Mostly of the output's kind, operator and counts, where there is such a slot.
    fn output_image(self, random: &mut Random, output: usize) -> u16 {
        let head = self.rule.source(output).head();
        let like = self.graph.slots().zip(0..).filter(|(slot, _)| slot.head() == head);
        let like: Vec<u16> = like.map(|(_, own)| own).collect();
        match like.is_empty() || random.chance(20) {
            true => self.any_slot(random),
            false => random.pick(&like),
        }
    }

    /// A match or nearly one, with another number in one of the rule's places.
    fn changed(self, random: &mut Random) -> Images {
        let mut images = self.found(random);
        let (vertex, other) =
            (random.below(self.rule.source_count()), random.below(self.rule.source_count()));
        let (slots, old) = (self.graph.slot_count() as u16, images[vertex]);
        images[vertex] = match random.below(9) {
            0 | 1 => images[other],
            2 => self.empty_slot(random).unwrap_or(slots),
            3 => random.pick(&[slots, slots + 1, UNUSED - 1, UNUSED]),
            4 => old ^ 1 << random.below(16),
            5 => random.pick(&[old.wrapping_sub(1), old.wrapping_add(1)]),
            _ => self.any_slot(random),
        };
        images
    }

    fn empty_slot(self, random: &mut Random) -> Option<u16> {
        let empty = self.graph.slots().zip(0..).filter(|(slot, _)| slot.is_empty());
        let empty: Vec<u16> = empty.map(|(_, own)| own).collect();
        (!empty.is_empty()).then(|| random.pick(&empty))
    }

    /// A match or nearly one, with a number in a place that the rule does not use, if
    /// there is one.
    fn changed_behind(self, random: &mut Random) -> Images {
        let mut images = self.found(random);
        let behind = self.rule.source_count()..MAX_VERTICES;
        if !behind.is_empty() {
            let any = random.within(behind.start, MAX_VERTICES - 1);
            let place = random.pick(&[behind.start, MAX_VERTICES - 1, any]);
            let slots = self.graph.slot_count() as u16;
            let numbers = [0, images[0], self.any_slot(random), slots, 255, 65280, UNUSED - 1];
            images[place] = random.pick(&numbers);
        }
        images
    }

    /// Slots for the source vertices, and 65535 behind.
    fn random_slots(self, random: &mut Random) -> Images {
        let mut images = [UNUSED; MAX_FIXED];
        images[..self.rule.source_count()].fill_with(|| self.any_slot(random));
        images
    }
}
