//! What matching and rewriting are called with.

use leafgraph_reference::generate::{
    damaged_graph, damaged_graph_of, damaged_rule, damaged_rule_of, noise, sound_graph, sound_rule,
    Case,
};
use leafgraph_reference::graph::RECORD;
use leafgraph_reference::random::Random;
use leafgraph_reference::MAP_LENGTH;

/// What one call gets.
pub struct Arguments {
    pub origin: &'static str,
    pub graph: Vec<u8>,
    pub rule: Vec<u8>,
    pub start: usize,
    pub map: Vec<u8>,
}

impl Arguments {
    /// Blocks as they are, from 0, with a map of the right length.
    pub fn sound(
        random: &mut Random,
        origin: &'static str,
        graph: Vec<u8>,
        rule: Vec<u8>,
    ) -> Arguments {
        Arguments { origin, graph, rule, start: 0, map: random.bytes(MAP_LENGTH) }
    }

    /// A case, damaged now and then. Bad maps, bad graphs and bad rules meet
    /// each other sometimes, so that the order of refusals is tried too.
    pub fn damaged(random: &mut Random, origin: &'static str, case: Case) -> Arguments {
        let Case { graph: parts, rule, start } = case;
        let mut origin = origin;
        let mut graph = parts.block();
        if random.chance(8) {
            (origin, graph) = match random.below(10) {
                0 => ("noise as graph", noise(random)),
                1 => ("another graph", sound_graph(random).block()),
                2..=4 => ("another damaged graph", damaged_graph(random)),
                _ => ("damaged graph", damaged_graph_of(random, parts)),
            };
        }
        let mut rule_block = rule.block();
        if random.chance(10) {
            (origin, rule_block) = match random.below(10) {
                0 => ("noise as rule", noise(random)),
                1 | 2 => ("another rule", sound_rule(random).block()),
                3 | 4 => ("another damaged rule", damaged_rule(random)),
                _ => ("damaged rule", damaged_rule_of(random, rule)),
            };
        }
        let length = map_length(random);
        Arguments { origin, graph, rule: rule_block, start, map: random.bytes(length) }
    }

    /// Whether the start is past all slots that the graph's bytes have room
    /// for.
    pub fn starts_past_graph(&self) -> bool {
        self.start >= self.graph.len() / RECORD
    }
}

fn map_length(random: &mut Random) -> usize {
    if !random.chance(4) {
        return MAP_LENGTH;
    }
    let any = random.below(100);
    random.pick(&[0, 1, 16, 30, 31, 33, 34, 64, any])
}
