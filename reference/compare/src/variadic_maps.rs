//! Maps for questions about variadic rules (request 8/13): matches of every width, and
//! maps that are nearly one.

use leafgraph_reference::graph::{Graph, UNUSED};
use leafgraph_reference::matching::{least_match, write_map, Images};
use leafgraph_reference::random::Random;
use leafgraph_reference::rule::{Rule, MAX_FIXED, MAX_VERTICES};
use leafgraph_reference::rules::Rules;
use leafgraph_reference::VARIADIC_MAP_LENGTH;

use crate::variadic::STAGE;

pub const CUT: &str = "a match, cut";
pub const CHANGED: &str = "a match, one place changed";
pub const BEHIND: &str = "a match, a place behind it changed";
pub const OTHER_WIDTH: &str = "a match, as long as another width's";
pub const MIXED: &str = "two matches mixed";

/// A map, and how it was made. The blocks need not be sound.
pub fn any_map(random: &mut Random, graph: &[u8], rule: &[u8]) -> (&'static str, Vec<u8>) {
    let (Ok(graph), Ok(rules)) = (Graph::parse(graph), Rules::parse(STAGE, rule)) else {
        return ("a map with bad blocks", random.bytes(VARIADIC_MAP_LENGTH));
    };
    let matches = matches(graph, &rules);
    let (name, images) = match matches.is_empty() {
        true => ("random slots", random_slots(random, graph)),
        false => near_match(random, graph, &rules, &matches),
    };
    let mut map = vec![0; VARIADIC_MAP_LENGTH];
    write_map(&mut map, &images);
    (name, map)
}

/// For each width the least match and the next one, with S.
fn matches(graph: Graph, rules: &Rules) -> Vec<(usize, Images)> {
    let mut matches = vec![];
    for rule in rules.fixed() {
        let mut start = 0;
        while let Some(images) = least_match(graph, rule, start).filter(|_| matches.len() < 12) {
            start = usize::from(images[usize::from(rule.source_output(0))]) + 1;
            matches.push((rule.source_count(), images));
        }
    }
    matches
}

fn near_match(
    random: &mut Random,
    graph: Graph,
    rules: &Rules,
    matches: &[(usize, Images)],
) -> (&'static str, Images) {
    let (count, mut images) = random.pick(matches);
    let slot = random.below(graph.slot_count() + 1) as u16;
    let counts: Vec<usize> = rules.fixed().map(Rule::source_count).collect();
    let name = match random.below(100) {
        0..=64 => "a match",
        65..=72 => {
            let any = random.below(count);
            images[random.pick(&[any, count - 1, counts[0].min(count - 1)])..].fill(UNUSED);
            CUT
        }
        73..=79 => {
            images[random.below(count)] = random.pick(&[slot, UNUSED]);
            CHANGED
        }
        80..=84 if count < MAX_FIXED => {
            images[random.within(count, MAX_FIXED - 1)] = slot;
            BEHIND
        }
        85..=92 => {
            let wanted = random.pick(&counts).min(MAX_FIXED);
            let short = count.min(wanted);
            images[short..wanted].fill(slot);
            images[wanted..].fill(UNUSED);
            OTHER_WIDTH
        }
        93..=97 => {
            let (from, (_, other)) = (random.below(count), random.pick(matches));
            images[from..].copy_from_slice(&other[from..]);
            MIXED
        }
        _ => return ("random slots", random_slots(random, graph)),
    };
    (name, images)
}

fn random_slots(random: &mut Random, graph: Graph) -> Images {
    let mut images = [UNUSED; MAX_FIXED];
    let count = random.below(MAX_FIXED + 1);
    images[..count].fill_with(|| random.below(graph.slot_count()) as u16);
    images
}

/// Mostly a source vertex of some width; else a number that is none.
pub fn any_vertex(random: &mut Random, rule: &[u8]) -> usize {
    let rules = Rules::parse(STAGE, rule);
    let counts =
        rules.map_or(vec![MAX_VERTICES], |rules| rules.fixed().map(Rule::source_count).collect());
    let largest = counts.last().copied().unwrap_or(1);
    let count = random.pick(&counts);
    match random.below(20) {
        0..=12 => random.below(counts[0]),
        13..=16 => random.below(largest),
        17 => random.pick(&[count, MAX_FIXED - 1, MAX_FIXED, MAX_FIXED + 1, 255]),
        18 => random.pick(&[1 << 6, 1 << 8, 1 << 16, 1 << 32, 1 << 63]) + random.below(count),
        _ => random.pick(&[usize::MAX, usize::MAX >> 1]),
    }
}
