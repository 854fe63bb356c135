//! What several test files need.
#![allow(dead_code)]

use leafgraph_reference::blocks::{GraphParts, RuleParts};
use leafgraph_reference::matching::Images;
use leafgraph_reference::rule::MAX_FIXED;
use leafgraph_reference::{find_match, is_read_elsewhere, rewrite};

/// The reply and the map as numbers; the map is filled with a mark before, so
/// that an untouched one shows.
pub struct Answer {
    pub reply: u64,
    pub map: Vec<u16>,
    pub graph: Vec<u8>,
}

/// The reply of a refusal with this number at this place.
pub fn refused(number: u64, place: usize) -> u64 {
    number | (place as u64) << 8
}

pub const UNTOUCHED: u8 = 0xa5;

fn numbers(map: &[u8]) -> Vec<u16> {
    map.chunks_exact(2).map(|pair| u16::from_le_bytes([pair[0], pair[1]])).collect()
}

pub fn run_match(graph: &GraphParts, rule: &RuleParts, start: usize) -> Answer {
    let graph = graph.block();
    let mut map = [UNTOUCHED; 32];
    let reply = find_match(&graph, &rule.block(), start, &mut map);
    assert_untouched_after_refusal(reply, &map);
    Answer { reply, map: numbers(&map), graph }
}

pub fn run_rewrite(graph: &GraphParts, rule: &RuleParts, start: usize) -> Answer {
    let before = graph.block();
    let mut after = before.clone();
    let mut map = [UNTOUCHED; 32];
    let reply = rewrite(&mut after, &rule.block(), start, &mut map);
    assert_untouched_after_refusal(reply, &map);
    assert!(reply == 0 || before == after, "a refusal wrote the graph");
    Answer { reply, map: numbers(&map), graph: after }
}

/// Whether the image of this vertex is read elsewhere, with this map.
pub fn ask(graph: &GraphParts, rule: &RuleParts, map: &[u16], vertex: usize) -> u64 {
    let bytes: Vec<u8> = map.iter().flat_map(|image| image.to_le_bytes()).collect();
    is_read_elsewhere(&graph.block(), &rule.block(), &bytes, vertex)
}

fn assert_untouched_after_refusal(reply: u64, map: &[u8]) {
    let untouched = map.iter().all(|&byte| byte == UNTOUCHED);
    assert_eq!(reply != 0, untouched, "the map is written exactly when done");
}

/// These images, and none in the places behind them.
pub fn all_places(images: &[u16]) -> Images {
    let mut places = [65535; MAX_FIXED];
    places[..images.len()].copy_from_slice(images);
    places
}

/// These images and 65535 after them.
pub fn map_of(images: &[u16]) -> Vec<u16> {
    let mut map = images.to_vec();
    map.resize(16, 65535);
    map
}
