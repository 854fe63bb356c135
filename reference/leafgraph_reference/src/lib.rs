//! The second program of leafgraph: document 01, with requests 1/13, 2/13 and 4/13
//! to 8/13 of document 02, in plain Rust. Request 8/13 is behind a switch (`stage`).
//!
//! It is written from these papers alone, not from the proved library, so that
//! an error of reading in one of the two shows up as a difference between
//! them. Sentences in quotation marks are document 01's or a request's.
//!
//! "Four operations: check a graph, check a rule, find a match, rewrite",
//! request 4/13's sweep and squeeze, request 5/13's import, request 6/13's
//! question, and request 7/13's listing, written and read. Each answers any bytes of
//! any length. The reply holds its number in bits 0 to 7, its place in bits 8 to 39
//! and its value in bits 40 to 63.
#![forbid(unsafe_code)]

pub mod attributes;
pub mod blocks;
pub mod cleanup;
pub mod counts;
mod cycle;
pub mod expansion;
mod fields;
pub mod generate;
pub mod graph;
pub mod graph_faults;
mod import;
pub mod listing;
pub mod match_check;
pub mod matching;
pub mod meaning;
pub mod operators;
pub mod random;
pub mod readers;
pub mod recount;
pub mod removal;
pub mod reply;
pub mod results;
mod rewriting;
pub mod rule;
mod rule_check;
pub mod rule_faults;
pub mod rules;
pub mod squeeze;
pub mod stage;
pub mod sweep;

use blocks::GraphParts;
use graph::{Graph, MAX_BLOCK};
use readers::Mapped;
use reply::{reply_of, reply_to_question, reply_with_value, Refusal, NO_LISTING};
use rules::Rules;
use stage::{Stage, STAGE};

/// "map buffer isn't 32 bytes": the only length of a map that is taken with a rule of
/// version 1.
pub const MAP_LENGTH: usize = 32;
/// "The map buffer is 128 bytes where rule bytes 4-5 read 2."
pub const VARIADIC_MAP_LENGTH: usize = 128;

/// "Checking a graph gives 0 or 2", and "20 to 23 replace 2"; "a wrong count is
/// 24"; "the checks write nothing".
pub fn check_graph(graph: &[u8]) -> u64 {
    reply_of(Graph::parse(graph).map(|_| ()))
}

/// "a rule 0 or 3", and "30 to 34 replace 3"; with request 8/13 "35 [...] after 34".
pub fn check_rule(rule: &[u8]) -> u64 {
    STAGE.check_rule(rule)
}

/// "matching 0 to 4", where the numbers that replace 2 and 3 stand "in place". With a
/// variadic rule "the least match is taken over all n together".
/// "Done, in matching and in rewriting, writes the map."
/// A start is any number and is compared with N as it is.
pub fn find_match(graph: &[u8], rule: &[u8], start: usize, map: &mut [u8]) -> u64 {
    STAGE.find_match(graph, rule, start, map)
}

/// "rewriting 0 to 7". After a refusal "every lent byte keeps its content".
pub fn rewrite(graph: &mut [u8], rule: &[u8], start: usize, map: &mut [u8]) -> u64 {
    STAGE.rewrite(graph, rule, start, map)
}

/// "Every vertex from which no graph output is reached becomes Empty, except
/// Variables". "Refusals: bad graph as before".
pub fn sweep(graph: &mut [u8]) -> u64 {
    reply_of(try_sweep(graph))
}

/// "Vertices move to the lowest slots in their old order, all inputs and outputs
/// follow, and a lent list of N 16-bit numbers says where each old slot went".
/// "Refusals: bad graph as before, then 40 when the list is not 2N bytes."
pub fn squeeze(graph: &mut [u8], moves: &mut [u8]) -> u64 {
    reply_of(try_squeeze(graph, moves))
}

/// "An import turns a sound version 1 block into version 2." "Refusals: any other
/// version is 20."
pub fn import(graph: &mut [u8]) -> u64 {
    reply_of(import::import(graph))
}

/// "Given a sound version 2 graph, a rule, its match and one non-input source
/// vertex": "yes exactly when the image is a graph output or is read by something
/// other than the image of a non-input source vertex. Refusals: 1, the graph and
/// rule ones, then 41 when the map isn't a match (any, with 65535 from S on), 42
/// when it is no such vertex." A vertex is any number and is compared with S as it
/// is.
pub fn is_read_elsewhere(graph: &[u8], rule: &[u8], map: &[u8], vertex: usize) -> u64 {
    STAGE.is_read_elsewhere(graph, rule, map, vertex)
}

/// The operations that take a rule, at any stage.
impl Stage {
    pub fn check_rule(self, rule: &[u8]) -> u64 {
        reply_of(Rules::parse(self, rule).map(|_| ()))
    }

    pub fn find_match(self, graph: &[u8], rule: &[u8], start: usize, map: &mut [u8]) -> u64 {
        reply_of(try_find_match(self, graph, rule, start, map))
    }

    pub fn rewrite(self, graph: &mut [u8], rule: &[u8], start: usize, map: &mut [u8]) -> u64 {
        reply_of(try_rewrite(self, graph, rule, start, map))
    }

    pub fn is_read_elsewhere(self, graph: &[u8], rule: &[u8], map: &[u8], vertex: usize) -> u64 {
        reply_to_question(try_is_read_elsewhere(self, graph, rule, map, vertex))
    }

    /// The length that a map must have. It is judged by the rule's version alone and
    /// before anything else; a rule that is too short for a version has none.
    pub fn map_length(self, rule: &[u8]) -> usize {
        match rule.get(4..6) {
            Some([2, 0]) if self == Stage::Eight => VARIADIC_MAP_LENGTH,
            _ => MAP_LENGTH,
        }
    }
}

/// "Write a graph as text". "Writing returns the text's length and keeps the rest of the
/// buffer." "Refusals: writing gives the graph ones, then 43 text buffer shorter than the
/// listing".
pub fn write_listing(graph: &[u8], text: &mut [u8]) -> u64 {
    reply_with_value(try_write_listing(graph, text))
}

/// "and read it back": "reading it gives the same block with true counts, and exactly
/// such listings are accepted". "Reading gives 44 with the place of the first byte at
/// which no listing can go on, or the text's length where it ends early, 45 unsound
/// graph, 46 graph buffer not exactly 24 + 48N bytes, in that order." What the buffer
/// held before is not looked at.
pub fn read_listing(text: &[u8], graph: &mut [u8]) -> u64 {
    reply_of(try_read_listing(text, graph))
}

fn try_find_match(
    stage: Stage,
    graph: &[u8],
    rule: &[u8],
    start: usize,
    map: &mut [u8],
) -> Result<(), Refusal> {
    check_map_length(stage, rule, map)?;
    let graph = Graph::parse(graph)?;
    let rules = Rules::parse(stage, rule)?;
    let (_, images) = rules.least_match(graph, start).ok_or(Refusal::NO_MATCH)?;
    matching::write_map(map, &images);
    Ok(())
}

fn try_rewrite(
    stage: Stage,
    graph: &mut [u8],
    rule: &[u8],
    start: usize,
    map: &mut [u8],
) -> Result<(), Refusal> {
    check_map_length(stage, rule, map)?;
    let old = Graph::parse(graph)?;
    let rules = Rules::parse(stage, rule)?;
    let (rule, images) = rules.least_match(old, start).ok_or(Refusal::NO_MATCH)?;
    let mut buffer = [0; MAX_BLOCK];
    let new = &mut buffer[..old.bytes().len()];
    rewriting::write_new_table(new, old, rule, &images)?;
    graph.copy_from_slice(new);
    matching::write_map(map, &images);
    Ok(())
}

fn try_sweep(graph: &mut [u8]) -> Result<(), Refusal> {
    let dead = sweep::dead_slots(Graph::parse(graph)?);
    sweep::remove(graph, &dead);
    Ok(())
}

fn try_squeeze(graph: &mut [u8], moves: &mut [u8]) -> Result<(), Refusal> {
    let old = Graph::parse(graph)?;
    if moves.len() != squeeze::list_length(old) {
        return Err(Refusal::LIST_LENGTH);
    }
    let numbers = squeeze::new_numbers(old);
    let mut buffer = [0; MAX_BLOCK];
    let new = &mut buffer[..old.bytes().len()];
    squeeze::write_new_table(new, old, &numbers);
    squeeze::write_list(moves, &numbers);
    graph.copy_from_slice(new);
    Ok(())
}

fn try_is_read_elsewhere(
    stage: Stage,
    graph: &[u8],
    rule: &[u8],
    map: &[u8],
    vertex: usize,
) -> Result<bool, Refusal> {
    check_map_length(stage, rule, map)?;
    let (graph, rules) = (Graph::parse(graph)?, Rules::parse(stage, rule)?);
    let images = &matching::read_map(map);
    let rule = rules.rule_of_match(graph, images).ok_or(Refusal::NOT_A_MATCH)?;
    if vertex >= rule.source_count() || rule.source(vertex).is_input_kind() {
        return Err(Refusal::NO_SUCH_VERTEX);
    }
    Ok(Mapped { graph, rule, images }.is_read_elsewhere(images[vertex]))
}

fn try_write_listing(graph: &[u8], text: &mut [u8]) -> Result<u32, Refusal> {
    let listing = listing::listing_of(&GraphParts::of(Graph::parse(graph)?));
    let place = text.get_mut(..listing.len()).ok_or(Refusal::TEXT_LENGTH)?;
    place.copy_from_slice(listing.as_bytes());
    Ok(listing.len() as u32)
}

fn try_read_listing(text: &[u8], graph: &mut [u8]) -> Result<(), Refusal> {
    let parts = listing::parts_of(text)
        .map_err(|stop| Refusal { number: NO_LISTING, place: stop.place as u32 })?;
    let block = parts.block();
    Graph::parse(&block).map_err(|_| Refusal::UNSOUND_LISTING)?;
    if graph.len() != block.len() {
        return Err(Refusal::BLOCK_LENGTH);
    }
    graph.copy_from_slice(&block);
    Ok(())
}

fn check_map_length(stage: Stage, rule: &[u8], map: &[u8]) -> Result<(), Refusal> {
    if map.len() == stage.map_length(rule) {
        Ok(())
    } else {
        Err(Refusal::MAP_LENGTH)
    }
}
