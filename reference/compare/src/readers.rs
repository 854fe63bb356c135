//! Whether a stage is read elsewhere (request 6/13), asked with matches and with
//! other maps, of all vertices and of numbers that are none.

use leafgraph_proved::guarded::{Guarded, SHIFTS};
use leafgraph_reference::blocks::{tuple, RuleParts};
use leafgraph_reference::generate::{lawful_rules, rewriting_case, search_case, Case};
use leafgraph_reference::graph::MAX_SLOTS;
use leafgraph_reference::matching::{read_map, Images};
use leafgraph_reference::operators::{EMPTY, PLACES};
use leafgraph_reference::random::Random;
use leafgraph_reference::reply::number_of;
use leafgraph_reference::rule::MAX_VERTICES;

use crate::arguments::Arguments;
use crate::maps::any_map;
use crate::reader_classes;
use crate::refusal_classes::{count_block_refusal, with_block_refusals};
use crate::tally::{Call, Tally, CHANGED};
use crate::unmatched_classes;

/// What must be replied.
const NUMBERS: [u8; 14] = [0, 1, 20, 21, 22, 23, 24, 30, 31, 32, 33, 34, 41, 42];

/// In so many of a hundred cases the rule is replaced once the map is made.
const ANOTHER_RULE: usize = 6;
/// In so many of a hundred cases a stage gets many readers.
const CROWDED: usize = 1;

/// The arguments of a call.
pub struct Question<'a> {
    pub graph: &'a [u8],
    pub rule: &'a [u8],
    pub map: &'a [u8],
    pub vertex: usize,
}

pub fn run(random: &mut Random, calls: u64) -> Vec<Tally> {
    let own = [&reader_classes::all_classes()[..], &unmatched_classes::CLASSES].concat();
    let mut tally = Tally::new("is read elsewhere", &NUMBERS, &with_block_refusals(&own));
    while tally.calls() < calls {
        ask_about_case(random, &mut tally);
    }
    vec![tally]
}

/// One question, and a second one where the first is answered: most that can be
/// learnt is about matches.
fn ask_about_case(random: &mut Random, tally: &mut Tally) {
    let (change, mut case) = match random.chance(70) {
        true => search_case(random),
        false => rewriting_case(random),
    };
    let (mut origin, mut map) = any_map(random, &case);
    if random.chance(ANOTHER_RULE) {
        origin = "another rule's map";
        case.rule = lawful_rules().swap_remove(random.below(lawful_rules().len()));
    }
    let asked = [(); 2].map(|()| any_vertex(random, &case.rule));
    if random.chance(CROWDED) {
        crowd(&mut case, &read_map(&map), asked[0]);
    }
    let damaged = Arguments::damaged(random, change, case);
    if damaged.origin != change {
        origin = damaged.origin;
    }
    map.resize(damaged.map.len(), random.pick(&[0, 255]));
    for vertex in asked {
        let question = Question { graph: &damaged.graph, rule: &damaged.rule, map: &map, vertex };
        let reply = question.ask(random, tally, origin);
        question.count_classes(tally, reply);
        if number_of(reply) != 0 {
            return;
        }
    }
}

/// Lets new vertices read the image of this vertex, if there is room, until 256 places
/// name it beside the match's own: the low byte of its count is a private stage's.
fn crowd(case: &mut Case, images: &Images, vertex: usize) {
    let counts = case.graph.counts();
    let slot = images.get(vertex).copied().filter(|&slot| usize::from(slot) < counts.len());
    let Some(slot) = slot else {
        return;
    };
    let inputs = case.rule.source.iter().flat_map(|pattern| &pattern.inputs);
    let inside = inputs.filter(|&&input| usize::from(input) == vertex).count();
    let missing = (256 + inside).saturating_sub(counts[usize::from(slot)].into());
    let places = vec![slot; missing];
    let readers = places.chunks(PLACES).map(tuple);
    if case.graph.slots[usize::from(slot)].kind != EMPTY
        && readers.len() + counts.len() <= MAX_SLOTS
    {
        case.graph.slots.extend(readers);
    }
}

/// Mostly a source vertex, often an output; else a number that is none, and often
/// would be one if some of its bits were dropped.
fn any_vertex(random: &mut Random, rule: &RuleParts) -> usize {
    let sources = rule.source.len();
    let (vertex, output) = (random.below(sources), random.pick(&rule.source_outputs));
    match random.below(40) {
        0 => sources,
        1 => random.within(sources, MAX_VERTICES),
        2 => random.pick(&[16, 17, 255, 65535]),
        3 | 4 => random.pick(&[1 << 8, 1 << 16, 1 << 31, 1 << 32, 1 << 63]) + vertex,
        5 => random.pick(&[usize::MAX, usize::MAX - vertex, usize::MAX >> 1]),
        6..=17 => output.into(),
        _ => vertex,
    }
}

impl Question<'_> {
    /// Calls both programs and records what is not as it should be; the second
    /// program's reply. No lent byte may change, whatever the reply.
    pub fn ask(&self, random: &mut Random, tally: &mut Tally, origin: &'static str) -> u64 {
        let Question { graph, rule, map, vertex } = *self;
        let lent = [graph, rule, map].map(|block| Guarded::new(block, random.below(SHIFTS)));
        let [lent_graph, lent_rule, lent_map] = lent.each_ref().map(Guarded::bytes);
        let proved = leafgraph_proved::is_read_elsewhere(lent_graph, lent_rule, lent_map, vertex);
        let reference = leafgraph_reference::is_read_elsewhere(graph, rule, map, vertex);
        let kept = lent.iter().zip([graph, rule, map]).all(|(lent, block)| lent.holds(block));
        tally.record(Call {
            origin,
            proved,
            reference,
            faults: if kept { vec![] } else { vec![CHANGED] },
            number: Some(("vertex", vertex)),
            bytes: &[("graph", graph), ("rule", rule), ("map", map)],
        });
        reference
    }

    fn count_classes(&self, tally: &mut Tally, reply: u64) {
        count_block_refusal(tally, self.graph, self.rule, reply);
        tally.count_all(&match number_of(reply) {
            0 | 42 => reader_classes::matched(self, reply),
            41 => unmatched_classes::unmatched(self),
            _ => unmatched_classes::refused(self, reply),
        });
    }
}
