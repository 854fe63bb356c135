//! The generators: what they call sound is accepted, and what they damage is
//! mostly refused.

use std::collections::BTreeMap;

use leafgraph_reference::generate::*;
use leafgraph_reference::graph::Graph;
use leafgraph_reference::matching::least_match;
use leafgraph_reference::operators::CONST;
use leafgraph_reference::random::Random;
use leafgraph_reference::removal::removed_slots;
use leafgraph_reference::reply::number_of;
use leafgraph_reference::rule::Rule;
use leafgraph_reference::{check_graph, check_rule, find_match, import, read_listing, rewrite};

#[test]
fn sound_graphs_are_accepted() {
    let mut random = Random::new(6);
    for slots in 1..=512 {
        let graph = sound_graph_of(&mut random, slots);
        assert_eq!(check_graph(&graph.block()), 0, "{graph:?}");
    }
    for _ in 0..2000 {
        let graph = sound_graph(&mut random);
        assert_eq!(check_graph(&graph.block()), 0, "{graph:?}");
    }
}

#[test]
fn sound_rules_are_accepted_and_of_all_sizes() {
    let mut random = Random::new(7);
    let (mut sources, mut targets, mut nodes) = ([0; 17], [0; 17], [0; 65]);
    for _ in 0..30_000 {
        let rule = sound_rule(&mut random);
        assert_eq!(check_rule(&rule.block()), 0, "{rule:?}");
        sources[rule.source.len()] += 1;
        targets[rule.target.len()] += 1;
        nodes[rule.nodes.len()] += 1;
    }
    assert!(sources[2..].iter().all(|&count| count > 0), "{sources:?}");
    assert!(targets.iter().all(|&count| count > 0), "{targets:?}");
    assert!(nodes.iter().all(|&count| count > 0), "{nodes:?}");
}

#[test]
fn cut_rules_are_sound() {
    let mut random = Random::new(8);
    for _ in 0..5000 {
        let case = matching_case(&mut random);
        assert_eq!(check_rule(&case.rule.block()), 0, "{case:?}");
        if let Some(case) = same_meaning_case(&mut random) {
            assert_eq!(check_rule(&case.rule.block()), 0, "{case:?}");
        }
    }
}

/// Damage is mostly refused, with every number that there is.
#[test]
fn damage_is_of_every_kind() {
    let mut random = Random::new(9);
    let mut counts: BTreeMap<u8, usize> = BTreeMap::new();
    for _ in 0..5000 {
        for reply in
            [check_graph(&damaged_graph(&mut random)), check_rule(&damaged_rule(&mut random))]
        {
            *counts.entry(number_of(reply)).or_default() += 1;
        }
    }
    let numbers = [0, 20, 21, 22, 23, 24, 30, 31, 32, 33, 34];
    assert!(counts.keys().copied().eq(numbers), "{counts:?}");
    assert!((100..4000).contains(&counts[&0]), "{counts:?}");
    assert!(counts.values().all(|&count| count > 100), "{counts:?}");
}

/// The same of version 1, which has no counts.
#[test]
fn damage_to_version_1_is_of_every_kind() {
    let mut random = Random::new(21);
    let mut counts: BTreeMap<u8, usize> = BTreeMap::new();
    for _ in 0..5000 {
        let reply = import(&mut damaged_version_1_graph(&mut random));
        *counts.entry(number_of(reply)).or_default() += 1;
    }
    assert!(counts.keys().copied().eq([0, 20, 21, 22, 23]), "{counts:?}");
    assert!(counts.values().all(|&count| count > 100), "{counts:?}");
}

/// Each change keeps both blocks sound, and leaves some matches and some
/// cases without one.
#[test]
fn search_cases_are_sound_and_of_both_outcomes() {
    let mut random = Random::new(10);
    let mut outcomes: BTreeMap<&str, [u32; 2]> = BTreeMap::new();
    for _ in 0..10_000 {
        let (change, case) = search_case(&mut random);
        let (graph, rule) = (case.graph.block(), case.rule.block());
        let reply = find_match(&graph, &rule, case.start, &mut [0; 32]);
        assert!(reply == 0 || reply == 4, "{change}: {reply}, {case:?}");
        outcomes.entry(change).or_default()[usize::from(reply == 4)] += 1;
    }
    assert_eq!(outcomes.len(), 11, "{outcomes:?}");
    assert!(outcomes.values().flatten().all(|&count| count > 100), "{outcomes:?}");
}

#[test]
fn search_cases_have_starts_and_sizes_of_every_sort() {
    let mut random = Random::new(11);
    let mut seen = [0; 8];
    for _ in 0..5000 {
        let (_, case) = search_case(&mut random);
        let (start, slots) = (case.start, case.graph.slots.len());
        let sorts = [
            start == 0,
            (1..slots).contains(&start),
            start == slots,
            start == 65535,
            // Low 16 bits, or low 32 bits, that name a slot.
            start > 65535 && start % (1 << 16) < slots,
            start > 1 << 32 && start % (1 << 32) < slots,
            start == usize::MAX,
            slots == 512,
        ];
        seen.iter_mut().zip(sorts).for_each(|(count, holds)| *count += u32::from(holds));
    }
    assert!(seen.iter().all(|&count| count > 5), "{seen:?}");
}

/// The blocks of a case, damaged: most are refused, and some stay sound.
#[test]
fn damaged_cases_are_mostly_refused() {
    let mut random = Random::new(12);
    let (mut graphs, mut rules) = (0, 0);
    for _ in 0..2000 {
        let (_, case) = search_case(&mut random);
        graphs += usize::from(check_graph(&damaged_graph_of(&mut random, case.graph)) != 0);
        rules += usize::from(check_rule(&damaged_rule_of(&mut random, case.rule)) != 0);
    }
    assert!((1000..2000).contains(&graphs), "{graphs}");
    assert!((1000..2000).contains(&rules), "{rules}");
}

/// Cases for rewriting are sound, and most of them are accepted.
#[test]
fn rewriting_cases_are_sound_and_of_every_outcome() {
    let mut random = Random::new(13);
    let mut replies = [0; 8];
    for _ in 0..10_000 {
        let (name, case) = rewriting_case(&mut random);
        let (mut graph, rule) = (case.graph.block(), case.rule.block());
        let reply = rewrite(&mut graph, &rule, case.start, &mut [0; 32]);
        replies[reply as usize] += 1;
        assert!(reply == 0 || reply >= 4, "{name}: {reply}, {case:?}");
    }
    assert!(replies[0] > 5000, "{replies:?}");
    assert!(replies[4..].iter().all(|&count| count > 20), "{replies:?}");
}

/// Matched Consts stay and go, in one rule too.
#[test]
fn rewriting_cases_have_constants_of_both_sorts() {
    let mut random = Random::new(15);
    let (mut stay, mut go, mut both) = (0, 0, 0);
    for _ in 0..10_000 {
        let (_, case) = rewriting_case(&mut random);
        let (graph, rule) = (case.graph.block(), case.rule.block());
        let (Ok(graph), Ok(rule)) = (Graph::parse(&graph), Rule::parse(&rule)) else {
            panic!("{case:?}");
        };
        let Some(images) = least_match(graph, rule, case.start) else {
            continue;
        };
        let removed = removed_slots(graph, rule, &images);
        let consts = rule.sources().zip(images).filter(|(pattern, _)| pattern.kind() == CONST);
        let removed: Vec<bool> = consts.map(|(_, image)| removed[usize::from(image)]).collect();
        let [stays, goes] = [false, true].map(|goes| removed.contains(&goes));
        stay += usize::from(stays);
        go += usize::from(goes);
        both += usize::from(stays && goes);
    }
    assert!(stay > 300 && go > 300 && both > 30, "{stay} {go} {both}");
}

#[test]
fn sequences_are_sound() {
    let mut random = Random::new(14);
    for _ in 0..1000 {
        let Sequence { graph, rules } = sequence(&mut random);
        assert_eq!(check_graph(&graph.block()), 0, "{graph:?}");
        assert!(rules.iter().all(|rule| check_rule(&rule.block()) == 0), "{rules:?}");
        assert!(!rules.is_empty());
    }
}

/// Texts of every sort, accepted and refused for every reason; 46, the buffer's, stands
/// for what is accepted with another one.
#[test]
fn texts_get_every_reply() {
    let mut random = Random::new(16);
    let mut replies: BTreeMap<u8, usize> = BTreeMap::new();
    let mut origins: BTreeMap<&str, usize> = BTreeMap::new();
    for _ in 0..5000 {
        let (origin, text) = any_text(&mut random);
        let reply = read_listing(&text, &mut []);
        *replies.entry(number_of(reply)).or_default() += 1;
        *origins.entry(origin).or_default() += 1;
    }
    assert!(replies.keys().copied().eq([44, 45, 46]), "{replies:?}");
    assert!(replies.values().all(|&count| count > 500), "{replies:?}");
    assert_eq!(origins.len(), 20, "{origins:?}");
    assert!(origins.values().all(|&count| count > 50), "{origins:?}");
}
