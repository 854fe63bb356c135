//! Demand 3 on random accepted rewritings, and on tables that are wrong.

mod common;

use common::{all_places, run_rewrite};
use leafgraph_reference::blocks::*;
use leafgraph_reference::check_graph;
use leafgraph_reference::counts::write_true_counts;
use leafgraph_reference::generate::{lawful_rules, matching_case, rewriting_case};
use leafgraph_reference::generate::{same_meaning_case, sound_graph_of, Case};
use leafgraph_reference::graph::Graph;
use leafgraph_reference::meaning::{Meaning, Term};
use leafgraph_reference::operators::{ADD, CALL, CONST, GAIN, MEAN, PROJ, RELU, RESHAPE, TUPLE};
use leafgraph_reference::random::Random;
use leafgraph_reference::results::{Accepted, Verdict};
use leafgraph_reference::rule::Rule;

type Make = fn(u64) -> Meaning;

/// The new table and the map of an accepted case, or None where it is refused.
fn accepted(case: &Case) -> Option<(Vec<u8>, Vec<u16>)> {
    let answer = run_rewrite(&case.graph, &case.rule, case.start);
    (answer.reply == 0).then_some((answer.graph, answer.map))
}

/// What a meaning shows where this is said to be the new table.
fn judge(random: &mut Random, case: &Case, new: &[u8], map: &[u16], make: Make) -> Verdict {
    let (old, rule) = (case.graph.block(), case.rule.block());
    let accepted = Accepted {
        old: Graph::parse(&old).expect("a sound graph"),
        new: Graph::parse(new).expect("a sound graph"),
        rule: Rule::parse(&rule).expect("a sound rule"),
        images: &all_places(map),
    };
    let mut meaning = make(random.number());
    accepted.judge(&mut meaning, random)
}

#[test]
fn the_first_half_holds_for_any_rule() {
    let mut random = Random::new(3);
    let (mut count, mut apart, mut changed) = (0, 0, 0);
    while count < 3000 {
        let case = match random.chance(50) {
            true => matching_case(&mut random),
            false => rewriting_case(&mut random).1,
        };
        let Some((new, map)) = accepted(&case) else {
            continue;
        };
        assert_eq!(check_graph(&new), 0);
        let verdict = judge(&mut random, &case, &new, &map, Meaning::lawless);
        assert!(verdict.first_half_holds() && verdict.second_half_holds(), "{case:?}");
        count += 1;
        apart += usize::from(verdict.apart > 0);
        changed += usize::from(!verdict.same_meaning && verdict.below_changed > 0);
    }
    assert!(apart > 1500 && changed > 300, "{apart} {changed}");
}

#[test]
fn the_second_half_holds_for_copies() {
    let mut random = Random::new(4);
    let (mut count, mut two_outputs, mut merged, mut below) = (0, 0, 0, 0);
    while count < 2000 {
        let Some(case) = same_meaning_case(&mut random) else {
            continue;
        };
        let Some((new, map)) = accepted(&case) else {
            continue;
        };
        let verdict = judge(&mut random, &case, &new, &map, Meaning::lawless);
        assert!(verdict.same_meaning && verdict.second_half_holds(), "{case:?}");
        assert!(verdict.first_half_holds(), "{case:?}");
        count += 1;
        two_outputs += usize::from(case.rule.source_outputs.len() == 2);
        below += usize::from(verdict.below > 0);
        let copied = case.rule.source.iter().filter(|pattern| ![0, 2].contains(&pattern.kind));
        merged += usize::from(copied.count() > case.rule.target.len());
    }
    assert!(two_outputs > 100 && merged > 10 && below > 500, "{two_outputs} {merged} {below}");
}

/// Each of the rules on graphs that hold a match of it, under its laws and
/// without them.
#[test]
fn the_second_half_holds_for_lawful_rules() {
    let mut random = Random::new(5);
    let rules = lawful_rules();
    let (mut lawful, mut lawless) = (vec![0; rules.len()], vec![0; rules.len()]);
    for _ in 0..15_000 {
        let (name, case) = rewriting_case(&mut random);
        let index = rules.iter().position(|rule| *rule == case.rule);
        let (Some(index), Some((new, map)), "lawful rule") = (index, accepted(&case), name) else {
            continue;
        };
        let verdict = judge(&mut random, &case, &new, &map, Meaning::lawful);
        assert!(verdict.same_meaning && verdict.second_half_holds(), "{case:?}");
        lawful[index] += 1;
        let verdict = judge(&mut random, &case, &new, &map, Meaning::lawless);
        assert!(verdict.first_half_holds() && verdict.second_half_holds(), "{case:?}");
        lawless[index] += usize::from(verdict.same_meaning);
    }
    assert!(lawful.iter().all(|&count| count > 100), "{lawful:?}");
    let in_every_meaning = lawless.iter().filter(|&&count| count > 100).count();
    assert_eq!(in_every_meaning, 2, "{lawless:?}");
}

/// A table is wrong where one place names another vertex: one reader moved
/// too many, or one too few. It is noticed unless both vertices have the same
/// result.
#[test]
fn wrong_tables_are_noticed() {
    let mut random = Random::new(6);
    let (mut tried, mut noticed, mut first) = (0, 0, 0);
    while tried < 2000 {
        let Some(case) = same_meaning_case(&mut random) else {
            continue;
        };
        let Some((mut new, map)) = accepted(&case) else {
            continue;
        };
        misname_input(&mut random, &mut new);
        write_true_counts(&mut new);
        if check_graph(&new) != 0 {
            continue;
        }
        let verdict = judge(&mut random, &case, &new, &map, Meaning::lawless);
        tried += 1;
        noticed += usize::from(!verdict.second_half_holds());
        first += usize::from(!verdict.first_half_holds());
    }
    assert!(noticed > 1000 && first > 300, "{noticed} {first}");
}

/// Some used input place, or the first graph output, names some slot.
fn misname_input(random: &mut Random, block: &mut [u8]) {
    let slots = Graph::parse(block).expect("a sound graph").slot_count();
    let record = 24 + 48 * random.below(slots);
    let at = match block[record + 2] {
        0 => 10,
        inputs => record + 4 + 2 * random.below(inputs.into()),
    };
    let named = random.below(slots) as u16;
    block[at..at + 2].copy_from_slice(&named.to_le_bytes());
}

/// The owner's loss: two look-alike stages with different attributes are made
/// one. No rule of the same meaning leaves this table, and it is noticed.
#[test]
fn merged_look_alikes_are_noticed() {
    let gain = |input, last| call(GAIN, &[input], &[1, 1, last]);
    let mean = |input| call(MEAN, &[input], &[0]);
    let before = vec![variable(), gain(0, 2), gain(0, 3), mean(1), mean(2)];
    let after = vec![variable(), gain(0, 2), empty(), mean(1), mean(1)];
    let relu_of_input = call_pattern(RELU, &[0], &[]);
    // Any rule of two outputs over one input will do for the match.
    let any_gain = call_pattern(GAIN, &[0], &[0; 3]);
    let rule = RuleParts {
        source: vec![wildcard(), any_gain.clone(), any_gain],
        target: vec![relu_of_input],
        source_outputs: vec![1, 2],
        target_outputs: vec![target_place(0); 2],
        nodes: vec![any_node()],
    };
    let case = Case { graph: GraphParts::new(before, &[3, 4]), rule, start: 0 };
    let (_, map) = accepted(&case).expect("a match");
    let new = GraphParts::new(after, &[3, 4]).block();
    let verdict = judge(&mut Random::new(7), &case, &new, &map, Meaning::lawless);
    assert!(!verdict.same_meaning);
    assert_eq!((verdict.apart_changed, verdict.below_changed, verdict.outputs_changed), (0, 1, 1));
}

/// A matched Const that stays is judged like any other vertex, and one that
/// goes is not.
#[test]
fn constants_that_stay_are_judged() {
    let mut random = Random::new(11);
    let mut verdict = |outputs: &[u16], number: i32| {
        let graph = constant_sum(variable(), &[], outputs);
        let case = Case { graph, rule: dropped_constant(1), start: 0 };
        let (mut new, map) = accepted(&case).expect("a match");
        let record = 24;
        if new[record] == CONST {
            new[record + 16..record + 20].copy_from_slice(&number.to_le_bytes());
        }
        judge(&mut random, &case, &new, &map, Meaning::lawless)
    };
    // The Variable stays, and with it the Const where it is a graph output.
    assert_eq!((verdict(&[2], 7).apart, verdict(&[2], 7).apart_changed), (1, 0));
    assert_eq!((verdict(&[2, 0], 7).apart, verdict(&[2, 0], 7).apart_changed), (2, 0));
    assert_eq!(verdict(&[2, 0], 8).apart_changed, 1);
}

#[test]
fn laws() {
    let term = |kind, operator, attributes: &[i64], inputs: &[u64]| Term {
        kind,
        operator,
        attributes: attributes.to_vec(),
        inputs: inputs.to_vec(),
    };
    // Whether the laws make the second term's result that of the third.
    let same = |make: Make, inner: Term, outer: Term, alone: Term| {
        let mut meaning = make(8);
        let inner = meaning.result(inner);
        let outer = meaning.result(Term { inputs: vec![inner], ..outer });
        outer == meaning.result(alone)
    };
    let relu = || term(CALL, RELU, &[], &[5]);
    let gain = |number| term(CALL, GAIN, &[number, 1, 1], &[5]);
    let reshape = |number| term(CALL, RESHAPE, &[number; 4], &[5]);
    for (make, holds) in [(Meaning::lawful as Make, true), (Meaning::lawless, false)] {
        assert_eq!(same(make, relu(), relu(), relu()), holds);
        assert_eq!(same(make, gain(2), gain(3), gain(6)), holds);
        assert_eq!(same(make, reshape(2), reshape(3), reshape(3)), holds);
        let mut meaning = make(9);
        let tuple = meaning.result(term(TUPLE, 0, &[], &[5, 6]));
        assert_eq!(meaning.result(term(PROJ, 0, &[2], &[tuple])) == 6, holds);
        assert_ne!(meaning.result(term(PROJ, 0, &[3], &[tuple])), 6);
        let sums = [[5, 6], [6, 5]].map(|inputs| meaning.result(term(CALL, ADD, &[], &inputs)));
        assert_eq!(sums[0] == sums[1], holds);
    }
}

/// A Variable's result belongs to its slot, whatever its attributes are.
#[test]
fn variables_are_told_apart_by_their_slots() {
    let mut random = Random::new(10);
    let graph = sound_graph_of(&mut random, 40);
    let block = graph.block();
    let results = Meaning::lawless(1).results(Graph::parse(&block).expect("a sound graph"));
    let variables = (0..40).filter(|&slot| graph.slots[slot].kind == 2);
    let mut of_variables: Vec<u64> = variables.map(|slot| results[slot].expect("one")).collect();
    let count = of_variables.len();
    of_variables.sort_unstable();
    of_variables.dedup();
    assert_eq!(of_variables.len(), count);
    assert!(count > 1);
}
