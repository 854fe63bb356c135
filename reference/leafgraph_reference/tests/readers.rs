//! Request 6/13: whether anyone else reads a stage.

mod common;

use common::{ask, map_of};
use leafgraph_reference::blocks::*;
use leafgraph_reference::operators::{ADD, CAST, CONST, RELU, TUPLE, VARIABLE};
use leafgraph_reference::reply::{value_of, YES};
use leafgraph_reference::{is_read_elsewhere, MAP_LENGTH};

const NO: u64 = 0;
const NO_MATCH: u64 = 41;
const NO_SUCH_VERTEX: u64 = 42;

/// RR's match in E1.
const IN_E1: [u16; 3] = [2, 3, 4];

fn relu_pattern(input: u8) -> PatternParts {
    call_pattern(RELU, &[input], &[])
}

fn sum_pattern(left: u8, right: u8) -> PatternParts {
    call_pattern(ADD, &[left, right], &[])
}

/// The last source vertex is the output, and becomes a Tuple of the rule's inputs.
fn rule(source: Vec<PatternParts>, nodes: &[i32]) -> RuleParts {
    let inputs = (0..source.len()).filter(|&at| matches!(source[at].kind, 0 | VARIABLE));
    let inputs: Vec<u8> = inputs.map(|at| at as u8).collect();
    let target = match inputs.is_empty() {
        true => pattern(CONST, 0, &[], &[0]),
        false => pattern(TUPLE, 0, &inputs, &[]),
    };
    RuleParts {
        source_outputs: vec![source.len() as u8 - 1],
        source,
        target: vec![target],
        target_outputs: vec![target_place(0)],
        nodes: nodes.iter().map(|&number| constant_node(number)).collect(),
    }
}

/// Slots 0 Variable, 1 relu(0), 2 relu(1), which RR takes as they stand, then others.
fn relus(others: &[Vertex], outputs: &[u16]) -> GraphParts {
    GraphParts::new([vec![variable(), relu(0), relu(1)], others.to_vec()].concat(), outputs)
}

/// The answer about a vertex of RR in such a graph.
fn ask_of_relus(others: &[Vertex], outputs: &[u16], vertex: usize) -> u64 {
    ask(&relus(others, outputs), &rr(), &map_of(&[0, 1, 2]), vertex)
}

#[test]
fn an_interior_image_is_read_by_the_match_alone() {
    assert_eq!(ask(&e1(), &rr(), &map_of(&IN_E1), 1), NO);
    assert_eq!(ask_of_relus(&[relu(2)], &[3, 2], 1), NO);
}

#[test]
fn a_source_output_may_be_read_elsewhere() {
    assert_eq!(ask(&e1(), &rr(), &map_of(&IN_E1), 2), YES, "a graph output");
    assert_eq!(ask_of_relus(&[], &[0], 2), NO, "nothing reads it");
    assert_eq!(ask_of_relus(&[relu(2)], &[3], 2), YES, "a reader");
    assert_eq!(ask_of_relus(&[relu(2)], &[3, 2], 2), YES, "a reader and a graph output");
    assert_eq!(ask_of_relus(&[relu(2)], &[0], 2), YES, "a reader that reaches no output");
    assert_eq!(ask_of_relus(&[relu(0)], &[3], 2), NO, "another vertex is read, too");
}

/// The value is 1, in bits 40 to 63, and all other bits are zero.
#[test]
fn yes_is_the_value_1() {
    let yes = ask(&e1(), &rr(), &map_of(&IN_E1), 2);
    assert_eq!((yes, value_of(yes)), (1 << 40, 1));
    assert_eq!(value_of(ask(&e1(), &rr(), &map_of(&IN_E1), 1)), 0);
}

/// The answer about the Const of add(x, Const), with these other vertices.
fn ask_of_constant(x: Vertex, others: &[Vertex], outputs: &[u16]) -> u64 {
    let graph = constant_sum(x, others, outputs);
    ask(&graph, &dropped_constant(1), &map_of(&[1, 0, 2]), 1)
}

#[test]
fn a_constant_may_be_private_or_shared() {
    assert_eq!(ask_of_constant(variable(), &[], &[2]), NO);
    assert_eq!(ask_of_constant(variable(), &[relu(1)], &[2, 3]), NO);
    assert_eq!(ask_of_constant(variable(), &[], &[2, 0]), YES, "a graph output");
    assert_eq!(ask_of_constant(variable(), &[relu(0)], &[2, 3]), YES, "a reader");
    assert_eq!(ask_of_constant(variable(), &[relu(0)], &[2]), YES, "one that reaches no output");
    assert_eq!(ask_of_constant(relu(0), &[], &[2]), YES, "the image of a rule input");
}

/// "002 allows a read by any matched vertex. That is wrong: a rule input stays".
#[test]
fn a_rule_input_is_someone_else() {
    let graph = GraphParts { outputs: vec![0], ..p7_graph() };
    assert_eq!(ask(&graph, &p7_rule(), &map_of(&[0, 1, 2, 3]), 1), YES);
    assert_eq!(ask(&graph, &p7_rule(), &map_of(&[0, 1, 2, 3]), 3), NO);
    assert_eq!(ask(&p7_graph(), &p7_rule(), &map_of(&[0, 1, 2, 3]), 3), YES, "a graph output");
}

/// Places are one thing and readers another: a reader that names a slot twice is
/// the match's with both.
#[test]
fn one_reader_may_name_a_slot_twice() {
    let inner = rule(vec![wildcard(), relu_pattern(0), sum_pattern(1, 1)], &[]);
    let graph = GraphParts::new(vec![variable(), relu(0), add(1, 1)], &[2]);
    assert_eq!(ask(&graph, &inner, &map_of(&[0, 1, 2]), 1), NO);
    let doubled = rule(vec![pattern(CONST, 0, &[], &[0]), sum_pattern(0, 0)], &[7]);
    let graph = |others: &[Vertex], outputs: &[u16]| {
        GraphParts::new([vec![constant(7), add(0, 0)], others.to_vec()].concat(), outputs)
    };
    let answer = |graph: &GraphParts| ask(graph, &doubled, &map_of(&[0, 1]), 0);
    assert_eq!(answer(&graph(&[], &[1])), NO);
    assert_eq!(answer(&graph(&[add(0, 0)], &[1])), YES);
    assert_eq!(answer(&graph(&[], &[0, 0])), YES);
}

/// "41 when the map isn't a match (any [...])": the least is not asked for.
#[test]
fn any_match_is_taken() {
    let graph = chain(6);
    for first in 0..4 {
        let map = map_of(&[first, first + 1, first + 2]);
        assert_eq!(ask(&graph, &rr(), &map, 1), NO);
        assert_eq!(ask(&graph, &rr(), &map, 2), YES);
    }
    let map = map_of(&[4, 5, 6]);
    assert_eq!(ask(&graph, &rr(), &map, 2), NO_MATCH, "there is no slot 6");
}

/// With two outputs one first image may go with several second ones, of which a
/// search takes the least.
#[test]
fn the_second_image_need_not_be_least() {
    let slots = vec![variable(), variable(), relu(0), add(0, 1), add(0, 1)];
    let graph = GraphParts::new(slots, &[4]);
    assert_eq!(ask(&graph, &p7_rule(), &map_of(&[0, 2, 1, 3]), 3), NO);
    assert_eq!(ask(&graph, &p7_rule(), &map_of(&[0, 2, 1, 4]), 3), YES);
}

#[test]
fn one_other_place_is_no_match() {
    let graph = e1();
    for place in 0..IN_E1.len() {
        for other in (0..=7).chain([256 + IN_E1[place], 512, 65534, 65535]) {
            let mut images = IN_E1;
            images[place] = other;
            let expected = if images == IN_E1 { NO } else { NO_MATCH };
            assert_eq!(ask(&graph, &rr(), &map_of(&images), 1), expected, "{images:?}");
        }
    }
}

#[test]
fn two_places_the_same_are_no_match() {
    let doubled = GraphParts::new(vec![variable(), add(0, 0)], &[1]);
    let two = rule(vec![wildcard(), wildcard(), sum_pattern(0, 1)], &[]);
    assert_eq!(ask(&doubled, &two, &map_of(&[0, 0, 1]), 2), NO_MATCH);
    let one = rule(vec![wildcard(), sum_pattern(0, 0)], &[]);
    assert_eq!(ask(&doubled, &one, &map_of(&[0, 1]), 1), YES);
}

/// Each clause of a match where nothing else is wrong.
#[test]
fn every_clause_is_asked() {
    let cast = call(CAST, &[1], &[0]);
    let other_operator = GraphParts::new(vec![variable(), relu(0), cast], &[2]);
    assert_eq!(ask(&other_operator, &rr(), &map_of(&[0, 1, 2]), 2), NO_MATCH);
    let other_kind = GraphParts::new(vec![variable(), relu(0), tuple(&[1])], &[2]);
    assert_eq!(ask(&other_kind, &rr(), &map_of(&[0, 1, 2]), 2), NO_MATCH);
    let seven = rule(vec![pattern(CONST, 0, &[], &[0]), relu_pattern(0)], &[7]);
    let of_constant = |number| GraphParts::new(vec![constant(number), relu(0)], &[1]);
    assert_eq!(ask(&of_constant(7), &seven, &map_of(&[0, 1]), 1), YES);
    assert_eq!(ask(&of_constant(8), &seven, &map_of(&[0, 1]), 1), NO_MATCH);
    let one = rule(vec![wildcard(), sum_pattern(0, 0)], &[]);
    let of_two = GraphParts::new(vec![variable(), variable(), add(0, 1)], &[2]);
    assert_eq!(ask(&of_two, &one, &map_of(&[0, 2]), 1), NO_MATCH);
    assert_eq!(ask(&of_two, &one, &map_of(&[1, 2]), 1), NO_MATCH);
}

/// Of an interior image that is no Const, by every way in which it may be needed.
#[test]
fn an_interior_image_needed_elsewhere_is_no_match() {
    for (others, outputs) in
        [(vec![], vec![2, 1]), (vec![relu(1)], vec![2, 3]), (vec![relu(1)], vec![2])]
    {
        assert_eq!(ask_of_relus(&others, &outputs, 1), NO_MATCH);
        assert_eq!(ask_of_relus(&others, &outputs, 2), NO_MATCH);
    }
    let source = vec![wildcard(), relu_pattern(0), wildcard(), sum_pattern(1, 2)];
    let graph = GraphParts::new(vec![variable(), relu(0), relu(1), add(1, 2)], &[3]);
    assert_eq!(ask(&graph, &rule(source, &[]), &map_of(&[0, 1, 2, 3]), 3), NO_MATCH);
}

#[test]
fn places_behind_hold_65535() {
    for place in 3..16 {
        for number in [0, 2, 5, 6, 255, 65280, 65534] {
            let mut map = map_of(&IN_E1);
            map[place] = number;
            assert_eq!(ask(&e1(), &rr(), &map, 2), NO_MATCH, "{number} in place {place}");
        }
    }
}

#[test]
fn a_rule_input_is_no_such_vertex() {
    assert_eq!(ask(&e1(), &rr(), &map_of(&IN_E1), 0), NO_SUCH_VERTEX);
    let any = pattern(VARIABLE, 0, &[], &[0; 5]);
    let mut of_variable = rule(vec![any, relu_pattern(0)], &[]);
    of_variable.nodes = vec![any_node()];
    let graph = GraphParts::new(vec![variable(), relu(0), relu(0)], &[0, 2]);
    assert_eq!(ask(&graph, &of_variable, &map_of(&[0, 1]), 0), NO_SUCH_VERTEX);
    assert_eq!(ask(&graph, &of_variable, &map_of(&[0, 1]), 1), NO);
}

/// Whatever bits of a number are dropped.
#[test]
fn a_number_from_s_on_is_no_such_vertex() {
    let map = map_of(&IN_E1);
    let low = [3, 4, 15, 16, 255, 65535, usize::MAX, usize::MAX - 1];
    let cut = [8, 16, 31, 32, 63].map(|bit| 1 << bit);
    let high = cut.iter().flat_map(|&high: &usize| [high, high + 1, high + 2]);
    for vertex in low.into_iter().chain(high) {
        assert_eq!(ask(&e1(), &rr(), &map, vertex), NO_SUCH_VERTEX, "vertex {vertex}");
    }
}

/// The largest source has no place behind it.
#[test]
fn sixteen_source_vertices() {
    let source = [vec![wildcard()], (0..15).map(relu_pattern).collect()].concat();
    let (deep, map) = (rule(source, &[]), map_of(&(0..16).collect::<Vec<u16>>()));
    assert_eq!(ask(&chain(16), &deep, &map, 14), NO);
    assert_eq!(ask(&chain(16), &deep, &map, 15), YES);
    assert_eq!(ask(&chain(16), &deep, &map, 16), NO_SUCH_VERTEX);
}

/// 1, then the graph's, the rule's, 41 and 42.
#[test]
fn refusals_come_in_order() {
    let numbers = |images: &[u16]| -> Vec<u8> {
        map_of(images).iter().flat_map(|image| image.to_le_bytes()).collect()
    };
    let (right, wrong) = (numbers(&IN_E1), numbers(&[2, 3, 3]));
    let (graph, rule) = (e1().block(), rr().block());
    let bad_graph = GraphParts { outputs: vec![5], ..e1() }.block();
    let bad_rule = RuleParts { target_outputs: vec![1], ..rr() }.block();
    assert_eq!(is_read_elsewhere(&graph, &rule, &wrong, 0), NO_MATCH);
    assert_eq!(is_read_elsewhere(&graph, &rule, &wrong, usize::MAX), NO_MATCH);
    assert_eq!(is_read_elsewhere(&graph, &bad_rule, &wrong, 0), 33);
    assert_eq!(is_read_elsewhere(&bad_graph, &bad_rule, &wrong, 0), 22);
    for length in [0, 1, 31, 33, 64] {
        let mut map = [right.clone(), right.clone()].concat();
        map.truncate(length);
        assert_eq!(is_read_elsewhere(&graph, &rule, &map, 1), 1);
        assert_eq!(is_read_elsewhere(&bad_graph, &bad_rule, &map, 0), 1);
    }
    assert_eq!(right.len(), MAP_LENGTH);
    assert_eq!(is_read_elsewhere(&graph, &rule, &right, 1), NO);
}

/// A version 1 block and one with a wrong count are refused like other bad graphs.
#[test]
fn counts_must_be_there_and_true() {
    let map: Vec<u8> = map_of(&IN_E1).iter().flat_map(|image| image.to_le_bytes()).collect();
    let answer = |graph: &[u8]| is_read_elsewhere(graph, &rr().block(), &map, 2);
    assert_eq!(answer(&e1().version_1_block()), 20);
    let mut wrong = e1().block();
    wrong[24 + 48 * 4 + 40] = 0;
    assert_eq!(answer(&wrong), 24 | 4 << 8);
}
