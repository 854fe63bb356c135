//! Request 8/13, on small rules and on random ones.

mod common;

use common::refused;
use leafgraph_reference::blocks::*;
use leafgraph_reference::generate::*;
use leafgraph_reference::graph::Graph;
use leafgraph_reference::operators::*;
use leafgraph_reference::random::Random;
use leafgraph_reference::reply::{number_of, place_of, reply_of, YES};
use leafgraph_reference::rule::{MAX_NODES, MINUS, TIMES};
use leafgraph_reference::rule_faults::RuleFaults;
use leafgraph_reference::stage::Stage;
use leafgraph_reference::MAP_LENGTH;

const STAGE: Stage = Stage::Eight;
const CONCAT: u8 = 8;

/// 0 any vertex and 1 gain over it for each field; 2 Tuple, 3 concat. The target is gain
/// over concat over the inputs, its attributes these nodes, which stand behind any.
fn folded(attributes: [u8; 3], nodes: Vec<leafgraph_reference::rule::Node>) -> VariadicParts {
    let gain = template(call_pattern(GAIN, &[0], &[0; 3]));
    let tuple = |input| pattern(TUPLE, 0, &[input], &[]);
    let concat = |input, node| call_pattern(CONCAT, &[input], &[node]);
    let rule = RuleParts {
        source: vec![template(wildcard()), gain, tuple(1), concat(2, 0)],
        target: vec![
            tuple(0),
            concat(target_place(0), 1),
            call_pattern(GAIN, &[target_place(1)], &attributes),
        ],
        source_outputs: vec![3],
        target_outputs: vec![target_place(2)],
        nodes: [vec![any_node(), constant_node(1)], nodes].concat(),
    };
    VariadicParts { rule, source_tuple: 2, target_tuple: Some(0) }
}

/// gain's attributes: the sum of the first ones, the sum of the indices, and n.
fn summed() -> VariadicParts {
    let nodes = vec![access_node(1, 1), sum_node(2), index_node(), sum_node(4), sum_node(1)];
    folded([3, 5, 6], nodes)
}

/// Variables, a gain over each with the attributes k, 0, 0 for field k, Tuple, concat, mean.
fn head(width: u16) -> GraphParts {
    let mut slots = vec![variable(); width.into()];
    slots.extend((0..width).map(|at| call(GAIN, &[at], &[10 + i32::from(at), 0, 0])));
    slots.push(tuple(&(width..2 * width).collect::<Vec<u16>>()));
    slots.push(call(CONCAT, &[2 * width], &[3]));
    slots.push(call(MEAN, &[2 * width + 1], &[0]));
    GraphParts::new(slots, &[2 * width + 2])
}

/// The map of the match in it.
fn map_of(images: &[u16]) -> Vec<u8> {
    let mut map = images.to_vec();
    map.resize(64, 65535);
    map.into_iter().flat_map(u16::to_le_bytes).collect()
}

fn images_in_head(width: u16) -> Vec<u16> {
    let fields = (0..width).flat_map(|field| [field, width + field]);
    fields.chain([2 * width, 2 * width + 1]).collect()
}

fn run(graph: &GraphParts, rule: &VariadicParts) -> (u64, Vec<u8>, Vec<u8>) {
    let (mut table, mut map) = (graph.block(), vec![7; 128]);
    let reply = STAGE.rewrite(&mut table, &rule.block(), 0, &mut map);
    (reply, table, map)
}

#[test]
fn a_head_of_every_width_is_folded() {
    for width in 1..=6 {
        let (reply, table, map) = run(&head(width), &summed());
        assert_eq!((reply, map), (0, map_of(&images_in_head(width))));
        let mut expected = head(width);
        let n = usize::from(width);
        expected.slots[n..2 * n + 2].fill(empty());
        expected.slots[n] = tuple(&(0..width).collect::<Vec<u16>>());
        expected.slots[n + 1] = call(CONCAT, &[width], &[1]);
        let (numbers, count) = (0..i32::from(width), i32::from(width));
        let sums = [numbers.clone().map(|at| 10 + at).sum(), numbers.map(|at| at + 1).sum(), count];
        expected.slots[n + 2] = call(GAIN, &[width + 1], &sums);
        match n {
            1 => assert_eq!(table, expected_of_one(sums).block()),
            _ => {
                expected.slots[2 * n + 2] = call(MEAN, &[width + 2], &[0]);
                assert_eq!(table, expected.block());
            }
        }
    }
}

/// One gain: three slots are freed and three taken.
fn expected_of_one(sums: [i32; 3]) -> GraphParts {
    let slots = vec![
        variable(),
        tuple(&[0]),
        call(CONCAT, &[1], &[1]),
        call(GAIN, &[2], &sums),
        call(MEAN, &[3], &[0]),
    ];
    GraphParts::new(slots, &[4])
}

/// Copies are numbered field by field, and take slots so.
#[test]
fn target_copies_take_slots_in_visiting_order() {
    let mut rule = folded([1; 3], vec![index_node()]);
    rule.rule.target = vec![
        template(call_pattern(RELU, &[0], &[])),
        template(call_pattern(CAST, &[target_place(0)], &[2])),
        pattern(TUPLE, 0, &[target_place(1)], &[]),
    ];
    rule.target_tuple = Some(2);
    let mut graph = head(2);
    graph.slots.extend(vec![empty(); 2]);
    let (reply, table, _) = run(&graph, &rule);
    let cast = |input, index| call(CAST, &[input], &[index]);
    let slots = vec![
        variable(),
        variable(),
        relu(0),
        cast(2, 1),
        relu(1),
        cast(4, 2),
        call(MEAN, &[7], &[0]),
        tuple(&[3, 5]),
        empty(),
    ];
    assert_eq!((reply, table), (0, GraphParts::new(slots, &[6]).block()));
}

type Change = fn(&mut VariadicParts);

fn changed(change: impl FnOnce(&mut VariadicParts)) -> u64 {
    let mut rule = summed();
    change(&mut rule);
    STAGE.check_rule(&rule.block())
}

#[test]
fn faults_have_their_places() {
    assert_eq!(changed(|_| ()), 0);
    let cases: [(u64, Change); 25] = [
        (refused(30, 0), |rule| rule.source_tuple = 4),
        (refused(30, 0), |rule| rule.source_tuple = 255),
        (refused(30, 0), |rule| rule.target_tuple = Some(3)),
        (refused(30, 0), |rule| rule.target_tuple = Some(254)),
        (refused(31, 0), |rule| rule.source_tuple = 0),
        // The Tuple is then a plain one, and names a template.
        (refused(31, 2), |rule| rule.source_tuple = 3),
        (refused(31, 2), |rule| rule.rule.source[2].kind += 128),
        (refused(31, 2), |rule| rule.rule.source[2].inputs = vec![1, 1]),
        (refused(31, 4), |rule| rule.target_tuple = Some(1)),
        (refused(31, 4), |rule| rule.target_tuple = None),
        (refused(31, 1), |rule| rule.rule.source[1].kind -= 128),
        (refused(31, 1), |rule| rule.rule.source[1].kind = 134),
        (refused(31, 4), |rule| rule.rule.target[0].kind += 128),
        (refused(33, 0), |rule| rule.rule.source[3].kind += 128),
        (refused(33, 0), |rule| rule.rule.target[2].kind += 128),
        (refused(33, 0), |rule| rule.rule.target_outputs = vec![0]),
        (refused(34, 3), |rule| rule.rule.nodes[3].b = 1),
        (refused(34, 3), |rule| rule.rule.nodes[3].number = 1),
        (refused(34, 3), |rule| rule.rule.nodes[3].a = 0),
        (refused(34, 3), |rule| rule.rule.nodes[3].a = 3),
        (refused(34, 4), |rule| rule.rule.nodes[4].a = 1),
        (refused(34, 6), |rule| rule.rule.nodes[6].form = 10),
        (refused(34, 6), |rule| rule.rule.target[2].attributes[1] = 4),
        (refused(34, 6), |rule| rule.rule.target[2].attributes[1] = 2),
        (refused(34, 3), |rule| rule.rule.source[3].attributes[0] = 4),
    ];
    for (at, (reply, change)) in cases.into_iter().enumerate() {
        assert_eq!(changed(change), reply, "case {at}");
    }
}

#[test]
fn what_is_no_fault() {
    // An index that nothing uses, one in a template, a sum without templates, a fixed Tuple.
    assert_eq!(changed(|rule| rule.rule.nodes.push(index_node())), 0);
    assert_eq!(changed(|rule| rule.rule.source[1].attributes[0] = 4), 0);
    assert_eq!(changed(|rule| rule.rule.source[1].attributes[0] = 6), 0);
    assert_eq!(changed(|rule| rule.rule.source[3].attributes[0] = 3), 0);
    assert_eq!(changed(|rule| rule.rule.target[1] = pattern(TUPLE, 0, &[16, 16, 16], &[])), 0);
}

/// A copy sums over copies of which the second comes after it, and too many vertices.
#[test]
fn expansions_that_are_not_sound() {
    let sum_in_branch = |rule: &mut VariadicParts| {
        rule.rule.nodes.extend([access_node(0, 1), sum_node(7)]);
        rule.rule.source[1].attributes[0] = 8;
    };
    assert_eq!(changed(sum_in_branch), refused(35, 2));
    for (templates, reply) in [(9, 0), (10, 0), (11, refused(35, 6)), (12, refused(35, 6))] {
        assert_eq!(STAGE.check_rule(&long_branch(templates).block()), reply, "{templates}");
    }
    assert_eq!(STAGE.check_rule(&long_branch(13).block()), refused(35, 5));
}

/// A chain of so many templates under the Tuple, which is the output.
fn long_branch(templates: u8) -> VariadicParts {
    let mut source = vec![template(wildcard())];
    source.extend((1..templates).map(|one| template(call_pattern(RELU, &[one - 1], &[]))));
    source.push(pattern(TUPLE, 0, &[templates - 1], &[]));
    let rule = RuleParts {
        source,
        target: vec![pattern(TUPLE, 0, &[0], &[])],
        source_outputs: vec![templates],
        target_outputs: vec![target_place(0)],
        nodes: vec![],
    };
    VariadicParts { rule, source_tuple: templates, target_tuple: Some(0) }
}

/// 60 sums over each other with six fields: each node once for each index.
#[test]
fn nested_sums_answer_at_once() {
    let mut nodes = vec![index_node(), constant_node(0), operation_node(TIMES, 2, 3)];
    while nodes.len() + 2 < MAX_NODES {
        nodes.push(sum_node(nodes.len() as u8 + 1));
    }
    let (reply, table, _) = run(&head(6), &folded([63; 3], nodes.clone()));
    assert_eq!(reply, 0);
    let table = Graph::parse(&table).expect("a sound graph");
    assert!(table.slots().any(|slot| slot.attributes().eq([0; 3])));
    // Over a term of 1 the sums are powers of n, which are too large from some sum on.
    nodes[1] = constant_node(1);
    assert_eq!(run(&head(6), &folded([63; 3], nodes.clone())).0, 5);
    assert_eq!(run(&head(1), &folded([63; 3], nodes)).0, 0);
}

/// A partial sum is bounded, though the whole would not be too large.
#[test]
fn terms_are_added_from_1_up() {
    // 2147483646, 1431655764, 715827882, 0, -715827882, ...: with six fields the sum fits.
    let nodes = vec![
        constant_node(4),
        index_node(),
        operation_node(MINUS, 2, 3),
        constant_node(i32::MAX / 3),
        operation_node(TIMES, 4, 5),
        sum_node(6),
    ];
    let rule = folded([7; 3], nodes);
    assert_eq!(run(&head(1), &rule).0, 0);
    assert_eq!(run(&head(6), &rule).0, 5);
}

/// In a template a sum's index is its own, and the template's comes back behind it.
#[test]
fn the_innermost_index_counts() {
    let nodes = vec![index_node(), sum_node(2), operation_node(TIMES, 2, 3), sum_node(4)];
    let mut rule = folded([5; 3], nodes);
    rule.rule.target[0].inputs = vec![target_place(0)];
    rule.rule.target.insert(0, template(call_pattern(GAIN, &[0], &[3, 4, 2])));
    for (place, one) in rule.rule.target.iter_mut().enumerate().skip(2) {
        one.inputs = vec![target_place(place as u8 - 1)];
    }
    rule.rule.target_outputs = vec![target_place(3)];
    rule.target_tuple = Some(1);
    let mut graph = head(3);
    graph.slots.push(empty());
    let (reply, table, _) = run(&graph, &rule);
    assert_eq!(reply, 0);
    let table = Graph::parse(&table).expect("a sound graph");
    let gains = table.slots().filter(|slot| slot.operator() == GAIN);
    let attributes: Vec<Vec<i32>> = gains.map(|slot| slot.attributes().collect()).collect();
    // Of field k: 1 + 2 + 3, k times that, k. Behind them 1 * 6 + 2 * 6 + 3 * 6.
    assert_eq!(attributes, [vec![6, 6, 1], vec![6, 12, 2], vec![6, 18, 3], vec![36; 3]]);
}

#[test]
fn the_map_is_judged_by_the_version_alone() {
    let (graph, rule) = (head(2).block(), summed().block());
    for (length, reply) in [(128, 0), (32, 1), (127, 1), (129, 1), (0, 1)] {
        assert_eq!(STAGE.find_match(&graph, &rule, 0, &mut vec![0; length]), reply, "{length}");
    }
    // The rule's other bytes are not looked at, nor the graph.
    assert_eq!(STAGE.find_match(&[], &[9, 9, 9, 9, 2, 0], 0, &mut [0; 32]), 1);
    assert_eq!(STAGE.find_match(&[], &[9, 9, 9, 9, 2, 0], 0, &mut [0; 128]), 20);
    assert_eq!(STAGE.find_match(&graph, &[9, 9, 9, 9, 2, 0], 0, &mut [0; 128]), 30);
    assert_eq!(STAGE.find_match(&graph, &[9, 9, 9, 9, 2, 1], 0, &mut [0; 128]), 1);
    assert_eq!(STAGE.find_match(&graph, &[9, 9, 9, 9, 2], 0, &mut [0; 128]), 1);
    assert_eq!(STAGE.find_match(&graph, &[9, 9, 9, 9, 2], 0, &mut [0; 32]), 30);
}

/// Slots 0 to 8 a head of three, 9 to 15 one of two.
#[test]
fn the_least_match_is_taken_over_all_n() {
    let (mut graph, second) = (head(3), head(2));
    for mut vertex in second.slots {
        vertex.inputs.iter_mut().for_each(|input| *input += 9);
        graph.slots.push(vertex);
    }
    graph.outputs.push(15);
    let (block, rule) = (graph.block(), summed().block());
    let two: Vec<u16> = images_in_head(2).into_iter().map(|image| image + 9).collect();
    for (start, images) in [(0, images_in_head(3)), (7, images_in_head(3)), (8, two)] {
        let mut map = vec![0; 128];
        assert_eq!(STAGE.find_match(&block, &rule, start, &mut map), 0);
        assert_eq!(map, map_of(&images), "{start}");
    }
    assert_eq!(STAGE.find_match(&block, &rule, 15, &mut [0; 128]), 4);
}

#[test]
fn a_question_takes_n_from_the_map() {
    let (graph, rule) = (head(4).block(), summed().block());
    let images = images_in_head(4);
    let ask =
        |images: &[u16], vertex| STAGE.is_read_elsewhere(&graph, &rule, &map_of(images), vertex);
    let inputs = [0, 2, 4, 6];
    for vertex in 0..70 {
        let expected = match vertex {
            9 => YES,
            0..=8 if !inputs.contains(&vertex) => 0,
            _ => 42,
        };
        assert_eq!(ask(&images, vertex), expected, "{vertex}");
    }
    assert_eq!(ask(&images[..9], 1), 41);
    assert_eq!(ask(&[&images[..], &[9]].concat(), 1), 41);
    assert_eq!(ask(&images_in_head(3), 1), 41);
    assert_eq!(STAGE.is_read_elsewhere(&graph, &rule, &map_of(&images)[..32], 1), 1);
}

/// An unmarked branch: all fields name one vertex, and S is the same for every n.
#[test]
fn a_branch_may_be_shared_whole() {
    let mut rule = folded([1; 3], vec![]);
    for one in &mut rule.rule.source[..2] {
        one.kind -= 128;
    }
    let slots = vec![
        variable(),
        call(GAIN, &[0], &[1, 1, 1]),
        tuple(&[1, 1, 1]),
        call(CONCAT, &[2], &[1]),
        call(MEAN, &[3], &[0]),
    ];
    let graph = GraphParts::new(slots, &[4]);
    let (reply, table, map) = run(&graph, &rule);
    assert_eq!((reply, &map), (0, &map_of(&[0, 1, 2, 3])));
    let table = Graph::parse(&table).expect("a sound graph");
    assert!(table.slots().any(|slot| slot.kind() == TUPLE && slot.inputs().eq([0, 0, 0])));
    let ask = |vertex| STAGE.is_read_elsewhere(&graph.block(), &rule.block(), &map, vertex);
    assert_eq!([0, 1, 2, 3, 4].map(ask), [42, 0, 0, YES, 42]);
}

/// The check against the listing of all faults; 35 comes from sizes, which do at 5 or 6, or
/// from a second copy.
#[test]
fn the_check_agrees_with_the_listing_of_faults() {
    let mut random = Random::new(8);
    let mut seen = [0; 36];
    for _ in 0..4000 {
        let rule = match random.chance(3) {
            true => rule_with_unsound_expansion(&mut random),
            false => variadic_rule(&mut random),
        };
        let block = match random.chance(80) {
            true => damaged_variadic_rule_of(&mut random, rule),
            false => rule.block(),
        };
        let reply = STAGE.check_rule(&block);
        let first = RuleFaults::at(STAGE, &block).first();
        assert_eq!(reply, reply_of(first.map_or(Ok(()), Err)), "{block:?}");
        assert!(number_of(reply) != 35 || [2, 5, 6].contains(&place_of(reply)), "{block:?}");
        seen[usize::from(number_of(reply))] += 1;
    }
    assert!([0, 30, 31, 32, 33, 34, 35].iter().all(|&number| seen[number] > 20), "{seen:?}");
}

/// Whatever is not version 2 is answered as before.
#[test]
fn version_1_is_answered_as_before() {
    let mut random = Random::new(1);
    for _ in 0..3000 {
        let (_, case) = rewriting_case(&mut random);
        let rule = match random.chance(40) {
            true => damaged_rule_of(&mut random, case.rule),
            false => case.rule.block(),
        };
        if rule.get(4..6) == Some(&[2, 0]) {
            assert_eq!(Stage::Seven.check_rule(&rule), 30);
            continue;
        }
        assert_eq!(STAGE.check_rule(&rule), Stage::Seven.check_rule(&rule));
        let [before, after] = [Stage::Seven, STAGE].map(|stage| {
            let (mut graph, mut map) = (case.graph.block(), [7; MAP_LENGTH]);
            let found = stage.find_match(&graph, &rule, case.start, &mut map);
            let asked = stage.is_read_elsewhere(&graph, &rule, &map, 1);
            let reply = stage.rewrite(&mut graph, &rule, case.start, &mut map);
            (found, asked, reply, graph, map)
        });
        assert_eq!(before, after);
    }
}

/// Before request 8/13 version 2 is a bad header, and a map has 32 bytes.
#[test]
fn without_the_request_version_2_is_refused() {
    let (mut graph, rule) = (head(2).block(), summed().block());
    assert_eq!(Stage::Seven.check_rule(&rule), 30);
    assert_eq!(Stage::Seven.find_match(&graph, &rule, 0, &mut [0; 32]), 30);
    assert_eq!(Stage::Seven.find_match(&graph, &rule, 0, &mut [0; 128]), 1);
    assert_eq!(Stage::Seven.rewrite(&mut graph, &rule, 0, &mut [0; 32]), 30);
    assert_eq!(Stage::Seven.is_read_elsewhere(&graph, &rule, &[0; 32], 1), 30);
}
