//! The search against document 01's definition of a match, tried on every map
//! of small cases, and so request 6/13's question; and the rewriting against a plain
//! retelling of "What a rewriting leaves". All as request 1/13 amends it.

mod common;

use common::{all_places, ask, map_of, run_match, run_rewrite};
use leafgraph_reference::attributes::{agrees, results};
use leafgraph_reference::blocks::{empty, GraphParts, RuleParts, Vertex};
use leafgraph_reference::generate::{matching_case, rewriting_case, search_case, Case};
use leafgraph_reference::graph::Graph;
use leafgraph_reference::operators::CONST;
use leafgraph_reference::random::Random;
use leafgraph_reference::reply::YES;
use leafgraph_reference::rule::Rule;

fn is_input(rule: &RuleParts, vertex: usize) -> bool {
    rule.source[vertex].kind == 0 || rule.source[vertex].kind == 2
}

/// "What a match is", clause by clause.
fn is_match(case: &Case, images: &[u16]) -> bool {
    let (graph, rule) = (&case.graph, &case.rule);
    let slot = |vertex: usize| &graph.slots[usize::from(images[vertex])];
    let vertices = 0..rule.source.len();
    let distinct = vertices.clone().all(|one| {
        slot(one).kind != 0
            && vertices.clone().all(|other| one == other || images[one] != images[other])
    });
    distinct
        && vertices.clone().all(|vertex| {
            let pattern = &rule.source[vertex];
            let image = slot(vertex);
            pattern.kind == 0
                || (pattern.kind == image.kind
                    && pattern.operator == image.operator
                    && pattern.attributes.len() == image.attributes.len()
                    && pattern.inputs.len() == image.inputs.len()
                    && pattern
                        .inputs
                        .iter()
                        .zip(&image.inputs)
                        .all(|(&input, &named)| images[usize::from(input)] == named))
        })
        && vertices.clone().all(|vertex| interior_is_kept(case, images, vertex))
        && attributes_agree(case, images)
}

/// "no interior image (neither rule input nor source output [...]) is a graph
/// output or is read by anything but the image of a non-input source vertex";
/// but "a matched Const may have other readers and may be a graph output".
fn interior_is_kept(case: &Case, images: &[u16], vertex: usize) -> bool {
    let rule = &case.rule;
    is_input(rule, vertex)
        || rule.source_outputs.contains(&(vertex as u8))
        || rule.source[vertex].kind == CONST
        || is_private(case, images, vertex)
}

/// Whether "all its reads come from images of non-input source vertices and no
/// graph output names it".
fn is_private(case: &Case, images: &[u16], vertex: usize) -> bool {
    let (graph, rule) = (&case.graph, &case.rule);
    let inside = |reader: usize| {
        (0..rule.source.len())
            .any(|other| !is_input(rule, other) && usize::from(images[other]) == reader)
    };
    let image = images[vertex];
    !graph.outputs.contains(&image)
        && (0..graph.slots.len())
            .all(|reader| !graph.slots[reader].inputs.contains(&image) || inside(reader))
}

/// The source vertices whose images go.
fn removed<'a>(case: &'a Case, images: &'a [u16]) -> impl Iterator<Item = usize> + 'a {
    let rule = &case.rule;
    (0..rule.source.len()).filter(move |&vertex| {
        !is_input(rule, vertex)
            && (rule.source[vertex].kind != CONST || is_private(case, images, vertex))
    })
}

fn attributes_agree(case: &Case, images: &[u16]) -> bool {
    let (graph, rule) = (case.graph.block(), case.rule.block());
    let graph = Graph::parse(&graph).expect("a sound graph");
    let rule = Rule::parse(&rule).expect("a sound rule");
    let results = results(graph, rule, &all_places(images));
    case.rule.source.iter().zip(images).all(|(pattern, &image)| {
        let numbers = &case.graph.slots[usize::from(image)].attributes;
        let mut pairs = pattern.attributes.iter().zip(numbers);
        pattern.kind == 0 || pairs.all(|(&node, &number)| agrees(rule, &results, 0, node, number))
    })
}

/// All maps to slots, Empty ones too.
fn all_maps(case: &Case) -> impl Iterator<Item = Vec<u16>> {
    let slots = case.graph.slots.len() as u16;
    let next = move |images: &Vec<u16>| {
        let digit = images.iter().position(|&image| image + 1 < slots)?;
        // Counting in base N.
        let mut next = images.clone();
        next[digit] += 1;
        next[..digit].fill(0);
        Some(next)
    };
    std::iter::successors(Some(vec![0; case.rule.source.len()]), next)
}

/// How many there are.
fn map_count(case: &Case) -> u64 {
    (case.graph.slots.len() as u64).saturating_pow(case.rule.source.len() as u32)
}

/// Of all matches, the images of the outputs deciding which is least.
fn least_by_definition(case: &Case) -> Option<Vec<u16>> {
    let mut best: Option<(Vec<u16>, Vec<u16>)> = None;
    for images in all_maps(case) {
        let key: Vec<u16> =
            case.rule.source_outputs.iter().map(|&output| images[usize::from(output)]).collect();
        let better = best.as_ref().is_none_or(|(least, _)| key < *least);
        if better && usize::from(key[0]) >= case.start && is_match(case, &images) {
            best = Some((key, images));
        }
    }
    best.map(|(_, images)| images)
}

#[test]
fn the_search_finds_the_least_match() {
    let mut random = Random::new(1);
    let mut found = [0; 2];
    while found[0] + found[1] < 3000 {
        let case = match random.chance(50) {
            true => matching_case(&mut random),
            false => search_case(&mut random).1,
        };
        if map_count(&case) > 20_000 {
            continue;
        }
        let answer = run_match(&case.graph, &case.rule, case.start);
        match least_by_definition(&case) {
            Some(images) => {
                assert_eq!(answer.reply, 0, "{case:?}");
                assert_eq!(answer.map, map_of(&images), "{case:?}");
                found[0] += 1;
            }
            None => {
                assert_eq!(answer.reply, 4, "{case:?}");
                found[1] += 1;
            }
        }
    }
    assert!(found[0] > 1000 && found[1] > 500, "{found:?}");
}

/// The reply by the definition, to a question about a vertex of the source.
fn reply_by_definition(case: &Case, images: &[u16], vertex: usize) -> u64 {
    match is_match(case, images) {
        false => 41,
        true if is_input(&case.rule, vertex) => 42,
        true if is_private(case, images, vertex) => 0,
        true => YES,
    }
}

/// Of a match every vertex is asked for, of another map one.
#[test]
fn every_map_is_judged() {
    let mut random = Random::new(3);
    let mut replies = [0; 4];
    while replies.iter().any(|&count| count < 200) {
        let (_, case) = search_case(&mut random);
        if map_count(&case) > 500 {
            continue;
        }
        for images in all_maps(&case) {
            let one = random.below(images.len());
            let asked = if is_match(&case, &images) { 0..images.len() } else { one..one + 1 };
            for vertex in asked {
                let reply = ask(&case.graph, &case.rule, &map_of(&images), vertex);
                let expected = reply_by_definition(&case, &images, vertex);
                assert_eq!(reply, expected, "vertex {vertex} at {images:?}, {case:?}");
                let seen = [0, YES, 41, 42].iter().position(|&one| one == reply);
                replies[seen.expect("one of four")] += 1;
            }
        }
    }
}

/// "What a rewriting leaves", on parts instead of bytes. Only the attributes
/// are taken from the program itself.
fn retold(case: &Case, images: &[u16], attributes: &[Vec<i32>]) -> GraphParts {
    let rule = &case.rule;
    let mut new = case.graph.clone();
    let mut stays = vec![true; new.slots.len()];
    for vertex in removed(case, images) {
        stays[usize::from(images[vertex])] = false;
        new.slots[usize::from(images[vertex])] = empty();
    }
    let free = (0..new.slots.len() as u16).filter(|&slot| new.slots[usize::from(slot)].kind == 0);
    let places: Vec<u16> = free.take(rule.target.len()).collect();
    let place = |number: u8| match number {
        0..=15 => images[usize::from(number)],
        _ => places[usize::from(number) - 16],
    };
    let redirect = |named: &mut u16| {
        let outputs = rule.source_outputs.iter().zip(&rule.target_outputs);
        let mut hits = outputs.filter(|(&source, _)| images[usize::from(source)] == *named);
        if let Some((_, &target)) = hits.next() {
            *named = place(target);
        }
    };
    let staying = new.slots.iter_mut().zip(&stays).filter(|(_, &stays)| stays);
    staying.flat_map(|(vertex, _)| &mut vertex.inputs).for_each(redirect);
    new.outputs.iter_mut().for_each(redirect);
    for (vertex, pattern) in rule.target.iter().enumerate() {
        new.slots[usize::from(places[vertex])] = Vertex {
            kind: pattern.kind,
            operator: pattern.operator,
            inputs: pattern.inputs.iter().map(|&input| place(input)).collect(),
            attributes: attributes[vertex].clone(),
        };
    }
    new
}

fn target_attributes(case: &Case, map: &[u16]) -> Option<Vec<Vec<i32>>> {
    let (graph, rule) = (case.graph.block(), case.rule.block());
    let (graph, view) = (Graph::parse(&graph).ok()?, Rule::parse(&rule).ok()?);
    let results = results(graph, view, &all_places(map));
    let of = |nodes: &Vec<u8>| nodes.iter().map(|&node| results.at(0, node)).collect();
    case.rule.target.iter().map(|pattern| of(&pattern.attributes)).collect()
}

/// Settles slots whose inputs are settled until nothing changes.
fn is_acyclic(graph: &GraphParts) -> bool {
    let mut settled = vec![false; graph.slots.len()];
    for _ in 0..graph.slots.len() {
        for slot in 0..graph.slots.len() {
            let mut inputs = graph.slots[slot].inputs.iter();
            settled[slot] = inputs.all(|&input| settled[usize::from(input)]);
        }
    }
    settled.iter().all(|&settled| settled)
}

/// Reply and table of a rewriting by the retelling.
fn expected_rewriting(case: &Case, map: &[u16]) -> Result<GraphParts, u64> {
    let rule = &case.rule;
    let attributes = target_attributes(case, map).ok_or(5u64)?;
    let mut indices = rule.target.iter().zip(&attributes).filter(|(pattern, _)| pattern.kind == 5);
    if indices.any(|(_, attributes)| attributes[0] < 1) {
        return Err(5);
    }
    let empties = case.graph.slots.iter().filter(|vertex| vertex.kind == 0).count();
    if rule.target.len() > empties + removed(case, map).count() {
        return Err(6);
    }
    let new = retold(case, map, &attributes);
    if is_acyclic(&new) {
        Ok(new)
    } else {
        Err(7)
    }
}

#[test]
fn the_rewriting_leaves_the_one_table() {
    let mut random = Random::new(2);
    let mut replies = [0; 8];
    for _ in 0..9000 {
        let case = match random.chance(50) {
            true => matching_case(&mut random),
            false => rewriting_case(&mut random).1,
        };
        let found = run_match(&case.graph, &case.rule, case.start);
        let answer = run_rewrite(&case.graph, &case.rule, case.start);
        replies[answer.reply as usize] += 1;
        if found.reply != 0 {
            assert_eq!((found.reply, answer.reply), (4, 4));
            continue;
        }
        match expected_rewriting(&case, &found.map) {
            Ok(new) => {
                assert_eq!(answer.reply, 0, "{case:?}");
                assert_eq!(answer.graph, new.block(), "{case:?}");
                assert_eq!(answer.map, found.map);
            }
            Err(reply) => assert_eq!(answer.reply, reply, "{case:?}"),
        }
    }
    assert_eq!(replies[1..4], [0, 0, 0]);
    for reply in [0, 4, 5, 6, 7] {
        assert!(replies[reply] > 30, "{replies:?}");
    }
}
