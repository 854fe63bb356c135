//! Rules cut out of random graphs, so that most of them match: shared
//! interior vertices, two outputs, look-alike stages, attributes that are
//! computed from other attributes.

use crate::blocks::{pattern, wildcard, GraphParts, PatternParts, RuleParts};
use crate::operators::{CALL, CONST};
use crate::random::Random;
use crate::rule::MAX_VERTICES;

use super::expressions::Expressions;
use super::filling::fill_attributes;
use super::graphs::sound_graph_of;
use super::rules::{is_input_kind, rule_with_random_target};
use super::tables::is_below;
use super::targets::{rule_with_copied_target, Merging};

/// What a call of matching or rewriting gets.
#[derive(Clone, Debug)]
pub struct Case {
    pub graph: GraphParts,
    pub rule: RuleParts,
    pub start: usize,
}

/// A graph and a rule that mostly matches in it, with a random target.
pub fn matching_case(random: &mut Random) -> Case {
    let (graph, cut) = graph_and_cut(random, graph);
    let rule = rule_with_random_target(random, cut.source, cut.outputs, cut.expressions);
    let start = start(random, graph.slots.len());
    Case { graph, rule, start }
}

/// The same, with a target that means what the source means whatever the
/// operators mean: copies of the source's vertices with the attributes of
/// their images, some alike ones merged. None where the nodes do not suffice.
pub fn same_meaning_case(random: &mut Random) -> Option<Case> {
    let (graph, cut) = graph_and_cut(random, graph);
    let merging = random.pick(&[Merging::Never, Merging::InEveryMatch]);
    let rule = rule_with_copied_target(&graph, cut, merging)?;
    let start = start(random, graph.slots.len());
    Some(Case { graph, rule, start })
}

fn start(random: &mut Random, slots: usize) -> usize {
    match random.below(20) {
        0..=15 => 0,
        16 | 17 => random.below(slots + 1),
        18 => random.pick(&[slots, 65535, 65536, 1 << 32]),
        _ => usize::MAX,
    }
}

fn graph(random: &mut Random) -> GraphParts {
    let slots = match random.chance(90) {
        true => random.within(2, 24),
        false => random.within(25, 200),
    };
    sound_graph_of(random, slots)
}

/// A graph that this function makes, and a cut from it.
pub(super) fn graph_and_cut(
    random: &mut Random,
    graph: fn(&mut Random) -> GraphParts,
) -> (GraphParts, Cut) {
    loop {
        let graph = graph(random);
        if let Some(cut) = (0..10).find_map(|_| cut(random, &graph)) {
            return (graph, cut);
        }
    }
}

/// The source side of a rule as it was found in a graph.
pub(super) struct Cut {
    pub source: Vec<PatternParts>,
    pub outputs: Vec<u8>,
    pub expressions: Expressions,
    /// The slot that each source vertex was cut from.
    pub images: Vec<u16>,
}

/// A walk from one or two roots that stops here and there with a wildcard.
struct Cutter<'a> {
    graph: &'a GraphParts,
    readers: Vec<usize>,
    roots: Vec<u16>,
    numbers: Vec<Option<u8>>,
    source: Vec<PatternParts>,
    images: Vec<u16>,
    /// How many vertices are entered and not left yet.
    open: usize,
    eagerness: usize,
}

fn cut(random: &mut Random, graph: &GraphParts) -> Option<Cut> {
    let roots = roots(random, graph)?;
    let mut cutter = Cutter {
        graph,
        readers: readers(graph),
        roots: roots.clone(),
        numbers: vec![None; graph.slots.len()],
        source: vec![],
        images: vec![],
        open: 0,
        eagerness: random.pick(&[20, 50, 80, 95]),
    };
    let mut outputs = vec![];
    for root in roots {
        outputs.push(cutter.cut(random, root, true)?);
    }
    if outputs.len() == 2 && !cutter.is_connected(&outputs) {
        return None;
    }
    let Cutter { mut source, images, .. } = cutter;
    let expressions = fill_attributes(random, graph, &images, &mut source);
    Some(Cut { source, outputs, expressions, images })
}

/// One or two vertices that can be source outputs.
fn roots(random: &mut Random, graph: &GraphParts) -> Option<Vec<u16>> {
    let numbers = 0..graph.slots.len() as u16;
    let suiting: Vec<u16> =
        numbers.filter(|&slot| graph.slots[usize::from(slot)].kind >= CALL).collect();
    if suiting.is_empty() {
        return None;
    }
    let first = random.pick(&suiting);
    let mut roots = vec![first];
    if random.chance(65) {
        let partners = partners(random, graph, &suiting, first);
        roots.extend((!partners.is_empty()).then(|| random.pick(&partners)));
    }
    Some(roots)
}

/// Vertices that can be the second root: they have an input in common with
/// the first and do not read it. Often only those below the first are taken:
/// a rewriting may then close a cycle.
fn partners(random: &mut Random, graph: &GraphParts, suiting: &[u16], first: u16) -> Vec<u16> {
    let inputs = |slot: u16| &graph.slots[usize::from(slot)].inputs;
    let mut partners = suiting.to_vec();
    partners.retain(|&slot| {
        slot != first
            && !inputs(slot).contains(&first)
            && !inputs(first).contains(&slot)
            && inputs(slot).iter().any(|input| inputs(first).contains(input))
    });
    let below: Vec<u16> =
        partners.iter().copied().filter(|&slot| is_below(graph, first, slot)).collect();
    if !below.is_empty() && random.chance(70) {
        return below;
    }
    partners
}

/// How many vertices and graph outputs name each slot. A vertex that names a
/// slot in several places counts once: it is cut out with all of them.
fn readers(graph: &GraphParts) -> Vec<usize> {
    let mut readers = vec![0; graph.slots.len()];
    for vertex in &graph.slots {
        let mut named = vertex.inputs.clone();
        named.sort_unstable();
        named.dedup();
        named.iter().for_each(|&slot| readers[usize::from(slot)] += 1);
    }
    graph.outputs.iter().for_each(|&slot| readers[usize::from(slot)] += 1);
    readers
}

impl Cutter<'_> {
    /// The number of this slot's pattern; vertices are numbered as they are
    /// left, which is the visiting order. None when a root would be read or
    /// the source would be too large.
    fn cut(&mut self, random: &mut Random, slot: u16, is_root: bool) -> Option<u8> {
        if !is_root && self.roots.contains(&slot) {
            return None;
        }
        if let Some(number) = self.numbers[usize::from(slot)] {
            return Some(number);
        }
        let vertex = &self.graph.slots[usize::from(slot)];
        let mut made = wildcard();
        if is_root || self.goes_on(random, slot) {
            let attributes = vec![0; vertex.attributes.len()];
            made = pattern(vertex.kind, vertex.operator, &[], &attributes);
            self.open += 1;
            for &input in &vertex.inputs {
                made.inputs.push(self.cut(random, input, false)?);
            }
            self.open -= 1;
        }
        if self.source.len() == MAX_VERTICES {
            return None;
        }
        let number = self.source.len() as u8;
        self.numbers[usize::from(slot)] = Some(number);
        self.source.push(made);
        self.images.push(slot);
        Some(number)
    }

    /// A vertex with several readers, but for a Const, is seldom taken as
    /// interior, since all of them would have to be cut out too; one that reads
    /// a root never, and none when there is no place for the vertex and an
    /// input of its own.
    fn goes_on(&self, random: &mut Random, slot: u16) -> bool {
        let inputs = &self.graph.slots[usize::from(slot)].inputs;
        if inputs.iter().any(|input| self.roots.contains(input))
            || self.source.len() + self.open + 2 > MAX_VERTICES
        {
            return false;
        }
        let alone = self.readers[usize::from(slot)] == 1;
        let kind = self.graph.slots[usize::from(slot)].kind;
        let may_be_shared = is_input_kind(kind) || kind == CONST;
        let share = if alone || may_be_shared { self.eagerness } else { self.eagerness / 4 };
        random.chance(share)
    }

    fn is_connected(&self, outputs: &[u8]) -> bool {
        let mut reached_by = vec![0u32; self.source.len()];
        for (vertex, pattern) in self.source.iter().enumerate() {
            let above = pattern.inputs.iter().map(|&input| reached_by[usize::from(input)]);
            reached_by[vertex] = above.fold(1 << vertex, |set, more| set | more);
        }
        reached_by[usize::from(outputs[0])] & reached_by[usize::from(outputs[1])] != 0
    }
}
