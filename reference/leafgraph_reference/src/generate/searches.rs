//! Cases for the search: a rule cut out of a graph or put into it, and
//! something done to the graph afterwards, so that the match is gone, is
//! another one or is one of several.

use crate::blocks::{any_node, relu, GraphParts, Vertex};
use crate::graph::MAX_SLOTS;
use crate::operators::{CONST, PROJ, WILDCARD};
use crate::random::Random;

use super::constants::{merge_constants, share_constants};
use super::cuts::{graph_and_cut, Case, Cut};
use super::filling::fill_attributes;
use super::graphs::{attribute, deep_graph, sound_graph_of};
use super::insertion::{insert_match, SourceSide};
use super::rules::{is_input_kind, rule_with_random_target, source_side};
use super::tables::{add_output, add_vertex, read_instead, renumber};

/// A graph and what was cut out of it, or put into it.
pub(super) struct Scene {
    pub graph: GraphParts,
    pub cut: Cut,
}

/// What may be done to a graph after that, by name. The graph stays sound.
type Change = (&'static str, fn(&mut Random, &mut Scene));

const CHANGES: [Change; 11] = [
    ("as cut", |_, _| ()),
    ("stage repeated", repeat_stage),
    ("slots renumbered", |random, scene| renumber(random, &mut scene.graph, &mut scene.cut.images)),
    ("look-alike input", put_look_alike),
    ("inputs swapped", swap_inputs),
    ("another attribute", change_attribute),
    ("another reader", add_reader),
    ("another output", |random, scene| {
        let output = scene.inner_image(random);
        add_output(random, &mut scene.graph, output);
    }),
    ("rule input reads inside", read_inside),
    ("constants shared", |random, Scene { graph, cut }| {
        share_constants(random, graph, &cut.source, &cut.images);
    }),
    ("constants merged", |random, Scene { graph, cut }| {
        merge_constants(random, graph, &cut.source, &cut.images);
    }),
];

/// In so many of a hundred cases the source is put into the graph. Such sources
/// are larger and have more Consts.
const INSERTED: usize = 15;

/// A case for the search and the name of the change made to its graph.
/// Further changes may follow the named one.
pub fn search_case(random: &mut Random) -> (&'static str, Case) {
    let inserted = if random.chance(INSERTED) { inserted_scene(random) } else { None };
    let mut scene = inserted.unwrap_or_else(|| cut_scene(random));
    let name = change_scene(random, &mut scene);
    let Scene { graph, cut } = scene;
    let first_image = cut.images[usize::from(cut.outputs[0])];
    let start = start(random, graph.slots.len(), first_image.into());
    let rule = rule_with_random_target(random, cut.source, cut.outputs, cut.expressions);
    (name, Case { graph, rule, start })
}

/// A source cut out of a graph.
pub(super) fn cut_scene(random: &mut Random) -> Scene {
    let (graph, cut) = graph_and_cut(random, graph);
    Scene { graph, cut }
}

/// A random source put into a graph. None where there is no place for it.
pub(super) fn inserted_scene(random: &mut Random) -> Option<Scene> {
    let mut graph = base_graph(random);
    let (mut source, outputs) = source_side(random);
    // The source's attributes all name node 0 so far.
    let nodes = [any_node()];
    let side = SourceSide { source: &source, outputs: &outputs, nodes: &nodes };
    let images = insert_match(random, &mut graph, side)?;
    let expressions = fill_attributes(random, &graph, &images, &mut source);
    Some(Scene { graph, cut: Cut { source, outputs, expressions, images } })
}

/// A graph to put a match into.
pub(super) fn base_graph(random: &mut Random) -> GraphParts {
    let slots = match random.below(100) {
        0..=92 => random.within(1, 16),
        93..=98 => random.within(17, 100),
        _ => random.within(MAX_SLOTS - 30, MAX_SLOTS),
    };
    sound_graph_of(random, slots)
}

/// Often none, so that most searches find what was cut or put in.
pub(super) fn change_scene(random: &mut Random, scene: &mut Scene) -> &'static str {
    if random.chance(50) {
        return CHANGES[0].0;
    }
    let (name, change) = random.pick(&CHANGES);
    change(random, scene);
    while random.chance(25) {
        let (_, change) = random.pick(&CHANGES);
        change(random, scene);
    }
    name
}

fn graph(random: &mut Random) -> GraphParts {
    let slots = match random.below(200) {
        0..=169 => random.within(2, 24),
        170..=185 => random.within(25, 120),
        186..=188 => random.within(121, MAX_SLOTS),
        189 => MAX_SLOTS,
        _ => return deep_graph(random),
    };
    sound_graph_of(random, slots)
}

/// Starts around the first output's image and around N, and numbers that
/// would be small again if some of their bits were dropped.
pub(super) fn start(random: &mut Random, slots: usize, image: usize) -> usize {
    match random.below(80) {
        0..=47 => 0,
        48..=57 => image,
        58 | 59 => image + 1,
        60..=67 => random.below(image + 1),
        68 | 69 => random.within(1, 4),
        70..=72 => random.below(slots),
        73 => slots + random.below(3) - 1,
        74 => random.pick(&[65535, 65536, 65536 + image, 65536 + slots]),
        75..=77 => random.pick(&[1 << 16, 1 << 31, 1 << 32, 1 << 63]) + random.pick(&[0, image]),
        78 => random.pick(&[usize::MAX, usize::MAX - image, 1 << 63]),
        _ => random.number() as usize,
    }
}

impl Scene {
    /// Source vertices for which this holds of their pattern and their image.
    fn vertices(&self, holds: impl Fn(u8, &Vertex) -> bool) -> Vec<usize> {
        let suits = |&vertex: &usize| holds(self.cut.source[vertex].kind, self.image(vertex));
        (0..self.cut.source.len()).filter(suits).collect()
    }

    fn image(&self, vertex: usize) -> &Vertex {
        &self.graph.slots[usize::from(self.cut.images[vertex])]
    }

    fn image_mut(&mut self, vertex: usize) -> &mut Vertex {
        &mut self.graph.slots[usize::from(self.cut.images[vertex])]
    }

    /// The image of some source vertex that is no rule input.
    fn inner_image(&self, random: &mut Random) -> u16 {
        let inner = self.vertices(|kind, _| !is_input_kind(kind));
        self.cut.images[random.pick(&inner)]
    }

    /// Puts a vertex into an Empty slot or a new one.
    fn add(&mut self, random: &mut Random, vertex: Vertex) -> Option<u16> {
        add_vertex(random, &mut self.graph, vertex)
    }
}

/// A second copy of all that a match would remove, over the same rule inputs
/// and some of the same Consts: with two outputs every mixed pair is a
/// candidate too.
fn repeat_stage(random: &mut Random, scene: &mut Scene) {
    let mut copies = scene.cut.images.clone();
    for vertex in 0..scene.cut.source.len() {
        let kind = scene.cut.source[vertex].kind;
        if is_input_kind(kind) || (kind == CONST && random.chance(50)) {
            continue;
        }
        let mut copy = scene.image(vertex).clone();
        for input in &mut copy.inputs {
            let copied = scene.cut.images.iter().position(|image| image == input);
            *input = copied.map_or(*input, |input| copies[input]);
        }
        let Some(slot) = scene.add(random, copy) else {
            return;
        };
        copies[vertex] = slot;
    }
}

/// One place of an image names another slot with the same content.
fn put_look_alike(random: &mut Random, scene: &mut Scene) {
    let readers = scene.vertices(|kind, image| kind != WILDCARD && !image.inputs.is_empty());
    let reader = random.pick(&readers);
    let place = random.below(scene.image(reader).inputs.len());
    let named = scene.image(reader).inputs[place];
    let copy = scene.graph.slots[usize::from(named)].clone();
    if let Some(slot) = scene.add(random, copy) {
        scene.image_mut(reader).inputs[place] = slot;
    }
}

fn swap_inputs(random: &mut Random, scene: &mut Scene) {
    let wide = scene.vertices(|kind, image| kind != WILDCARD && image.inputs.len() > 1);
    if !wide.is_empty() {
        let inputs = &mut scene.image_mut(random.pick(&wide)).inputs;
        random.shuffle(inputs);
    }
}

/// The attribute of some image, a wildcard's too: an expression may access it.
fn change_attribute(random: &mut Random, scene: &mut Scene) {
    let having = scene.vertices(|_, image| !image.attributes.is_empty());
    if having.is_empty() {
        return;
    }
    let (any, byte) = (attribute(random), random.below(4));
    let image = scene.image_mut(random.pick(&having));
    let place = random.below(image.attributes.len());
    let number = image.attributes[place];
    let changed = random.pick(&[
        number.wrapping_add(1),
        number.wrapping_sub(1),
        number.wrapping_neg(),
        number ^ (1 << (8 * byte)),
        any,
    ]);
    image.attributes[place] = if image.kind == PROJ { changed.max(1) } else { changed };
}

fn add_reader(random: &mut Random, scene: &mut Scene) {
    let read = scene.inner_image(random);
    scene.add(random, relu(read));
}

/// An image of a wildcard reads an image that the match would remove, where
/// that closes no cycle.
fn read_inside(random: &mut Random, scene: &mut Scene) {
    let readers = scene.vertices(|kind, image| kind == WILDCARD && !image.inputs.is_empty());
    if readers.is_empty() {
        return;
    }
    let reader = scene.cut.images[random.pick(&readers)];
    let read = scene.inner_image(random);
    read_instead(random, &mut scene.graph, reader, read);
}
