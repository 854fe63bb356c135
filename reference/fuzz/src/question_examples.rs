//! Questions whether a stage is read elsewhere (request 6/13): each has one thing that
//! is easily forgotten, in the answer, in the map or in the number of the vertex.

use leafgraph_reference::blocks::{
    add, any_node, call_pattern, chain, constant, constant_node, constant_sum, dropped_constant,
    e1, p7_graph, p7_rule, pattern, relu, rr, target_place, tuple, variable, wildcard, GraphParts,
    PatternParts, RuleParts, Vertex,
};
use leafgraph_reference::operators::{ADD, CONST, RELU, TUPLE};
use leafgraph_reference::reply::YES;

const NO: u64 = 0;
const NO_MATCH: u64 = 41;
const NO_VERTEX: u64 = 42;

pub struct QuestionExample {
    pub name: &'static str,
    pub graph: GraphParts,
    pub rule: RuleParts,
    /// The first numbers of the map, behind which it holds 65535.
    pub images: Vec<u16>,
    pub vertex: usize,
    pub reply: u64,
}

impl QuestionExample {
    pub fn map(&self) -> Vec<u8> {
        let mut images = self.images.clone();
        images.resize(16, 65535);
        images.into_iter().flat_map(u16::to_le_bytes).collect()
    }
}

pub fn question_examples() -> Vec<QuestionExample> {
    let parts = [of_outputs(), of_constants(), of_places(), of_matches(), of_maps(), of_numbers()];
    parts.into_iter().flatten().collect()
}

/// A graph and a rule, to ask about.
struct Scene {
    graph: GraphParts,
    rule: RuleParts,
}

impl Scene {
    fn ask(self, name: &'static str, images: &[u16], vertex: usize, reply: u64) -> QuestionExample {
        let Scene { graph, rule } = self;
        QuestionExample { name, graph, rule, images: images.to_vec(), vertex, reply }
    }
}

fn scene(slots: Vec<Vertex>, outputs: &[u16], rule: RuleParts) -> Scene {
    Scene { graph: GraphParts::new(slots, outputs), rule }
}

/// RR in slots 0 Variable, 1 relu(0), 2 relu(1), then others.
fn relus(others: &[Vertex], outputs: &[u16]) -> Scene {
    scene([vec![variable(), relu(0), relu(1)], others.to_vec()].concat(), outputs, rr())
}

fn of_outputs() -> Vec<QuestionExample> {
    let pair = |outputs: &[u16]| Scene {
        graph: GraphParts { outputs: outputs.to_vec(), ..p7_graph() },
        rule: p7_rule(),
    };
    vec![
        relus(&[], &[2]).ask("interior", &[0, 1, 2], 1, NO),
        relus(&[], &[0]).ask("output-unread", &[0, 1, 2], 2, NO),
        relus(&[], &[2]).ask("output-as-output", &[0, 1, 2], 2, YES),
        relus(&[], &[0, 2, 2]).ask("output-as-two-outputs", &[0, 1, 2], 2, YES),
        relus(&[relu(2)], &[3]).ask("output-read", &[0, 1, 2], 2, YES),
        relus(&[relu(2)], &[0]).ask("output-read-without-output", &[0, 1, 2], 2, YES),
        relus(&[add(2, 2)], &[3]).ask("output-read-twice", &[0, 1, 2], 2, YES),
        pair(&[0]).ask("output-read-by-input", &[0, 1, 2, 3], 1, YES),
        pair(&[0]).ask("second-output-unread", &[0, 1, 2, 3], 3, NO),
        pair(&[3]).ask("second-output-as-output", &[0, 1, 2, 3], 3, YES),
    ]
}

fn of_constants() -> Vec<QuestionExample> {
    let ask = |name, x: Vertex, others: &[Vertex], outputs: &[u16], reply| {
        let graph = constant_sum(x, others, outputs);
        Scene { graph, rule: dropped_constant(1) }.ask(name, &[1, 0, 2], 1, reply)
    };
    vec![
        ask("const-private", variable(), &[], &[2], NO),
        ask("const-read", variable(), &[relu(0)], &[2, 3], YES),
        ask("const-read-without-output", variable(), &[relu(0)], &[2], YES),
        ask("const-read-by-input", relu(0), &[], &[2], YES),
        ask("const-as-output", variable(), &[], &[2, 0], YES),
    ]
}

fn relu_of(input: u8) -> PatternParts {
    call_pattern(RELU, &[input], &[])
}

fn sum(left: u8, right: u8) -> PatternParts {
    call_pattern(ADD, &[left, right], &[])
}

/// The last source vertex becomes a Tuple of these inputs.
fn to_tuple(source: Vec<PatternParts>, inputs: &[u8]) -> RuleParts {
    RuleParts {
        source_outputs: vec![source.len() as u8 - 1],
        source,
        target: vec![pattern(TUPLE, 0, inputs, &[])],
        target_outputs: vec![target_place(0)],
        nodes: vec![],
    }
}

/// This over a Const becomes the Const 7. Its attribute is any, or 7, too.
fn over_constant(over: PatternParts, any: bool) -> RuleParts {
    RuleParts {
        source: vec![pattern(CONST, 0, &[], &[u8::from(!any)]), over],
        target: vec![pattern(CONST, 0, &[], &[1])],
        source_outputs: vec![1],
        target_outputs: vec![target_place(0)],
        nodes: vec![any_node(), constant_node(7)],
    }
}

/// One reader of the match names a stage in two places.
fn of_places() -> Vec<QuestionExample> {
    let inner = to_tuple(vec![wildcard(), relu_of(0), sum(1, 1)], &[0]);
    let constants = over_constant(sum(0, 0), true);
    let inner = scene(vec![variable(), relu(0), add(1, 1)], &[2], inner);
    let constants = scene(vec![constant(7), add(0, 0)], &[1], constants);
    vec![
        inner.ask("interior-read-twice", &[0, 1, 2], 1, NO),
        constants.ask("const-read-twice", &[0, 1], 0, NO),
    ]
}

/// Matches that a search from 0 does not find, beside one that it does.
fn of_matches() -> Vec<QuestionExample> {
    let slots = vec![variable(), variable(), relu(0), add(0, 1), add(0, 1)];
    let pairs = || scene(slots.clone(), &[4], p7_rule());
    let chain = || Scene { graph: chain(6), rule: rr() };
    vec![
        chain().ask("later-match", &[2, 3, 4], 2, YES),
        chain().ask("last-match", &[3, 4, 5], 1, NO),
        pairs().ask("least-second", &[0, 2, 1, 3], 3, NO),
        pairs().ask("later-second", &[0, 2, 1, 4], 3, YES),
    ]
}

/// Maps that are no match, each for another reason.
fn of_maps() -> Vec<QuestionExample> {
    let in_e1 =
        |name, images: &[u16]| Scene { graph: e1(), rule: rr() }.ask(name, images, 2, NO_MATCH);
    let last_place: Vec<u16> = [2, 3, 4].into_iter().chain([65535; 12]).chain([0]).collect();
    let two = to_tuple(vec![wildcard(), wildcard(), sum(0, 1)], &[0, 1]);
    let doubled = scene(vec![variable(), add(0, 0)], &[1], two);
    let kind = scene(vec![variable(), relu(0), tuple(&[1])], &[2], rr());
    let number = scene(vec![constant(8), relu(0)], &[1], over_constant(relu_of(0), false));
    let inner = to_tuple(vec![wildcard(), relu_of(0), wildcard(), sum(1, 2)], &[0, 2]);
    let by_input = scene(vec![variable(), relu(0), relu(1), add(1, 2)], &[3], inner);
    vec![
        in_e1("input-elsewhere", &[1, 3, 4]),
        in_e1("output-elsewhere", &[2, 3, 3]),
        in_e1("empty-slot", &[5, 3, 4]),
        in_e1("slot-n", &[2, 3, 6]),
        in_e1("nowhere", &[]),
        in_e1("first-place-behind", &[2, 3, 4, 0]),
        in_e1("last-place", &last_place),
        doubled.ask("two-alike", &[0, 0, 1], 2, NO_MATCH),
        kind.ask("another-kind", &[0, 1, 2], 2, NO_MATCH),
        number.ask("another-attribute", &[0, 1], 1, NO_MATCH),
        relus(&[], &[2, 1]).ask("interior-as-output", &[0, 1, 2], 1, NO_MATCH),
        relus(&[relu(1)], &[2]).ask("interior-read", &[0, 1, 2], 1, NO_MATCH),
        by_input.ask("interior-read-by-input", &[0, 1, 2, 3], 3, NO_MATCH),
    ]
}

/// Numbers that are no non-input source vertex, with a match and with none.
fn of_numbers() -> Vec<QuestionExample> {
    let ask = |name, images: &[u16], vertex, reply| {
        Scene { graph: e1(), rule: rr() }.ask(name, images, vertex, reply)
    };
    vec![
        ask("rule-input", &[2, 3, 4], 0, NO_VERTEX),
        ask("vertex-s", &[2, 3, 4], 3, NO_VERTEX),
        ask("vertex-16", &[2, 3, 4], 16, NO_VERTEX),
        ask("vertex-past-16-bits", &[2, 3, 4], 65536 + 2, NO_VERTEX),
        ask("vertex-past-32-bits", &[2, 3, 4], (1 << 32) + 1, NO_VERTEX),
        ask("vertex-highest", &[2, 3, 4], usize::MAX, NO_VERTEX),
        ask("no-match-rule-input", &[2, 3, 3], 0, NO_MATCH),
        ask("no-match-vertex-16", &[2, 3, 3], 16, NO_MATCH),
    ]
}
