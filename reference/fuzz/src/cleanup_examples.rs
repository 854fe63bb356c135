//! Graphs for the sweep and the squeeze: each has one thing that is easily
//! forgotten, or nothing to do.

use leafgraph_reference::blocks::{
    add, constant, constant_sum, dropped_constant, empty, p7_graph, relu, rr, variable, GraphParts,
    RuleParts, Vertex,
};

pub struct CleanupExample {
    pub name: &'static str,
    pub graph: GraphParts,
    pub rule: RuleParts,
}

pub fn cleanup_examples() -> Vec<CleanupExample> {
    let for_either = |(name, graph)| CleanupExample { name, graph, rule: rr() };
    let mut examples: Vec<CleanupExample> =
        for_sweeps().into_iter().chain(for_squeezes()).map(for_either).collect();
    // Two slots are freed and three are needed: dead stages take the room.
    let graph = constant_sum(variable(), &[relu(1), relu(3)], &[2]);
    examples.push(CleanupExample { name: "dead-room", graph, rule: dropped_constant(3) });
    examples
}

type Named = (&'static str, GraphParts);

fn named(name: &'static str, slots: Vec<Vertex>, outputs: &[u16]) -> Named {
    (name, GraphParts::new(slots, outputs))
}

fn for_sweeps() -> Vec<Named> {
    vec![
        ("all-live", p7_graph()),
        named("dead-vertex", vec![variable(), relu(0), relu(0)], &[1]),
        named("dead-chain", vec![variable(), relu(0), relu(0), relu(2), relu(3)], &[1]),
        named("dead-chain-reversed", vec![relu(1), relu(2), relu(3), relu(4), variable()], &[3]),
        named("dead-constant", vec![constant(7), variable(), relu(1)], &[2]),
        named("unread-variable", vec![variable(), variable(), relu(0)], &[2]),
        named("variable-of-dead", vec![variable(), variable(), relu(1), relu(0)], &[3]),
        named("later-output", vec![variable(), relu(0), relu(0), relu(2)], &[1, 3]),
        named("output-of-dead", vec![variable(), relu(0), relu(1)], &[1]),
    ]
}

fn for_squeezes() -> Vec<Named> {
    vec![
        named("empty-behind", vec![variable(), relu(0), empty(), empty()], &[1]),
        named("empty-first", vec![empty(), variable(), relu(1)], &[2]),
        named("empty-between", vec![variable(), empty(), relu(0)], &[2]),
        named("higher-input", vec![relu(2), empty(), variable()], &[0]),
        named("both-inputs", vec![variable(), empty(), relu(0), add(2, 0)], &[3, 0]),
        named("dead-vertex-moves", vec![variable(), empty(), relu(0), relu(0)], &[2]),
        named(
            "empty-in-three-places",
            vec![empty(), add(5, 3), empty(), variable(), empty(), variable()],
            &[1],
        ),
    ]
}
