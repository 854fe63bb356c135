//! The graphs and the rules that are made for the rows; the others are the
//! second program's own examples.

use leafgraph_reference::blocks::{
    access_node, add, any_node, call, call_pattern, chain, constant, empty, operation_node,
    pattern, relu, target_place, tuple, variable, variable_of, wildcard, GraphParts, RuleParts,
    Vertex,
};
use leafgraph_reference::graph::OUTPUT_PLACES;
use leafgraph_reference::operators::{CAST, GAIN, MEAN, PLACES, RELU, TUPLE};
use leafgraph_reference::rule::{MAX_VERTICES, PLUS, TIMES};

/// For RR: every slot but the first has its kind and operator, and only the
/// last one reads another relu.
pub fn double_relus(slots: u16, found: bool) -> GraphParts {
    let mut table = vec![variable()];
    table.resize(slots.into(), relu(0));
    if found {
        table[usize::from(slots) - 1] = relu(slots - 2);
    }
    GraphParts::new(table, &[slots - 1])
}

/// For RR: the match is in the first slots, and all the others are casts, so that a
/// call has little to do but to check the blocks and to know how often a slot is
/// named. Where none is found, a cast reads the inner relu.
pub fn first_double_relu(slots: u16, found: bool) -> GraphParts {
    let mut table = vec![variable(), relu(0), relu(1)];
    table.resize(slots.into(), call(CAST, &[2], &[0]));
    if !found {
        table[usize::from(slots) - 1] = call(CAST, &[1], &[0]);
    }
    GraphParts::new(table, &[2])
}

/// For the counts: every place that there is names one slot.
pub fn crowded(slots: u16) -> GraphParts {
    let mut table = vec![variable()];
    table.resize(slots.into(), reads(0));
    GraphParts::new(table, &[0; OUTPUT_PLACES])
}

/// For P7's rule, relu(x) and add(x,y): every relu is a first image that
/// passes, and no add goes with it, since the wildcards would share a slot.
/// The one match has the greatest pair that there is.
pub fn pairs(slots: u16, found: bool) -> GraphParts {
    let mut table = vec![variable(), variable()];
    while table.len() < slots.into() {
        table.push(if table.len() % 2 == 0 { add(0, 0) } else { relu(0) });
    }
    if found {
        let last = usize::from(slots) - 1;
        (table[last - 1], table[last]) = (add(1, 0), relu(1));
    }
    GraphParts::new(table, &[slots - 1])
}

/// For add(x, a Const): the Const is read by every add, and only the last one
/// has it in its second place.
pub fn shared_const(slots: u16) -> GraphParts {
    let mut table = vec![constant(7), variable()];
    table.resize(slots.into(), add(0, 1));
    table[usize::from(slots) - 1] = add(1, 0);
    GraphParts::new(table, &[slots - 1])
}

/// A vertex with all places for inputs in use.
fn reads(input: u16) -> Vertex {
    tuple(&[input; PLACES])
}

/// For the check: slot k reads slot k + 1 up to a cycle in the last two slots.
/// Every other slot is lower and on no cycle, and all above it lead to it.
pub fn hanging_from_cycle(slots: u16) -> GraphParts {
    let mut table: Vec<Vertex> = (1..slots).map(reads).collect();
    table.push(reads(slots - 2));
    GraphParts::new(table, &[0])
}

/// For the check: slot k reads slot k - 1, from a Variable up to a cycle in the
/// last two slots. Every other slot is lower and on no cycle, all below it lead
/// to it, and it leads to all above it.
pub fn leading_to_cycle(slots: u16) -> GraphParts {
    let mut table = vec![variable()];
    table.extend((0..slots - 1).map(reads));
    let closing = usize::from(slots) - 2;
    table[closing].inputs[PLACES - 1] = slots - 1;
    GraphParts::new(table, &[0])
}

/// gain(x) with any attributes and mean(x) with the first of them times the
/// second plus the third.
pub fn gain_and_mean() -> RuleParts {
    let nodes = vec![
        any_node(),
        access_node(1, 1),
        access_node(1, 2),
        operation_node(TIMES, 1, 2),
        access_node(1, 3),
        operation_node(PLUS, 3, 4),
    ];
    RuleParts {
        source: vec![
            wildcard(),
            call_pattern(GAIN, &[0], &[0, 0, 0]),
            call_pattern(MEAN, &[0], &[5]),
        ],
        target: vec![call_pattern(RELU, &[0], &[])],
        source_outputs: vec![1, 2],
        target_outputs: vec![target_place(0); 2],
        nodes,
    }
}

/// For that rule: every pair of a gain and a mean suits but for the mean's
/// attribute. The one match has the greatest pair that there is.
pub fn gains_and_means(slots: u16, found: bool) -> GraphParts {
    let mut table = vec![variable(), variable()];
    while table.len() < slots.into() {
        let number = table.len() as i32;
        let is_mean = number % 2 == 0;
        let gain = call(GAIN, &[0], &[number, 3, 1]);
        table.push(if is_mean { call(MEAN, &[0], &[-1]) } else { gain });
    }
    if found {
        let last = usize::from(slots) - 1;
        table[last - 1] = call(MEAN, &[0], &[3 * last as i32 + 1]);
    }
    GraphParts::new(table, &[slots - 1])
}

/// relu(x) twice, both of which become x: two outputs of the same kind, operator
/// and counts.
pub fn two_relus() -> RuleParts {
    let relu = call_pattern(RELU, &[0], &[]);
    RuleParts {
        source: vec![wildcard(), relu.clone(), relu],
        target: vec![],
        source_outputs: vec![1, 2],
        target_outputs: vec![0; 2],
        nodes: vec![],
    }
}

/// As many source vertices as a rule can have, and all their places in use: each Tuple
/// reads the vertex before it six times. All of it becomes x.
pub fn most_places() -> RuleParts {
    let last = MAX_VERTICES as u8 - 1;
    let mut source = vec![wildcard()];
    source.extend((0..last).map(|input| pattern(TUPLE, 0, &[input; PLACES], &[])));
    RuleParts {
        source,
        target: vec![],
        source_outputs: vec![last],
        target_outputs: vec![0],
        nodes: vec![],
    }
}

/// For that rule: its one match is in the first slots, the outermost Tuple is the graph's output,
/// and relus read the Variable behind it.
pub fn nested_tuples(slots: u16) -> GraphParts {
    let last = MAX_VERTICES as u16 - 1;
    let mut table = vec![variable()];
    table.extend((0..last).map(reads));
    table.resize(slots.into(), relu(0));
    GraphParts::new(table, &[last])
}

/// For the look at RR's output: all read the Variable, so that no relu reads a
/// relu, and there is no match.
pub fn side_by_side(slots: u16, every: u16) -> GraphParts {
    relus_and_casts(slots, every, |_| 0)
}

/// For the look at both outputs of the two relus: each reads the slot before it,
/// so that no two read the same one, and there is no match.
pub fn in_a_chain(slots: u16, every: u16) -> GraphParts {
    relus_and_casts(slots, every, |slot| slot - 1)
}

/// A Variable in slot 0, then a relu, which passes the look, in each slot whose
/// number is a multiple of `every`, and a cast in each other. With 0 there is no
/// relu, since 0 has no other multiple.
fn relus_and_casts(slots: u16, every: u16, read_by: fn(u16) -> u16) -> GraphParts {
    let vertex = |slot: u16| match slot {
        0 => variable(),
        _ if slot.is_multiple_of(every) => relu(read_by(slot)),
        _ => call(CAST, &[read_by(slot)], &[0]),
    };
    GraphParts::new((0..slots).map(vertex).collect(), &[slots - 1])
}

/// For the sweep: a chain of which only the Variable that it begins with is an
/// output.
pub fn dead_chain(slots: u16) -> GraphParts {
    GraphParts { outputs: vec![0], ..chain(slots) }
}

/// For the squeeze: a chain in the slots of even numbers, the others Empty. The
/// number of slots is even.
pub fn chain_with_gaps(slots: u16) -> GraphParts {
    let vertex = |slot: u16| match slot {
        0 => variable(),
        _ if slot.is_multiple_of(2) => relu(slot - 2),
        _ => empty(),
    };
    GraphParts::new((0..slots).map(vertex).collect(), &[slots - 2])
}

/// For listings: every line has as many attributes as a line can have, and each as many
/// digits.
pub fn variables(slots: u16) -> GraphParts {
    GraphParts::new(vec![variable_of([i32::MIN; 5]); slots.into()], &[slots - 1; OUTPUT_PLACES])
}
