//! The comparison notices programs that tell a fault's kind or place wrongly:
//! each one here is the proved library with one thing spoilt in its checks.

use leafgraph_fuzz::comparison::compare;
use leafgraph_fuzz::fault_examples::{fault_examples, FaultExample};
use leafgraph_fuzz::input::{Control, MAP};
use leafgraph_fuzz::library::{Library, PROVED, SECOND};
use leafgraph_fuzz::tally::Tally;
use leafgraph_reference::graph_faults::GraphFaults;
use leafgraph_reference::reply::{number_of, place_of};
use leafgraph_reference::rule::ANY;
use leafgraph_reference::rule_faults::RuleFaults;

/// The names of the examples on which a difference is seen.
fn noticed(library: &Library) -> Vec<&'static str> {
    let differs = |example: &FaultExample| {
        let control = Control { repairs: MAP, ..Control::default() };
        let bytes = control.input_bytes(&example.graph, &example.rule);
        compare(library, &bytes, &mut Tally::new()).is_err()
    };
    fault_examples().iter().filter(|example| differs(example)).map(|example| example.name).collect()
}

fn reply(number: u8, place: usize) -> u64 {
    u64::from(number) | (place as u64) << 8
}

fn graph_faults(graph: &[u8]) -> GraphFaults {
    GraphFaults::of(graph).expect("a small graph")
}

#[test]
fn right_programs_pass() {
    assert!(noticed(&PROVED).is_empty() && noticed(&SECOND).is_empty());
}

#[test]
fn examples_have_their_faults() {
    for FaultExample { name, graph, rule, number, place } in fault_examples() {
        let expected = reply(number, place as usize);
        for library in [PROVED, SECOND] {
            let (mut table, mut map) = (graph.clone(), [7; 32]);
            assert_eq!((library.find_match)(&graph, &rule, 0, &mut map), expected, "{name}");
            assert_eq!((library.rewrite)(&mut table, &rule, 0, &mut map), expected, "{name}");
            assert!(table == graph && map == [7; 32], "{name}");
        }
    }
}

/// The check of a graph with the highest place of a fault.
fn highest_place(graph: &[u8]) -> u64 {
    let (right, faults) = ((PROVED.check_graph)(graph), graph_faults(graph));
    let places = match number_of(right) {
        21 => faults.records,
        22 if faults.inputs.is_empty() => faults.outputs,
        22 => faults.inputs,
        23 => faults.cycles.concat(),
        24 => faults.counts,
        _ => vec![],
    };
    places.iter().max().map_or(right, |&place| reply(number_of(right), place))
}

#[test]
fn the_highest_place_is_noticed() {
    let check_rule = |rule: &[u8]| {
        let (right, faults) = ((PROVED.check_rule)(rule), RuleFaults::of(rule));
        let places = match number_of(right) {
            31 => faults.records,
            32 => faults.order,
            34 if faults.nodes.is_empty() => faults.uses,
            34 => faults.nodes,
            _ => vec![],
        };
        places.iter().max().map_or(right, |&place| reply(number_of(right), place))
    };
    let names = noticed(&Library { check_graph: highest_place, check_rule, ..PROVED });
    let several = [
        "graph-records",
        "graph-inputs",
        "graph-outputs",
        "cycle-read-from",
        "cycle-reading",
        "cycles",
        "counts-several",
        "counts-without-outputs",
        "counts-without-dead",
        "counts-traded",
        "rule-records",
        "rule-order",
        "nodes",
        "uses",
    ];
    assert_eq!(names, several);
}

#[test]
fn an_output_before_an_input_is_noticed() {
    let check_graph = |graph: &[u8]| {
        let right = (PROVED.check_graph)(graph);
        match graph_faults(graph).outputs.first() {
            Some(&place) if number_of(right) == 22 => reply(22, place),
            _ => right,
        }
    };
    let names = noticed(&Library { check_graph, ..PROVED });
    assert_eq!(names, ["graph-input-and-output"]);
}

#[test]
fn a_target_vertex_by_its_own_number_is_noticed() {
    let check_rule = |rule: &[u8]| {
        let (right, faults) = ((PROVED.check_rule)(rule), RuleFaults::of(rule));
        let (number, place) = (number_of(right), place_of(right) as usize);
        let is_vertex = number == 31 || number == 34 && faults.nodes.is_empty();
        match place.checked_sub(faults.source_count) {
            Some(vertex) if is_vertex => reply(number, vertex),
            _ => right,
        }
    };
    let names = noticed(&Library { check_rule, ..PROVED });
    assert_eq!(names, ["rule-target-record", "rule-records", "target-use"]);
}

#[test]
fn a_slot_that_hangs_from_a_cycle_is_noticed() {
    /// The lowest of the slots on a cycle and of these.
    fn lowest(graph: &[u8], beside: fn(GraphFaults) -> Vec<usize>) -> u64 {
        let right = (PROVED.check_graph)(graph);
        match beside(graph_faults(graph)).first() {
            Some(&slot) if number_of(right) == 23 => right.min(reply(23, slot)),
            _ => right,
        }
    }
    let check_graph = |graph: &[u8]| lowest(graph, |faults| faults.reading_from_cycles);
    let names = noticed(&Library { check_graph, ..PROVED });
    assert_eq!(names, ["cycle-read-from", "cycle-of-one"]);
    let check_graph = |graph: &[u8]| lowest(graph, |faults| faults.read_by_cycles);
    let names = noticed(&Library { check_graph, ..PROVED });
    assert_eq!(names, ["cycle-reading"]);
}

#[test]
fn the_node_any_as_the_place_is_noticed() {
    let check_rule = |rule: &[u8]| {
        let (right, faults) = ((PROVED.check_rule)(rule), RuleFaults::of(rule));
        let named = number_of(right) == 34 && faults.over_any.contains(&(place_of(right) as usize));
        match named {
            true => reply(34, first_any(rule)),
            false => right,
        }
    };
    let names = noticed(&Library { check_rule, ..PROVED });
    assert_eq!(names, ["node-over-any"]);
}

/// The first node any of a rule whose length is right.
fn first_any(rule: &[u8]) -> usize {
    let vertices = usize::from(rule[6]) + usize::from(rule[7]);
    let mut nodes = rule[16 + 16 * vertices..].chunks_exact(8);
    nodes.position(|node| node[0] == ANY).expect("a node any")
}

#[test]
fn a_header_after_a_record_is_noticed() {
    let check_graph = |graph: &[u8]| match graph_faults(graph).records.first() {
        Some(&slot) => reply(21, slot),
        None => (PROVED.check_graph)(graph),
    };
    let names = noticed(&Library { check_graph, ..PROVED });
    // Each with another version, too, which comes first.
    assert_eq!(names, ["graph-header-and-record", "graph-record", "graph-records"]);
}
