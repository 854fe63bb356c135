//! Sweeps and squeezes (request 4/13), each by itself.

use leafgraph_proved::guarded::{Guarded, SHIFTS};
use leafgraph_reference::cleanup::{squeeze_faults, sweep_faults};
use leafgraph_reference::generate::{damaged_graph, noise, noise_with_graph_header, sound_graph};
use leafgraph_reference::graph::{slots_told, Graph, MAX_SLOTS};
use leafgraph_reference::meaning::Meaning;
use leafgraph_reference::random::Random;
use leafgraph_reference::recount::count_faults;
use leafgraph_reference::reply::number_of;

use crate::graph_fault_classes;
use crate::rewriting::UNSOUND;
use crate::tally::{Call, Tally, CHANGED};
use crate::{squeeze_classes, sweep_classes};

pub const WRITTEN: &str = "a refusal has changed a lent byte";
const NOT_SETTLED: &str = "the same call once more changes something";

/// The lent bytes that a call may write. A sweep is given no list.
pub struct Lent {
    pub origin: &'static str,
    pub graph: Vec<u8>,
    pub list: Vec<u8>,
}

/// What a program makes of a call.
pub struct Outcome {
    pub reply: u64,
    pub graph: Vec<u8>,
    pub list: Vec<u8>,
}

/// One of the two operations; a sweep leaves the list alone.
type Program = fn(&mut [u8], &mut [u8]) -> u64;

/// One of the two operations in both programs.
pub struct Cleanup {
    name: &'static str,
    /// The numbers that must be replied.
    numbers: &'static [u8],
    proved: Program,
    reference: Program,
    /// What is wrong with the new table and the list.
    faults: fn(Graph, Graph, &[u8], &mut Meaning) -> Vec<&'static str>,
    /// The operation's own classes, and how they are counted.
    names: &'static [&'static str],
    count: fn(&mut Tally, &Lent, u64),
}

pub const SWEEP: Cleanup = Cleanup {
    name: "sweep",
    numbers: &[0, 20, 21, 22, 23, 24],
    proved: |graph, _| leafgraph_proved::sweep(graph),
    reference: |graph, _| leafgraph_reference::sweep(graph),
    faults: |old, new, _, meaning| sweep_faults(old, new, meaning),
    names: &sweep_classes::CLASSES,
    count: sweep_classes::count,
};

pub const SQUEEZE: Cleanup = Cleanup {
    name: "squeeze",
    numbers: &[0, 20, 21, 22, 23, 24, 40],
    proved: leafgraph_proved::squeeze,
    reference: leafgraph_reference::squeeze,
    faults: squeeze_faults,
    names: &squeeze_classes::CLASSES,
    count: squeeze_classes::count,
};

/// So many calls, half of them to each operation.
pub fn run(random: &mut Random, calls: u64) -> Vec<Tally> {
    let mut tallies = [SWEEP, SQUEEZE].map(|cleanup| (cleanup.tally(), cleanup));
    for call in 0..calls {
        let (tally, cleanup) = &mut tallies[(call % 2) as usize];
        let lent = Lent::any(random);
        let reply = cleanup.call(random, tally, &lent).reply;
        (cleanup.count)(tally, &lent, reply);
        if (20..=24).contains(&number_of(reply)) {
            tally.count_all(&graph_fault_classes::classes(&lent.graph, reply));
        }
    }
    tallies.map(|(tally, _)| tally).into()
}

impl Lent {
    fn any(random: &mut Random) -> Lent {
        let (origin, graph) = match random.below(20) {
            0 => ("random bytes", noise(random)),
            1 => ("sound header only", noise_with_graph_header(random)),
            2..=9 => ("damaged graph", damaged_graph(random)),
            10 | 11 => ("swept graph", swept_graph(random)),
            _ => ("sound graph", sound_graph(random).block()),
        };
        let length = list_length(random, &graph);
        Lent { origin, graph, list: random.bytes(length) }
    }

    /// With a list of the right length.
    pub fn sound(random: &mut Random, origin: &'static str, graph: Vec<u8>) -> Lent {
        let list = random.bytes(right_length(&graph));
        Lent { origin, graph, list }
    }
}

/// Every vertex but a Variable is needed, and there are Empty slots anywhere.
fn swept_graph(random: &mut Random) -> Vec<u8> {
    let mut graph = sound_graph(random).block();
    leafgraph_reference::sweep(&mut graph);
    graph
}

/// 2N as the header tells it, but not far above the longest list.
pub fn right_length(graph: &[u8]) -> usize {
    2 * slots_told(graph).min(MAX_SLOTS + 1)
}

/// 2N, or now and then another length.
fn list_length(random: &mut Random, graph: &[u8]) -> usize {
    let right = right_length(graph);
    if !random.chance(20) {
        return right;
    }
    let any = random.below(2 * right + 1);
    let less = |bytes: usize| right.saturating_sub(bytes);
    let lengths =
        [0, 1, less(2), less(1), right + 1, right + 2, right / 2, 2 * right, 2 * MAX_SLOTS, any];
    random.pick(&lengths)
}

impl Cleanup {
    fn tally(&self) -> Tally {
        let names = [self.names, &graph_fault_classes::all_classes()].concat();
        Tally::new(self.name, self.numbers, &names)
    }

    /// Calls both programs and records what is not as it should be.
    pub fn call(&self, random: &mut Random, tally: &mut Tally, lent: &Lent) -> Outcome {
        let mut graph = Guarded::new(&lent.graph, random.below(SHIFTS));
        let mut list = Guarded::new(&lent.list, random.below(SHIFTS));
        let proved = (self.proved)(graph.lend(), list.lend());
        let outcome = Outcome::of(self.reference, &lent.graph, &lent.list);
        let mut faults = self.faults(random, lent, &outcome);
        if proved == 0 {
            faults.extend(count_faults(graph.bytes()));
        }
        if !(graph.holds(&outcome.graph) && list.holds(&outcome.list)) {
            faults.push(CHANGED);
        }
        tally.record(Call {
            origin: lent.origin,
            proved,
            reference: outcome.reply,
            faults,
            number: None,
            bytes: &[
                ("graph before", &lent.graph),
                ("list before", &lent.list),
                ("graph after, proved", graph.bytes()),
                ("graph after, reference", &outcome.graph),
                ("list after, proved", list.bytes()),
                ("list after, reference", &outcome.list),
            ],
        });
        outcome
    }

    /// What is wrong with what a call leaves, whatever the other program says.
    fn faults(&self, random: &mut Random, lent: &Lent, outcome: &Outcome) -> Vec<&'static str> {
        if outcome.reply != 0 {
            let written = outcome.graph != lent.graph || outcome.list != lent.list;
            return if written { vec![WRITTEN] } else { vec![] };
        }
        let (Ok(old), Ok(new)) = (Graph::parse(&lent.graph), Graph::parse(&outcome.graph)) else {
            return vec![UNSOUND];
        };
        let mut meaning = Meaning::lawless(random.number());
        let mut faults = (self.faults)(old, new, &outcome.list, &mut meaning);
        if leafgraph_proved::check_graph(&outcome.graph) != 0 {
            faults.push(UNSOUND);
        }
        if !self.is_settled(outcome, new, &mut meaning) {
            faults.push(NOT_SETTLED);
        }
        faults
    }

    /// Whether the library leaves this table as it is. A squeeze must tell of
    /// each vertex that it stayed in its slot then: all are in the lowest ones.
    fn is_settled(&self, outcome: &Outcome, table: Graph, meaning: &mut Meaning) -> bool {
        let again = Outcome::of(self.proved, &outcome.graph, &outcome.list);
        let same = again.reply == 0 && again.graph == outcome.graph;
        same && (self.faults)(table, table, &again.list, meaning).is_empty()
    }
}

impl Outcome {
    fn of(program: Program, graph: &[u8], list: &[u8]) -> Outcome {
        let (mut graph, mut list) = (graph.to_vec(), list.to_vec());
        let reply = program(&mut graph, &mut list);
        Outcome { reply, graph, list }
    }
}
