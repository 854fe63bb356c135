//! What a sweep met, so that the comparison can show that it was not empty.

use leafgraph_reference::graph::{Graph, MAX_SLOTS};
use leafgraph_reference::operators::{CALL, CONST, PROJ, TUPLE, VARIABLE};
use leafgraph_reference::sweep::{dead_slots, live_slots, reaching, Slots};

use crate::cleanups::Lent;
use crate::tally::{Class, Tally};

/// Every class must occur. Dead is what a sweep removes.
pub const CLASSES: [&str; 34] = [
    "nothing to remove",
    "one vertex removed",
    "several vertices removed",
    "everything but one vertex removed",
    "a dead chain of 2 or more",
    "a dead chain of 20 or more",
    "a dead vertex reads a dead one in a higher slot",
    "a dead vertex reads a dead one in a lower slot",
    "a dead vertex with several readers",
    "a dead vertex reads one that stays",
    "Const removed",
    "Call removed",
    "Tuple removed",
    "Proj removed",
    "slot 0 removed",
    "the last slot removed",
    "an unread Variable stays",
    "a Variable that only dead vertices read stays",
    "a vertex stays for the first output alone",
    "a vertex stays for the second output alone",
    "a vertex stays for the fourth output alone",
    "an output that only dead vertices read",
    "an output that another output needs",
    "an output twice",
    "a vertex that stays reads a higher slot",
    "Empty slots before",
    "one slot",
    "largest graph, nothing to remove",
    "largest graph, vertices removed",
    "the count of a vertex that stays goes down",
    "the count of a vertex that stays goes down by several",
    "the count of a vertex that stays goes down to 0",
    "the count of an output goes down",
    "a count of two bytes goes down",
];

/// Long enough that a few passes over the table do not remove it all.
const LONG: usize = 20;

pub fn count(tally: &mut Tally, lent: &Lent, reply: u64) {
    if let (0, Ok(graph)) = (reply, Graph::parse(&lent.graph)) {
        let sweep = Sweep::new(graph);
        let classes = [sweep.sizes(), sweep.dead(), sweep.kept(), sweep.outputs(), sweep.counts()];
        tally.count_all(&classes.concat());
    }
}

/// A sweep of a sound graph.
struct Sweep<'a> {
    graph: Graph<'a>,
    live: Slots,
    dead: Slots,
    /// The slots of the vertices that read each slot, one for each place.
    readers: Vec<Vec<usize>>,
}

impl<'a> Sweep<'a> {
    fn new(graph: Graph<'a>) -> Sweep<'a> {
        let mut readers = vec![vec![]; graph.slot_count()];
        for (reader, vertex) in graph.slots().enumerate() {
            vertex.inputs().for_each(|input| readers[usize::from(input)].push(reader));
        }
        Sweep { graph, live: live_slots(graph), dead: dead_slots(graph), readers }
    }

    fn slots(&self) -> std::ops::Range<usize> {
        0..self.graph.slot_count()
    }

    fn inputs(&self, slot: usize) -> impl Iterator<Item = usize> + '_ {
        self.graph.slot(slot).inputs().map(usize::from)
    }

    /// Whether the slot has readers, and all of them are dead.
    fn has_only_dead_readers(&self, slot: usize) -> bool {
        let readers = &self.readers[slot];
        !readers.is_empty() && readers.iter().all(|&reader| self.dead[reader])
    }

    fn sizes(&self) -> Vec<Class> {
        let vertices = self.graph.slots().filter(|slot| !slot.is_empty()).count();
        let dead = self.dead.iter().filter(|&&dead| dead).count();
        let slots = self.graph.slot_count();
        vec![
            ("nothing to remove", dead == 0),
            ("one vertex removed", dead == 1),
            ("several vertices removed", dead > 1),
            ("everything but one vertex removed", dead > 0 && dead + 1 == vertices),
            ("slot 0 removed", self.dead[0]),
            ("the last slot removed", self.dead[slots - 1]),
            ("Empty slots before", vertices < slots),
            ("one slot", slots == 1),
            ("largest graph, nothing to remove", slots == MAX_SLOTS && dead == 0),
            ("largest graph, vertices removed", slots == MAX_SLOTS && dead > 0),
        ]
    }

    fn dead(&self) -> Vec<Class> {
        let dead = || self.slots().filter(|&slot| self.dead[slot]);
        let reads = |holds: &dyn Fn(usize, usize) -> bool| {
            dead().any(|slot| self.inputs(slot).any(|input| holds(slot, input)))
        };
        let of_kind = |kind: u8| dead().any(|slot| self.graph.slot(slot).kind() == kind);
        let chain = self.longest_dead_chain();
        let higher = |slot, input| self.dead[input] && input > slot;
        let lower = |slot, input| self.dead[input] && input < slot;
        vec![
            ("a dead chain of 2 or more", chain > 1),
            ("a dead chain of 20 or more", chain >= LONG),
            ("a dead vertex reads a dead one in a higher slot", reads(&higher)),
            ("a dead vertex reads a dead one in a lower slot", reads(&lower)),
            ("a dead vertex with several readers", dead().any(|slot| self.readers[slot].len() > 1)),
            ("a dead vertex reads one that stays", reads(&|_, input| !self.dead[input])),
            ("Const removed", of_kind(CONST)),
            ("Call removed", of_kind(CALL)),
            ("Tuple removed", of_kind(TUPLE)),
            ("Proj removed", of_kind(PROJ)),
        ]
    }

    /// The most dead vertices of which each reads the next.
    fn longest_dead_chain(&self) -> usize {
        let mut lengths = vec![None; self.graph.slot_count()];
        self.slots().map(|slot| self.dead_chain(slot, &mut lengths)).max().unwrap_or(0)
    }

    /// The longest such chain that begins here. At most 512 calls deep, since the
    /// graph has no cycle.
    fn dead_chain(&self, slot: usize, lengths: &mut [Option<usize>]) -> usize {
        if !self.dead[slot] {
            return 0;
        }
        if let Some(length) = lengths[slot] {
            return length;
        }
        let below = self.inputs(slot).map(|input| self.dead_chain(input, lengths)).max();
        let length = 1 + below.unwrap_or(0);
        lengths[slot] = Some(length);
        length
    }

    fn kept(&self) -> Vec<Class> {
        let dead_variable =
            |&slot: &usize| self.graph.slot(slot).kind() == VARIABLE && !self.live[slot];
        let variables = || self.slots().filter(dead_variable);
        let higher = |slot: usize| self.live[slot] && self.inputs(slot).any(|input| input > slot);
        vec![
            ("an unread Variable stays", variables().any(|slot| self.readers[slot].is_empty())),
            (
                "a Variable that only dead vertices read stays",
                variables().any(|slot| self.has_only_dead_readers(slot)),
            ),
            ("a vertex that stays reads a higher slot", self.slots().any(higher)),
        ]
    }

    fn outputs(&self) -> Vec<Class> {
        let outputs: Vec<usize> = self.graph.outputs().map(usize::from).collect();
        let live_reader = |slot: usize| self.readers[slot].iter().any(|&reader| self.live[reader]);
        let twice = (1..outputs.len()).any(|place| outputs[..place].contains(&outputs[place]));
        vec![
            ("a vertex stays for the first output alone", self.stays_only_for(0)),
            ("a vertex stays for the second output alone", self.stays_only_for(1)),
            ("a vertex stays for the fourth output alone", self.stays_only_for(3)),
            (
                "an output that only dead vertices read",
                outputs.iter().any(|&output| self.has_only_dead_readers(output)),
            ),
            (
                "an output that another output needs",
                outputs.iter().any(|&output| live_reader(output)),
            ),
            ("an output twice", twice),
        ]
    }

    /// Which counts go down.
    fn counts(&self) -> Vec<Class> {
        let is_dead = |&&reader: &&usize| self.dead[reader];
        let lost = |slot: usize| self.readers[slot].iter().filter(is_dead).count();
        let some = |holds: &dyn Fn(usize, usize) -> bool| {
            let mut stays = self.slots().filter(|&slot| !self.dead[slot] && lost(slot) > 0);
            stays.any(|slot| holds(self.graph.slot(slot).count().into(), lost(slot)))
        };
        let mut outputs = self.graph.outputs().map(usize::from);
        vec![
            ("the count of a vertex that stays goes down", some(&|_, _| true)),
            ("the count of a vertex that stays goes down by several", some(&|_, lost| lost > 1)),
            ("the count of a vertex that stays goes down to 0", some(&|old, lost| old == lost)),
            ("the count of an output goes down", outputs.any(|output| lost(output) > 0)),
            ("a count of two bytes goes down", some(&|old, _| old > 255)),
        ]
    }

    /// Whether there are other outputs, and a vertex that is no Variable reaches
    /// the output in this place only.
    fn stays_only_for(&self, place: usize) -> bool {
        let count = self.graph.output_count();
        if count == 1 || place >= count {
            return false;
        }
        let others = self.graph.outputs().enumerate().filter(|(other, _)| *other != place);
        let without = reaching(self.graph, others.map(|(_, output)| output));
        let only = |slot: usize| self.live[slot] && !without[slot];
        self.slots().any(|slot| only(slot) && self.graph.slot(slot).kind() != VARIABLE)
    }
}
