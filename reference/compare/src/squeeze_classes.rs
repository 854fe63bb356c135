//! What a squeeze met, so that the comparison can show that it was not empty.

use leafgraph_reference::graph::{Graph, MAX_SLOTS};
use leafgraph_reference::operators::VARIABLE;
use leafgraph_reference::reply::number_of;
use leafgraph_reference::squeeze::{new_numbers, Numbers, NOWHERE};
use leafgraph_reference::sweep::dead_slots;

use crate::cleanups::{right_length, Lent};
use crate::tally::{Class, Tally};

/// Every class must occur.
pub const CLASSES: [&str; 43] = [
    "nothing moves, no Empty slot",
    "nothing moves, Empty slots behind the vertices",
    "some vertices move, some stay",
    "every vertex moves",
    "one Empty slot, between vertices",
    "Empty slots in several places before a vertex",
    "Empty slots on both sides of the last vertex",
    "a vertex takes the slot that another one leaves",
    "a vertex moves by 256 slots or more",
    "a new number of two bytes",
    "a Variable moves",
    "a vertex from which no output is reached moves",
    "an input in a higher slot moves",
    "an input in a lower slot moves",
    "an input moves, its reader stays",
    "a reader moves, its input stays",
    "one vertex reads both what moves and what stays",
    "an input in two places of one vertex moves",
    "an input moves to its reader's old slot",
    "an output renamed",
    "an output renamed, another stays",
    "an output twice, renamed",
    "an output in the fourth place renamed",
    "one slot",
    "largest graph, nothing moves",
    "largest graph, vertices move",
    "40, no list",
    "40, one byte short",
    "40, one byte long",
    "40, one number short",
    "40, one number long",
    "40, as many bytes as slots",
    "40, the largest graph's list",
    "40, nothing would move",
    "20, a wrong list too",
    "21, a wrong list too",
    "22, a wrong list too",
    "23, a wrong list too",
    "24, a wrong list too",
    "a vertex with a count of 0 moves",
    "a vertex with a count above 1 moves",
    "a vertex with a count of two bytes moves",
    "a vertex moves to a slot with another count",
];

pub fn count(tally: &mut Tally, lent: &Lent, reply: u64) {
    let squeeze = Graph::parse(&lent.graph).ok().map(Squeeze::new);
    let classes = match (number_of(reply), squeeze) {
        (0, Some(squeeze)) => {
            let names = [squeeze.inputs(), squeeze.outputs(), squeeze.counts()];
            [squeeze.moves(), squeeze.gaps(), names.concat()].concat()
        }
        (40, Some(squeeze)) => squeeze.wrong_list(lent.list.len()),
        (number, _) => {
            let wrong = lent.list.len() != right_length(&lent.graph);
            vec![
                ("20, a wrong list too", wrong && number == 20),
                ("21, a wrong list too", wrong && number == 21),
                ("22, a wrong list too", wrong && number == 22),
                ("23, a wrong list too", wrong && number == 23),
                ("24, a wrong list too", wrong && number == 24),
            ]
        }
    };
    tally.count_all(&classes);
}

/// A squeeze of a sound graph.
struct Squeeze<'a> {
    graph: Graph<'a>,
    numbers: Numbers,
    /// The old slots of the vertices.
    vertices: Vec<usize>,
}

impl<'a> Squeeze<'a> {
    fn new(graph: Graph<'a>) -> Squeeze<'a> {
        let numbers = new_numbers(graph);
        let slots = 0..graph.slot_count();
        let vertices = slots.filter(|&slot| numbers[slot] != NOWHERE).collect();
        Squeeze { graph, numbers, vertices }
    }

    fn new_slot(&self, vertex: usize) -> usize {
        self.numbers[vertex].into()
    }

    fn moves_away(&self, vertex: usize) -> bool {
        self.new_slot(vertex) != vertex
    }

    fn any(&self, holds: impl Fn(usize) -> bool) -> bool {
        self.vertices.iter().any(|&vertex| holds(vertex))
    }

    fn moves(&self) -> Vec<Class> {
        let moved = |vertex| self.moves_away(vertex);
        let (some, all) = (self.any(moved), !self.any(|vertex| !moved(vertex)));
        let by = |vertex: usize| vertex - self.new_slot(vertex);
        let slots = self.graph.slot_count();
        let (full, largest) = (slots == self.vertices.len(), slots == MAX_SLOTS);
        let dead = dead_slots(self.graph);
        let is_variable = |vertex| self.graph.slot(vertex).kind() == VARIABLE;
        vec![
            ("nothing moves, no Empty slot", full),
            ("nothing moves, Empty slots behind the vertices", !some && !full),
            ("some vertices move, some stay", some && !all),
            ("every vertex moves", all),
            ("a vertex moves by 256 slots or more", self.any(|vertex| by(vertex) > 255)),
            (
                "a new number of two bytes",
                self.any(|vertex| moved(vertex) && self.new_slot(vertex) > 255),
            ),
            ("a Variable moves", self.any(|vertex| moved(vertex) && is_variable(vertex))),
            (
                "a vertex from which no output is reached moves",
                self.any(|vertex| moved(vertex) && dead[vertex]),
            ),
            ("one slot", slots == 1),
            ("largest graph, nothing moves", largest && !some),
            ("largest graph, vertices move", largest && some),
        ]
    }

    /// Where the Empty slots are.
    fn gaps(&self) -> Vec<Class> {
        let pairs = || self.vertices.windows(2);
        let between = pairs().filter(|pair| pair[1] - pair[0] > 1).count();
        let places = between + usize::from(self.vertices[0] > 0);
        let (slots, vertices) = (self.graph.slot_count(), self.vertices.len());
        let behind = slots - 1 - self.vertices[vertices - 1];
        let left = |slot: usize| self.numbers[slot] != NOWHERE && self.moves_away(slot);
        let takes = |vertex| self.moves_away(vertex) && left(self.new_slot(vertex));
        vec![
            ("one Empty slot, between vertices", between == 1 && slots == vertices + 1),
            ("Empty slots in several places before a vertex", places > 1),
            ("Empty slots on both sides of the last vertex", places > 0 && behind > 0),
            ("a vertex takes the slot that another one leaves", self.any(takes)),
        ]
    }

    fn inputs(&self) -> Vec<Class> {
        let inputs = |reader: usize| self.graph.slot(reader).inputs().map(usize::from);
        let moved = |vertex| self.moves_away(vertex);
        let reads = |holds: &dyn Fn(usize, usize) -> bool| {
            self.any(|reader| inputs(reader).any(|input| holds(reader, input)))
        };
        let both = |reader| inputs(reader).any(moved) && inputs(reader).any(|one| !moved(one));
        let places = |reader, input| inputs(reader).filter(|&other| other == input).count();
        vec![
            (
                "an input in a higher slot moves",
                reads(&|reader, input| input > reader && moved(input)),
            ),
            (
                "an input in a lower slot moves",
                reads(&|reader, input| input < reader && moved(input)),
            ),
            (
                "an input moves, its reader stays",
                reads(&|reader, input| moved(input) && !moved(reader)),
            ),
            (
                "a reader moves, its input stays",
                reads(&|reader, input| moved(reader) && !moved(input)),
            ),
            ("one vertex reads both what moves and what stays", self.any(both)),
            (
                "an input in two places of one vertex moves",
                reads(&|reader, input| moved(input) && places(reader, input) > 1),
            ),
            (
                "an input moves to its reader's old slot",
                reads(&|reader, input| self.new_slot(input) == reader),
            ),
        ]
    }

    fn outputs(&self) -> Vec<Class> {
        let outputs: Vec<usize> = self.graph.outputs().map(usize::from).collect();
        let moved = |&output: &usize| self.moves_away(output);
        let again = |place: usize| outputs[..place].contains(&outputs[place]);
        let renamed = outputs.iter().any(moved);
        vec![
            ("an output renamed", renamed),
            ("an output renamed, another stays", renamed && !outputs.iter().all(moved)),
            (
                "an output twice, renamed",
                (1..outputs.len()).any(|place| again(place) && moved(&outputs[place])),
            ),
            ("an output in the fourth place renamed", outputs.get(3).is_some_and(moved)),
        ]
    }

    /// The counts of vertices that move.
    fn counts(&self) -> Vec<Class> {
        let count = |slot: usize| self.graph.slot(slot).count();
        let moved = |holds: &dyn Fn(usize) -> bool| {
            self.any(|vertex| self.moves_away(vertex) && holds(vertex))
        };
        vec![
            ("a vertex with a count of 0 moves", moved(&|vertex| count(vertex) == 0)),
            ("a vertex with a count above 1 moves", moved(&|vertex| count(vertex) > 1)),
            ("a vertex with a count of two bytes moves", moved(&|vertex| count(vertex) > 255)),
            (
                "a vertex moves to a slot with another count",
                moved(&|vertex| count(vertex) != count(self.new_slot(vertex))),
            ),
        ]
    }

    /// By how much a list of so many bytes is wrong.
    fn wrong_list(&self, length: usize) -> Vec<Class> {
        let slots = self.graph.slot_count();
        let right = 2 * slots;
        vec![
            ("40, no list", length == 0),
            ("40, one byte short", length + 1 == right),
            ("40, one byte long", length == right + 1),
            ("40, one number short", length + 2 == right),
            ("40, one number long", length == right + 2),
            ("40, as many bytes as slots", length == slots),
            ("40, the largest graph's list", length == 2 * MAX_SLOTS),
            ("40, nothing would move", !self.any(|vertex| self.moves_away(vertex))),
        ]
    }
}
