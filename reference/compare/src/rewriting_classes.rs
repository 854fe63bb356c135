//! What a rewriting met, so that the comparison can show that it was not
//! empty. All of it is taken from the second program's answer.

use leafgraph_reference::attributes::results;
use leafgraph_reference::blocks::empty;
use leafgraph_reference::graph::{Graph, MAX_SLOTS};
use leafgraph_reference::matching::{least_match, Images};
use leafgraph_reference::operators::{CONST, VARIABLE};
use leafgraph_reference::removal::removed_slots;
use leafgraph_reference::rule::{Rule, ACCESS, MAX_NODES, MAX_VERTICES, PLUS, TARGET_BASE};
use leafgraph_reference::{rewrite, MAP_LENGTH};

use crate::arguments::Arguments;
use crate::constants::{matched_consts, MatchedConst};
use crate::namers::Namer;
use crate::rewriting::{Outcome, Verdicts};
use crate::rewriting_count_classes::Changes;
use crate::tally::{Class, Tally};

/// Every class must occur, and those of counts. Those that do not begin with
/// "refused" are of accepted rewritings.
pub const CLASSES: [&str; 66] = [
    "no target vertex",
    "room only by the removal",
    "exactly enough room",
    "target vertex in a slot just freed",
    "target vertex in a slot Empty before",
    "freed slot stays Empty",
    "two outputs",
    "both target outputs the same",
    "target output is a rule input",
    "Const removed",
    "Variable of the rule stays",
    "largest graph",
    "largest source",
    "largest target",
    "start above 0",
    "reader redirected",
    "two places of one reader redirected",
    "several readers redirected",
    "graph output redirected",
    "one output in several graph outputs redirected",
    "rule input redirected",
    "output in its own slot",
    "first output in the second one's slot",
    "second output in the first one's slot",
    "target vertex reads a slot that held an output",
    "attribute of a removed vertex, its slot taken",
    "attribute of a removed vertex, its slot taken before",
    "attribute computed",
    "refused, a later match would do",
    "refused 5, an attribute without a result",
    "refused 5, a projection index below 1",
    "refused 5, no room either",
    "refused 6, one slot too few",
    "refused 6, several slots too few",
    "refused 6, a cycle would follow",
    "refused 7, only the new table has the cycle",
    "refused 7, no target vertex",
    "refused 7, exactly enough room",
    "a vertex apart from what is replaced",
    "a vertex below what is replaced",
    "same meaning, whatever the operators mean",
    "same meaning, by the laws alone",
    "same meaning, a vertex below",
    "same meaning, a graph output replaced or below",
    "same meaning, two outputs made one",
    "same meaning, target output is a rule input",
    "same meaning, rule input redirected",
    "same meaning, two outputs",
    "another meaning, a vertex changes",
    "another meaning, a graph output changes",
    "another meaning, no result changes",
    "Const with several reads removed",
    "Const stays, read by another vertex",
    "Const stays, read by a vertex that reaches no output",
    "Const stays, read by a rule input",
    "Const stays, named by a graph output",
    "Const stays, read and named by a graph output",
    "several Consts stay",
    "one Const removed, another stays",
    "Const taken by a wildcard stays",
    "exactly enough room, a Const stays",
    "target vertex above a Const that stays",
    "every target vertex above a Const that stays",
    "attribute of a Const that stays",
    "same meaning, a Const stays",
    "refused 6, room if no Const stayed",
];

/// A rewriting in sound blocks with a match, accepted or not.
struct Rewriting<'a> {
    old: Graph<'a>,
    rule: Rule<'a>,
    start: usize,
    images: Images,
    removed: [bool; MAX_SLOTS],
    /// Empty slots and removed ones, the lowest first.
    free: Vec<u16>,
    consts: Vec<MatchedConst>,
}

pub fn count_classes(tally: &mut Tally, arguments: &Arguments, outcome: &Outcome) {
    if !matches!(outcome.reply, 0 | 5..=7) {
        return;
    }
    let (Ok(old), Ok(rule)) = (Graph::parse(&arguments.graph), Rule::parse(&arguments.rule)) else {
        return;
    };
    let Some(images) = least_match(old, rule, arguments.start) else {
        return;
    };
    if let (0, Ok(new)) = (outcome.reply, Graph::parse(&outcome.graph)) {
        tally.count_all(&Changes { old, new, rule, images: &images }.classes());
    }
    let rewriting = Rewriting::new(old, rule, arguments.start, images);
    let classes = match &outcome.verdicts {
        Some(verdicts) => [
            rewriting.shapes(),
            rewriting.redirections(),
            rewriting.places(),
            rewriting.attributes(),
            rewriting.constants(),
            rewriting.places_of_constants(verdicts),
            rewriting.meanings(verdicts),
        ]
        .concat(),
        None => [rewriting.refusals(outcome.reply), rewriting.cycles(outcome.reply)].concat(),
    };
    tally.count_all(&classes);
}

impl<'a> Rewriting<'a> {
    fn new(old: Graph<'a>, rule: Rule<'a>, start: usize, images: Images) -> Rewriting<'a> {
        let removed = removed_slots(old, rule, &images);
        let is_free = |&slot: &usize| old.slot(slot).is_empty() || removed[slot];
        let free = (0..old.slot_count()).filter(is_free).map(|slot| slot as u16).collect();
        let consts = matched_consts(old, rule, &images);
        Rewriting { old, rule, start, images, removed, free, consts }
    }

    fn is_empty(&self, slot: u16) -> bool {
        self.old.slot(slot.into()).is_empty()
    }

    fn is_removed(&self, slot: u16) -> bool {
        self.removed[usize::from(slot)]
    }

    /// The slots that target vertices take.
    fn taken(&self) -> &[u16] {
        &self.free[..self.rule.target_count()]
    }

    /// The images of the source outputs.
    fn replaced(&self) -> Vec<u16> {
        self.rule.source_outputs().map(|output| self.images[usize::from(output)]).collect()
    }

    /// The slot of this target place.
    fn slot_of(&self, place: u8) -> u16 {
        match place.checked_sub(TARGET_BASE) {
            Some(vertex) => self.free[usize::from(vertex)],
            None => self.images[usize::from(place)],
        }
    }

    fn has_two_outputs(&self) -> bool {
        self.rule.output_count() == 2
    }

    fn has_same_target_outputs(&self) -> bool {
        self.has_two_outputs() && self.rule.target_output(0) == self.rule.target_output(1)
    }

    fn has_input_as_target_output(&self) -> bool {
        self.rule.target_outputs().any(|place| place < TARGET_BASE)
    }

    /// Sizes and kinds.
    fn shapes(&self) -> Vec<Class> {
        let (rule, targets) = (self.rule, self.rule.target_count());
        let empty = self.free.iter().filter(|&&slot| self.is_empty(slot)).count();
        let has_kind = |kind: u8| rule.sources().any(|pattern| pattern.kind() == kind);
        vec![
            ("no target vertex", targets == 0),
            ("room only by the removal", targets > empty),
            ("exactly enough room", targets == self.free.len()),
            (
                "target vertex in a slot just freed",
                self.taken().iter().any(|&s| self.is_removed(s)),
            ),
            (
                "target vertex in a slot Empty before",
                self.taken().iter().any(|&s| self.is_empty(s)),
            ),
            ("freed slot stays Empty", self.free[targets..].iter().any(|&s| self.is_removed(s))),
            ("two outputs", self.has_two_outputs()),
            ("both target outputs the same", self.has_same_target_outputs()),
            ("target output is a rule input", self.has_input_as_target_output()),
            ("Const removed", self.consts.iter().any(|one| !one.stays())),
            ("Variable of the rule stays", has_kind(VARIABLE)),
            ("largest graph", self.old.slot_count() == MAX_SLOTS),
            ("largest source", rule.source_count() == MAX_VERTICES),
            ("largest target", targets == MAX_VERTICES),
            ("start above 0", self.start > 0),
        ]
    }

    /// How many input places of this vertex name each replaced output.
    fn redirected_places(&self, slot: u16) -> Vec<usize> {
        let inputs = || self.old.slot(slot.into()).inputs();
        self.replaced().iter().map(|&image| inputs().filter(|&i| i == image).count()).collect()
    }

    fn is_redirected(&self, slot: u16) -> bool {
        self.redirected_places(slot).iter().any(|&places| places > 0)
    }

    fn has_redirected_rule_input(&self) -> bool {
        let mut pairs = self.rule.sources().zip(self.images);
        pairs.any(|(pattern, image)| pattern.is_input_kind() && self.is_redirected(image))
    }

    /// What names a replaced output.
    fn redirections(&self) -> Vec<Class> {
        let slots = 0..self.old.slot_count() as u16;
        let readers: Vec<u16> = slots.filter(|&slot| self.is_redirected(slot)).collect();
        let twice = |&slot: &u16| self.redirected_places(slot).iter().any(|&places| places > 1);
        let outputs = |image: u16| self.old.outputs().filter(|&output| output == image).count();
        let replaced = self.replaced();
        vec![
            ("reader redirected", !readers.is_empty()),
            ("two places of one reader redirected", readers.iter().any(twice)),
            ("several readers redirected", readers.len() > 1),
            ("graph output redirected", replaced.iter().any(|&image| outputs(image) > 0)),
            (
                "one output in several graph outputs redirected",
                replaced.iter().any(|&image| outputs(image) > 1),
            ),
            ("rule input redirected", self.has_redirected_rule_input()),
        ]
    }

    /// Where target outputs stand, next to where source outputs stood.
    fn places(&self) -> Vec<Class> {
        let replaced = self.replaced();
        let placed: Vec<u16> =
            self.rule.target_outputs().map(|place| self.slot_of(place)).collect();
        // Redirected one after the other, a place would be redirected twice.
        let crossed = |one: usize, other: usize| {
            self.has_two_outputs() && placed[one] == replaced[other] && placed[0] != placed[1]
        };
        let reads_replaced = self.rule.targets().any(|pattern| {
            let mut slots = pattern.inputs().map(|place| self.slot_of(place));
            slots.any(|slot| replaced.contains(&slot))
        });
        vec![
            ("output in its own slot", replaced.iter().zip(&placed).any(|(old, new)| old == new)),
            ("first output in the second one's slot", crossed(0, 1)),
            ("second output in the first one's slot", crossed(1, 0)),
            ("target vertex reads a slot that held an output", reads_replaced),
        ]
    }

    /// A bit for each node that this one is, or is computed from.
    fn nodes_within(&self) -> [u64; MAX_NODES] {
        let mut within = [0; MAX_NODES];
        for index in 0..self.rule.node_count() {
            let node = self.rule.node(index);
            let of = |operand: u8| within[usize::from(operand)];
            let operands = if node.form >= PLUS { of(node.a) | of(node.b) } else { 0 };
            within[index] = operands | 1 << index;
        }
        within
    }

    /// The non-input source vertices that each target vertex's attributes access.
    fn accessed(&self) -> Vec<Vec<usize>> {
        let (rule, within) = (self.rule, self.nodes_within());
        let of = |set: u64| {
            let nodes = (0..rule.node_count()).filter(move |index| set >> index & 1 == 1);
            let accesses = nodes.map(|index| rule.node(index)).filter(|node| node.form == ACCESS);
            let vertices =
                accesses.map(|node| node.a).filter(|&vertex| !rule.is_rule_input(vertex));
            vertices.map(usize::from).collect()
        };
        let sets = rule.targets().map(|pattern| {
            pattern.attributes().fold(0, |set, node| set | within[usize::from(node)])
        });
        sets.map(of).collect()
    }

    /// What target attributes are read from.
    fn attributes(&self) -> Vec<Class> {
        let accessed = self.accessed();
        let taken_by = |vertex: usize| self.taken().iter().position(|&s| s == self.images[vertex]);
        let mut pairs = accessed.iter().enumerate().flat_map(|(target, vertices)| {
            vertices.iter().map(move |&vertex| (target, taken_by(vertex)))
        });
        let computed = self.rule.targets().flat_map(|pattern| pattern.attributes());
        let mut forms = computed.map(|node| self.rule.node(node.into()).form);
        let taken_before = pairs.clone().any(|(target, by)| by.is_some_and(|by| by < target));
        vec![
            ("attribute of a removed vertex, its slot taken", pairs.any(|(_, by)| by.is_some())),
            ("attribute of a removed vertex, its slot taken before", taken_before),
            ("attribute computed", forms.any(|form| form >= PLUS)),
        ]
    }

    /// The matched Consts that stay.
    fn staying_consts(&self) -> impl Iterator<Item = &MatchedConst> {
        self.consts.iter().filter(|one| one.stays())
    }

    /// Which of the rule's Consts go and which stay.
    fn constants(&self) -> Vec<Class> {
        let only = |namer: Namer| self.consts.iter().any(|one| one.stays_only_by(namer));
        let staying = self.staying_consts().count();
        let read_twice = |one: &MatchedConst| !one.stays() && one.naming.inner_reads > 1;
        let mut wildcards =
            self.rule.sources().zip(self.images).filter(|pair| pair.0.is_wildcard());
        vec![
            ("Const with several reads removed", self.consts.iter().any(read_twice)),
            ("Const stays, read by another vertex", only(Namer::Vertex)),
            ("Const stays, read by a vertex that reaches no output", only(Namer::DeadVertex)),
            ("Const stays, read by a rule input", only(Namer::RuleInput)),
            ("Const stays, named by a graph output", only(Namer::Output)),
            (
                "Const stays, read and named by a graph output",
                self.consts.iter().any(MatchedConst::is_read_and_output),
            ),
            ("several Consts stay", staying > 1),
            ("one Const removed, another stays", staying > 0 && staying < self.consts.len()),
            (
                "Const taken by a wildcard stays",
                wildcards.any(|(_, image)| self.old.slot(image.into()).kind() == CONST),
            ),
        ]
    }

    /// Where target vertices stand and what they take from a Const that stays.
    fn places_of_constants(&self, verdicts: &Verdicts) -> Vec<Class> {
        let (taken, stays) = (self.taken(), self.staying_consts().next().is_some());
        let slots = || self.staying_consts().map(|one| one.slot);
        let above = |target: Option<&u16>| target.is_some_and(|&s| slots().any(|slot| slot < s));
        let mut accessed = self.accessed().into_iter().flatten();
        vec![
            ("exactly enough room, a Const stays", stays && taken.len() == self.free.len()),
            ("target vertex above a Const that stays", above(taken.last())),
            ("every target vertex above a Const that stays", above(taken.first())),
            (
                "attribute of a Const that stays",
                accessed.any(|vertex| slots().any(|slot| slot == self.images[vertex])),
            ),
            ("same meaning, a Const stays", stays && verdicts.lawful.same_meaning),
        ]
    }

    /// Demand 3.
    fn meanings(&self, Verdicts { lawless, lawful }: &Verdicts) -> Vec<Class> {
        let same = lawful.same_meaning;
        let (below, output) = (lawful.below > 0, lawful.outputs_below > 0);
        let vertices = lawless.below_changed > 0;
        let outputs = lawless.outputs_changed > 0;
        vec![
            ("a vertex apart from what is replaced", lawless.apart > 0),
            ("a vertex below what is replaced", below),
            ("same meaning, whatever the operators mean", lawless.same_meaning),
            ("same meaning, by the laws alone", same && !lawless.same_meaning),
            ("same meaning, a vertex below", same && below),
            ("same meaning, a graph output replaced or below", same && output),
            ("same meaning, two outputs made one", same && self.has_same_target_outputs()),
            (
                "same meaning, target output is a rule input",
                same && self.has_input_as_target_output(),
            ),
            ("same meaning, rule input redirected", same && self.has_redirected_rule_input()),
            ("same meaning, two outputs", same && self.has_two_outputs()),
            ("another meaning, a vertex changes", !lawless.same_meaning && vertices),
            ("another meaning, a graph output changes", !lawless.same_meaning && outputs),
            ("another meaning, no result changes", !lawless.same_meaning && !vertices && !outputs),
        ]
    }

    /// Why a match is refused, and what else would have been a reason.
    fn refusals(&self, reply: u64) -> Vec<Class> {
        let (targets, room) = (self.rule.target_count(), self.free.len());
        let results = results(self.old, self.rule, &self.images);
        let mut nodes = self.rule.targets().flat_map(|pattern| pattern.attributes());
        let without = nodes.any(|node| results.at(0, node).is_none());
        vec![
            ("refused, a later match would do", self.has_accepted_later_match()),
            ("refused 5, an attribute without a result", reply == 5 && without),
            ("refused 5, a projection index below 1", reply == 5 && !without),
            ("refused 5, no room either", reply == 5 && targets > room),
            ("refused 6, one slot too few", reply == 6 && targets == room + 1),
            ("refused 6, several slots too few", reply == 6 && targets > room + 1),
            ("refused 6, a cycle would follow", reply == 6 && self.has_cycle_given_room()),
            (
                "refused 6, room if no Const stayed",
                reply == 6 && targets <= room + self.staying_consts().count(),
            ),
        ]
    }

    fn cycles(&self, reply: u64) -> Vec<Class> {
        let targets = self.rule.target_count();
        vec![
            ("refused 7, only the new table has the cycle", reply == 7),
            ("refused 7, no target vertex", reply == 7 && targets == 0),
            ("refused 7, exactly enough room", reply == 7 && targets == self.free.len()),
        ]
    }

    /// "no other is tried"
    fn has_accepted_later_match(&self) -> bool {
        let first = usize::from(self.replaced()[0]);
        let mut graph = self.old.bytes().to_vec();
        rewrite(&mut graph, self.rule.bytes(), first + 1, &mut [0; MAP_LENGTH]) == 0
    }

    /// Whether the same graph with as many Empty slots as are missing would be
    /// refused because of a cycle. The least match is the same there.
    fn has_cycle_given_room(&self) -> bool {
        let missing = self.rule.target_count() - self.free.len();
        let slots = self.old.slot_count() + missing;
        if slots > MAX_SLOTS {
            return false;
        }
        let mut graph = self.old.bytes().to_vec();
        graph[6..8].copy_from_slice(&(slots as u16).to_le_bytes());
        for _ in 0..missing {
            graph.extend(empty().record());
        }
        rewrite(&mut graph, self.rule.bytes(), self.start, &mut [0; MAP_LENGTH]) == 7
    }
}
