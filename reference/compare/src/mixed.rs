//! One graph imported, and then rewritten, swept and squeezed in any order. Each
//! call works on the table that the last one left, and all counts must be true
//! after it. About each match that comes up it is asked what is read elsewhere, and each
//! table is written as a listing and read.

use leafgraph_proved::guarded::{Guarded, SHIFTS};
use leafgraph_reference::generate::sequence;
use leafgraph_reference::graph::Graph;
use leafgraph_reference::matching::{least_match, read_map, write_map, Images};
use leafgraph_reference::random::Random;
use leafgraph_reference::rule::Rule;
use leafgraph_reference::squeeze::read_list;
use leafgraph_reference::MAP_LENGTH;

use crate::arguments::Arguments;
use crate::cleanups::{Cleanup, Lent, SQUEEZE, SWEEP};
use crate::mixed_classes::{History, Operation, CLASSES};
use crate::questions::Questions;
use crate::tables::{self, Tables};
use crate::tally::{Call, Tally, CHANGED};
use crate::{imports, questions};

/// What must be replied in some step; a cycle is left to the calls by
/// themselves.
const NUMBERS: [u8; 6] = [0, 4, 5, 6, 20, 40];

/// The most calls on one graph, but for those that a refusal asks for.
const LONGEST: usize = 16;

/// Sequences that take at least so many calls.
pub fn run(random: &mut Random, calls: u64) -> Vec<Tally> {
    let name = "import, rewrite, sweep and squeeze in sequence";
    let mut tally = Tally::new(name, &NUMBERS, &CLASSES);
    let mut asked = questions::tally();
    let mut listed = tables::tally();
    while tally.calls() < calls {
        let sequence = sequence(random);
        let of_version_1 = random.chance(50);
        let graph = match of_version_1 {
            true => sequence.graph.version_1_block(),
            false => sequence.graph.block(),
        };
        let mut run = Run {
            history: History::new(sequence.graph.slots.len(), !of_version_1),
            tables: Tables::new(&graph),
            graph,
            rules: sequence.rules.iter().map(|rule| rule.block()).collect(),
            questions: Questions::default(),
        };
        if of_version_1 {
            run.import(random, &mut tally);
        }
        for _ in 0..random.within(2, LONGEST) {
            run.step(random, &mut tally);
        }
        run.history.count(&mut tally);
        run.questions.ask_all(random, &mut asked);
        run.tables.list_all(random, &mut listed);
    }
    vec![tally, asked, listed]
}

/// A sequence under way.
struct Run {
    graph: Vec<u8>,
    rules: Vec<Vec<u8>>,
    history: History,
    questions: Questions,
    tables: Tables,
}

impl Run {
    fn step(&mut self, random: &mut Random, tally: &mut Tally) {
        match random.below(10) {
            0..=4 => self.rewrite_with_a_sweep(random, tally),
            5 | 6 => self.sweep(random, tally),
            _ => self.squeeze(random, tally),
        }
    }

    /// An import, now and then with a call before that takes no version 1, and with
    /// a second import behind it.
    fn import(&mut self, random: &mut Random, tally: &mut Tally) {
        if random.chance(20) {
            self.step(random, tally);
        }
        self.import_once(random, tally, "an import");
        if random.chance(20) {
            self.import_once(random, tally, "a second import");
        }
    }

    fn import_once(&mut self, random: &mut Random, tally: &mut Tally, origin: &'static str) {
        let outcome = imports::import(random, tally, origin, &self.graph);
        match outcome.reply {
            0 => self.take(Operation::Import, outcome.graph),
            _ => self.history.refused(Operation::Import),
        }
    }

    /// A rewriting, and where there is no match or no room often a sweep and the
    /// same rewriting again.
    fn rewrite_with_a_sweep(&mut self, random: &mut Random, tally: &mut Tally) {
        let rule = random.below(self.rules.len());
        let slots = self.history.slots();
        let start = if random.chance(80) { 0 } else { random.below(slots) };
        let reply = self.rewrite(random, tally, rule, start);
        if matches!(reply, 4 | 6) && random.chance(50) {
            self.sweep(random, tally);
            self.rewrite(random, tally, rule, start);
        }
    }

    fn rewrite(
        &mut self,
        random: &mut Random,
        tally: &mut Tally,
        rule: usize,
        start: usize,
    ) -> u64 {
        let (graph, block) = (self.graph.clone(), self.rules[rule].clone());
        let sound = Arguments::sound(random, "a rewriting", graph, block);
        let arguments = Arguments { start, ..sound };
        let images = arguments.least_match();
        if let Some(images) = &images {
            self.questions.note(&arguments.graph, &arguments.rule, images);
        }
        let outcome = arguments.rewrite(random, tally);
        match outcome.reply {
            0 => self.take(Operation::Rewrite, outcome.graph),
            20 => self.history.refused(Operation::Rewrite),
            _ => {}
        }
        self.history.rewritten((rule, start), outcome.reply, images);
        outcome.reply
    }

    fn sweep(&mut self, random: &mut Random, tally: &mut Tally) {
        let lent = Lent::sound(random, "a sweep", self.graph.clone());
        self.clean(random, tally, (Operation::Sweep, &SWEEP), &lent);
    }

    /// A squeeze, now and then with a wrong list before.
    fn squeeze(&mut self, random: &mut Random, tally: &mut Tally) {
        let lent = Lent::sound(random, "a squeeze", self.graph.clone());
        if random.chance(20) {
            let length = random.below(lent.list.len());
            let (graph, list) = (lent.graph.clone(), lent.list[..length].to_vec());
            let wrong = Lent { origin: "a squeeze with a wrong list", graph, list };
            self.clean(random, tally, (Operation::Squeeze, &SQUEEZE), &wrong);
        }
        if let Some(list) = self.clean(random, tally, (Operation::Squeeze, &SQUEEZE), &lent) {
            self.search_after_squeeze(random, tally, &lent.graph, &read_list(&list));
        }
    }

    /// The list after the call, if it is done.
    fn clean(
        &mut self,
        random: &mut Random,
        tally: &mut Tally,
        (operation, cleanup): (Operation, &Cleanup),
        lent: &Lent,
    ) -> Option<Vec<u8>> {
        let outcome = cleanup.call(random, tally, lent);
        if outcome.reply != 0 {
            self.history.refused(operation);
            return None;
        }
        self.take(operation, outcome.graph);
        Some(outcome.list)
    }

    fn take(&mut self, operation: Operation, graph: Vec<u8>) {
        self.history.done(operation, &self.graph, &graph);
        self.tables.note(operation, &graph);
        self.graph = graph;
    }

    /// Vertices keep their order, so what the second program finds in the table
    /// before the squeeze must be found by the library in the one after it, with
    /// every image in its new slot.
    fn search_after_squeeze(
        &mut self,
        random: &mut Random,
        tally: &mut Tally,
        old: &[u8],
        moves: &[u16],
    ) {
        let rule = &self.rules[random.below(self.rules.len())];
        let (graph, before) = (Guarded::new(&self.graph, 0), random.bytes(MAP_LENGTH));
        let mut map = Guarded::new(&before, random.below(SHIFTS));
        let proved = leafgraph_proved::find_match(graph.bytes(), rule, 0, map.lend());
        let mut expected = before;
        let reference = leafgraph_reference::find_match(old, rule, 0, &mut expected);
        if reference == 0 {
            follow(&mut expected, moves);
            self.questions.note(&self.graph, rule, &read_map(&expected));
        }
        let kept = graph.holds(&self.graph) && map.holds(&expected);
        tally.record(Call {
            origin: "a search after a squeeze",
            proved,
            reference,
            faults: if kept { vec![] } else { vec![CHANGED] },
            number: Some(("start", 0)),
            bytes: &[
                ("graph before the squeeze", old),
                ("graph after it", &self.graph),
                ("rule", rule),
                ("map, proved", map.bytes()),
                ("map, reference, in the new slots", &expected),
            ],
        });
    }
}

/// Every image in its new slot; 65535 is no slot.
fn follow(map: &mut [u8], moves: &[u16]) {
    let images = read_map(map).map(|image| moves.get(usize::from(image)).copied().unwrap_or(image));
    write_map(map, &images);
}

impl Arguments {
    fn least_match(&self) -> Option<Images> {
        let graph = Graph::parse(&self.graph).ok()?;
        let rule = Rule::parse(&self.rule).ok()?;
        least_match(graph, rule, self.start)
    }
}
