//! What followed what in sequences of imports, rewritings, sweeps and squeezes.

use leafgraph_reference::counts::COUNT;
use leafgraph_reference::graph::{Graph, HEADER, MAX_SLOTS, RECORD};
use leafgraph_reference::matching::Images;
use leafgraph_reference::sweep::{live_slots, Slots};

use crate::tally::Tally;

/// Every class must occur, and is counted once for a sequence. A sweep is said to
/// remove and a squeeze to move where it changes the table; "then" is the next
/// call that is done.
pub const CLASSES: [&str; 25] = [
    "all but the import done",
    "all four done",
    "20, then the import done",
    "an import, then a rewriting",
    "an import, then a sweep that removes",
    "an import, then a squeeze that moves",
    "an import, and a second one refused",
    "an import, and a count goes up later",
    "10 calls or more done",
    "a rewriting, then a sweep that removes",
    "a rewriting, then a squeeze that moves",
    "a sweep that removes, then a squeeze that moves",
    "a sweep that removes, then a rewriting",
    "a squeeze that moves, then a rewriting",
    "a squeeze that moves, then a sweep that removes",
    "a squeeze that moves nothing, then a rewriting",
    "a second sweep at once",
    "a second squeeze at once",
    "40, then the squeeze done",
    "no room, and room for the same match after a sweep",
    "no match, and one after a sweep",
    "a rewriting takes a slot that a sweep freed",
    "a rewriting takes a slot that a squeeze left",
    "a rewriting cuts a vertex off, and a sweep removes it",
    "two squeezes that move",
];

#[derive(Clone, Copy, PartialEq, Eq)]
pub enum Operation {
    Import,
    Rewrite,
    Sweep,
    Squeeze,
}

/// A call that was done, and whether it changed the table.
#[derive(Clone, Copy, PartialEq, Eq)]
struct Done {
    operation: Operation,
    changed: bool,
}

/// A rewriting by its rule and its start.
type Rewriting = (usize, usize);

/// A rewriting that was refused, and with it the match where there is one.
struct Refused {
    rewriting: Rewriting,
    number: u64,
    images: Option<Images>,
    /// Whether a sweep has removed something since, and nothing else was done.
    swept: bool,
}

/// What is known of a slot.
#[derive(Clone, Copy, Default)]
struct Slot {
    /// What made it Empty.
    freed_by: Option<Operation>,
    /// Whether a rewriting has cut its vertex off from all outputs.
    cut_off: bool,
}

/// What has been done to one graph.
pub struct History {
    slots: Vec<Slot>,
    done: Vec<Done>,
    refused: Option<Refused>,
    wrong_list: bool,
    /// Whether the block is one of version 2, and whether something was refused
    /// because it was not yet.
    is_version_2: bool,
    wrong_version: bool,
    squeezes: usize,
    seen: Vec<&'static str>,
}

impl History {
    pub fn new(slots: usize, is_version_2: bool) -> History {
        History {
            slots: vec![Slot::default(); slots],
            done: vec![],
            refused: None,
            wrong_list: false,
            is_version_2,
            wrong_version: false,
            squeezes: 0,
            seen: vec![],
        }
    }

    pub fn slots(&self) -> usize {
        self.slots.len()
    }

    fn see(&mut self, class: &'static str, holds: bool) {
        if holds && !self.seen.contains(&class) {
            self.seen.push(class);
        }
    }

    pub fn count(&mut self, tally: &mut Tally) {
        let done = |operation| self.done.iter().any(|done| done.operation == operation);
        let three = [Operation::Rewrite, Operation::Sweep, Operation::Squeeze];
        let (imported, all) = (done(Operation::Import), three.into_iter().all(done));
        self.see("all but the import done", all && !imported);
        self.see("all four done", all && imported);
        self.see("10 calls or more done", self.done.len() >= 10);
        self.seen.iter().for_each(|class| tally.count(class));
    }

    /// A call is refused for its list or for the block's version.
    pub fn refused(&mut self, operation: Operation) {
        self.wrong_list = self.is_version_2 && operation == Operation::Squeeze;
        self.wrong_version |= !self.is_version_2;
        let again = self.is_version_2 && operation == Operation::Import;
        self.see("an import, and a second one refused", again);
    }

    /// A call is done, with these tables before and after.
    pub fn done(&mut self, operation: Operation, old: &[u8], new: &[u8]) {
        let now = Done { operation, changed: old != new };
        if let Some(&last) = self.done.last() {
            self.see_pair(last, now);
        }
        self.see("40, then the squeeze done", self.wrong_list && operation == Operation::Squeeze);
        self.wrong_list = false;
        self.done.push(now);
        match operation {
            Operation::Import => {
                self.is_version_2 = true;
                self.see("20, then the import done", self.wrong_version);
            }
            Operation::Rewrite => self.follow_rewriting(old, new),
            Operation::Sweep => self.follow_sweep(old, new),
            Operation::Squeeze => self.follow_squeeze(old, new),
        }
    }

    fn see_pair(&mut self, last: Done, now: Done) {
        use Operation::{Import, Rewrite, Squeeze, Sweep};
        let pair = (last.operation, last.changed, now.operation, now.changed);
        let class = match pair {
            (Import, _, Rewrite, _) => "an import, then a rewriting",
            (Import, _, Sweep, true) => "an import, then a sweep that removes",
            (Import, _, Squeeze, true) => "an import, then a squeeze that moves",
            (Rewrite, _, Sweep, true) => "a rewriting, then a sweep that removes",
            (Rewrite, _, Squeeze, true) => "a rewriting, then a squeeze that moves",
            (Sweep, true, Squeeze, true) => "a sweep that removes, then a squeeze that moves",
            (Sweep, true, Rewrite, _) => "a sweep that removes, then a rewriting",
            (Squeeze, true, Rewrite, _) => "a squeeze that moves, then a rewriting",
            (Squeeze, true, Sweep, true) => "a squeeze that moves, then a sweep that removes",
            (Squeeze, false, Rewrite, _) => "a squeeze that moves nothing, then a rewriting",
            (Sweep, _, Sweep, _) => "a second sweep at once",
            (Squeeze, _, Squeeze, _) => "a second squeeze at once",
            _ => return,
        };
        self.see(class, true);
    }

    fn follow_rewriting(&mut self, old: &[u8], new: &[u8]) {
        let imported = self.done[0].operation == Operation::Import;
        let mut slots = 0..self.slots.len();
        let goes_up = slots.any(|slot| {
            vertex(old, slot) == vertex(new, slot) && count(old, slot) < count(new, slot)
        });
        self.see("an import, and a count goes up later", imported && goes_up);
        let (was_live, is_live) = (live(old), live(new));
        for slot in 0..self.slots.len() {
            let Slot { freed_by, cut_off } = self.slots[slot];
            let taken = is_empty(old, slot) && !is_empty(new, slot);
            self.see(
                "a rewriting takes a slot that a sweep freed",
                taken && freed_by == Some(Operation::Sweep),
            );
            self.see(
                "a rewriting takes a slot that a squeeze left",
                taken && freed_by == Some(Operation::Squeeze),
            );
            let stays = vertex(old, slot) == vertex(new, slot);
            let cut = was_live[slot] && !is_live[slot] && stays;
            self.slots[slot].cut_off = cut || cut_off && !is_live[slot];
        }
        self.note_freed(Operation::Rewrite, old, new);
    }

    fn follow_sweep(&mut self, old: &[u8], new: &[u8]) {
        for slot in 0..self.slots.len() {
            let removed = !is_empty(old, slot) && is_empty(new, slot);
            let cut_off = self.slots[slot].cut_off;
            self.see("a rewriting cuts a vertex off, and a sweep removes it", removed && cut_off);
            self.slots[slot].cut_off = false;
        }
        self.note_freed(Operation::Sweep, old, new);
        if let Some(refused) = &mut self.refused {
            refused.swept |= old != new;
        }
    }

    /// Numbers are others now, so that a refusal before says nothing more.
    fn follow_squeeze(&mut self, old: &[u8], new: &[u8]) {
        self.slots.iter_mut().for_each(|slot| slot.cut_off = false);
        self.note_freed(Operation::Squeeze, old, new);
        self.squeezes += usize::from(old != new);
        self.see("two squeezes that move", self.squeezes > 1);
        self.refused = None;
    }

    fn note_freed(&mut self, operation: Operation, old: &[u8], new: &[u8]) {
        for slot in 0..self.slots.len() {
            if is_empty(old, slot) != is_empty(new, slot) {
                self.slots[slot].freed_by = is_empty(new, slot).then_some(operation);
            }
        }
    }

    /// A rewriting was replied to, done or not, with this match.
    pub fn rewritten(&mut self, rewriting: Rewriting, number: u64, images: Option<Images>) {
        if number != 0 {
            self.refused = Some(Refused { rewriting, number, images, swept: false });
            return;
        }
        let Some(before) = self.refused.take() else {
            return;
        };
        if before.rewriting == rewriting && before.swept {
            self.see(
                "no room, and room for the same match after a sweep",
                before.number == 6 && before.images == images,
            );
            self.see("no match, and one after a sweep", before.number == 4);
        }
    }
}

/// The record without its count.
fn vertex(block: &[u8], slot: usize) -> &[u8] {
    &block[HEADER + RECORD * slot..][..COUNT]
}

fn is_empty(block: &[u8], slot: usize) -> bool {
    vertex(block, slot)[0] == 0
}

fn count(block: &[u8], slot: usize) -> u16 {
    let at = HEADER + RECORD * slot + COUNT;
    u16::from_le_bytes([block[at], block[at + 1]])
}

/// No slot of a table that is not sound.
fn live(block: &[u8]) -> Slots {
    Graph::parse(block).map_or([false; MAX_SLOTS], live_slots)
}
