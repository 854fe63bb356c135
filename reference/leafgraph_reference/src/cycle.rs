//! "No vertex has a path of one or more edges to itself." Whether one has is
//! told by one walk over the whole graph; which slots have one, by a search for
//! each of them.

use crate::graph::{Graph, MAX_SLOTS};

#[derive(Clone, Copy, PartialEq, Eq)]
enum State {
    /// Not looked at yet.
    New,
    /// On the path being walked.
    Open,
    /// No cycle goes through it.
    Settled,
}

/// A walk against the edges, from readers to inputs. The path is kept in a
/// local array because a chain of 512 slots is a sound graph and recursion
/// that deep costs stack.
struct Walk {
    states: [State; MAX_SLOTS],
    path: [(u16, u8); MAX_SLOTS],
    depth: usize,
}

/// Whether some vertex, read or not, has a path to itself. All inputs must
/// name slots below N.
pub fn has_cycle(graph: Graph) -> bool {
    let mut walk = Walk { states: [State::New; MAX_SLOTS], path: [(0, 0); MAX_SLOTS], depth: 0 };
    (0..graph.slot_count()).any(|slot| walk.meets_cycle(graph, slot as u16))
}

impl Walk {
    /// Settles all that the root reads, or meets a slot on the path again.
    fn meets_cycle(&mut self, graph: Graph, root: u16) -> bool {
        if self.states[usize::from(root)] == State::Settled {
            return false;
        }
        self.open(root);
        while self.depth > 0 {
            let (number, next) = self.path[self.depth - 1];
            let slot = graph.slot(usize::from(number));
            if usize::from(next) == slot.input_count() {
                self.states[usize::from(number)] = State::Settled;
                self.depth -= 1;
                continue;
            }
            self.path[self.depth - 1].1 = next + 1;
            let input = slot.input(usize::from(next));
            match self.states[usize::from(input)] {
                State::Open => return true,
                State::Settled => {}
                State::New => self.open(input),
            }
        }
        false
    }

    fn open(&mut self, number: u16) {
        self.states[usize::from(number)] = State::Open;
        self.path[self.depth] = (number, 0);
        self.depth += 1;
    }
}

/// "for a cycle, the lowest slot on one". A slot that only reads from a cycle,
/// or is only read by one, is not on it. All inputs must name slots below N.
pub fn lowest_on_cycle(graph: Graph) -> Option<usize> {
    // Of most graphs no slot is searched from.
    if !has_cycle(graph) {
        return None;
    }
    (0..graph.slot_count()).find(|&slot| reads_itself(graph, slot))
}

/// Whether a slot is met again on the way from it to its inputs, to theirs and
/// so on.
fn reads_itself(graph: Graph, slot: usize) -> bool {
    let mut seen = [false; MAX_SLOTS];
    let mut open = vec![slot];
    while let Some(reader) = open.pop() {
        for input in graph.slot(reader).inputs().map(usize::from) {
            if input == slot {
                return true;
            }
            if !std::mem::replace(&mut seen[input], true) {
                open.push(input);
            }
        }
    }
    false
}
