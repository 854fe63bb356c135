//! What must hold of a call that is done, whatever the other program says: the new
//! table is sound for both programs, and its counts are true; of a rewriting, demand
//! 3; of a sweep and a squeeze, what request 4/13 says of them; of an import, that
//! no other byte changes; of a listing, that graph and text are each other's.

use leafgraph_reference::cleanup::{squeeze_faults, sweep_faults};
use leafgraph_reference::graph::Graph;
use leafgraph_reference::matching::read_map;
use leafgraph_reference::meaning::Meaning;
use leafgraph_reference::random::Random;
use leafgraph_reference::recount::{count_faults, import_faults};
use leafgraph_reference::results::Accepted;
use leafgraph_reference::rules::Rules;
use leafgraph_reference::squeeze::NOWHERE;
use leafgraph_reference::stage::Stage;

use crate::library::{Library, SECOND};

/// An accepted rewriting in bytes.
pub struct Rewriting<'a> {
    pub old: &'a [u8],
    pub new: &'a [u8],
    pub rule: &'a [u8],
    pub map: &'a [u8],
}

impl Rewriting<'_> {
    /// What is wrong with it.
    pub fn faults(&self, library: &Library, seed: u64) -> Vec<String> {
        let mut faults = unsound_for(library, self.new);
        let rules = Rules::parse(Stage::Eight, self.rule);
        let (Ok(old), Ok(new), Ok(rules)) =
            (Graph::parse(self.old), Graph::parse(self.new), &rules)
        else {
            faults.push("a rewriting of blocks that are not sound was accepted".into());
            return faults;
        };
        let images = read_map(self.map);
        let Some(rule) = rules.rule_of_match(old, &images) else {
            faults.push("a rewriting was accepted, and its map is no match".into());
            return faults;
        };
        let accepted = Accepted { old, new, rule, images: &images };
        let mut random = Random::new(seed);
        let lawless = Meaning::lawless(random.number());
        let lawful = Meaning::lawful(random.number());
        for (name, mut meaning) in [("without laws", lawless), ("with laws", lawful)] {
            let verdict = accepted.judge(&mut meaning, &mut random);
            let halves = [verdict.first_half_holds(), verdict.second_half_holds()];
            for (half, holds) in ["first", "second"].into_iter().zip(halves) {
                if !holds {
                    faults.push(format!("demand 3, {half} half, fails in a meaning {name}"));
                }
            }
        }
        faults
    }
}

/// The programs that refuse a new table, and that its counts are wrong.
fn unsound_for(library: &Library, new: &[u8]) -> Vec<String> {
    let programs = [("the library", library), ("the second program", &SECOND)];
    let refusing = programs.into_iter().filter(|(_, one)| (one.check_graph)(new) != 0);
    let refusing = refusing.map(|(name, _)| format!("the new graph is not sound for {name}"));
    refusing.chain(count_faults(new).into_iter().map(String::from)).collect()
}

/// An import that is done, in bytes.
pub struct Imported<'a> {
    pub old: &'a [u8],
    pub new: &'a [u8],
}

impl Imported<'_> {
    /// What is wrong with it.
    pub fn faults(&self, library: &Library) -> Vec<String> {
        let mut faults = unsound_for(library, self.new);
        faults.extend(import_faults(self.old, self.new).into_iter().map(String::from));
        let mut again = self.new.to_vec();
        if (library.import)(&mut again) != 20 || again != self.new {
            faults.push("a second import is not refused with 20, or writes".into());
        }
        faults
    }
}

/// A graph and its listing, of which one was given and the other is what was made of it.
pub struct Listed<'a> {
    pub graph: &'a [u8],
    pub text: &'a [u8],
}

impl Listed<'_> {
    /// What is wrong with them.
    pub fn faults(&self, library: &Library) -> Vec<String> {
        let mut faults = unsound_for(library, self.graph);
        // No byte is right before, so that each has to be written.
        let mut graph: Vec<u8> = self.graph.iter().map(|byte| !byte).collect();
        if (library.read_listing)(self.text, &mut graph) != 0 || graph != self.graph {
            faults.push("the library does not read the text as this graph".into());
        }
        let mut text: Vec<u8> = self.text.iter().map(|byte| !byte).collect();
        let reply = (library.write_listing)(self.graph, &mut text);
        if reply != (text.len() as u64) << 40 || text != self.text {
            faults.push("the library does not write the graph as this text".into());
        }
        faults
    }
}

/// A sweep or a squeeze that is done, in bytes.
pub struct Cleaned<'a> {
    pub old: &'a [u8],
    pub new: &'a [u8],
    /// The list of a squeeze.
    pub list: Option<&'a [u8]>,
}

impl Cleaned<'_> {
    /// What is wrong with it.
    pub fn faults(&self, library: &Library, seed: u64) -> Vec<String> {
        let mut faults = unsound_for(library, self.new);
        let (Ok(old), Ok(new)) = (Graph::parse(self.old), Graph::parse(self.new)) else {
            faults.push("a graph that is not sound was not refused".into());
            return faults;
        };
        let mut meaning = Meaning::lawless(seed);
        let told = match self.list {
            Some(list) => squeeze_faults(old, new, list, &mut meaning),
            None => sweep_faults(old, new, &mut meaning),
        };
        faults.extend(told.into_iter().map(String::from));
        if !self.is_settled(library, new) {
            faults.push("the same call once more changes something".into());
        }
        faults
    }

    /// Whether the library leaves the new table as it is, and a squeeze says so.
    fn is_settled(&self, library: &Library, new: Graph) -> bool {
        let mut again = self.new.to_vec();
        let said = match self.list {
            Some(_) => {
                let right = staying(new);
                // No byte is right before, so that each has to be written.
                let mut list: Vec<u8> = right.iter().map(|byte| !byte).collect();
                (library.squeeze)(&mut again, &mut list) == 0 && list == right
            }
            None => (library.sweep)(&mut again) == 0,
        };
        said && again == self.new
    }
}

/// The list of a squeeze that moves nothing.
fn staying(graph: Graph) -> Vec<u8> {
    let numbers = graph.slots().zip(0..).map(|(slot, own)| match slot.is_empty() {
        true => NOWHERE,
        false => own,
    });
    numbers.flat_map(u16::to_le_bytes).collect()
}
