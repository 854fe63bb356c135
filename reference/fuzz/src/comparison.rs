//! Calls both programs with the same arguments and looks for a difference.

use std::fmt;

use leafgraph_proved::guarded::Guarded;
use leafgraph_reference::graph::Graph;
use leafgraph_reference::matching::read_map;
use leafgraph_reference::reply::{number_of, value_of};
use leafgraph_reference::rules::Rules;
use leafgraph_reference::stage::Stage;

use crate::input::Input;
use crate::judgement::{Cleaned, Imported, Listed, Rewriting};
use crate::library::{Lent, Library, Operation, OPERATIONS, SECOND};
use crate::tally::Tally;

/// A call that did not go as it should.
#[derive(Debug)]
pub struct Difference {
    pub operation: Operation,
    /// Which call of those on one graph it is, counted from 0.
    pub step: usize,
    pub faults: Vec<String>,
    /// The arguments, in words.
    arguments: String,
}

impl fmt::Display for Difference {
    fn fmt(&self, text: &mut fmt::Formatter) -> fmt::Result {
        writeln!(text, "DIFFERENCE in {} (step {})", self.operation.name(), self.step)?;
        for fault in &self.faults {
            writeln!(text, "  {fault}")?;
        }
        write!(text, "{}", self.arguments)
    }
}

/// What is done at the end with the graph that the rewritings leave.
const CLEANED: [Operation; 4] =
    [Operation::Sweep, Operation::Squeeze, Operation::Rewrite, Operation::WriteListing];

/// What is compared: a library and the second program beside it.
#[derive(Clone, Copy)]
pub struct Programs<'a> {
    pub library: &'a Library,
    pub second: &'a Library,
}

/// Compares this library with the second program at its own stage.
pub fn compare(library: &Library, bytes: &[u8], tally: &mut Tally) -> Result<(), Difference> {
    compare_programs(Programs { library, second: &SECOND }, bytes, tally)
}

/// Cuts the bytes and makes all calls, and once more with the graph in the other
/// version: of one version the import takes it, of the other all else.
pub fn compare_programs(
    programs: Programs,
    bytes: &[u8],
    tally: &mut Tally,
) -> Result<(), Difference> {
    let input = Input::cut(bytes);
    let other = input.in_other_version();
    let mut inputs = [Some(input), other].into_iter().flatten();
    inputs.try_for_each(|input| input.compare_all(programs, tally))
}

impl Input {
    /// All ten calls, and questions about the match where there is one; further
    /// rewritings of the graph if the input asks for them. Then the graph that is left
    /// is swept, squeezed, rewritten once more and listed.
    fn compare_all(mut self, programs: Programs, tally: &mut Tally) -> Result<(), Difference> {
        for operation in OPERATIONS.into_iter().filter(|&one| one != Operation::Rewrite) {
            self.compare(programs, operation, 0, tally)?;
        }
        self.compare_questions(programs, tally)?;
        for step in 0..=self.further {
            match self.compare(programs, Operation::Rewrite, step, tally)? {
                Some(graph) => self.graph = graph,
                None => break,
            }
        }
        for (step, operation) in (self.further + 1..).zip(CLEANED) {
            if let Some(graph) = self.compare(programs, operation, step, tally)? {
                self.graph = graph;
            }
        }
        Ok(())
    }

    /// Whether each vertex of the match that a search finds is read elsewhere, and the
    /// vertex of the input's own number.
    fn compare_questions(&self, programs: Programs, tally: &mut Tally) -> Result<(), Difference> {
        let found = self.expected(programs.second, Operation::FindMatch);
        if found.reply != 0 {
            return Ok(());
        }
        let vertices = self.matched_vertices(&found.map);
        let mut asked = Input { map: found.map, ..self.clone() };
        for vertex in (0..vertices).chain([self.start]) {
            asked.start = vertex;
            asked.compare(programs, Operation::IsReadElsewhere, 0, tally)?;
        }
        Ok(())
    }

    /// How many source vertices the rule of this match has.
    fn matched_vertices(&self, map: &[u8]) -> usize {
        let rules = Rules::parse(Stage::Eight, &self.rule);
        let (Ok(graph), Ok(rules)) = (Graph::parse(&self.graph), &rules) else {
            return 0;
        };
        let rule = rules.rule_of_match(graph, &read_map(map));
        rule.map_or(0, |rule| rule.source_count())
    }

    /// The new graph, where the call writes it and is done.
    fn compare(
        &self,
        programs: Programs,
        operation: Operation,
        step: usize,
        tally: &mut Tally,
    ) -> Result<Option<Vec<u8>>, Difference> {
        let Programs { library, second } = programs;
        let call = self.call(library, operation);
        let expected = self.expected(second, operation);
        tally.record(operation, expected.reply);
        let mut faults = call.faults(self, &expected, &self.buffer_for(operation));
        if number_of(expected.reply) == 0 {
            faults.extend(self.judge(library, operation, &expected));
        }
        if !faults.is_empty() {
            return Err(Difference { operation, step, faults, arguments: self.describe() });
        }
        let writes = operation.writes_graph() && expected.reply == 0;
        Ok(writes.then_some(expected.graph))
    }

    /// What is wrong with a call that is done, whatever the library says.
    fn judge(&self, library: &Library, operation: Operation, done: &Expected) -> Vec<String> {
        let (old, rule, new) = (&self.graph, &self.rule, &done.graph);
        match operation {
            Operation::Rewrite => {
                let rewriting = Rewriting { old, new, rule, map: &done.map };
                rewriting.faults(library, self.seed)
            }
            Operation::Sweep => Cleaned { old, new, list: None }.faults(library, self.seed),
            Operation::Squeeze => {
                let list = Some(done.list.as_slice());
                Cleaned { old, new, list }.faults(library, self.seed)
            }
            Operation::Import => Imported { old, new }.faults(library),
            Operation::WriteListing => {
                let text = &done.buffer[..value_of(done.reply) as usize];
                Listed { graph: old, text }.faults(library)
            }
            Operation::ReadListing => {
                Listed { graph: &done.buffer, text: &self.text }.faults(library)
            }
            Operation::CheckGraph
            | Operation::CheckRule
            | Operation::FindMatch
            | Operation::IsReadElsewhere => vec![],
        }
    }

    /// The buffer of this operation, if it is about listings.
    fn buffer_for(&self, operation: Operation) -> Vec<u8> {
        match operation {
            Operation::WriteListing => self.text_buffer(),
            Operation::ReadListing => self.graph_buffer(),
            _ => vec![],
        }
    }

    fn call(&self, library: &Library, operation: Operation) -> Call {
        let [graph, rule, map, list, text, buffer] = self.shifts;
        let mut call = Call {
            reply: 0,
            graph: Guarded::new(&self.graph, graph),
            rule: Guarded::new(&self.rule, rule),
            map: Guarded::new(&self.map, map),
            list: Guarded::new(&self.list, list),
            text: Guarded::new(&self.text, text),
            buffer: Guarded::new(&self.buffer_for(operation), buffer),
        };
        let lent = Lent {
            graph: call.graph.lend(),
            rule: call.rule.lend(),
            map: call.map.lend(),
            list: call.list.lend(),
            text: call.text.lend(),
            buffer: call.buffer.lend(),
        };
        call.reply = library.call(operation, lent, self.start);
        call
    }

    fn expected(&self, second: &Library, operation: Operation) -> Expected {
        let (mut graph, mut rule) = (self.graph.clone(), self.rule.clone());
        let (mut map, mut list) = (self.map.clone(), self.list.clone());
        let (mut text, mut buffer) = (self.text.clone(), self.buffer_for(operation));
        let lent = Lent {
            graph: &mut graph,
            rule: &mut rule,
            map: &mut map,
            list: &mut list,
            text: &mut text,
            buffer: &mut buffer,
        };
        let reply = second.call(operation, lent, self.start);
        Expected { reply, graph, map, list, buffer }
    }

    fn describe(&self) -> String {
        let blocks = [
            ("graph", &self.graph),
            ("rule", &self.rule),
            ("map", &self.map),
            ("list", &self.list),
            ("text", &self.text),
        ];
        let blocks = blocks.map(|(name, block)| {
            let hex: String = block.iter().map(|byte| format!("{byte:02x}")).collect();
            format!("  {name} before, {} bytes: {hex}\n", block.len())
        });
        format!("  start or vertex {}\n{}", self.start, blocks.concat())
    }
}

/// What the library made of a call.
struct Call {
    reply: u64,
    graph: Guarded,
    rule: Guarded,
    map: Guarded,
    list: Guarded,
    text: Guarded,
    buffer: Guarded,
}

/// What the second program made of it.
struct Expected {
    reply: u64,
    graph: Vec<u8>,
    map: Vec<u8>,
    list: Vec<u8>,
    buffer: Vec<u8>,
}

impl Call {
    /// The last block is what the operation's buffer held.
    fn faults(&self, input: &Input, expected: &Expected, buffer: &Vec<u8>) -> Vec<String> {
        let mut faults = vec![];
        if self.reply != expected.reply {
            let (library, second) = (self.reply, expected.reply);
            faults
                .push(format!("the library replies {library:#x}, the second program {second:#x}"));
        }
        let blocks = [
            ("graph", &self.graph, &expected.graph, &input.graph),
            ("rule", &self.rule, &input.rule, &input.rule),
            ("map", &self.map, &expected.map, &input.map),
            ("list", &self.list, &expected.list, &input.list),
            ("text", &self.text, &input.text, &input.text),
            ("buffer", &self.buffer, &expected.buffer, buffer),
        ];
        for (name, lent, expected, before) in blocks {
            faults.extend(lent.overwritten().map(|at| {
                format!("the library wrote outside the {name}, at {at} from its first byte")
            }));
            faults.extend(
                first_difference(lent.bytes(), expected)
                    .map(|at| format!("{name} after, {at}; the library's byte stands first")),
            );
            if number_of(self.reply) != 0 && lent.bytes() != before {
                faults.push(format!("the library refuses, and has written the {name}"));
            }
        }
        faults
    }
}

/// Where two blocks of the same length differ, in words.
fn first_difference(left: &[u8], right: &[u8]) -> Option<String> {
    let at = left.iter().zip(right).position(|(left, right)| left != right)?;
    let count = left.iter().zip(right).filter(|(left, right)| left != right).count();
    let (left, right) = (left[at], right[at]);
    Some(format!("{count} bytes differ, the first at {at}: {left:#04x} and {right:#04x}"))
}
