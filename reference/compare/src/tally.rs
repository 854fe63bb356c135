//! What was seen of one operation, and the verdict on it.

use std::collections::BTreeMap;
use std::fmt::Write;
use std::ops::RangeInclusive;

use leafgraph_reference::reply::{number_of, place_of, value_of};

/// The least share of calls, in percent, that must be done: a comparison that
/// only sees refusals shows nothing.
const LEAST_DONE: u64 = 15;

/// The numbers of refusals that are given to sound blocks with a map of the
/// right length.
const REFUSED_AFTER_CHECKS: RangeInclusive<u8> = 4..=7;

/// The fault of lent bytes that are not what they should be.
pub const CHANGED: &str = "lent bytes are not what they should be after the call";

/// A number that is given to a call, by name: where a search starts, or a vertex.
type Number = (&'static str, usize);

/// The first call on which the two programs differ.
struct Difference {
    call: u64,
    origin: &'static str,
    proved: u64,
    reference: u64,
    faults: Vec<&'static str>,
    number: Option<Number>,
    bytes: Vec<(&'static str, Vec<u8>)>,
}

/// One call and what came of it.
pub struct Call<'a> {
    pub origin: &'static str,
    pub proved: u64,
    pub reference: u64,
    /// What is wrong although the replies may be the same.
    pub faults: Vec<&'static str>,
    /// What is given beside lent bytes, if anything is.
    pub number: Option<Number>,
    /// Bytes that tell a reader about a difference, by name.
    pub bytes: &'a [(&'static str, &'a [u8])],
}

/// A class of calls, and whether a call is of it.
pub type Class = (&'static str, bool);

#[derive(Default)]
struct Side {
    calls: u64,
    done: u64,
}

pub struct Tally {
    name: &'static str,
    /// The least share of the calls with good arguments, in percent, that must
    /// be done.
    least_accepted: u64,
    calls: u64,
    differences: u64,
    first: Option<Difference>,
    /// Calls by the number in the reply.
    proved: BTreeMap<u8, u64>,
    reference: BTreeMap<u8, u64>,
    origins: BTreeMap<&'static str, Side>,
    classes: Vec<(&'static str, u64)>,
}

impl Tally {
    /// All of these numbers must be replied, and calls of each of these classes
    /// must be seen, or else the comparison has missed something.
    pub fn new(name: &'static str, numbers: &[u8], classes: &[&'static str]) -> Tally {
        Tally {
            name,
            least_accepted: 0,
            calls: 0,
            differences: 0,
            first: None,
            proved: BTreeMap::new(),
            reference: numbers.iter().map(|&number| (number, 0)).collect(),
            origins: BTreeMap::new(),
            classes: classes.iter().map(|&class| (class, 0)).collect(),
        }
    }

    pub fn with_least_accepted(self, percent: u64) -> Tally {
        Tally { least_accepted: percent, ..self }
    }

    pub fn calls(&self) -> u64 {
        self.calls
    }

    /// Counts a call of one of the classes named at the start.
    pub fn count(&mut self, class: &'static str) {
        let known = self.classes.iter_mut().find(|(name, _)| *name == class);
        known.expect("a class named at the start").1 += 1;
    }

    /// Counts a call in those of the classes that it is of.
    pub fn count_all(&mut self, classes: &[Class]) {
        for (class, _) in classes.iter().filter(|(_, holds)| *holds) {
            self.count(class);
        }
    }

    pub fn record(&mut self, call: Call) {
        self.calls += 1;
        *self.proved.entry(number_of(call.proved)).or_default() += 1;
        *self.reference.entry(number_of(call.reference)).or_default() += 1;
        let origin = self.origins.entry(call.origin).or_default();
        origin.calls += 1;
        origin.done += u64::from(number_of(call.reference) == 0);
        if call.proved == call.reference && call.faults.is_empty() {
            return;
        }
        self.differences += 1;
        if self.first.is_none() {
            let bytes = call.bytes.iter().map(|&(name, bytes)| (name, bytes.to_vec()));
            self.first = Some(Difference {
                call: self.calls,
                origin: call.origin,
                proved: call.proved,
                reference: call.reference,
                faults: call.faults,
                number: call.number,
                bytes: bytes.collect(),
            });
        }
    }

    fn done(&self) -> u64 {
        self.reference.get(&0).copied().unwrap_or(0)
    }

    /// Calls whose arguments were good, whatever came of them.
    fn sound(&self) -> u64 {
        let refused = self.reference.range(REFUSED_AFTER_CHECKS);
        self.done() + refused.map(|(_, count)| count).sum::<u64>()
    }

    fn has_enough_done(&self) -> bool {
        self.done() * 100 >= self.calls * LEAST_DONE
            && self.done() * 100 >= self.sound() * self.least_accepted
    }

    /// Replies and classes that must occur and did not.
    fn missing(&self) -> Vec<String> {
        let replies = self.reference.iter().filter(|(_, &count)| count == 0);
        let classes = self.classes.iter().filter(|(_, count)| *count == 0);
        let replies = replies.map(|(number, _)| format!("reply {number}"));
        replies.chain(classes.map(|(class, _)| class.to_string())).collect()
    }

    pub fn passes(&self) -> bool {
        self.differences == 0 && self.has_enough_done() && self.missing().is_empty()
    }

    /// The summary, the first difference included.
    pub fn report(&self) -> String {
        let mut text = format!("{}: {} calls\n", self.name, self.calls);
        for (side, replies) in [("proved", &self.proved), ("reference", &self.reference)] {
            let counts: Vec<String> =
                replies.iter().map(|(number, count)| format!("{number}: {count}")).collect();
            writeln!(text, "  replies, {side:9}  {}", counts.join(", ")).expect("text");
        }
        for (origin, side) in &self.origins {
            let (calls, done) = (side.calls, side.done);
            writeln!(text, "  {origin}: {calls} calls, {done} done").expect("text");
        }
        for (class, count) in &self.classes {
            writeln!(text, "  {class}: {count}").expect("text");
        }
        self.report_faults(&mut text);
        text
    }

    fn report_faults(&self, text: &mut String) {
        if !self.has_enough_done() {
            let (done, sound, least) = (self.done(), self.sound(), self.least_accepted);
            writeln!(text, "  only {done} calls are done, under {LEAST_DONE} % of all or")
                .expect("text");
            writeln!(text, "  under {least} % of the {sound} with good arguments").expect("text");
        }
        for class in self.missing() {
            writeln!(text, "  never seen: {class}").expect("text");
        }
        writeln!(text, "  differences: {}", self.differences).expect("text");
        if let Some(first) = &self.first {
            first.describe(text);
        }
    }
}

impl Difference {
    fn describe(&self, text: &mut String) {
        writeln!(text, "  first difference: call {}, {}", self.call, self.origin).expect("text");
        for (side, reply) in [("proved", self.proved), ("reference", self.reference)] {
            let (number, place, value) = (number_of(reply), place_of(reply), value_of(reply));
            writeln!(text, "  {side} replies {number}, place {place}, value {value} ({reply:#x})")
                .expect("text");
        }
        for fault in &self.faults {
            writeln!(text, "  {fault}").expect("text");
        }
        if let Some((name, number)) = self.number {
            writeln!(text, "  {name} {number}").expect("text");
        }
        for (name, bytes) in &self.bytes {
            writeln!(text, "  {name}, {} bytes:", bytes.len()).expect("text");
            for (line, row) in bytes.chunks(16).enumerate() {
                let row: Vec<String> = row.iter().map(|byte| format!("{byte:02x}")).collect();
                writeln!(text, "    {:5}  {}", 16 * line, row.join(" ")).expect("text");
            }
        }
    }
}
