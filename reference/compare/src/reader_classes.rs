//! What was asked about matches, so that the comparison can show that it was not
//! empty. All of it is taken from the second program's answer.

use leafgraph_reference::graph::{Graph, MAX_SLOTS};
use leafgraph_reference::matching::{least_match, read_map, Images};
use leafgraph_reference::operators::{CONST, VARIABLE, WILDCARD};
use leafgraph_reference::reply::{number_of, value_of};
use leafgraph_reference::rule::{Rule, MAX_VERTICES};

use crate::namers::{Match, Namer, Naming};
use crate::readers::Question;
use crate::tally::Class;

/// Every class must occur, and those of `OUTPUT_YES`, `CONST_YES` and `NO_VERTEX`.
/// An interior vertex is one that must be private, which a Const need not be; so the
/// answer to it is always no. A source output is read by no source vertex, so that
/// nothing at all names its image where the answer is no.
const ANSWERS: [&str; 23] = [
    "interior, no",
    "interior, no, in two places of one reader",
    "interior, no, several readers",
    "output, no",
    "output, yes",
    "Const, no",
    "Const, no, in two places of one reader",
    "Const, no, several readers",
    "Const, yes",
    "Const, yes, in two places of one reader of the match",
    "yes, a count of two bytes",
    "yes, 256 places outside",
    "first of two outputs, no",
    "first of two outputs, yes",
    "second of two outputs, no",
    "second of two outputs, yes",
    "a match that is not the least, no",
    "a match that is not the least, yes",
    "a match that no search finds",
    "largest graph, no",
    "largest graph, yes",
    "largest source, no",
    "largest source, yes",
];

/// Why the answer is yes. By some namer "alone": it would be no if namers of this
/// sort were forgotten.
const OUTPUT_YES: [&str; 7] = [
    "output, yes by a graph output alone",
    "output, yes by a vertex alone",
    "output, yes by a vertex that reaches no output alone",
    "output, yes by the image of a rule input alone",
    "output, yes by a graph output and a reader",
    "output, yes by one place",
    "output, yes by two places of one reader",
];

/// The same of a Const.
const CONST_YES: [&str; 7] = [
    "Const, yes by a graph output alone",
    "Const, yes by a vertex alone",
    "Const, yes by a vertex that reaches no output alone",
    "Const, yes by the image of a rule input alone",
    "Const, yes by a graph output and a reader",
    "Const, yes by one place",
    "Const, yes by two places of one reader",
];

/// Numbers of which there is no such vertex. "If cut": the lowest bits are the number
/// of one.
const NO_VERTEX: [&str; 9] = [
    "42, a wildcard",
    "42, a Variable",
    "42, S",
    "42, a place of the map above S",
    "42, the number of places of the map",
    "42, a vertex if cut to 8 bits",
    "42, a vertex if cut to 16 bits",
    "42, a vertex if cut to 32 bits",
    "42, the highest number",
];

pub fn all_classes() -> Vec<&'static str> {
    [&ANSWERS[..], &OUTPUT_YES, &CONST_YES, &NO_VERTEX].concat()
}

/// The classes of a question about a match.
pub fn matched(question: &Question, reply: u64) -> Vec<Class> {
    let (Ok(graph), Ok(rule)) = (Graph::parse(question.graph), Rule::parse(question.rule)) else {
        return vec![];
    };
    if number_of(reply) == 42 {
        return no_vertex(rule, question.vertex);
    }
    let images = read_map(question.map);
    let (vertex, image) = (question.vertex as u8, images[question.vertex]);
    let naming = Match::new(graph, rule, &images).naming(image);
    let count = graph.slot(image.into()).count().into();
    let yes = value_of(reply) == 1;
    let answered = Answered { graph, rule, images: &images, vertex, naming, count, yes };
    let why = match answered.role() {
        Role::Output if yes => answered.reasons(OUTPUT_YES),
        Role::Const if yes => answered.reasons(CONST_YES),
        _ => vec![],
    };
    [answered.roles(), answered.sizes(), answered.matches(), why].concat()
}

fn no_vertex(rule: Rule, number: usize) -> Vec<Class> {
    let sources = rule.source_count();
    let kind = |kind: u8| number < sources && rule.source(number).kind() == kind;
    let cut = |bits: u32| {
        let low = number & ((1 << bits) - 1);
        number > low && low < sources && !rule.source(low).is_input_kind()
    };
    let holds = [
        kind(WILDCARD),
        kind(VARIABLE),
        number == sources,
        (sources + 1..MAX_VERTICES).contains(&number),
        number == MAX_VERTICES,
        cut(8) && !cut(16),
        cut(16) && !cut(32),
        cut(32),
        number == usize::MAX,
    ];
    NO_VERTEX.into_iter().zip(holds).collect()
}

/// What a non-input source vertex is in its rule.
#[derive(Clone, Copy, PartialEq, Eq)]
enum Role {
    Interior,
    Output,
    Const,
}

/// A question that was answered.
struct Answered<'a> {
    graph: Graph<'a>,
    rule: Rule<'a>,
    images: &'a Images,
    vertex: u8,
    naming: Naming,
    /// The stored count of the image.
    count: usize,
    yes: bool,
}

impl Answered<'_> {
    fn role(&self) -> Role {
        if self.rule.source(self.vertex.into()).kind() == CONST {
            return Role::Const;
        }
        match self.rule.source_outputs().any(|output| output == self.vertex) {
            true => Role::Output,
            false => Role::Interior,
        }
    }

    fn roles(&self) -> Vec<Class> {
        let (role, yes) = (self.role(), self.yes);
        let is = |wanted: Role, answer: bool| role == wanted && yes == answer;
        let Naming { inner_readers, inner_reads, .. } = self.naming;
        let (twice, several) = (inner_reads > inner_readers, inner_readers > 1);
        vec![
            ("interior, no", is(Role::Interior, false)),
            ("interior, no, in two places of one reader", is(Role::Interior, false) && twice),
            ("interior, no, several readers", is(Role::Interior, false) && several),
            ("output, no", is(Role::Output, false)),
            ("output, yes", is(Role::Output, true)),
            ("Const, no", is(Role::Const, false)),
            ("Const, no, in two places of one reader", is(Role::Const, false) && twice),
            ("Const, no, several readers", is(Role::Const, false) && several),
            ("Const, yes", is(Role::Const, true)),
            (
                "Const, yes, in two places of one reader of the match",
                is(Role::Const, true) && twice,
            ),
            ("yes, a count of two bytes", yes && self.count > 255),
            ("yes, 256 places outside", self.count - inner_reads == 256),
        ]
    }

    /// Why the answer is yes, by these names.
    fn reasons(&self, names: [&'static str; 7]) -> Vec<Class> {
        let only = |namer: Namer| self.naming.is_outside_only_by(namer);
        let outside = self.count - self.naming.inner_reads;
        let holds = [
            only(Namer::Output),
            only(Namer::Vertex),
            only(Namer::DeadVertex),
            only(Namer::RuleInput),
            self.naming.is_read_and_output(),
            outside == 1,
            outside > self.naming.outside.len(),
        ];
        names.into_iter().zip(holds).collect()
    }

    fn sizes(&self) -> Vec<Class> {
        let (yes, two) = (self.yes, self.rule.output_count() == 2);
        let place = |place: usize| two && self.rule.source_output(place) == self.vertex;
        let graph = self.graph.slot_count() == MAX_SLOTS;
        let source = self.rule.source_count() == MAX_VERTICES;
        vec![
            ("first of two outputs, no", place(0) && !yes),
            ("first of two outputs, yes", place(0) && yes),
            ("second of two outputs, no", place(1) && !yes),
            ("second of two outputs, yes", place(1) && yes),
            ("largest graph, no", graph && !yes),
            ("largest graph, yes", graph && yes),
            ("largest source, no", source && !yes),
            ("largest source, yes", source && yes),
        ]
    }

    /// Where a search starts at the first output's image, it finds the match with
    /// this image and the least second one.
    fn matches(&self) -> Vec<Class> {
        let finds = |start| least_match(self.graph, self.rule, start).as_ref() == Some(self.images);
        let first = self.images[usize::from(self.rule.source_output(0))];
        let least = finds(0);
        vec![
            ("a match that is not the least, no", !least && !self.yes),
            ("a match that is not the least, yes", !least && self.yes),
            ("a match that no search finds", !least && !finds(first.into())),
        ]
    }
}
