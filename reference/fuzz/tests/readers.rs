//! The comparison notices programs that get request 6/13 wrong: each one here is the
//! proved library with one thing spoilt.

use leafgraph_fuzz::comparison::compare;
use leafgraph_fuzz::input::{Control, Input, CUT_AT_MARK, MAP};
use leafgraph_fuzz::library::{Library, Operation, PROVED, SECOND};
use leafgraph_fuzz::question_examples::{question_examples, QuestionExample};
use leafgraph_fuzz::tally::Tally;
use leafgraph_reference::blocks::{e1, rr};
use leafgraph_reference::graph::Graph;
use leafgraph_reference::matching::{least_match, read_map, Images};
use leafgraph_reference::operators::CONST;
use leafgraph_reference::readers::Mapped;
use leafgraph_reference::reply::{number_of, YES};
use leafgraph_reference::rule::Rule;
use leafgraph_reference::sweep::live_slots;

const NO_MATCH: u64 = 41;
const NO_VERTEX: u64 = 42;

fn input(example: &QuestionExample) -> Vec<u8> {
    let control =
        Control { repairs: CUT_AT_MARK, start: example.vertex as u64, ..Control::default() };
    let (graph, rule) = (example.graph.block(), example.rule.block());
    control.input_bytes_with_map(&graph, &rule, &example.map())
}

/// The names of the examples on which a difference is seen, all of them in the
/// question.
fn noticed(library: &Library) -> Vec<&'static str> {
    let differs = |example: &QuestionExample| {
        let outcome = compare(library, &input(example), &mut Tally::new());
        outcome.is_err_and(|difference| {
            assert_eq!(difference.operation, Operation::IsReadElsewhere);
            true
        })
    };
    let examples = question_examples();
    examples.iter().filter(|example| differs(example)).map(|example| example.name).collect()
}

type Program = fn(&[u8], &[u8], &[u8], usize) -> u64;

fn noticed_of(is_read_elsewhere: Program) -> Vec<&'static str> {
    noticed(&Library { is_read_elsewhere, ..PROVED })
}

#[test]
fn right_programs_pass() {
    assert!(noticed(&PROVED).is_empty() && noticed(&SECOND).is_empty());
}

#[test]
fn examples_are_answered_as_they_say() {
    for program in [PROVED, SECOND] {
        for example in question_examples() {
            let (graph, rule) = (example.graph.block(), example.rule.block());
            let reply = (program.is_read_elsewhere)(&graph, &rule, &example.map(), example.vertex);
            assert_eq!(reply, example.reply, "{}", example.name);
        }
    }
}

/// A question to which the library has an answer.
struct Answered<'a> {
    graph: Graph<'a>,
    rule: Rule<'a>,
    images: &'a Images,
    vertex: usize,
    yes: bool,
}

impl Answered<'_> {
    fn image(&self) -> u16 {
        self.images[self.vertex]
    }

    /// The stored count.
    fn count(&self) -> usize {
        self.graph.slot(self.image().into()).count().into()
    }

    /// In how many places each source vertex names this one.
    fn reads_in_source(&self) -> impl Iterator<Item = usize> + '_ {
        let reads = |inputs: &mut dyn Iterator<Item = u8>| {
            inputs.filter(|&input| usize::from(input) == self.vertex).count()
        };
        self.rule.sources().map(move |pattern| reads(&mut pattern.inputs()))
    }

    fn inside(&self) -> usize {
        self.reads_in_source().sum()
    }

    /// In how many places this slot names the image.
    fn reads_by(&self, slot: u16) -> usize {
        let inputs = self.graph.slot(slot.into()).inputs();
        inputs.filter(|&input| input == self.image()).count()
    }

    fn outputs(&self) -> usize {
        self.graph.outputs().filter(|&output| output == self.image()).count()
    }
}

/// The library, but for its answers: this one stands in their place.
fn answering(
    yes: fn(&Answered) -> bool,
    graph: &[u8],
    rule: &[u8],
    map: &[u8],
    vertex: usize,
) -> u64 {
    let reply = (PROVED.is_read_elsewhere)(graph, rule, map, vertex);
    if number_of(reply) != 0 {
        return reply;
    }
    let images = &read_map(map);
    let (graph, rule) = (Graph::parse(graph), Rule::parse(rule));
    let (graph, rule) = (graph.expect("it was answered"), rule.expect("it was answered"));
    let answered = Answered { graph, rule, images, vertex, yes: reply == YES };
    if yes(&answered) {
        YES
    } else {
        0
    }
}

#[test]
fn yes_for_every_output_is_noticed() {
    let names = noticed_of(|graph, rule, map, vertex| {
        let yes = |asked: &Answered| {
            asked.yes || asked.rule.source_outputs().any(|one| usize::from(one) == asked.vertex)
        };
        answering(yes, graph, rule, map, vertex)
    });
    // The question is asked of all vertices of the match that a search finds, too.
    for name in ["output-unread", "second-output-unread", "output-read-by-input", "least-second"] {
        assert!(names.contains(&name), "{names:?}");
    }
    assert!(!names.contains(&"output-read") && !names.contains(&"const-private"), "{names:?}");
}

#[test]
fn a_forgotten_graph_output_is_noticed() {
    let names = noticed_of(|graph, rule, map, vertex| {
        let yes = |asked: &Answered| asked.count() - asked.outputs() != asked.inside();
        answering(yes, graph, rule, map, vertex)
    });
    assert!(!names.contains(&"output-read") && !names.contains(&"output-unread"), "{names:?}");
    for name in ["output-as-output", "output-as-two-outputs", "const-as-output", "later-second"] {
        assert!(names.contains(&name), "{names:?}");
    }
}

/// Readers are counted and not places, on the rule's side or on the graph's.
#[test]
fn a_forgotten_second_place_is_noticed() {
    let twice = ["interior-read-twice", "const-read-twice"];
    let in_rule = noticed_of(|graph, rule, map, vertex| {
        let yes = |asked: &Answered| {
            asked.count() != asked.reads_in_source().filter(|&reads| reads > 0).count()
        };
        answering(yes, graph, rule, map, vertex)
    });
    assert_eq!(in_rule, twice);
    let in_graph = noticed_of(|graph, rule, map, vertex| {
        let yes = |asked: &Answered| {
            let slots = 0..asked.graph.slot_count() as u16;
            let readers = slots.filter(|&slot| asked.reads_by(slot) > 0).count();
            readers + asked.outputs() != asked.inside()
        };
        answering(yes, graph, rule, map, vertex)
    });
    assert_eq!(in_graph, twice);
}

/// "002 allows a read by any matched vertex. That is wrong".
#[test]
fn a_rule_input_taken_for_inside_is_noticed() {
    let names = noticed_of(|graph, rule, map, vertex| {
        let yes = |asked: &Answered| {
            let pairs = asked.rule.sources().zip(asked.images);
            let inputs = pairs.filter(|(pattern, _)| pattern.is_input_kind());
            let reads: usize = inputs.map(|(_, &image)| asked.reads_by(image)).sum();
            asked.count() != asked.inside() + reads
        };
        answering(yes, graph, rule, map, vertex)
    });
    assert_eq!(names, ["output-read-by-input", "const-read-by-input"]);
}

/// A program that asks from which readers an output is reached.
#[test]
fn a_forgotten_dead_reader_is_noticed() {
    let names = noticed_of(|graph, rule, map, vertex| {
        let yes = |asked: &Answered| {
            let live = live_slots(asked.graph);
            let dead = (0..asked.graph.slot_count()).filter(|&slot| !live[slot]);
            let mapped = Mapped { graph: asked.graph, rule: asked.rule, images: asked.images };
            let dead = dead.map(|slot| slot as u16).filter(|&slot| !mapped.is_inside(slot));
            asked.count() != asked.inside() + dead.map(|slot| asked.reads_by(slot)).sum::<usize>()
        };
        answering(yes, graph, rule, map, vertex)
    });
    for name in ["output-read-without-output", "const-read-without-output"] {
        assert!(names.contains(&name), "{names:?}");
    }
    assert!(!names.contains(&"output-read") && !names.contains(&"const-read"), "{names:?}");
}

/// "then 41 [...], 42"
#[test]
fn the_vertex_before_the_map_is_noticed() {
    let names = noticed_of(|graph, rule, map, vertex| {
        match (PROVED.is_read_elsewhere)(graph, rule, map, vertex) {
            NO_MATCH => {
                let rule = Rule::parse(rule).expect("it is sound");
                let sources = rule.source_count();
                match vertex >= sources || rule.source(vertex).is_input_kind() {
                    true => NO_VERTEX,
                    false => NO_MATCH,
                }
            }
            reply => reply,
        }
    });
    assert_eq!(names, ["no-match-rule-input", "no-match-vertex-16"]);
}

/// "41 when the map isn't a match (any [...])"
#[test]
fn a_match_refused_is_noticed() {
    let least_only = noticed_of(|graph, rule, map, vertex| {
        let reply = (PROVED.is_read_elsewhere)(graph, rule, map, vertex);
        if number_of(reply) != 0 {
            return reply;
        }
        let found = Graph::parse(graph).ok().zip(Rule::parse(rule).ok());
        let found = found.and_then(|(graph, rule)| least_match(graph, rule, 0));
        if found == Some(read_map(map)) {
            reply
        } else {
            NO_MATCH
        }
    });
    assert_eq!(least_only, ["later-match", "last-match", "later-second"]);
    let private_only = noticed_of(|graph, rule, map, vertex| {
        let reply = (PROVED.is_read_elsewhere)(graph, rule, map, vertex);
        let is_const = |rule: Rule| rule.source(vertex).kind() == CONST;
        match reply == YES && Rule::parse(rule).is_ok_and(is_const) {
            true => NO_MATCH,
            false => reply,
        }
    });
    let shared =
        ["const-read", "const-read-without-output", "const-read-by-input", "const-as-output"];
    assert_eq!(private_only, shared);
}

/// A program that does not look at the places behind the source vertices'.
#[test]
fn a_map_half_looked_at_is_noticed() {
    let behind = noticed_of(|graph, rule, map, vertex| {
        let mut kept = map.to_vec();
        let sources = Rule::parse(rule).map_or(16, Rule::source_count);
        if map.len() == 32 {
            kept[2 * sources..].fill(255);
        }
        (PROVED.is_read_elsewhere)(graph, rule, &kept, vertex)
    });
    assert_eq!(behind, ["first-place-behind", "last-place"]);
}

/// A program that takes what it needs of a map that is too long or too short.
#[test]
fn a_map_of_another_length_taken_is_noticed() {
    let is_read_elsewhere = |graph: &[u8], rule: &[u8], map: &[u8], vertex: usize| {
        let mut kept = map.to_vec();
        kept.resize(32, 255);
        (PROVED.is_read_elsewhere)(graph, rule, &kept, vertex)
    };
    let library = Library { is_read_elsewhere, ..PROVED };
    assert!(noticed(&library).is_empty());
    let control = Control { repairs: CUT_AT_MARK, start: 2, ..Control::default() };
    let map = [vec![2, 0, 3, 0, 4, 0], vec![255; 27]].concat();
    for length in [6, 30, 31, 33] {
        let bytes = control.input_bytes_with_map(&e1().block(), &rr().block(), &map[..length]);
        let difference = compare(&library, &bytes, &mut Tally::new()).expect_err("a wrong program");
        assert_eq!(difference.operation, Operation::IsReadElsewhere);
        let fault = "the library replies 0x10000000000, the second program 0x1";
        assert_eq!(difference.faults[0], fault);
    }
}

/// A program that reads a vertex's number in fewer bits.
#[test]
fn a_vertex_cut_is_noticed() {
    let to_16 = noticed_of(|graph, rule, map, vertex| {
        (PROVED.is_read_elsewhere)(graph, rule, map, vertex & 0xffff)
    });
    assert_eq!(to_16, ["vertex-past-16-bits", "vertex-past-32-bits"]);
    let to_32 = noticed_of(|graph, rule, map, vertex| {
        (PROVED.is_read_elsewhere)(graph, rule, map, vertex & 0xffff_ffff)
    });
    assert_eq!(to_32, ["vertex-past-32-bits"]);
}

/// Where the map's bytes begin, and that they have the length that the input gives
/// them, or 32 bytes where it says so.
#[test]
fn maps_are_cut() {
    let (graph, rule) = (e1().block(), rr().block());
    let cut = |repairs: u8, map: &[u8]| {
        let control = Control { repairs, map_length: 3, ..Control::default() };
        Input::cut(&control.input_bytes_with_map(&graph, &rule, map))
    };
    for map in [&b""[..], b"a map", b"LGM", &[7; 32], &[7; 40]] {
        let input = cut(CUT_AT_MARK, map);
        assert_eq!((&input.graph, &input.rule, &input.map[..]), (&graph, &rule, map));
        let input = cut(CUT_AT_MARK | MAP, map);
        let kept = map.len().min(32);
        assert_eq!((input.map.len(), &input.map[..kept]), (32, &map[..kept]));
        assert!(input.map[kept..].iter().all(|&byte| byte == 255));
        let input = cut(0, map);
        assert_eq!(input.rule, [&rule[..], b"LGM", map].concat());
        assert_eq!(input.map, [0, 1, 2]);
    }
}
