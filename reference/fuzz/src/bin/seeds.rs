//! Writes the inputs that fuzzing starts from into a folder, as files whose
//! names begin with `seed-`: document 01's examples, matched Consts that stay
//! or go, every kind of fault, small random cases of every reply, graphs to sweep
//! and to squeeze, blocks to import, maps to ask about, and texts to read; and variadic
//! rules once the second program's stage has them. The same files each time.
//!
//!     fuzz_seeds FOLDER [CASES]
//!
//! CASES of each reply and of each other sort, for libFuzzer to choose from; a
//! few without it.

use std::collections::BTreeMap;
use std::env;
use std::fs;
use std::io;
use std::path::Path;
use std::process::ExitCode;

use leafgraph_fuzz::cleanup_examples::{cleanup_examples, CleanupExample};
use leafgraph_fuzz::fault_examples::fault_examples;
use leafgraph_fuzz::input::{
    Control, CUT_AT_MARK, GRAPH_LENGTH, GRAPH_RECORDS, LOWER_INPUTS, MAP, RULE_LENGTH,
    RULE_RECORDS, START,
};
use leafgraph_fuzz::listing_examples::{reading_examples, writing_examples};
use leafgraph_fuzz::question_examples::question_examples;
use leafgraph_fuzz::variadic_examples::variadic_examples;
use leafgraph_reference::blocks::{
    add, any_node, call, call_pattern, chain, constant, constant_node, constant_sum,
    dropped_constant, e1, empty, operation_node, p10_graph, p10_rule, p7_graph, p7_rule, p8_graph,
    pattern, relu, reversed_chain, rr, target_place, variable, wildcard, GraphParts, PatternParts,
    RuleParts,
};
use leafgraph_reference::counts::COUNT;
use leafgraph_reference::generate::{
    any_text, damaged_graph_of, damaged_rule_of, damaged_variadic_rule_of, damaged_version_1_graph,
    noise, rewriting_case, rule_with_unsound_expansion, search_case, sequence, variadic_case, Case,
};
use leafgraph_reference::graph::{self, Graph};
use leafgraph_reference::matching::read_map;
use leafgraph_reference::operators::{ADD, CONST, MEAN, RELU, TUPLE};
use leafgraph_reference::random::Random;
use leafgraph_reference::removal::removed_slots;
use leafgraph_reference::reply::number_of;
use leafgraph_reference::rule::{Rule, DIVIDE, REMAINDER};
use leafgraph_reference::stage::{Stage, STAGE};
use leafgraph_reference::{find_match, import, read_listing, rewrite, squeeze, sweep, MAP_LENGTH};

/// What the corpus is drawn from.
const SEED: u64 = 20;
/// The longest random case that is kept: small inputs are mutated better.
const LONGEST: usize = 900;
/// So many cases of each reply to a rewriting, and of each other sort.
const CASES: usize = 6;
/// Cut and lengths are repaired, but no record: cases as they were made, ready
/// for mutations.
const LENGTHS: u8 = CUT_AT_MARK | MAP | GRAPH_LENGTH | RULE_LENGTH;
/// Records are repaired, too. Their slots may stand in any order.
const RECORDS: u8 = GRAPH_RECORDS | RULE_RECORDS;

fn main() -> ExitCode {
    let words: Vec<String> = env::args().skip(1).collect();
    let (folder, cases) = match words.as_slice() {
        [folder] => (folder, Ok(CASES)),
        [folder, cases] => (folder, cases.parse()),
        _ => (&String::new(), "".parse()),
    };
    let Ok(cases) = cases else {
        eprintln!("usage: fuzz_seeds FOLDER [CASES]");
        return ExitCode::from(2);
    };
    let mut seeds = Seeds { random: Random::new(SEED), files: BTreeMap::new() };
    seeds.add_examples(paper_examples());
    seeds.add_sizes();
    seeds.add_examples(constant_examples());
    seeds.add_fault_examples();
    seeds.add_rewritings(cases);
    seeds.add_accepted("redirected-input", cases, redirects_input);
    seeds.add_accepted("constant-stays", cases, keeps_constant);
    seeds.add_refused(cases / 2);
    seeds.add_others(cases);
    seeds.add_cleanups(cases);
    seeds.add_imports(cases);
    seeds.add_questions(cases);
    seeds.add_listings(cases);
    if STAGE == Stage::Eight {
        seeds.add_variadics(cases);
    }
    match seeds.write(Path::new(folder)) {
        Ok(()) => ExitCode::SUCCESS,
        Err(error) => {
            eprintln!("{folder}: {error}");
            ExitCode::FAILURE
        }
    }
}

struct Seeds {
    random: Random,
    /// Inputs by the names of their files.
    files: BTreeMap<String, Vec<u8>>,
}

impl Seeds {
    fn add(&mut self, name: &str, control: Control, graph: &[u8], rule: &[u8]) {
        self.add_bytes(name, control.input_bytes(graph, rule));
    }

    fn add_bytes(&mut self, name: &str, bytes: Vec<u8>) {
        let name = format!("seed-{:03}-{name}", self.files.len());
        self.files.insert(name, bytes);
    }

    /// With these repairs, a map of the right length and a few further steps.
    fn control(&mut self, repairs: u8, start: usize) -> Control {
        Control {
            repairs,
            counts: true,
            map_length: MAP_LENGTH as u8,
            map_byte: self.random.byte(),
            steps_and_shifts: self.random.byte(),
            start: start as u64,
        }
    }

    fn add_examples(&mut self, examples: Vec<Example>) {
        for (name, graph, rule, start) in examples {
            let control = self.control(LENGTHS | RECORDS, start);
            self.add(name, control, &graph.block(), &rule.block());
        }
    }

    /// "N of 0, 1, 512, 513; one byte short or long"; no map, a map too short
    /// and one too long; nothing at all.
    fn add_sizes(&mut self) {
        let rule = rr().block();
        for (name, graph) in [
            ("n-0", chain(0)),
            ("n-1", chain(1)),
            ("n-512", chain(512)),
            ("n-512-reversed", reversed_chain(512)),
            ("n-513", chain(513)),
        ] {
            let control = self.control(MAP, 0);
            self.add(name, control, &graph.block(), &rule);
        }
        let graph = e1().block();
        let long = |block: &[u8]| [block, &[0]].concat();
        let control = self.control(0, 0);
        self.add("graph-short", control, &graph[..graph.len() - 1], &rule);
        self.add("graph-long", control, &long(&graph), &rule);
        self.add("rule-short", control, &graph, &rule[..rule.len() - 1]);
        self.add("rule-long", control, &graph, &long(&rule));
        self.add("no-blocks", control, &[], &[]);
        for map_length in [0, 31, 33, 255] {
            self.add("map-length", Control { map_length, ..control }, &graph, &rule);
        }
    }

    /// Request 8/13: its examples, small random cases as they are and damaged, and rules
    /// that are sound but for an expansion.
    fn add_variadics(&mut self, cases: usize) {
        for example in variadic_examples() {
            let control =
                Control { map_length: example.map_length, ..self.control(CUT_AT_MARK, 0) };
            self.add(example.name, control, &example.graph.block(), &example.rule.block());
        }
        for number in 0..3 * cases {
            let (_, case) = variadic_case(&mut self.random);
            let rule = match number % 3 {
                0 => damaged_variadic_rule_of(&mut self.random, case.rule),
                1 => rule_with_unsound_expansion(&mut self.random).block(),
                _ => case.rule.block(),
            };
            let control = self.control(LENGTHS, case.start);
            self.add("variadic", control, &case.graph.block(), &rule);
        }
    }

    /// Some of each reply, two of three open to the repair of records.
    fn add_rewritings(&mut self, cases: usize) {
        let mut counts = [0; 8];
        while [0, 4, 5, 6, 7].iter().any(|&reply| counts[reply] < cases) {
            let (_, case) = rewriting_case(&mut self.random);
            let (graph, rule) = (case.graph.block(), case.rule.block());
            let reply =
                rewrite(&mut graph.clone(), &rule, case.start, &mut [0; MAP_LENGTH]) as usize;
            if graph.len() + rule.len() > LONGEST || counts[reply] == cases {
                continue;
            }
            counts[reply] += 1;
            let repairs = if counts[reply] % 3 == 0 { LENGTHS } else { LENGTHS | RECORDS };
            let control = self.control(repairs, case.start);
            self.add(&format!("reply-{reply}"), control, &graph, &rule);
        }
    }

    /// Accepted rewritings of which this holds, too rare to be left to chance.
    fn add_accepted(&mut self, name: &str, cases: usize, holds: fn(&Accepted) -> bool) {
        let mut left = cases;
        while left > 0 {
            let (_, case) = rewriting_case(&mut self.random);
            let (before, rule) = (case.graph.block(), case.rule.block());
            let (mut after, mut map) = (before.clone(), [0; MAP_LENGTH]);
            let reply = rewrite(&mut after, &rule, case.start, &mut map);
            let accepted = Accepted { before: &before, after: &after, rule: &rule, map: &map };
            if reply != 0 || before.len() + rule.len() > LONGEST || !holds(&accepted) {
                continue;
            }
            left -= 1;
            let control = self.control(LENGTHS | RECORDS, case.start);
            self.add(name, control, &before, &rule);
        }
    }

    /// As they are, since a repair would take the fault away.
    fn add_fault_examples(&mut self) {
        for example in fault_examples() {
            let control = Control { counts: false, ..self.control(MAP, 0) };
            self.add(example.name, control, &example.graph, &example.rule);
        }
    }

    /// Damaged blocks, some of each number that a bad block gets. The examples
    /// have these numbers already, so half as many do.
    fn add_refused(&mut self, cases: usize) {
        let mut counts: BTreeMap<u8, usize> =
            (20..=24).chain(30..=34).map(|number| (number, 0)).collect();
        while counts.values().any(|&count| count < cases) {
            let (_, Case { graph, rule, start }) = search_case(&mut self.random);
            let (graph, rule) = match self.random.chance(50) {
                true => (damaged_graph_of(&mut self.random, graph), rule.block()),
                false => (graph.block(), damaged_rule_of(&mut self.random, rule)),
            };
            let number = number_of(find_match(&graph, &rule, start, &mut [0; MAP_LENGTH]));
            let Some(count) = counts.get_mut(&number) else {
                continue;
            };
            if graph.len() + rule.len() <= LONGEST && *count < cases {
                *count += 1;
                let control = Control { counts: false, ..self.control(MAP, start) };
                self.add(&format!("refused-{number}"), control, &graph, &rule);
            }
        }
    }

    fn add_others(&mut self, cases: usize) {
        let mut left = cases;
        while left > 0 {
            let (_, Case { graph, rule, start }) = search_case(&mut self.random);
            let sequence = sequence(&mut self.random);
            let blocks = [graph.block(), rule.block(), sequence.graph.block()];
            if blocks.iter().map(Vec::len).sum::<usize>() > 2 * LONGEST {
                continue;
            }
            left -= 1;
            let [graph_block, rule_block, sequence_block] = blocks;
            let control = self.control(LENGTHS | RECORDS | START, start);
            self.add("search", control, &graph_block, &rule_block);
            let control = self.control(LENGTHS | RECORDS, 0);
            self.add("sequence", control, &sequence_block, &sequence.rules[0].block());
            let control = Control { counts: false, ..self.control(MAP, start) };
            let damaged_graph = damaged_graph_of(&mut self.random, graph);
            let damaged_rule = damaged_rule_of(&mut self.random, rule);
            self.add("damaged-blocks", control, &damaged_graph, &damaged_rule);
            let noises = [noise(&mut self.random), noise(&mut self.random)];
            let [graph, rule] = noises.map(|bytes| bytes[..bytes.len().min(LONGEST)].to_vec());
            let repairs = LENGTHS | RECORDS | LOWER_INPUTS;
            self.add("noise", Control { repairs, ..control }, &graph, &rule);
        }
    }

    /// The examples, lists of other lengths, and random graphs of which both a
    /// sweep and a squeeze make something else.
    fn add_cleanups(&mut self, cases: usize) {
        let rule = rr().block();
        for CleanupExample { name, graph, rule } in cleanup_examples() {
            let control = self.control(LENGTHS | RECORDS, 0);
            self.add(name, control, &graph.block(), &rule.block());
        }
        for map_length in [0, 30, 31, 33, 34] {
            let control = Control { map_length, ..self.control(0, 0) };
            self.add("list-length", control, &e1().block(), &rule);
        }
        let mut left = cases;
        while left > 0 {
            let sequence = sequence(&mut self.random);
            let (graph, rule) = (sequence.graph.block(), sequence.rules[0].block());
            if graph.len() + rule.len() <= LONGEST && changes_in_both(&graph) {
                left -= 1;
                let control = self.control(LENGTHS | RECORDS, 0);
                self.add("cleanup", control, &graph, &rule);
            }
        }
    }

    /// Blocks of version 1: E1 with a byte where version 2 has a count, and damaged
    /// ones, some of each number that they get.
    fn add_imports(&mut self, cases: usize) {
        let rule = rr().block();
        let control = self.control(MAP, 0);
        for at in [graph::HEADER + COUNT, graph::HEADER + graph::RECORD - 1] {
            let mut block = e1().version_1_block();
            block[at] = 1;
            self.add("import-count", control, &block, &rule);
        }
        let mut counts: BTreeMap<u8, usize> = [0, 20, 21, 22, 23].map(|n| (n, 0)).into();
        while counts.values().any(|&count| count < cases / 2) {
            let block = damaged_version_1_graph(&mut self.random);
            let number = number_of(import(&mut block.clone()));
            let count = counts.get_mut(&number).expect("one of the import's numbers");
            if block.len() + rule.len() <= LONGEST && *count < cases / 2 {
                *count += 1;
                let control = self.control(MAP, 0);
                self.add(&format!("import-{number}"), control, &block, &rule);
            }
        }
    }

    /// The examples, and random matches of which one vertex is asked for, with one place
    /// changed in every second. No map is repaired.
    fn add_questions(&mut self, cases: usize) {
        for example in question_examples() {
            let control = self.control(LENGTHS & !MAP | RECORDS, example.vertex);
            let (graph, rule) = (example.graph.block(), example.rule.block());
            let bytes = control.input_bytes_with_map(&graph, &rule, &example.map());
            self.add_bytes(&format!("question-{}", example.name), bytes);
        }
        let mut left = 2 * cases;
        while left > 0 {
            let (_, Case { graph, rule, .. }) = search_case(&mut self.random);
            let (graph, block, mut map) = (graph.block(), rule.block(), [0; MAP_LENGTH]);
            let found = find_match(&graph, &block, 0, &mut map) == 0;
            if !found || graph.len() + block.len() > LONGEST {
                continue;
            }
            if left.is_multiple_of(2) {
                map[2 * self.random.below(rule.source.len())] ^= 1;
            }
            left -= 1;
            let vertex = self.random.below(rule.source.len());
            let control = self.control(LENGTHS & !MAP | RECORDS, vertex);
            self.add_bytes("question", control.input_bytes_with_map(&graph, &block, &map));
        }
    }

    /// The examples, and random texts, some of each number that they get with no buffer:
    /// with one they are read where they get 46 so. No text is repaired.
    fn add_listings(&mut self, cases: usize) {
        let length = |spare: i8| (MAP_LENGTH as u8).saturating_add_signed(spare);
        for example in reading_examples() {
            let map_length = length(example.spare);
            let control = Control { map_length, ..self.control(CUT_AT_MARK, 0) };
            let bytes = control.input_bytes_with_text(example.text.as_bytes());
            self.add_bytes(&format!("listing-{}", example.name), bytes);
        }
        for example in writing_examples() {
            let map_length = length(example.spare);
            let control = Control { map_length, ..self.control(CUT_AT_MARK, 0) };
            let name = format!("listing-{}", example.name);
            self.add(&name, control, &example.graph.block(), &rr().block());
        }
        let mut counts: BTreeMap<u8, usize> = [44, 45, 46].map(|number| (number, 0)).into();
        while counts.values().any(|&count| count < cases) {
            let (_, text) = any_text(&mut self.random);
            let number = number_of(read_listing(&text, &mut []));
            let count = counts.get_mut(&number).expect("one of the numbers");
            if text.len() <= LONGEST && *count < cases {
                *count += 1;
                let control = self.control(CUT_AT_MARK | MAP, 0);
                self.add_bytes("listing", control.input_bytes_with_text(&text));
            }
        }
    }

    /// Takes away the seeds of an earlier run; other inputs stay.
    fn write(&self, folder: &Path) -> io::Result<()> {
        fs::create_dir_all(folder)?;
        for entry in fs::read_dir(folder)? {
            let entry = entry?;
            if entry.file_name().to_string_lossy().starts_with("seed-") {
                fs::remove_file(entry.path())?;
            }
        }
        for (name, bytes) in &self.files {
            fs::write(folder.join(name), bytes)?;
        }
        let bytes: usize = self.files.values().map(Vec::len).sum();
        println!("{}: {} seeds, {bytes} bytes", folder.display(), self.files.len());
        Ok(())
    }
}

/// An accepted rewriting.
struct Accepted<'a> {
    before: &'a [u8],
    after: &'a [u8],
    rule: &'a [u8],
    map: &'a [u8; MAP_LENGTH],
}

impl Accepted<'_> {
    fn rule(&self) -> Rule<'_> {
        Rule::parse(self.rule).expect("it was accepted")
    }
}

/// Whether a rule input reads something else afterwards: easily forgotten
/// ("rule inputs too").
fn redirects_input(accepted: &Accepted) -> bool {
    let mut pairs = accepted.rule().sources().zip(read_map(accepted.map));
    pairs.any(|(pattern, image)| {
        let at = graph::HEADER + graph::RECORD * usize::from(image);
        let record = at..at + COUNT;
        pattern.is_input_kind() && accepted.before[record.clone()] != accepted.after[record]
    })
}

/// Whether a sweep removes something, and a squeeze moves something then.
fn changes_in_both(graph: &[u8]) -> bool {
    let mut swept = graph.to_vec();
    sweep(&mut swept);
    let (mut squeezed, mut list) = (swept.clone(), vec![0; graph.len() / graph::RECORD * 2]);
    squeeze(&mut squeezed, &mut list);
    graph != swept && swept != squeezed
}

/// Whether a matched Const stays.
fn keeps_constant(accepted: &Accepted) -> bool {
    let (rule, images) = (accepted.rule(), read_map(accepted.map));
    let old = Graph::parse(accepted.before).expect("it was accepted");
    let removed = removed_slots(old, rule, &images);
    let mut pairs = rule.sources().zip(images);
    pairs.any(|(pattern, image)| pattern.kind() == CONST && !removed[usize::from(image)])
}

type Example = (&'static str, GraphParts, RuleParts, usize);

/// P1 to P10, and the run-only ones that have a graph to match in.
fn paper_examples() -> Vec<Example> {
    let e1_with = |outputs: &[u16]| GraphParts { outputs: outputs.to_vec(), ..e1() };
    let mut e1_of_five = e1();
    e1_of_five.slots.pop();
    let doubled = GraphParts::new(vec![variable(), add(0, 0)], &[1]);
    let gains = |number| p10_graph([number, 1, 1], [number, 1, 1]);
    let self_reading = GraphParts::new(vec![variable(), relu(1)], &[0]);
    vec![
        ("p1", e1(), rr(), 0),
        ("p2-from-5", e1(), rr(), 5),
        ("p2-from-4", e1(), rr(), 4),
        ("p3", e1_with(&[4, 3]), rr(), 0),
        ("p4", e1_of_five, rr(), 0),
        ("p5-two", doubled.clone(), tuple_of_inputs(vec![wildcard(), wildcard(), sum(0, 1)]), 0),
        ("p5-one", doubled, tuple_of_inputs(vec![wildcard(), sum(0, 0)]), 0),
        ("p6", p6_graph(), p6_rule(), 0),
        ("p7", p7_graph(), p7_rule(), 0),
        ("p8", p8_graph(), p7_rule(), 0),
        ("p9-quotient", constant_graph(-4), operation_rule(DIVIDE, -7, 2), 0),
        ("p9-remainder", constant_graph(-1), operation_rule(REMAINDER, 7, -2), 0),
        ("p9-none", constant_graph(0), operation_rule(DIVIDE, i32::MIN, -1), 0),
        ("p10", gains(65536), p10_rule(), 0),
        ("p10-done", gains(256), p10_rule(), 0),
        ("self-reading", self_reading, rr(), 0),
        ("start-65535", e1(), rr(), 65535),
        ("start-highest", e1(), rr(), usize::MAX),
    ]
}

/// A matched Const that goes, and ones that stay for each reason; one that
/// takes the room; two in one rule, of which one stays, and which one slot
/// does not suffice for.
fn constant_examples() -> Vec<Example> {
    let drop = || dropped_constant(1);
    let shared = |outputs: &[u16]| constant_sum(variable(), &[relu(0)], outputs);
    let alone = |outputs: &[u16]| constant_sum(variable(), &[], outputs);
    let pair = |second, outputs: &[u16]| {
        let slots = vec![constant(1), constant(1), variable(), add(2, 0), add(3, second), empty()];
        GraphParts::new(slots, outputs)
    };
    vec![
        ("constant-private", alone(&[2]), drop(), 0),
        ("constant-read", shared(&[2, 3]), drop(), 0),
        ("constant-read-without-output", shared(&[2]), drop(), 0),
        ("constant-read-by-input", constant_sum(relu(0), &[], &[2]), drop(), 0),
        ("constant-as-output", alone(&[2, 0]), drop(), 0),
        ("constant-read-and-output", shared(&[0, 2, 3]), drop(), 0),
        ("constant-gives-room", alone(&[2]), dropped_constant(2), 0),
        ("constant-gives-no-room", alone(&[2, 0]), dropped_constant(2), 0),
        ("constants-one-stays", pair(1, &[4, 1]), constant_pair(), 0),
        ("constants-one-for-two", pair(0, &[4]), constant_pair(), 0),
    ]
}

/// add(add(x, c), d) becomes a Tuple of x.
fn constant_pair() -> RuleParts {
    let constant = || pattern(CONST, 0, &[], &[0]);
    let source = vec![wildcard(), constant(), sum(0, 1), constant(), sum(2, 3)];
    RuleParts { nodes: vec![any_node()], ..tuple_of_inputs(source) }
}

fn sum(left: u8, right: u8) -> PatternParts {
    call_pattern(ADD, &[left, right], &[])
}

/// The last source vertex becomes a Tuple of the rule's inputs.
fn tuple_of_inputs(source: Vec<PatternParts>) -> RuleParts {
    let vertices = 0..source.len() as u8;
    let inputs: Vec<u8> = vertices.filter(|&at| source[usize::from(at)].kind == 0).collect();
    RuleParts {
        source_outputs: vec![source.len() as u8 - 1],
        source,
        target: vec![pattern(TUPLE, 0, &inputs, &[])],
        target_outputs: vec![target_place(0)],
        nodes: vec![],
    }
}

fn p6_graph() -> GraphParts {
    let mean = call(MEAN, &[1], &[0]);
    GraphParts::new(vec![variable(), relu(0), mean, add(1, 2)], &[3])
}

fn p6_rule() -> RuleParts {
    tuple_of_inputs(vec![wildcard(), call_pattern(RELU, &[0], &[]), wildcard(), sum(1, 2)])
}

fn constant_graph(number: i32) -> GraphParts {
    GraphParts::new(vec![constant(number), relu(0)], &[1])
}

/// relu of the constant that this operation gives.
fn operation_rule(form: u8, left: i32, right: i32) -> RuleParts {
    RuleParts {
        source: vec![pattern(CONST, 0, &[], &[2]), call_pattern(RELU, &[0], &[])],
        target: vec![pattern(CONST, 0, &[], &[0])],
        source_outputs: vec![1],
        target_outputs: vec![target_place(0)],
        nodes: vec![constant_node(left), constant_node(right), operation_node(form, 0, 1)],
    }
}
