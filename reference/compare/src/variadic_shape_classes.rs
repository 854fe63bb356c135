//! What sound variadic rules (request 8/13) were like.

use leafgraph_reference::rule::{INDEX, SUM, TARGET_BASE, TEMPLATE};
use leafgraph_reference::rules::Rules;
use leafgraph_reference::stage::Stage;

use crate::tally::Class;
use crate::variadic_block::{Block, Record, Use};

/// A sound rule is tried in all these shapes.
pub const SHAPES: [&str; 43] = [
    "no target Tuple",
    "a target Tuple",
    "one output",
    "the Tuple is the output",
    "two outputs, the Tuple under the first",
    "two outputs, the Tuple under the second",
    "two outputs, the Tuple under both",
    "a shared rule input in the branch",
    "a shared vertex with inputs in the branch",
    "an unmarked branch",
    "a template that is named twice in a field",
    "a template wildcard",
    "a template Const",
    "a template Variable",
    "a template Call",
    "a template Tuple",
    "a template Proj",
    "a template Const in the target",
    "a template Call in the target",
    "a template Tuple in the target",
    "a template Proj in the target",
    "a rule input as the target's branch",
    "a template rule input as the target's branch",
    "an unmarked vertex as the target's branch",
    "a target template over a template rule input",
    "a Tuple beside the named ones",
    "a target in another order than it is visited in",
    "index in a source template",
    "index in a target template",
    "index under a sum in an unmarked vertex",
    "a template accessed in a source template",
    "a template accessed in a target template",
    "a sum in a source template",
    "a sum in another source vertex",
    "a sum over templates in the source",
    "a sum in a target template",
    "a sum in another target vertex",
    "a sum over templates in the target",
    "a sum under a sum",
    "index under a sum under a sum",
    "40 sums over each other",
    "a node without use that needs an index",
    "more than 56 vertices on a side for some n",
];

/// The shapes of a sound rule.
pub fn shapes(bytes: &[u8], block: &Block) -> Vec<Class> {
    let sides = [outline(block), branches(block), target_branches(block), kinds(block)];
    let all = [sides.concat(), expressions(block), all_expressions(block)];
    let mut classes = all.concat();
    let rules = Rules::parse(Stage::Eight, bytes).expect("it was accepted");
    let sizes = rules.fixed().map(|one| one.source_count().max(one.target_count()));
    let largest = sizes.max().expect("six");
    let Rules::Variadic(expansions) = &rules else { return classes };
    let origins: Vec<_> = expansions[0].target_origins().map(|(vertex, _)| vertex).collect();
    classes.extend([
        ("a target in another order than it is visited in", !origins.is_sorted()),
        ("more than 56 vertices on a side for some n", largest > 56),
    ]);
    classes
}

fn outline(block: &Block) -> Vec<Class> {
    let under = |&output: &u8| block.reaching(output.into()).contains(&block.source_tuple);
    let under: Vec<bool> = block.source_outputs.iter().map(under).collect();
    let has_target = block.target_tuple != 255;
    let is_output = block.source_outputs.iter().any(|&one| usize::from(one) == block.source_tuple);
    vec![
        ("no target Tuple", !has_target),
        ("a target Tuple", has_target),
        ("one output", under.len() == 1),
        ("the Tuple is the output", is_output),
        ("two outputs, the Tuple under the first", under == [true, false]),
        ("two outputs, the Tuple under the second", under == [false, true]),
        ("two outputs, the Tuple under both", under == [true, true]),
    ]
}

fn branches(block: &Block) -> Vec<Class> {
    let input = usize::from(block.source[block.source_tuple].inputs[0]);
    let branch: Vec<&Record> =
        block.reaching(input).into_iter().map(|vertex| &block.source[vertex]).collect();
    let shared = |one: &&&Record| !one.is_template();
    let is_marked = |&place: &u8| block.source[usize::from(place)].is_template();
    let mut named: Vec<u8> =
        branch.iter().flat_map(|one| one.inputs.clone()).filter(is_marked).collect();
    named.sort_unstable();
    vec![
        (
            "a shared rule input in the branch",
            branch.iter().filter(shared).any(|one| one.is_rule_input()),
        ),
        (
            "a shared vertex with inputs in the branch",
            branch.iter().filter(shared).any(|one| !one.inputs.is_empty()),
        ),
        ("an unmarked branch", !block.source[input].is_template()),
        (
            "a template that is named twice in a field",
            named.windows(2).any(|pair| pair[0] == pair[1]),
        ),
    ]
}

fn target_branches(block: &Block) -> Vec<Class> {
    let target = block.target.get(block.target_tuple).map(|tuple| tuple.inputs[0]);
    let target_is = |holds: &dyn Fn(u8) -> bool| target.is_some_and(holds);
    let marked = |place: u8| block.names_template(place);
    let over_input = |one: &Record| {
        one.is_template() && one.inputs.iter().any(|&place| place < TARGET_BASE && marked(place))
    };
    vec![
        (
            "a rule input as the target's branch",
            target_is(&|place| place < TARGET_BASE && !marked(place)),
        ),
        (
            "a template rule input as the target's branch",
            target_is(&|place| place < TARGET_BASE && marked(place)),
        ),
        (
            "an unmarked vertex as the target's branch",
            target_is(&|place| place >= TARGET_BASE && !marked(place)),
        ),
        ("a target template over a template rule input", block.target.iter().any(over_input)),
    ]
}

fn kinds(block: &Block) -> Vec<Class> {
    let source = |kind: u8| block.source.iter().any(|one| one.kind == TEMPLATE + kind);
    let target = |kind: u8| block.target.iter().any(|one| one.kind == TEMPLATE + kind);
    let tuples = |side: &[Record]| side.iter().filter(|one| one.kind == 4).count();
    let named = 1 + usize::from(block.target_tuple != 255);
    vec![
        ("a template wildcard", source(0)),
        ("a template Const", source(1)),
        ("a template Variable", source(2)),
        ("a template Call", source(3)),
        ("a template Tuple", source(4)),
        ("a template Proj", source(5)),
        ("a template Const in the target", target(1)),
        ("a template Call in the target", target(3)),
        ("a template Tuple in the target", target(4)),
        ("a template Proj in the target", target(5)),
        ("a Tuple beside the named ones", tuples(&block.source) + tuples(&block.target) > named),
    ]
}

/// What the vertices of a side use that are marked, or are not.
fn uses_of(block: &Block, side: &[Record], marked: bool) -> Vec<Use> {
    let suiting = side.iter().filter(|one| one.is_template() == marked);
    suiting.flat_map(|one| block.uses(one)).collect()
}

fn expressions(block: &Block) -> Vec<Class> {
    let [source, source_copies] = [false, true].map(|marked| uses_of(block, &block.source, marked));
    let [target, target_copies] = [false, true].map(|marked| uses_of(block, &block.target, marked));
    let sum = |uses: &[Use]| uses.iter().any(|one| one.node.form == SUM);
    let index = |uses: &[Use]| uses.iter().any(|one| one.node.form == INDEX && one.sums == 0);
    let access =
        |uses: &[Use]| uses.iter().any(|&one| block.accesses_template(one) && one.sums == 0);
    let summed =
        |uses: &[Use]| uses.iter().any(|&one| block.accesses_template(one) && one.sums > 0);
    let under_sum = |uses: &[Use]| uses.iter().any(|one| one.node.form == INDEX);
    vec![
        ("index in a source template", index(&source_copies)),
        ("index in a target template", index(&target_copies)),
        ("index under a sum in an unmarked vertex", under_sum(&source) || under_sum(&target)),
        ("a template accessed in a source template", access(&source_copies)),
        ("a template accessed in a target template", access(&target_copies)),
        ("a sum in a source template", sum(&source_copies)),
        ("a sum in another source vertex", sum(&source)),
        ("a sum over templates in the source", summed(&source) || summed(&source_copies)),
        ("a sum in a target template", sum(&target_copies)),
        ("a sum in another target vertex", sum(&target)),
        ("a sum over templates in the target", summed(&target) || summed(&target_copies)),
    ]
}

fn all_expressions(block: &Block) -> Vec<Class> {
    let records = block.source.iter().chain(&block.target);
    let all: Vec<Use> = records.flat_map(|one| block.uses(one)).collect();
    let used = |node| all.iter().any(|one| one.node == node);
    let unused = block.nodes.iter().any(|&node| {
        let alone = Use { node, sums: 0 };
        block.needs_index(alone) && !used(node)
    });
    let any = |holds: fn(&Use) -> bool| all.iter().any(holds);
    vec![
        ("a sum under a sum", any(|one| one.node.form == SUM && one.sums == 1)),
        ("index under a sum under a sum", any(|one| one.node.form == INDEX && one.sums > 1)),
        ("40 sums over each other", any(|one| one.sums >= 40)),
        ("a node without use that needs an index", unused),
    ]
}
