//! The check of a rule block, in the order of document 01's kinds of fault:
//! "length or header, with source output numbers at or above S; a record,
//! with its input places (a source input not below its vertex, a target input
//! that names no rule input or earlier target vertex); visiting order;
//! outputs and connection, with unnamed rule inputs, unused target vertices
//! and bad target outputs; an expression, nodes first, then each vertex's use
//! of them."
//!
//! Each kind may lean on those before it. They are asked of a block as it stands, of
//! version 2 too; what else request 8/13 asks, of the fixed rules, is in `rules`.

use crate::fields::u16_at;
use crate::operators::{counts_fit, CALL, CONST, PLACES, PROJ, TUPLE};
use crate::reply::{refuse_at, Refusal, RULE_EXPRESSION, RULE_ORDER, RULE_RECORD};
use crate::rule::{
    Node, Pattern, Rule, ACCESS, ANY, CONSTANT, HEADER, INDEX, MAX_FIXED, MAX_NODES, MAX_OUTPUTS,
    MAX_VERTICES, NODE, PATTERN, PLUS, REMAINDER, SUM, UNUSED,
};
use crate::stage::Stage;

/// The rule in these bytes, if every kind of fault is absent. "The first kind that holds
/// anywhere is given", with "the lowest [...] vertex or node with that fault".
pub fn parse(stage: Stage, bytes: &[u8]) -> Result<Rule<'_>, Refusal> {
    if !header_is_sound(stage, bytes) {
        return Err(Refusal::RULE_HEADER);
    }
    let rule = Rule::view(bytes);
    refuse_at(RULE_RECORD, sound_records(rule).position(|sound| !sound))?;
    refuse_at(RULE_ORDER, first_out_of_order(rule))?;
    if connection_parts(rule) != [true; 7] {
        return Err(Refusal::RULE_CONNECTION);
    }
    refuse_at(RULE_EXPRESSION, sound_nodes(rule).position(|sound| !sound))?;
    refuse_at(RULE_EXPRESSION, sound_uses(rule).position(|sound| !sound))?;
    Ok(rule)
}

/// Whether a fixed rule of request 8/13 is "a sound rule, with 64 for 16 and nodes
/// unlimited". Its nodes are the block's.
pub(crate) fn is_sound_expansion(rule: Rule) -> bool {
    rule.source_count() <= MAX_FIXED
        && rule.target_count() <= MAX_FIXED
        && sound_records(rule).all(|sound| sound)
        && first_out_of_order(rule).is_none()
        && connection_parts(rule) == [true; 7]
        && sound_uses(rule).all(|sound| sound)
}

/// "Header: 0-2 `LGR`; 3 zero; 4-5 version 1; 6 S; 7 T; 8 K; 9 A; 10-11
/// source outputs; 12-13 target outputs; 14-15 zero. Unused places hold 255."
/// Whether each part is right, for a block that has a header.
pub(crate) fn header_parts(stage: Stage, bytes: &[u8]) -> [bool; 12] {
    let rule = Rule::view(bytes);
    let (source, target) = (rule.source_count(), rule.target_count());
    let used = rule.output_count().min(MAX_OUTPUTS);
    [
        bytes[..3] == *b"LGR",
        bytes[3] == 0,
        stage.takes_rule_version(u16_at(bytes, 4)),
        (1..=MAX_VERTICES).contains(&source),
        target <= MAX_VERTICES,
        (1..=MAX_OUTPUTS).contains(&rule.output_count()),
        rule.node_count() <= MAX_NODES,
        (0..used).all(|place| usize::from(rule.source_output(place)) < source),
        (used..MAX_OUTPUTS).all(|place| rule.source_output(place) == UNUSED),
        (used..MAX_OUTPUTS).all(|place| rule.target_output(place) == UNUSED),
        last_bytes_are_sound(rule),
        bytes.len() == HEADER + PATTERN * (source + target) + NODE * rule.node_count(),
    ]
}

fn header_is_sound(stage: Stage, bytes: &[u8]) -> bool {
    bytes.len() >= HEADER && header_parts(stage, bytes) == [true; 12]
}

/// "14-15 zero"; in version 2 they "name the source and target Tuple (255: no target one;
/// else at or above S or T, 30)".
fn last_bytes_are_sound(rule: Rule) -> bool {
    let [source, target] = [14, 15].map(|at| usize::from(rule.bytes()[at]));
    match rule.is_variadic() {
        false => [source, target] == [0, 0],
        true => {
            source < rule.source_count()
                && (target < rule.target_count() || target == usize::from(UNUSED))
        }
    }
}

/// Whether each vertex's record is sound. "Target vertex t counts as S + t", so
/// the target's stand behind the source's.
pub(crate) fn sound_records(rule: Rule<'_>) -> impl Iterator<Item = bool> + '_ {
    let sources = rule.sources().enumerate();
    let targets = rule.targets().enumerate();
    sources
        .map(move |(vertex, pattern)| source_record_is_sound(rule, vertex, pattern))
        .chain(targets.map(move |(vertex, pattern)| target_record_is_sound(rule, vertex, pattern)))
}

/// "Kind 0 is the wildcard, operator, n and m zero; kinds 1 to 5 follow the
/// table above in operator, n and m." In version 2 "kind plus 128 marks a template".
fn record_fits_kind(rule: Rule, pattern: Pattern) -> bool {
    let [_, operator, inputs, attributes] = pattern.head();
    counts_fit(pattern.kind(), operator, inputs, attributes)
        && pattern.unused_places_are_marked()
        && (rule.is_variadic() || !pattern.is_template())
}

/// "each an unmarked Tuple with n 1, else 31"
fn is_tuple_over_branch(pattern: Pattern) -> bool {
    pattern.kind() == TUPLE && !pattern.is_template() && pattern.input_count() == 1
}

/// "a source input names a lower vertex"
fn source_record_is_sound(rule: Rule, vertex: usize, pattern: Pattern) -> bool {
    let is_tuple = rule.is_source_tuple(vertex);
    let names_copies = pattern.is_template() || is_tuple;
    record_fits_kind(rule, pattern)
        && (!is_tuple || is_tuple_over_branch(pattern))
        && pattern
            .inputs()
            .map(usize::from)
            .all(|input| input < vertex && (names_copies || !rule.source(input).is_template()))
}

/// "Target kinds are 1, 3, 4 and 5."
fn target_record_is_sound(rule: Rule, vertex: usize, pattern: Pattern) -> bool {
    let is_tuple = rule.is_target_tuple(vertex);
    let names_copies = pattern.is_template() || is_tuple;
    matches!(pattern.kind(), CONST | CALL | TUPLE | PROJ)
        && record_fits_kind(rule, pattern)
        && (!is_tuple || is_tuple_over_branch(pattern))
        && pattern.inputs().all(|place| {
            names_rule_input_or_target_below(rule, place, vertex)
                && (names_copies || !names_template(rule, place))
        })
}

/// Whether a target place names a template: "elsewhere" than "in a template, in those
/// Tuples' field", it is "31 as an input, 33 as an output".
fn names_template(rule: Rule, place: u8) -> bool {
    match place.checked_sub(rule.target_base()) {
        Some(target) => rule.target(target.into()).is_template(),
        None => rule.source(place.into()).is_template(),
    }
}

/// "A target input or output place holds 0 to 15 for a rule input of that
/// number, or 16 + t for target vertex t; a target vertex names only earlier
/// ones."
fn names_rule_input_or_target_below(rule: Rule, place: u8, limit: usize) -> bool {
    match place.checked_sub(rule.target_base()) {
        Some(target) => usize::from(target) < limit,
        None => rule.is_rule_input(place),
    }
}

/// 002's traversal: the vertices in the order in which they are visited.
pub(crate) struct Traversal<'a> {
    rule: Rule<'a>,
    order: [usize; MAX_FIXED],
    visited: usize,
}

impl<'a> Traversal<'a> {
    /// "the visiting order of 002's traversal from the listed outputs"
    pub(crate) fn from_outputs(rule: Rule<'a>) -> Traversal<'a> {
        let mut traversal = Traversal { rule, order: [0; MAX_FIXED], visited: 0 };
        for output in rule.source_outputs() {
            traversal.visit(output.into());
        }
        traversal
    }

    /// 002's Traverse: "inputs first, left to right, each vertex once". Depth
    /// is bounded, since an input is lower than its vertex.
    fn visit(&mut self, vertex: usize) {
        if self.order().contains(&vertex) {
            return;
        }
        for input in self.rule.source(vertex).inputs() {
            self.visit(input.into());
        }
        self.order[self.visited] = vertex;
        self.visited += 1;
    }

    pub(crate) fn order(&self) -> &[usize] {
        &self.order[..self.visited]
    }
}

/// "Source vertices stand in the visiting order [...]. So all are reached":
/// vertex j is visited as the j-th. The first that is not, because another one
/// is or because the traversal has ended.
fn first_out_of_order(rule: Rule) -> Option<usize> {
    let traversal = Traversal::from_outputs(rule);
    (0..rule.source_count()).find(|&vertex| traversal.order().get(vertex) != Some(&vertex))
}

/// Whether each thing that makes "outputs and connection" is right.
pub(crate) fn connection_parts(rule: Rule) -> [bool; 7] {
    [
        source_outputs_are_distinct(rule),
        source_output_kinds_are_sound(rule),
        source_outputs_are_unread(rule),
        outputs_are_connected(rule),
        target_outputs_are_sound(rule),
        rule_inputs_are_named(rule),
        target_vertices_are_used(rule),
    ]
}

/// "Source outputs are distinct".
fn source_outputs_are_distinct(rule: Rule) -> bool {
    rule.output_count() < 2 || rule.source_output(0) != rule.source_output(1)
}

/// "of kind 3, 4 or 5", and no template
fn source_output_kinds_are_sound(rule: Rule) -> bool {
    let mut outputs = rule.source_outputs().map(|output| rule.source(output.into()));
    outputs.all(|pattern| matches!(pattern.kind(), CALL | TUPLE | PROJ) && !pattern.is_template())
}

/// "and read by no source vertex"
fn source_outputs_are_unread(rule: Rule) -> bool {
    let is_output = |input: u8| rule.source_outputs().any(|output| output == input);
    rule.sources().all(|reader| !reader.inputs().any(is_output))
}

/// "With K = 2 some source vertex reaches both."
fn outputs_are_connected(rule: Rule) -> bool {
    // Bit u of entry v: vertex u reaches vertex v. "Every vertex reaches
    // itself." Inputs are lower, so their entries are ready.
    let mut reached_by = [0u64; MAX_FIXED];
    for (vertex, pattern) in rule.sources().enumerate() {
        let above = pattern.inputs().fold(0, |set, input| set | reached_by[usize::from(input)]);
        reached_by[vertex] = above | 1 << vertex;
    }
    let of_output = |place: usize| reached_by[usize::from(rule.source_output(place))];
    rule.output_count() < 2 || of_output(0) & of_output(1) != 0
}

/// A target output names a rule input or any target vertex, but no template. "Both target
/// outputs may be the same."
fn target_outputs_are_sound(rule: Rule) -> bool {
    let count = rule.target_count();
    rule.target_outputs().all(|place| {
        names_rule_input_or_target_below(rule, place, count) && !names_template(rule, place)
    })
}

/// Whether an input place of a target vertex, or a target output, holds this.
fn is_named_in_target(rule: Rule, place: u8) -> bool {
    rule.target_outputs().any(|output| output == place)
        || rule.targets().any(|pattern| pattern.inputs().any(|input| input == place))
}

/// "Every rule input is named by some target place".
fn rule_inputs_are_named(rule: Rule) -> bool {
    (0..rule.source_count() as u8)
        .all(|vertex| !rule.is_rule_input(vertex) || is_named_in_target(rule, vertex))
}

/// "and each target vertex by a later one or as an output". Only later ones
/// can name it, by the record stage.
fn target_vertices_are_used(rule: Rule) -> bool {
    let base = rule.target_base();
    (0..rule.target_count() as u8).all(|vertex| is_named_in_target(rule, base + vertex))
}

/// Whether each node is sound. A node that names any as an operand is at fault,
/// not the node any.
pub(crate) fn sound_nodes(rule: Rule<'_>) -> impl Iterator<Item = bool> + '_ {
    (0..rule.node_count()).map(move |index| {
        rule.node_padding(index) == 0 && node_is_sound(rule, index, rule.node(index))
    })
}

/// The forms' fields. "Forms 3 to 7 name two earlier nodes in a and b. Fields
/// a form doesn't use are zero." Node any is "never [...] an operand". In version 2: "8
/// index, 9 sum of earlier node a".
fn node_is_sound(rule: Rule, index: usize, node: Node) -> bool {
    let is_operand = |operand: u8| {
        let operand = usize::from(operand);
        operand < index && rule.node(operand).form != ANY
    };
    match node.form {
        ANY => node.a == 0 && node.b == 0 && node.number == 0,
        CONSTANT => node.a == 0 && node.b == 0,
        ACCESS => {
            usize::from(node.a) < rule.source_count()
                && (1..=PLACES).contains(&usize::from(node.b))
                && node.number == 0
        }
        PLUS..=REMAINDER => is_operand(node.a) && is_operand(node.b) && node.number == 0,
        INDEX => rule.is_variadic() && node.a == 0 && node.b == 0 && node.number == 0,
        SUM => rule.is_variadic() && is_operand(node.a) && node.b == 0 && node.number == 0,
        _ => false,
    }
}

/// Whether each vertex's use of nodes is sound, the target's behind the
/// source's. "Attribute node numbers at or above A" count "as a vertex's use".
/// All nodes must be sound.
pub(crate) fn sound_uses(rule: Rule<'_>) -> impl Iterator<Item = bool> + '_ {
    let (accessed, indexed) = (accessed_vertices(rule), indexed_nodes(rule));
    let has_index =
        move |pattern: Pattern, node: u8| pattern.is_template() || !indexed[usize::from(node)];
    let sources = rule.sources().enumerate().map(move |(vertex, pattern)| {
        let accessed = &accessed[rule.source_index(vertex)];
        pattern.attributes().all(|node| {
            source_use_is_sound(rule, accessed, vertex, node) && has_index(pattern, node)
        })
    });
    let targets = rule.targets().map(move |pattern| {
        pattern.attributes().all(|node| target_use_is_sound(rule, node) && has_index(pattern, node))
    });
    sources.chain(targets)
}

/// "An attribute of source vertex j only accesses vertices below j [...],
/// directly or through nodes."
fn source_use_is_sound(rule: Rule, accessed: &[u64], vertex: usize, node: u8) -> bool {
    let node = usize::from(node);
    node < rule.node_count() && accessed[node] >> vertex == 0
}

/// Node any stands "never in a target".
fn target_use_is_sound(rule: Rule, node: u8) -> bool {
    let node = usize::from(node);
    node < rule.node_count() && rule.node(node).form != ANY
}

/// Bit v of entry k, for each index: node k accesses source vertex v at that index, itself
/// or through its operands. One pass, since operands are earlier; following both operands
/// each time would take 2 to the 63 steps on a chain of doubled nodes.
fn accessed_vertices(rule: Rule) -> Vec<[u64; MAX_NODES]> {
    let mut accessed = vec![[0; MAX_NODES]; rule.width() + 1];
    for number in 0..rule.node_count() {
        let node = rule.node(number);
        let (a, b) = (usize::from(node.a), usize::from(node.b));
        for index in 0..=rule.width() {
            accessed[index][number] = match node.form {
                ANY | CONSTANT | INDEX => 0,
                ACCESS => rule.accessed(node.a, index).map_or(0, |vertex| 1 << vertex),
                SUM => rule.indices().fold(0, |set, term| set | accessed[term][a]),
                _ => accessed[index][a] | accessed[index][b],
            };
        }
    }
    accessed
}

/// For each node of a block as it stands, whether it names a template or the index outside
/// of a sum: "elsewhere" than in a template "either is 34 in an expression". In a fixed
/// rule all copies have their index.
fn indexed_nodes(rule: Rule) -> [bool; MAX_NODES] {
    let mut indexed = [false; MAX_NODES];
    let count = if rule.is_variadic() { rule.node_count() } else { 0 };
    for number in 0..count {
        let node = rule.node(number);
        indexed[number] = match node.form {
            ANY | CONSTANT | SUM => false,
            INDEX => true,
            ACCESS => rule.source(node.a.into()).is_template(),
            _ => indexed[usize::from(node.a)] || indexed[usize::from(node.b)],
        };
    }
    indexed
}
