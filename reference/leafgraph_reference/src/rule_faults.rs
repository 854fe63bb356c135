//! All faults of a rule block, where the check gives only the first: so that
//! tests and the comparison know what was tried. It is a second telling of
//! "the first kind that holds anywhere is given", too.

use crate::graph_faults::unsound;
use crate::reply::{Refusal, RULE_EXPANSION, RULE_EXPRESSION, RULE_ORDER, RULE_RECORD};
use crate::rule::{Pattern, Rule, ANY, HEADER, MAX_NODES, MAX_OUTPUTS, MAX_VERTICES, NODE};
use crate::rule::{PATTERN, PLUS};
use crate::rule_check::{
    connection_parts, header_parts, is_sound_expansion, sound_nodes, sound_records, sound_uses,
    Traversal,
};
use crate::rules::expansions;
use crate::stage::{Stage, STAGE};

/// The places of each kind of fault, the lowest first. Where an earlier kind
/// makes a block unreadable, there are none of the later ones.
#[derive(Clone, Debug, Default, PartialEq, Eq)]
pub struct RuleFaults {
    /// S, where it can be read.
    pub source_count: usize,
    /// The parts of the header that are wrong, the length among them, in the
    /// order of the check.
    pub header: Vec<usize>,
    /// Vertices with a bad record.
    pub records: Vec<usize>,
    /// Vertices that are not visited at their own number.
    pub order: Vec<usize>,
    /// Whether the traversal ends before all vertices are visited.
    pub ends_early: bool,
    /// The things that make "outputs and connection" and are wrong, in the
    /// order of the check.
    pub connection: Vec<usize>,
    pub nodes: Vec<usize>,
    /// Nodes that name a node any.
    pub over_any: Vec<usize>,
    /// Vertices with a bad use. With a bad node these are only the uses of
    /// nodes that are not there.
    pub uses: Vec<usize>,
    /// The n whose fixed rule is not sound, where nothing else is wrong.
    pub expansions: Vec<usize>,
}

impl RuleFaults {
    pub fn of(bytes: &[u8]) -> RuleFaults {
        RuleFaults::at(STAGE, bytes)
    }

    pub fn at(stage: Stage, bytes: &[u8]) -> RuleFaults {
        let mut faults = RuleFaults::default();
        if bytes.len() < HEADER {
            faults.header = vec![header_parts(stage, &[0; HEADER]).len() - 1];
            return faults;
        }
        faults.header = unsound(header_parts(stage, bytes));
        if is_readable(bytes) {
            faults.list_records(Rule::view(bytes));
        }
        if faults.first().is_none() && Rule::view(bytes).is_variadic() {
            faults.list_expansions(Rule::view(bytes));
        }
        faults
    }

    fn list_expansions(&mut self, rule: Rule) {
        let expansions = (1..).zip(expansions(rule));
        let unsound = expansions.filter(|(_, expansion)| !is_sound_expansion(expansion.rule()));
        self.expansions = unsound.map(|(width, _)| width).collect();
    }

    /// Later kinds can be told where nothing but unused places are wrong in a
    /// record.
    fn list_records(&mut self, rule: Rule) {
        self.source_count = rule.source_count();
        self.records = unsound(sound_records(rule));
        let marked = with_marked_places(rule);
        let marked = Rule::view(&marked);
        if sound_records(marked).all(|sound| sound) {
            self.list_later_kinds(marked);
        }
    }

    fn list_later_kinds(&mut self, rule: Rule) {
        let traversal = Traversal::from_outputs(rule);
        let order = traversal.order();
        let in_order = (0..rule.source_count()).map(|vertex| order.get(vertex) == Some(&vertex));
        self.order = unsound(in_order);
        self.ends_early = order.iter().enumerate().all(|(at, &vertex)| at == vertex)
            && order.len() < rule.source_count();
        self.connection = unsound(connection_parts(rule));
        self.nodes = unsound(sound_nodes(rule));
        self.over_any = (0..rule.node_count()).filter(|&node| names_any(rule, node)).collect();
        self.uses = match self.nodes.is_empty() {
            true => unsound(sound_uses(rule)),
            false => unsound(rule.sources().chain(rule.targets()).map(|one| has_nodes(rule, one))),
        };
    }

    /// What a check must refuse with.
    pub fn first(&self) -> Option<Refusal> {
        if !self.header.is_empty() {
            return Some(Refusal::RULE_HEADER);
        }
        let lowest = |number: u8, places: &[usize]| {
            let place = *places.iter().min()? as u32;
            Some(Refusal { number, place })
        };
        lowest(RULE_RECORD, &self.records)
            .or(lowest(RULE_ORDER, &self.order))
            .or((!self.connection.is_empty()).then_some(Refusal::RULE_CONNECTION))
            .or(lowest(RULE_EXPRESSION, &self.nodes))
            .or(lowest(RULE_EXPRESSION, &self.uses))
            .or(lowest(RULE_EXPANSION, &self.expansions))
    }
}

/// Whether the counts and the source outputs can be read as they are.
fn is_readable(bytes: &[u8]) -> bool {
    let rule = Rule::view(bytes);
    let vertices = rule.source_count() + rule.target_count();
    rule.source_count() <= MAX_VERTICES
        && rule.target_count() <= MAX_VERTICES
        && (1..=MAX_OUTPUTS).contains(&rule.output_count())
        && rule.node_count() <= MAX_NODES
        && bytes.len() == HEADER + PATTERN * vertices + NODE * rule.node_count()
        && rule.source_outputs().all(|output| usize::from(output) < rule.source_count())
}

/// The block with 255 in every place of a record that its counts leave unused.
fn with_marked_places(rule: Rule) -> Vec<u8> {
    let mut block = rule.bytes().to_vec();
    let vertices = rule.source_count() + rule.target_count();
    for record in block[HEADER..].chunks_exact_mut(PATTERN).take(vertices) {
        let counts = [record[2], record[3]].map(|count| usize::from(count).min(6));
        record[4 + counts[0]..10].fill(255);
        record[10 + counts[1]..16].fill(255);
    }
    block
}

fn names_any(rule: Rule, index: usize) -> bool {
    let node = rule.node(index);
    let is_any =
        |operand: u8| usize::from(operand) < index && rule.node(usize::from(operand)).form == ANY;
    node.form >= PLUS && (is_any(node.a) || is_any(node.b))
}

/// Whether all nodes that a vertex uses are there.
fn has_nodes(rule: Rule, pattern: Pattern) -> bool {
    pattern.attributes().all(|node| usize::from(node) < rule.node_count())
}
