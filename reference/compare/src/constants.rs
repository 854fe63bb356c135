//! The Consts that a rule's Consts are matched to, and who else names them
//! (request 1/13).

use leafgraph_reference::graph::Graph;
use leafgraph_reference::operators::CONST;
use leafgraph_reference::rule::Rule;

use crate::namers::{Match, Namer, Naming};

/// A matched Const. It stays where something outside names it.
pub struct MatchedConst {
    pub slot: u16,
    pub naming: Naming,
}

impl MatchedConst {
    pub fn stays(&self) -> bool {
        self.naming.is_outside()
    }

    pub fn stays_only_by(&self, namer: Namer) -> bool {
        self.naming.is_outside_only_by(namer)
    }

    pub fn is_read_and_output(&self) -> bool {
        self.naming.is_read_and_output()
    }
}

pub fn matched_consts(graph: Graph, rule: Rule, images: &[u16]) -> Vec<MatchedConst> {
    if rule.sources().all(|pattern| pattern.kind() != CONST) {
        return vec![];
    }
    let looked_at = Match::new(graph, rule, images);
    let pairs = rule.sources().zip(images).filter(|(pattern, _)| pattern.kind() == CONST);
    pairs.map(|(_, &slot)| MatchedConst { slot, naming: looked_at.naming(slot) }).collect()
}
