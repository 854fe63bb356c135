//! What a sound rule block stands for: one fixed rule, or with request 8/13 one for each
//! n from 1 to 6.

use crate::expansion::Expansion;
use crate::graph::Graph;
use crate::matching::{least_match, Images};
use crate::readers::Mapped;
use crate::reply::{refuse_at, Refusal, RULE_EXPANSION};
use crate::rule::{Rule, MAX_WIDTH};
use crate::rule_check::{self, is_sound_expansion};
use crate::stage::Stage;

pub enum Rules<'a> {
    /// Version 1: the block is the rule.
    One(Rule<'a>),
    /// Version 2: the fixed rules from n = 1 on.
    Variadic(Vec<Expansion>),
}

impl<'a> Rules<'a> {
    /// "35 when an expansion for n up to 6 isn't a sound rule, with 64 for 16 and nodes
    /// unlimited, after 34; place the least such n."
    pub fn parse(stage: Stage, bytes: &'a [u8]) -> Result<Rules<'a>, Refusal> {
        let block = rule_check::parse(stage, bytes)?;
        if !block.is_variadic() {
            return Ok(Rules::One(block));
        }
        let expansions = expansions(block);
        let unsound = expansions.iter().find(|expansion| !is_sound_expansion(expansion.rule()));
        refuse_at(RULE_EXPANSION, unsound.map(Expansion::width))?;
        Ok(Rules::Variadic(expansions))
    }

    pub fn fixed(&self) -> impl Iterator<Item = Rule<'_>> {
        let (one, expansions) = match self {
            Rules::One(rule) => (Some(*rule), &[][..]),
            Rules::Variadic(expansions) => (None, &expansions[..]),
        };
        one.into_iter().chain(expansions.iter().map(Expansion::rule))
    }

    /// "the least match is taken over all n together": "the match whose first output's
    /// image is at least s and least, then whose second is least", with its rule. No two n
    /// match with the same output images, since these fix the Tuple's image.
    pub fn least_match(&self, graph: Graph, start: usize) -> Option<(Rule<'_>, Images)> {
        let found = |rule| least_match(graph, rule, start).map(|images| (rule, images));
        let matches = self.fixed().filter_map(found);
        matches.min_by_key(|(rule, images)| output_images(*rule, images))
    }

    /// The rule of which this map is a match, if there is one: of the six for a variadic
    /// rule, no two.
    pub fn rule_of_match(&self, graph: Graph, images: &Images) -> Option<Rule<'_>> {
        let is_match = |&rule: &Rule| Mapped { graph, rule, images }.is_match();
        self.fixed().find(is_match)
    }
}

/// The fixed rules from n = 1 on, sound or not.
pub(crate) fn expansions(block: Rule) -> Vec<Expansion> {
    (1..=MAX_WIDTH).map(|width| Expansion::of(block, width)).collect()
}

/// The first output's image and the last one's.
fn output_images(rule: Rule, images: &Images) -> [u16; 2] {
    let last = rule.output_count() - 1;
    [0, last].map(|place| images[usize::from(rule.source_output(place))])
}
