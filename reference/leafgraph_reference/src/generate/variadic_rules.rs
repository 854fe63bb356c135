//! Random variadic rules (request 8/13).

use crate::blocks::{RuleParts, VariadicParts};
use crate::random::Random;
use crate::reply::RULE_EXPANSION;
use crate::rule::MAX_VERTICES;
use crate::rules::Rules;
use crate::stage::Stage;

use super::variadic_nodes::{Scope, VariadicNodes};
use super::variadic_source::{is_template, variadic_source, VariadicSource};
use super::variadic_target::{copied_target, variadic_target, VariadicTarget};

/// In so many of a hundred rules a source attribute may sum over templates anywhere, and
/// not only behind the Tuple, where all copies are below.
const SUMS_ANYWHERE: usize = 12;
/// In so many of a hundred rules the target is a copy of the source.
const COPIED: usize = 15;

/// A sound variadic rule.
pub fn variadic_rule(random: &mut Random) -> VariadicParts {
    loop {
        let parts = any_variadic_rule(random);
        if Rules::parse(Stage::Eight, &parts.block()).is_ok() {
            return parts;
        }
    }
}

/// A variadic rule that is sound but for an expansion, which is too large or has a sum over
/// copies that are not below it.
pub fn rule_with_unsound_expansion(random: &mut Random) -> VariadicParts {
    loop {
        let parts = any_variadic_rule(random);
        let refusal = Rules::parse(Stage::Eight, &parts.block()).err();
        if refusal.is_some_and(|refusal| refusal.number == RULE_EXPANSION) {
            return parts;
        }
    }
}

/// A variadic rule whose expansions need not be sound.
fn any_variadic_rule(random: &mut Random) -> VariadicParts {
    loop {
        if let Some(parts) = try_rule(random) {
            return parts;
        }
    }
}

/// None where a side or the nodes are too many.
fn try_rule(random: &mut Random) -> Option<VariadicParts> {
    let mut side = variadic_source(random);
    if side.source.len() > MAX_VERTICES {
        return None;
    }
    let mut nodes = VariadicNodes::new();
    fill_source(random, &mut side, &mut nodes);
    let target = match random.chance(COPIED) {
        true => copied_target(&side, &mut nodes)?,
        false => filled_target(random, &side, &mut nodes)?,
    };
    if target.target.len() > MAX_VERTICES {
        return None;
    }
    let rule = RuleParts {
        source: side.source,
        target: target.target,
        source_outputs: side.outputs,
        target_outputs: target.outputs,
        nodes: nodes.nodes,
    };
    Some(VariadicParts { rule, source_tuple: side.tuple, target_tuple: target.tuple })
}

/// Gives a node to each attribute of the source.
fn fill_source(random: &mut Random, side: &mut VariadicSource, nodes: &mut VariadicNodes) {
    let anywhere = random.chance(SUMS_ANYWHERE);
    let shape = side.source.clone();
    for (vertex, one) in side.source.iter_mut().enumerate() {
        let (indexed, behind) = (is_template(one), vertex > usize::from(side.tuple));
        let scope = Scope {
            source: &shape,
            limit: vertex,
            indexed,
            templates: indexed,
            summed_templates: behind || anywhere,
        };
        one.attributes.iter_mut().for_each(|node| *node = nodes.for_source(random, scope));
    }
}

/// A random target with a node for each attribute.
fn filled_target(
    random: &mut Random,
    side: &VariadicSource,
    nodes: &mut VariadicNodes,
) -> Option<VariadicTarget> {
    let mut made = variadic_target(random, &side.source, side.outputs.len());
    for one in &mut made.target {
        let indexed = is_template(one);
        let scope = Scope {
            source: &side.source,
            limit: side.source.len(),
            indexed,
            templates: indexed,
            summed_templates: true,
        };
        for node in &mut one.attributes {
            *node = nodes.for_target(random, scope)?;
        }
    }
    Some(made)
}
