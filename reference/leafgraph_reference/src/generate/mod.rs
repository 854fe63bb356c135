//! Random blocks for the comparison and for tests: sound ones of all shapes,
//! and damaged ones that are only just unsound. And texts, listings and others.

mod agreeing;
mod constants;
mod cuts;
mod damaged_graphs;
mod damaged_rules;
mod damages;
mod expressions;
mod filling;
mod graphs;
mod insertion;
mod lawful;
mod listings;
mod noise;
mod rewritings;
mod rules;
mod searches;
mod sequences;
mod tables;
mod targets;
mod variadic_cases;
mod variadic_damages;
mod variadic_nodes;
mod variadic_rules;
mod variadic_source;
mod variadic_target;
mod wrong_counts;

pub use cuts::{matching_case, same_meaning_case, Case};
pub use damaged_graphs::{damaged_graph, damaged_graph_of, damaged_parts, damaged_version_1_graph};
pub use damaged_rules::{damaged_rule, damaged_rule_of};
pub use graphs::{sound_graph, sound_graph_of};
pub use lawful::lawful_rules;
pub use listings::any_text;
pub use noise::{
    noise, noise_with_graph_header, noise_with_rule_header, noise_with_version_1_header,
};
pub use rewritings::rewriting_case;
pub use rules::sound_rule;
pub use searches::search_case;
pub use sequences::{sequence, Sequence};
pub use variadic_cases::{variadic_case, VariadicCase};
pub use variadic_damages::damaged_variadic_rule_of;
pub use variadic_rules::{rule_with_unsound_expansion, variadic_rule};
