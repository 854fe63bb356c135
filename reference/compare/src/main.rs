//! Runs the proved library and the second program on the same random blocks
//! and reports any difference.
//!
//!     compare [--seed S] [--calls N]
//!         checks|matching|rewriting|cleanups|readers|listings|mixed|variadic
//!
//! - checks: the two checks, and with every fifth call an import;
//! - matching: searches;
//! - rewriting: rewritings by themselves, and in sequences on one graph;
//! - cleanups: sweeps and squeezes;
//! - readers: whether a stage is read elsewhere;
//! - listings: graphs written as text, and texts read;
//! - mixed: imports, rewritings, sweeps and squeezes in sequences on one graph, whether
//!   stages of each match are read elsewhere, and each table written as text and read;
//! - variadic: the check, searches, rewritings and questions with variadic rules (request
//!   8/13), by the second program at that stage whatever its own is.
//!
//! The same seed gives the same calls. Exit status 0: no difference, enough
//! calls were done, and everything that must be tried was; 1: otherwise; 2:
//! wrong usage.

mod arguments;
mod checks;
mod classes;
mod cleanups;
mod constants;
mod count_fault_classes;
mod graph_fault_classes;
mod import_classes;
mod imports;
mod listings;
mod look_classes;
mod maps;
mod matching;
mod mixed;
mod mixed_classes;
mod namers;
mod nearly;
mod place_classes;
mod questions;
mod read_classes;
mod reader_classes;
mod readers;
mod refusal_classes;
mod rewriting;
mod rewriting_classes;
mod rewriting_count_classes;
mod rule_fault_classes;
mod sequences;
mod squeeze_classes;
mod sweep_classes;
mod tables;
mod tally;
mod unmatched_classes;
mod variadic;
mod variadic_block;
mod variadic_classes;
mod variadic_maps;
mod variadic_rule_classes;
mod variadic_shape_classes;
mod written_classes;

use std::env;
use std::process::ExitCode;
use std::time::Instant;

use leafgraph_reference::random::Random;
use tally::Tally;

const DEFAULT_SEED: u64 = 1;
const USAGE: &str = "usage: compare [--seed S] [--calls N] \
    checks|matching|rewriting|cleanups|readers|listings|mixed|variadic";

/// What is compared.
#[derive(Clone, Copy)]
struct Mode {
    name: &'static str,
    run: fn(&mut Random, u64) -> Vec<Tally>,
    default_calls: u64,
}

const MODES: [Mode; 8] = [
    Mode { name: "checks", run: checks::run, default_calls: 1_250_000 },
    Mode { name: "matching", run: matching::run, default_calls: 300_000 },
    Mode { name: "rewriting", run: rewriting::run, default_calls: 300_000 },
    Mode { name: "cleanups", run: cleanups::run, default_calls: 300_000 },
    Mode { name: "readers", run: readers::run, default_calls: 400_000 },
    Mode { name: "listings", run: listings::run, default_calls: 200_000 },
    Mode { name: "mixed", run: mixed::run, default_calls: 200_000 },
    Mode { name: "variadic", run: variadic::run, default_calls: 100_000 },
];

struct Options {
    seed: u64,
    calls: u64,
    mode: Mode,
}

fn main() -> ExitCode {
    let Some(options) = options(env::args().skip(1)) else {
        eprintln!("{USAGE}");
        return ExitCode::from(2);
    };
    println!("{}: seed {}, {} calls", options.mode.name, options.seed, options.calls);
    let mut random = Random::new(options.seed);
    let begin = Instant::now();
    let tallies = (options.mode.run)(&mut random, options.calls);
    let seconds = begin.elapsed().as_secs_f64();
    for tally in &tallies {
        print!("{}", tally.report());
    }
    println!("{seconds:.1} s, {:.0} calls/s", options.calls as f64 / seconds);
    if tallies.iter().all(Tally::passes) {
        println!("no difference");
        ExitCode::SUCCESS
    } else {
        println!("the comparison fails");
        ExitCode::FAILURE
    }
}

fn options(mut arguments: impl Iterator<Item = String>) -> Option<Options> {
    let (mut seed, mut calls, mut mode) = (DEFAULT_SEED, None, None);
    while let Some(argument) = arguments.next() {
        match argument.as_str() {
            "--seed" => seed = arguments.next()?.parse().ok()?,
            "--calls" => calls = Some(arguments.next()?.parse().ok()?),
            name if mode.is_none() => {
                mode = Some(MODES.into_iter().find(|mode| mode.name == name)?)
            }
            _ => return None,
        }
    }
    let mode = mode?;
    Some(Options { seed, calls: calls.unwrap_or(mode.default_calls), mode })
}
