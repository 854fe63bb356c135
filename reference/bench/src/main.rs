//! Times the proved library against the second program on the same blocks, and where
//! there is one against a plain program too.
//!
//!     benchmark [--csv FILE]
//!
//! One run prints a table, and writes it to the file as CSV where one is
//! given. The figures are those of this machine at this moment; what can be
//! compared from run to run is the ratio. Nothing here fails because of a
//! figure.

mod cases;
mod graphs;
mod machine;
mod plain;
mod report;
mod timing;
mod variadic;

use std::path::PathBuf;
use std::process::exit;

use cases::{
    checks, cleanups, imports, listings, questions, rewritings, searches, Answer, Case, Program,
};
use leafgraph_reference::stage::{Stage, STAGE};
use report::{print_table, write_csv, Row};
use timing::best_of_each;
use variadic::variadics;

/// The rounds of a row are spread over the whole run: what slows the machine
/// down for a second does not fall on one row alone.
const PASSES: usize = 4;

fn main() {
    let csv = csv_file();
    let rows = timed();
    print_table(&rows);
    if let Some(file) = csv {
        if let Err(error) = write_csv(&file, &rows) {
            eprintln!("benchmark: {}: {error}", file.display());
            exit(1);
        }
    }
}

/// The file that the rows are to be written to, if one is given.
fn csv_file() -> Option<PathBuf> {
    let mut arguments = std::env::args_os().skip(1);
    match (arguments.next(), arguments.next(), arguments.next()) {
        (None, _, _) => None,
        (Some(option), Some(file), None) if option == "--csv" => Some(file.into()),
        _ => {
            eprintln!("usage: benchmark [--csv FILE]");
            exit(2);
        }
    }
}

/// All rows, each with the best of all passes.
fn timed() -> Vec<Row> {
    let cases =
        [checks(), searches(), rewritings(), cleanups(), imports(), questions(), listings()];
    let later = if STAGE == Stage::Eight { variadics() } else { vec![] };
    let cases: Vec<Case> = cases.into_iter().flatten().chain(later).collect();
    let mut rows: Vec<Row> = cases.iter().map(first_row).collect();
    for pass in 1..=PASSES {
        eprintln!("pass {pass} of {PASSES}");
        for (case, row) in cases.iter().zip(&mut rows) {
            let mut calls: Vec<_> = case.programs().map(timed_call).collect();
            row.take(&best_of_each(&mut calls));
        }
    }
    rows
}

/// A call with bytes of its own to write.
fn timed_call(program: &Program) -> impl FnMut() -> Answer + '_ {
    let mut lent = vec![];
    move || program(&mut lent)
}

/// A row without figures, once all programs have given the answer that it is about.
fn first_row(case: &Case) -> Row {
    let row = format!("{}, {:?} slots", case.name, case.slots);
    let mut left: Vec<Vec<u8>> = vec![];
    for program in case.programs() {
        let mut lent = vec![];
        let answer = program(&mut lent);
        assert_eq!(answer.reply, case.reply, "another reply: {row}");
        left.push([&lent[..], &answer.map].concat());
    }
    assert!(left.windows(2).all(|pair| pair[0] == pair[1]), "the programs differ: {row}");
    Row::new(case.name, case.slots, left.len())
}
