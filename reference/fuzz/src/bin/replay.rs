//! Runs every input file of these folders once and compares all calls.
//!
//!     fuzz_replay FOLDER...
//!
//! Exit status 0: no difference, every folder has inputs, and every reply of
//! every operation was seen; 1: otherwise; 2: wrong usage.

use std::env;
use std::fs;
use std::io;
use std::panic::catch_unwind;
use std::path::{Path, PathBuf};
use std::process::ExitCode;

use leafgraph_fuzz::comparison::compare;
use leafgraph_fuzz::library::PROVED;
use leafgraph_fuzz::tally::Tally;

fn main() -> ExitCode {
    let folders: Vec<PathBuf> = env::args_os().skip(1).map(PathBuf::from).collect();
    if folders.is_empty() {
        eprintln!("usage: fuzz_replay FOLDER...");
        return ExitCode::from(2);
    }
    let mut tally = Tally::new();
    let mut faults = vec![];
    for folder in &folders {
        match replay(folder, &mut tally) {
            Ok(more) => faults.extend(more),
            Err(error) => faults.push(format!("{}: {error}", folder.display())),
        }
    }
    println!("compared {} calls", tally.calls());
    print!("{}", tally.report());
    faults.extend(tally.missing());
    for fault in &faults {
        println!("{fault}");
    }
    match faults.is_empty() {
        true => {
            println!("no difference");
            ExitCode::SUCCESS
        }
        false => {
            println!("the replay fails");
            ExitCode::FAILURE
        }
    }
}

/// Runs the files of one folder, in the order of their names; what is wrong.
fn replay(folder: &Path, tally: &mut Tally) -> io::Result<Vec<String>> {
    let mut files = vec![];
    for entry in fs::read_dir(folder)? {
        let path = entry?.path();
        if path.is_file() && path.extension().is_none_or(|extension| extension != "md") {
            files.push(path);
        }
    }
    files.sort();
    println!("{}: {} inputs", folder.display(), files.len());
    if files.is_empty() {
        return Ok(vec![format!("{} has no input", folder.display())]);
    }
    let mut faults = vec![];
    for file in &files {
        if let Err(fault) = run(&fs::read(file)?, tally) {
            faults.push(format!("{}: {fault}", file.display()));
        }
    }
    Ok(faults)
}

/// The second program may panic where it is wrong itself. That is a
/// difference, too, and its file is to be named like any other's.
fn run(bytes: &[u8], tally: &mut Tally) -> Result<(), String> {
    let before = tally.clone();
    let outcome = catch_unwind(move || {
        let mut tally = before;
        compare(&PROVED, bytes, &mut tally).map(|()| tally)
    });
    match outcome {
        Ok(Ok(after)) => {
            *tally = after;
            Ok(())
        }
        Ok(Err(difference)) => Err(difference.to_string()),
        Err(_) => Err("a panic, told above".into()),
    }
}
