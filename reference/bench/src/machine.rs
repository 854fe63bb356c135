//! When and where a run was made.

use std::fs;
use std::process::Command;

const UNKNOWN: &str = "unknown";

/// What a reader of the figures has to know, each with its name.
pub fn facts() -> [(&'static str, String); 4] {
    let (processor, processors) = processors();
    [
        ("date", said_by("date", &["-u", "+%Y-%m-%d"])),
        ("processor", processor),
        ("processors", processors.to_string()),
        ("compiler", said_by("rustc", &["--version"])),
    ]
}

/// The first processor's model, and how many processors there are, as Linux
/// lists them.
fn processors() -> (String, usize) {
    let list = fs::read_to_string("/proc/cpuinfo").unwrap_or_default();
    let models: Vec<&str> = list
        .lines()
        .filter_map(|line| line.split_once(':'))
        .filter(|(key, _)| key.trim() == "model name")
        .map(|(_, model)| model.trim())
        .collect();
    (models.first().unwrap_or(&UNKNOWN).to_string(), models.len())
}

/// The first line that a program prints.
fn said_by(program: &str, arguments: &[&str]) -> String {
    let output = Command::new(program).args(arguments).output();
    let text = output.map(|output| output.stdout).unwrap_or_default();
    let first = String::from_utf8_lossy(&text).lines().next().map(str::to_string);
    first.unwrap_or_else(|| UNKNOWN.to_string())
}
