//! The rows of a run, printed for the eye and written as CSV.

use std::path::Path;
use std::{fs, io};

use crate::machine;

pub struct Row {
    pub call: &'static str,
    /// The graph's slots, where there is a graph.
    pub slots: Option<usize>,
    /// Nanoseconds for a call of the library, of the second program and of the plain one,
    /// where there is one, by nearly the best of all rounds.
    times: Vec<f64>,
}

/// The longest call's name fits.
const CALL: usize = 44;

pub fn print_table(rows: &[Row]) {
    println!(
        "{:CALL$}{:>6}{:>14}{:>14}{:>9}{:>14}{:>9}",
        "call", "slots", "proved ns", "second ns", "ratio", "plain ns", "ratio"
    );
    rows.iter().for_each(Row::print);
    println!(
        "ratio: the proved library's time over the second program's, and over that of the plain\n\
         one, which judges nothing, in nearly the best rounds"
    );
}

impl Row {
    pub fn new(call: &'static str, slots: Option<usize>, programs: usize) -> Row {
        Row { call, slots, times: vec![f64::INFINITY; programs] }
    }

    /// Takes these times where they are better.
    pub fn take(&mut self, times: &[f64]) {
        for (best, &time) in self.times.iter_mut().zip(times) {
            *best = best.min(time);
        }
    }

    fn print(&self) {
        let slots = self.slots.map_or("-".to_string(), |slots| slots.to_string());
        print!("{:CALL$}{slots:>6}{:>14.0}", self.call, self.times[0]);
        for time in &self.times[1..] {
            print!("{time:>14.0}{:>9.2}", self.times[0] / time);
        }
        println!();
    }

    /// The call is quoted, since it may have a comma; a row without a graph
    /// has no slots, and most have no plain program.
    fn csv(&self) -> String {
        let slots = self.slots.map_or(String::new(), |slots| slots.to_string());
        let mut text = format!("\"{}\",{slots},{:.1}", self.call, self.times[0]);
        for place in 1..PROGRAMS {
            text += &self
                .times
                .get(place)
                .map_or(",,".to_string(), |time| format!(",{time:.1},{:.3}", self.times[0] / time));
        }
        text + "\n"
    }
}

/// The library, the second program and the plain one.
const PROGRAMS: usize = 3;

/// First what was measured where and when, in lines that begin with '#'.
pub fn write_csv(file: &Path, rows: &[Row]) -> io::Result<()> {
    let mut text = String::new();
    for (what, value) in machine::facts() {
        text += &format!("# {what}: {value}\n");
    }
    text += "call,slots,proved ns,second ns,ratio,plain ns,plain ratio\n";
    text.extend(rows.iter().map(Row::csv));
    fs::write(file, text)
}
