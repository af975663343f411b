//! What the comparing programs have alike: parts, each with its counts and a line of
//! them, and an end.

use std::process::exit;
use std::time::Instant;

/// What a part counts, and all of them.
pub trait Counted: Default {
    fn add(&mut self, other: &Self);
    /// The counts for the line of a part.
    fn counts(&self) -> String;
    fn differences(&self) -> usize;
    /// The last lines: what was met, and how many differ.
    fn summary(&self);
}

/// Runs one part, says what it counted and adds that to all.
pub fn part<T: Counted>(all: &mut T, title: &str, work: impl FnOnce(&mut T)) -> T {
    let start = Instant::now();
    let mut totals = T::default();
    work(&mut totals);
    let (counts, differences) = (totals.counts(), totals.differences());
    println!("{title}: {counts}, {differences} differences, {:.1} s", start.elapsed().as_secs_f64());
    all.add(&totals);
    totals
}

/// Runs what the program's arguments say, and ends with status 1 if anything differs.
pub fn run<T: Counted>(command: impl FnOnce(&mut T, &[&str])) -> ! {
    let arguments: Vec<String> = std::env::args().skip(1).collect();
    let words: Vec<&str> = arguments.iter().map(String::as_str).collect();
    let mut all = T::default();
    command(&mut all, &words);
    all.summary();
    exit(i32::from(all.differences() > 0));
}
