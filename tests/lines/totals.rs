//! What was compared and what differs.

use oracle::lines_sorts::{Met, Sort, SORTS};

use crate::counts::{add, listed, unmet};
use crate::differing;
use crate::parts::Counted;

#[derive(Default)]
pub struct Totals {
    pub texts: usize,
    /// The longest text.
    pub longest: usize,
    pub calls: usize,
    /// Calls beside the oracle by the sort of their text and output.
    pub called: Met,
    /// Jobs whose own lines were typed again.
    pub read_back: usize,
    /// Runs of the program by the sort of its text, those whose job was listed, and
    /// those whose text was too long or whose output couldn't be written.
    pub run: Met,
    pub listed: usize,
    pub too_long: usize,
    pub unwritten: usize,
    pub differences: usize,
}

impl Totals {
    pub fn count_text(&mut self, text: &[u8]) {
        self.texts += 1;
        self.longest = self.longest.max(text.len());
    }

    /// Counts a call by its sort.
    pub fn count_call(&mut self, sort: Sort) {
        self.calls += 1;
        self.called[sort as usize] += 1;
    }

    pub fn runs(&self) -> usize {
        self.run.iter().sum::<usize>() + self.too_long + self.unwritten
    }

    /// A difference; its text is kept.
    pub fn differ(&mut self, name: &str, text: &[u8], what: &str) {
        self.differences += 1;
        differing::say(self.differences, name, what, text, "lines", "rules");
    }

    /// The gate must meet every sort in calls, and every one but 16, the last, in
    /// runs of the program, whose output holds any job.
    pub fn expect_all_met(&mut self) {
        let mut missing: Vec<String> =
            unmet(&SORTS, &self.called).iter().map(|sort| format!("a call: {sort}")).collect();
        missing.extend(unmet(&SORTS[..SORTS.len() - 1], &self.run).iter().map(|sort| format!("a run: {sort}")));
        let others = ["a job read back", "a job listed", "a text too long", "an output that can't be written"];
        missing.extend(unmet(&others, &[self.read_back, self.listed, self.too_long, self.unwritten]));
        self.differences += differing::never_met(&missing);
    }
}

impl Counted for Totals {
    fn add(&mut self, other: &Self) {
        self.texts += other.texts;
        self.longest = self.longest.max(other.longest);
        self.calls += other.calls;
        self.read_back += other.read_back;
        self.listed += other.listed;
        self.too_long += other.too_long;
        self.unwritten += other.unwritten;
        self.differences += other.differences;
        add(&mut self.called, &other.called);
        add(&mut self.run, &other.run);
    }

    fn counts(&self) -> String {
        format!("{} texts, {} calls, {} runs", self.texts, self.calls, self.runs())
    }

    fn differences(&self) -> usize {
        self.differences
    }

    fn summary(&self) {
        for (what, met) in [("calls", &self.called), ("runs of makejob", &self.run)] {
            if *met != Met::default() {
                println!("{what} by sort: {}", listed(&SORTS, met));
            }
        }
        if self.differences > 0 {
            println!("a made text alone: lines made SEED 1, or lines program SEED 1");
        }
        println!(
            "{} texts of up to {} bytes in {} calls and {} runs compared, {} jobs read back, {} listed, {} differences",
            self.texts,
            self.longest,
            self.calls,
            self.runs(),
            self.read_back,
            self.listed,
            self.differences
        );
    }
}
