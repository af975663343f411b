//! What was compared and what differs.

use oracle::partners_readings::{Shown, PARTNERS_READINGS};

use crate::counts::{add, listed, unmet};
use crate::differing;
use crate::parts::Counted;

/// The sorts of calls: the checks that refuse, then what is admitted.
pub const CALLED: [&str; 13] = [
    "1",
    "2",
    "3",
    "4",
    "5",
    "6",
    "7",
    "8",
    "20 of the claims' list",
    "20 of the workers' list",
    "21",
    "admitted",
    "admitted with a claim led to from two groups",
];
pub const CLAIMS_LIST: usize = 8;
pub const WORKERS_LIST: usize = 9;
pub const FOREIGN: usize = 10;
pub const ADMITTED: usize = 11;
pub const TWO_GROUPS: usize = 12;

/// What was met in pairs of jobs.
pub const PAIRS: [&str; 5] = [
    "both admitted and finished",
    "the worker's answers in these",
    "both admitted and another worker's answers differ",
    "not both admitted",
    "not both admitted and the worker's answers differ",
];
pub const BOTH: usize = 0;
pub const ANSWERS: usize = 1;
pub const OTHERS_DIFFER: usize = 2;
pub const NOT_BOTH: usize = 3;
pub const OWN_DIFFER: usize = 4;

#[derive(Default)]
pub struct Totals {
    pub calls: usize,
    /// Calls by sort.
    pub called: [usize; CALLED.len()],
    /// Accepted jobs with missing records.
    pub with_missing: usize,
    /// Jobs that show each wrong reading of order 8.
    pub shown: Shown,
    pub pairs: [usize; PAIRS.len()],
    pub differences: usize,
}

impl Totals {
    /// Counts a call by its sort.
    pub fn count_call(&mut self, sort: usize) {
        self.calls += 1;
        self.called[sort] += 1;
    }

    /// A difference; its job is kept.
    pub fn differ(&mut self, name: &str, job: &[u8], what: &str) {
        self.differences += 1;
        differing::say(self.differences, name, what, job, "partners", "job");
    }

    /// The gate must meet every sort of call and of pair, and jobs that show each wrong
    /// reading.
    pub fn expect_all_met(&mut self) {
        let mut names = unmet(&CALLED, &self.called);
        names.extend(unmet(&PAIRS, &self.pairs));
        names.extend(unmet(&PARTNERS_READINGS.map(|(name, _)| name), &self.shown));
        self.differences += differing::never_met(&names);
    }
}

impl Counted for Totals {
    fn add(&mut self, other: &Self) {
        self.calls += other.calls;
        self.with_missing += other.with_missing;
        self.differences += other.differences;
        add(&mut self.called, &other.called);
        add(&mut self.shown, &other.shown);
        add(&mut self.pairs, &other.pairs);
    }

    fn counts(&self) -> String {
        let finished = self.pairs[BOTH] + self.pairs[NOT_BOTH];
        format!("{} calls, {} with missing records, {finished} pairs finished", self.calls, self.with_missing)
    }

    fn differences(&self) -> usize {
        self.differences
    }

    fn summary(&self) {
        println!("calls by sort: {}", listed(&CALLED, &self.called));
        println!("wrong readings shown: {}", listed(&PARTNERS_READINGS.map(|(name, _)| name), &self.shown));
        println!("pairs: {}", listed(&PAIRS, &self.pairs));
        if self.differences > 0 {
            println!("a made job or pair alone: partners PART SEED 1");
        }
        println!(
            "{} calls compared, {} with missing records, {} answers of admitted pairs, {} differences",
            self.calls, self.with_missing, self.pairs[ANSWERS], self.differences
        );
    }
}
