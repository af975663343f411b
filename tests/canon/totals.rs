//! What was compared and what differs.

use oracle::canon_readings::{Shown, CANON_READINGS};
use oracle::orders::{Missing, Orders};

use crate::counts::{add, listed, unmet};
use crate::differing;
use crate::orders::COMPARED;
use crate::parts::Counted;
use crate::runs::RUNS;

/// The sorts of calls for a form: the checks that refuse, then how the form differs
/// from the job.
pub const CALLED: [&str; 13] = [
    "1",
    "2",
    "3",
    "4",
    "5",
    "6",
    "7",
    "8",
    "19",
    "19 where the form would fit",
    "a form already",
    "as long as the job",
    "shorter",
];
pub const ROOM: usize = 8;
pub const FORM_FITS: usize = 9;
pub const UNCHANGED: usize = 10;
pub const AS_LONG: usize = 11;
pub const SHORTER: usize = 12;

/// The sorts of pairs of jobs: equal dress aside, or not.
pub const PAIRS: [&str; 2] = ["equal", "unequal"];

#[derive(Default)]
pub struct Totals {
    pub jobs: usize,
    /// Accepted jobs, and those of them with missing records.
    pub accepted: usize,
    pub with_missing: usize,
    pub calls: usize,
    /// Calls for a form by sort.
    pub called: [usize; CALLED.len()],
    /// Jobs that show each wrong reading of order 7.
    pub shown: Shown,
    /// Forms written again and evaluated.
    pub again: usize,
    pub pairs: [usize; PAIRS.len()],
    /// Comparisons by sort.
    pub compared: [usize; COMPARED.len()],
    /// All small jobs of one sort.
    pub small: usize,
    /// Runs of the program by sort.
    pub run: [usize; RUNS.len()],
    pub differences: usize,
}

impl Totals {
    /// Counts a call by its sort.
    pub fn count_call(&mut self, sort: usize) {
        self.calls += 1;
        self.called[sort] += 1;
    }

    pub fn runs(&self) -> usize {
        self.run.iter().sum()
    }

    /// A difference; its bytes are kept.
    pub fn differ(&mut self, name: &str, bytes: &[u8], what: &str) {
        self.differences += 1;
        differing::say(self.differences, name, what, bytes, "canon", "job");
    }

    /// The gate must meet every sort of call, comparison, pair and run, and jobs that
    /// show each wrong reading.
    pub fn expect_all_met(&mut self) {
        let readings = CANON_READINGS.map(|(name, _)| name);
        // Without order 2 no job has a missing record.
        let of_missing = |name: &String| name.contains("missing") && Orders::in_force().missing == Missing::Off;
        let mut names = unmet(&CALLED, &self.called);
        names.extend(unmet(&readings, &self.shown).into_iter().filter(|name| !of_missing(name)));
        names.extend(unmet(&PAIRS, &self.pairs));
        names.extend(unmet(&COMPARED, &self.compared));
        names.extend(unmet(&RUNS, &self.run));
        self.differences += differing::never_met(&names);
    }

    /// A difference of no job.
    pub fn fail(&mut self, what: &str) {
        self.differences += 1;
        println!("differs: the gate: {what}");
    }
}

impl Counted for Totals {
    fn add(&mut self, other: &Self) {
        self.jobs += other.jobs;
        self.accepted += other.accepted;
        self.with_missing += other.with_missing;
        self.calls += other.calls;
        self.again += other.again;
        self.small += other.small;
        self.differences += other.differences;
        add(&mut self.called, &other.called);
        add(&mut self.shown, &other.shown);
        add(&mut self.pairs, &other.pairs);
        add(&mut self.compared, &other.compared);
        add(&mut self.run, &other.run);
    }

    fn counts(&self) -> String {
        format!(
            "{} jobs, {} accepted, {} with missing records, {} calls, {} runs",
            self.jobs,
            self.accepted,
            self.with_missing,
            self.calls,
            self.runs()
        )
    }

    fn differences(&self) -> usize {
        self.differences
    }

    fn summary(&self) {
        println!("calls by sort: {}", listed(&CALLED, &self.called));
        println!("wrong readings shown: {}", listed(&CANON_READINGS.map(|(name, _)| name), &self.shown));
        println!("comparisons by sort: {}; pairs: {}", listed(&COMPARED, &self.compared), listed(&PAIRS, &self.pairs));
        println!("runs of canonjob by sort: {}", listed(&RUNS, &self.run));
        if self.differences > 0 {
            println!("a made job alone: canon made KIND SEED 1, or canon program KIND SEED 1");
        }
        println!(
            "{} jobs in {} calls and {} runs compared, {} with missing records, {} forms written again, {} small jobs, \
             {} differences",
            self.jobs,
            self.calls,
            self.runs(),
            self.with_missing,
            self.again,
            self.small,
            self.differences
        );
    }
}
