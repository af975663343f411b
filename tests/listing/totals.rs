//! What was listed and what differs.

use oracle::checks::read_input;
use oracle::missing_sorts::{self, Met, SORTS};
use oracle::model::Verdict;
use oracle::orders::{Missing, Orders, Skip};
use oracle::turns::KINDS;

use crate::counts::{add, listed, unmet};
use crate::parts::Counted;

const VALUES: [&str; 4] = ["true", "false", "undefined", "unopened"];
/// What all but the last of them say.
const VERDICTS: [Verdict; 3] = [Verdict::True, Verdict::False, Verdict::Undefined];
/// The numbers of refusals that a listing can show.
const NUMBERS: [&str; 9] = ["1", "2", "3", "4", "5", "6", "7", "8", "11"];

#[derive(Default)]
pub struct Totals {
    /// Inputs that the program was run on.
    pub inputs: usize,
    pub accepted: usize,
    refused: [usize; 9],
    /// Turns of all listings by their kind.
    kinds: [u64; 8],
    /// Claim lines by their value.
    values: [usize; 4],
    /// Claims unopened though questions lead to them: every way to them stands
    /// behind a false literal.
    passed_over: usize,
    /// Accepted inputs with missing records, and their claims that have a value.
    pub missing_jobs: usize,
    missing: Met,
    pub differences: usize,
}

/// The tally of a listing's last line; none where it is a refusal.
fn tally_of(listing: &str) -> Option<[u64; 8]> {
    let line = listing.lines().last()?.strip_prefix("tally ")?;
    let counts: Result<Vec<u64>, _> = line.split(' ').map(str::parse).collect();
    counts.ok()?.try_into().ok()
}

impl Totals {
    /// Counts an input by its listing as the oracle has it.
    pub fn count(&mut self, input: &[u8], listing: &str) {
        self.inputs += 1;
        let Some(tally) = tally_of(listing) else {
            let number = listing.split(' ').nth(1);
            let at = NUMBERS.iter().position(|&name| Some(name) == number).expect("a listing is refused by a number");
            self.refused[at] += 1;
            return;
        };
        self.accepted += 1;
        add(&mut self.kinds, &tally);
        let (job, _) = read_input(input, Orders::in_force()).expect("a listing with a tally is accepted");
        self.missing_jobs += usize::from(job.missing_records() > 0);
        for ((line, led_to), claim) in listing.lines().skip(1).zip(job.asked_closure()).zip(0..) {
            let at = VALUES.iter().position(|value| line.ends_with(value)).expect("a claim line ends with a value");
            self.values[at] += 1;
            match VERDICTS.get(at) {
                Some(&value) => missing_sorts::count(&job, claim, value, &mut self.missing),
                None => self.passed_over += usize::from(led_to),
            }
        }
    }

    pub fn differ(&mut self, name: &str, what: &str) {
        self.differences += 1;
        println!("differs: {name}: {what}");
    }

    pub fn turns(&self) -> u64 {
        self.kinds.iter().sum()
    }

    /// The gate must meet every kind of turn, every value and every refusal, under
    /// order 2 every sort of claim with a missing record, and under order 5 claims
    /// that were led to and passed over.
    pub fn expect_all_met(&mut self) {
        let mut missing = unmet(&KINDS, &self.kinds.map(|count| count as usize));
        missing.extend(unmet(&VALUES, &self.values));
        missing.extend(unmet(&NUMBERS, &self.refused).iter().map(|number| format!("refusal {number}")));
        if Orders::in_force().missing != Missing::Off {
            missing.extend(unmet(&SORTS, &self.missing));
        }
        if Orders::in_force().skip != Skip::Off && self.passed_over == 0 {
            missing.push("a claim led to and unopened".to_string());
        }
        for name in missing {
            self.differ("the gate", &format!("{name} was never met"));
        }
    }
}

impl Counted for Totals {
    fn add(&mut self, other: &Self) {
        self.inputs += other.inputs;
        self.accepted += other.accepted;
        self.differences += other.differences;
        add(&mut self.refused, &other.refused);
        add(&mut self.kinds, &other.kinds);
        add(&mut self.values, &other.values);
        self.passed_over += other.passed_over;
        self.missing_jobs += other.missing_jobs;
        add(&mut self.missing, &other.missing);
    }

    fn counts(&self) -> String {
        format!(
            "{} inputs, {} accepted, {} with missing records, {} turns",
            self.inputs,
            self.accepted,
            self.missing_jobs,
            self.turns()
        )
    }

    fn differences(&self) -> usize {
        self.differences
    }

    fn summary(&self) {
        println!("turns: {}", listed(&KINDS, &self.kinds));
        println!("claim lines: {} ({} of them led to)", listed(&VALUES, &self.values), self.passed_over);
        println!("{} inputs with missing records: {}", self.missing_jobs, listed(&SORTS, &self.missing));
        let rows: Vec<String> =
            NUMBERS.iter().zip(self.refused).map(|(name, count)| format!("{name}: {count}")).collect();
        println!("refused by number {}", rows.join(", "));
        if self.differences > 0 {
            println!("a made input alone: listing made KIND SEED 1");
        }
        println!(
            "{} inputs listed ({} accepted with {} turns, {} refused), {} differences",
            self.inputs,
            self.accepted,
            self.turns(),
            self.refused.iter().sum::<usize>(),
            self.differences
        );
    }
}
