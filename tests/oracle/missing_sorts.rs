//! Sorts of claims with missing records, so that the gate can tell whether each
//! was met.

use crate::checks::Job;
use crate::model::Verdict;

pub const SORTS: [&str; 5] = [
    "missing and undefined without another rule",
    "missing and undefined beside another rule",
    "missing and true by another rule",
    "missing by a repeated record",
    "missing by records with a rule between",
];

pub type Met = [usize; 5];

/// Counts a claim with its value, if it has a missing record.
pub fn count(job: &Job, claim: u32, value: Verdict, met: &mut Met) {
    let missing: Vec<bool> = job.rules_of(claim).iter().map(|rule| rule.missing).collect();
    if !missing.contains(&true) {
        return;
    }
    let beside = missing.contains(&false);
    met[0] += usize::from(value == Verdict::Undefined && !beside);
    met[1] += usize::from(value == Verdict::Undefined && beside);
    met[2] += usize::from(value == Verdict::True);
    met[3] += usize::from(missing.windows(2).any(|two| two == [true, true]));
    let ends = missing.iter().position(|&record| record).zip(missing.iter().rposition(|&record| record));
    met[4] += usize::from(ends.is_some_and(|(first, last)| missing[first..last].contains(&false)));
}

/// The claims of a job, by its model.
pub fn count_model(job: &Job, model: &[Verdict], met: &mut Met) {
    if job.missing_records() > 0 {
        for (claim, &value) in model.iter().enumerate() {
            count(job, claim as u32, value, met);
        }
    }
}
