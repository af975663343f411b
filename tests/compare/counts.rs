//! Counts by name: sums, a line of counts, and what was never met.

use oracle::orders::{Missing, Orders};

pub fn add<N: Copy + std::ops::AddAssign>(sums: &mut [N], counts: &[N]) {
    for (sum, &count) in sums.iter_mut().zip(counts) {
        *sum += count;
    }
}

/// The counts in one line, each after its name.
pub fn listed<N: std::fmt::Display>(names: &[&str], counts: &[N]) -> String {
    let each: Vec<String> = names.iter().zip(counts).map(|(name, count)| format!("{name} {count}")).collect();
    each.join(", ")
}

/// The names whose count is 0.
pub fn unmet(names: &[&str], counts: &[usize]) -> Vec<String> {
    names.iter().zip(counts).filter(|(_, &count)| count == 0).map(|(name, _)| name.to_string()).collect()
}

/// Under order 2 a kind of which some jobs are accepted must have missing records.
pub fn missing_unmet(kind: &str, accepted: usize, with_missing: usize) -> Option<String> {
    let unmet = Orders::in_force().missing != Missing::Off && accepted >= 5 && with_missing == 0;
    unmet.then(|| format!("no job of kind {kind} had missing records"))
}
