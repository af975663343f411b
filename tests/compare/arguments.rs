//! What the comparing programs make of their arguments.

use std::ops::Range;
use std::process::exit;

/// Gives these seeds to each of the kinds of jobs named, or to all of the gate's.
pub fn each_kind(names: &str, gate: &[(&str, u64)], seeds: Range<u64>, mut give: impl FnMut(&str, Range<u64>)) {
    match names {
        "all" => gate.iter().for_each(|(kind, _)| give(kind, seeds.clone())),
        _ => names.split(',').for_each(|kind| give(kind, seeds.clone())),
    }
}

/// Says how the program is called, and ends.
pub fn refuse(usage: &str) -> ! {
    eprint!("{usage}");
    exit(2);
}

/// COUNT seeds, the first of them FROM.
pub fn seeds(from: &str, count: &str, usage: &str) -> Range<u64> {
    match (from.parse(), count.parse::<u64>()) {
        (Ok(from), Ok(count)) => from..from + count,
        _ => refuse(usage),
    }
}
