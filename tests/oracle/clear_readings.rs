//! Which claims are clear (order 9), path by path as the order is worded, and by
//! other readings of its wording.  For small jobs.

use crate::checks::{Job, Literal};

#[derive(Clone, Copy, Debug, PartialEq, Eq)]
pub enum Reading {
    /// Among the claim itself and all that it leads to through any literals, none
    /// leads back to itself through a negation and none has a missing record.
    AsWorded,
    /// Wrong: all that it leads to through plain literals.
    PlainOnly,
    /// Wrong: none has a rule with its own negation.
    DirectOnly,
    /// Wrong: none leads back to itself through an odd number of negations.
    OddOnly,
    /// Wrong: the claim itself has no missing record.
    OwnRecordOnly,
    /// Too strict: none leads back to itself.
    AnyRing,
}

/// The readings by which some claim that is undefined would be clear.
pub const MISREADINGS: [(&str, Reading); 4] = [
    ("leading through plain literals only", Reading::PlainOnly),
    ("leading back directly only", Reading::DirectOnly),
    ("leading back through an odd number of negations only", Reading::OddOnly),
    ("the claim's own missing record only", Reading::OwnRecordOnly),
];

/// Paths by their negations: none, an odd number, an even number but not none.
const NONE: usize = 0;
const ODD: usize = 1;
const EVEN: usize = 2;

/// Such a path with one more literal.
fn longer(path: usize, negated: bool) -> usize {
    match (path, negated) {
        (_, false) => path,
        (ODD, true) => EVEN,
        (_, true) => ODD,
    }
}

/// By which paths of one or more literals a claim leads to each.
fn paths_from(job: &Job, claim: u32) -> Vec<[bool; 3]> {
    let mut paths = vec![[false; 3]; job.claims];
    let mut found = vec![(claim, NONE)];
    while let Some((from, path)) = found.pop() {
        for literal in job.literals_of(from) {
            let path = longer(path, literal.negated);
            if !std::mem::replace(&mut paths[literal.claim as usize][path], true) {
                found.push((literal.claim, path));
            }
        }
    }
    paths
}

/// For each claim whether it is clear.
pub fn clear_by(job: &Job, reading: Reading) -> Vec<bool> {
    let claims = 0..job.claims as u32;
    let paths: Vec<Vec<[bool; 3]>> = claims.clone().map(|claim| paths_from(job, claim)).collect();
    let leads = |from: u32, to: u32| {
        let paths = paths[from as usize][to as usize];
        paths[NONE] || (reading != Reading::PlainOnly && (paths[ODD] || paths[EVEN]))
    };
    let leads_back = |claim: u32| {
        let back = paths[claim as usize][claim as usize];
        match reading {
            Reading::DirectOnly => job.literals_of(claim).contains(&Literal { claim, negated: true }),
            Reading::OddOnly => back[ODD],
            Reading::AnyRing => back.contains(&true),
            Reading::AsWorded | Reading::PlainOnly | Reading::OwnRecordOnly => back[ODD] || back[EVEN],
        }
    };
    let counts = |from: u32, claim: u32| from == claim || reading != Reading::OwnRecordOnly;
    let clear = |from: u32| {
        let mut among = claims.clone().filter(|&claim| claim == from || leads(from, claim));
        among.all(|claim| !leads_back(claim) && !(counts(from, claim) && job.has_missing_record(claim)))
    };
    claims.clone().map(clear).collect()
}
