//! Order 7: the canonical form of a job, and the order of jobs by it.

use std::cmp::Ordering;
use std::collections::BTreeSet;
use std::fmt::Write as _;

use crate::checks::{refuse, Job, Refusal};
use crate::draft::{Body, Draft};
use crate::lines::literal_text;
use crate::orders::Orders;

/// Literals rising as 16-bit numbers without repeats.
pub fn canonical_literals(literals: &[u16]) -> Vec<u16> {
    let mut rising = literals.to_vec();
    rising.sort_unstable();
    rising.dedup();
    rising
}

/// Bodies of one head by length and then by literals without repeats, a missing
/// record last.
pub fn canonical_bodies(bodies: &[&Body]) -> Vec<Body> {
    let mut written: Vec<Vec<u16>> = Vec::new();
    let mut missing = false;
    for body in bodies {
        match body {
            Body::Literals(literals) => written.push(canonical_literals(literals)),
            Body::Missing => missing = true,
        }
    }
    written.sort_by(|one, other| one.len().cmp(&other.len()).then_with(|| one.cmp(other)));
    written.dedup();
    let literals = written.into_iter().map(Body::Literals);
    literals.chain(missing.then_some(Body::Missing)).collect()
}

/// A draft with each head's bodies put as `bodies` has them; the rest as it is.
pub fn with_bodies(draft: &Draft, bodies: impl Fn(&[&Body]) -> Vec<Body>) -> Draft {
    let mut form = Draft::new(draft.claims, draft.workers);
    for head in 0..draft.claims as u16 {
        let of_head: Vec<&Body> = draft.rules.iter().filter(|rule| rule.0 == head).map(|rule| &rule.1).collect();
        form.rules.extend(bodies(&of_head).into_iter().map(|body| (head, body)));
    }
    form.questions = draft.questions.clone();
    form
}

pub fn canonical_draft(draft: &Draft) -> Draft {
    with_bodies(draft, canonical_bodies)
}

/// Check 19: an output shorter than the job, with the job's length.
pub fn check_room(job: &[u8], output: usize) -> Result<(), Refusal> {
    if output < job.len() {
        return refuse(19, job.len());
    }
    Ok(())
}

/// The form's bytes; its counts, offsets and length are its own.  Checks 1 to 8,
/// then 19.
pub fn canonical_form(job: &[u8], output: usize, orders: Orders) -> Result<Vec<u8>, Refusal> {
    let read = Job::check(job, orders)?;
    check_room(job, output)?;
    Ok(canonical_draft(&Draft::of_job(&read)).job_bytes())
}

/// What two jobs must share for their forms to be equal.
#[derive(Clone, Debug, PartialEq, Eq, PartialOrd, Ord)]
pub struct Key {
    pub claims: usize,
    pub workers: usize,
    /// Each head's set of bodies, each a set of literals.
    pub bodies: Vec<BTreeSet<BTreeSet<u16>>>,
    pub missing: BTreeSet<u16>,
    pub questions: Vec<(u16, u16)>,
}

impl Key {
    pub fn of_draft(draft: &Draft) -> Key {
        let mut bodies = vec![BTreeSet::new(); draft.claims];
        let mut missing = BTreeSet::new();
        for (head, body) in &draft.rules {
            match body {
                Body::Missing => missing.insert(*head),
                Body::Literals(literals) => bodies[usize::from(*head)].insert(literals.iter().copied().collect()),
            };
        }
        Key { claims: draft.claims, workers: draft.workers, bodies, missing, questions: draft.questions.clone() }
    }

    /// For people: a line a body, sets in the order of numbers.
    pub fn text(&self) -> String {
        let mut out = format!("claims {} workers {}\n", self.claims, self.workers);
        for (head, bodies) in self.bodies.iter().enumerate() {
            for body in bodies {
                let literals: Vec<String> = body.iter().map(|&literal| literal_text(literal)).collect();
                let _ = writeln!(out, "{head} if {{{}}}", literals.join(", "));
            }
            if self.missing.contains(&(head as u16)) {
                let _ = writeln!(out, "{head} missing");
            }
        }
        for (worker, claim) in &self.questions {
            let _ = writeln!(out, "ask {worker} {claim}");
        }
        out
    }
}

/// The order of two forms: the first differing byte decides.
pub fn compare_forms(one: &[u8], other: &[u8]) -> Ordering {
    let difference = one.iter().zip(other).find(|(one, other)| one != other);
    match difference {
        Some((one, other)) => one.cmp(other),
        // Forms begin with their length, so one that only goes on never is one.
        None => one.len().cmp(&other.len()),
    }
}
