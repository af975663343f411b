//! Order 8: admission of jobs with unpublished claims.

use crate::checks::{refuse, word_at, Job, Refusal};
use crate::orders::Orders;

/// The group byte of public claims.
pub const PUBLIC: u8 = 0;

/// The claims that `claim` leads to through all literals of rules, itself
/// included.
pub fn led_to(job: &Job, claim: u32) -> Vec<bool> {
    let mut seen = vec![false; job.claims];
    let mut stack = vec![claim];
    while let Some(claim) = stack.pop() {
        if std::mem::replace(&mut seen[claim as usize], true) {
            continue;
        }
        for rule in job.rules_of(claim) {
            stack.extend(job.body(rule).iter().map(|literal| literal.claim));
        }
    }
    seen
}

/// Public, or of the worker's group.
pub fn open_to(claim_group: u8, worker_group: u8) -> bool {
    claim_group == PUBLIC || claim_group == worker_group
}

pub fn may_ask(job: &Job, claim_groups: &[u8], worker_group: u8, claim: u32) -> bool {
    led_to(job, claim).iter().zip(claim_groups).all(|(&led, &group)| !led || open_to(group, worker_group))
}

/// Checks 1 to 8, then 20 for the claims' list and the workers', then 21.
pub fn admit(bytes: &[u8], claim_groups: &[u8], worker_groups: &[u8], orders: Orders) -> Result<(), Refusal> {
    let job = Job::check(bytes, orders)?;
    if claim_groups.len() != job.claims {
        return refuse(20, claim_groups.len());
    }
    if worker_groups.len() != job.workers {
        return refuse(20, worker_groups.len());
    }
    let questions_at = word_at(bytes, 32) as usize;
    for (question, &(worker, claim)) in job.questions.iter().enumerate() {
        if !may_ask(&job, claim_groups, worker_groups[worker as usize], claim) {
            return refuse(21, questions_at + 4 * question);
        }
    }
    Ok(())
}
