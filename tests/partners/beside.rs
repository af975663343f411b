//! One job with its lists at a time: the call's code beside the oracle's.

use oracle::checks::{Job, Refusal};
use oracle::orders::Orders;
use oracle::partners::{admit, led_to};
use oracle::partners_edges::PartnersEdge;
use oracle::partners_jobs::Shared;
use oracle::partners_readings::count_shown;

use crate::codes::{self, code_of_check};
use crate::lent::Input;
use crate::library;
use crate::totals::{Totals, ADMITTED, CLAIMS_LIST, FOREIGN, TWO_GROUPS, WORKERS_LIST};

type Answer = Result<(), Refusal>;

/// Up to so many literals it is looked for claims led to from two groups, and for wrong
/// readings that a job shows.
const MOST_LITERALS: usize = 256;

/// Some claim is led to by questions of workers of two groups.
fn led_to_from_two(job: &Job, workers: &[u8]) -> bool {
    let mut from: Vec<Option<u8>> = vec![None; job.claims];
    let mut two = false;
    for &(worker, claim) in &job.questions {
        let group = workers[worker as usize];
        for (first, _) in from.iter_mut().zip(led_to(job, claim)).filter(|(_, led)| *led) {
            two |= first.replace(group).is_some_and(|before| before != group);
        }
    }
    two
}

/// The sort of call by its answer.
fn sort_of(answer: &Answer, job: Option<&Job>, claims: &[u8], workers: &[u8]) -> usize {
    match answer {
        Err(Refusal { number: 20, .. }) if job.is_some_and(|job| job.claims != claims.len()) => CLAIMS_LIST,
        Err(Refusal { number: 20, .. }) => WORKERS_LIST,
        Err(Refusal { number: 21, .. }) => FOREIGN,
        Err(Refusal { number, .. }) => *number as usize - 1,
        Ok(()) => match job {
            Some(job) if job.literals.len() <= MOST_LITERALS && led_to_from_two(job, workers) => TWO_GROUPS,
            _ => ADMITTED,
        },
    }
}

/// Lent between bytes of another group, which a call that reads past a list would take
/// for its own.
fn lend(bytes: &[u8]) -> Input {
    Input::between(&[77; 64], bytes, &[77; 64])
}

/// A code in words.
pub fn said(code: u64) -> String {
    match code {
        0 => "admitted".to_string(),
        _ => codes::said(code),
    }
}

/// One call beside an answer; what differs.
fn fault_of(job: &[u8], claims: &[u8], workers: &[u8], answer: &Answer) -> Option<String> {
    let lent = [job, claims, workers].map(lend);
    let code = library::admit(lent[0].bytes(), lent[1].bytes(), lent[2].bytes());
    let right = code_of_check(answer);
    if code != right {
        return Some(format!("{}, expected {}", said(code), said(right)));
    }
    lent.iter().any(Input::altered).then(|| "lent bytes were altered".to_string())
}

/// One job with its lists beside the oracle.
pub fn compare(totals: &mut Totals, name: &str, job: &[u8], claims: &[u8], workers: &[u8]) {
    let orders = Orders::in_force();
    let answer = admit(job, claims, workers, orders);
    let read = Job::check(job, orders).ok();
    totals.count_call(sort_of(&answer, read.as_ref(), claims, workers));
    if let Some(read) = read.filter(|read| claims.len() == read.claims && workers.len() == read.workers) {
        totals.with_missing += usize::from(read.rules.iter().any(|rule| rule.missing));
        if read.literals.len() <= MOST_LITERALS {
            count_shown(&read, claims, workers, &mut totals.shown);
        }
    }
    if let Some(fault) = fault_of(job, claims, workers, &answer) {
        totals.differ(name, job, &fault);
    }
}

/// A made job beside the oracle.
pub fn compare_shared(totals: &mut Totals, name: &str, shared: &Shared) {
    compare(totals, name, &shared.draft.job_bytes(), &shared.claim_groups, &shared.worker_groups);
}

/// An edge case, beside the oracle and beside what is written down for it.
pub fn compare_edge(totals: &mut Totals, name: &str, edge: &PartnersEdge) {
    compare(totals, name, &edge.job, &edge.claims, &edge.workers);
    if let Some(fault) = fault_of(&edge.job, &edge.claims, &edge.workers, &edge.expected) {
        totals.differ(name, &edge.job, &format!("{}: {fault}", edge.name));
    }
}
