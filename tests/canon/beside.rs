//! One job at a time: the call's codes and bytes beside the oracle's, the form of the
//! form, and its verdicts.

use oracle::canon::{canonical_form, check_room};
use oracle::canon_readings::count_shown;
use oracle::checks::{Job, Refusal, MAX_JOB_BYTES};
use oracle::draft::Draft;
use oracle::orders::Orders;

use crate::codes::fault_of_call;
use crate::lent::{Input, Output};
use crate::library;
use crate::plain;
use crate::totals::{Totals, AS_LONG, FORM_FITS, ROOM, SHORTER, UNCHANGED};

/// The longest output that is lent here.
pub const MOST_OUTPUT: usize = 100_000;

type Answer = Result<Vec<u8>, Refusal>;

/// A job with zeros around it, which a call that reads past it would take for claims.
pub fn lend_job(job: &[u8]) -> Input {
    Input::between(&[0; 64], job, &[0; 64])
}

/// What a job's form is, if an output holds it.
pub fn form_of(job: &[u8]) -> Answer {
    canonical_form(job, job.len(), Orders::in_force())
}

/// Output lengths worth a call.
fn interesting_lengths(job: &[u8], form: &Answer) -> Vec<usize> {
    let mut lengths = vec![0, 36, job.len().saturating_sub(1), job.len(), job.len() + 1, MAX_JOB_BYTES, MOST_OUTPUT];
    if let Ok(form) = form {
        lengths.extend([1, 35, form.len() - 1, form.len(), form.len() + 1, job.len() / 2, job.len() + 200]);
    }
    lengths.sort_unstable();
    lengths.dedup();
    lengths.retain(|&length| length <= MOST_OUTPUT);
    lengths
}

/// The sort of a call (totals::CALLED).
fn sort_of(job: &[u8], form: &Answer, answer: &Result<&[u8], Refusal>, length: usize) -> usize {
    match (answer, form) {
        (Err(_), Ok(form)) if form.len() <= length => FORM_FITS,
        (Err(_), Ok(_)) => ROOM,
        (Err(refusal), Err(_)) => refusal.number as usize - 1,
        (Ok(form), _) if *form == job => UNCHANGED,
        (Ok(form), _) if form.len() == job.len() => AS_LONG,
        (Ok(_), _) => SHORTER,
    }
}

/// The library's verdicts of an accepted job.
fn verdicts(job: &[u8]) -> Result<Vec<u8>, plain::Refusal> {
    let mut verdicts = vec![0; 4096];
    let claims = plain::evaluate(job, &mut verdicts)?;
    verdicts.truncate(claims);
    Ok(verdicts)
}

/// A form that came out is its own form, and has the job's verdicts.
fn fault_of_form(job: &[u8], form: &[u8], output: &mut Output) -> Option<String> {
    if let Some(fault) = fault_of_call(library::form_of_job, &lend_job(form), output, form.len(), &Ok(form)) {
        return Some(format!("the form of its form, {fault}"));
    }
    match (verdicts(job), verdicts(form)) {
        (Ok(right), Ok(verdicts)) if right == verdicts => None,
        (right, verdicts) => Some(format!("verdicts of its form are {verdicts:?}, expected {right:?}")),
    }
}

fn count_job(totals: &mut Totals, job: &[u8], form: &Answer) {
    totals.jobs += 1;
    if let (Ok(form), Ok(read)) = (form, Job::check(job, Orders::in_force())) {
        totals.accepted += 1;
        totals.with_missing += usize::from(read.missing_records() > 0);
        count_shown(&Draft::of_job(&read), form, &mut totals.shown);
    }
}

/// Compares the call on a job with outputs of every interesting length, up to the
/// first fault.
pub fn compare(totals: &mut Totals, output: &mut Output, name: &str, job: &[u8]) {
    let (form, lent) = (form_of(job), lend_job(job));
    count_job(totals, job, &form);
    for length in interesting_lengths(job, &form) {
        let held = |form| check_room(job, length).map(|()| form);
        let answer = form.as_deref().map_err(|&refusal| refusal).and_then(held);
        totals.count_call(sort_of(job, &form, &answer, length));
        let mut fault = fault_of_call(library::form_of_job, &lent, output, length, &answer);
        if let (None, Ok(form), true) = (&fault, answer, length == job.len()) {
            let came_out = output.bytes(form.len()).to_vec();
            totals.again += 1;
            fault = fault_of_form(job, &came_out, output);
        }
        if let Some(fault) = fault {
            totals.differ(name, job, &fault);
            return;
        }
    }
}
