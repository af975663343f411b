//! One text at a time: the call's answers and bytes beside the oracle's.

use oracle::checks::{Job, Refusal, MAX_JOB_BYTES};
use oracle::lines::{held, job_of_text, text_of_job};
use oracle::lines_sorts::{sort_of, Sort};
use oracle::orders::Orders;

use crate::codes::fault_of_call;
use crate::lent::{Input, Output};
use crate::library;
use crate::totals::Totals;

/// The longest output that is lent here.
pub const MOST_OUTPUT: usize = 100_000;

/// A text with lines around it, so that a call that reads past it finds some more.
pub fn lend_text(text: &[u8]) -> Input {
    Input::between(b"claims 9 workers 9\n", text, b"\n8.\nask 8 8\n")
}

/// Output lengths worth a call.
fn interesting_lengths(job: &Result<Vec<u8>, Refusal>) -> Vec<usize> {
    let mut lengths = vec![0, 1, 35, 36, 37, MAX_JOB_BYTES, MOST_OUTPUT];
    if let Ok(job) = job {
        lengths.extend([job.len() / 2, job.len() - 1, job.len(), job.len() + 1, job.len() + 200]);
    }
    lengths.sort_unstable();
    lengths.dedup();
    lengths
}

/// A job that came out is accepted, and its own lines give it again.
fn fault_of_way_back(job: &[u8], output: &mut Output) -> Option<String> {
    let read = match Job::check(job, Orders::in_force()) {
        Ok(read) => read,
        Err(refusal) => return Some(format!("the job is refused: {refusal:?}")),
    };
    match text_of_job(&read) {
        None => Some("the job has a missing record".to_string()),
        Some(text) => fault_of_call(library::job_of_lines, &lend_text(&text), output, job.len(), &Ok(job))
            .map(|fault| format!("the lines of its job, {fault}")),
    }
}

/// Compares the call on a text with outputs of every interesting length, up to the
/// first fault.
pub fn compare(totals: &mut Totals, output: &mut Output, name: &str, text: &[u8]) {
    totals.count_text(text);
    let (job, lent) = (job_of_text(text), lend_text(text));
    let sort = sort_of(text, &job);
    for length in interesting_lengths(&job) {
        let answer = job.as_deref().map_err(|&refusal| refusal).and_then(|job| held(job, length));
        let short = answer.is_err() && job.is_ok();
        totals.count_call(if short { Sort::Short } else { sort });
        let mut fault = fault_of_call(library::job_of_lines, &lent, output, length, &answer);
        if fault.is_none() && answer.is_ok_and(|job| job.len() == length) {
            let came_out = output.bytes(length).to_vec();
            totals.read_back += 1;
            fault = fault_of_way_back(&came_out, output);
        }
        if let Some(fault) = fault {
            totals.differ(name, text, &fault);
            return;
        }
    }
}
