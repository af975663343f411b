//! The call on edge cases, on made jobs with their partners in other dress, and on all
//! small jobs of one sort.

use std::ops::Range;
use std::process::exit;

use oracle::canon::Key;
use oracle::canon_dress::{made_draft, partner};
use oracle::canon_edges::canon_edges;
use oracle::canon_small::{small_drafts, OneToOne};
use oracle::checks::{part_input, Job};
use oracle::draft::{Draft, Random};
use oracle::jobs::generate;
use oracle::orders::Orders;

use crate::beside::{compare, form_of, lend_job, MOST_OUTPUT};
use crate::codes::fault_of_call;
use crate::lent::Output;
use crate::library;
use crate::orders::compare_three;
use crate::totals::Totals;

/// The edge cases, beside the oracle and beside what is written down for each.
pub fn compare_edges(totals: &mut Totals) {
    let mut output = Output::new(MOST_OUTPUT);
    for (number, edge) in canon_edges(Orders::in_force()).iter().enumerate() {
        let name = format!("form edge {number}");
        compare(totals, &mut output, &name, &edge.job);
        totals.calls += 1;
        if let Some(fault) =
            fault_of_call(library::form_of_job, &lend_job(&edge.job), &mut output, edge.output, &edge.expected)
        {
            totals.differ(&name, &edge.job, &format!("{}: {fault}", edge.name));
        }
    }
}

/// The bytes of a made job of this kind.
pub fn made_job(kind: &str, seed: u64) -> Vec<u8> {
    match generate(kind, seed, Orders::in_force()) {
        Some(input) => part_input(&input).0.to_vec(),
        None => {
            eprintln!("canon: no kind is called {kind}");
            exit(2);
        }
    }
}

/// A partner of an accepted job: its bytes, and whether it says the same.
pub fn made_partner(job: &[u8], seed: u64) -> Option<(Vec<u8>, bool)> {
    let orders = Orders::in_force();
    let one = Draft::of_job(&Job::check(job, orders).ok()?);
    let other = partner(&mut Random::new("canon", seed), &one, orders)?;
    Some((other.job_bytes(), Key::of_draft(&one) == Key::of_draft(&other)))
}

/// The library's form of a job, where it gives one.
fn library_form(job: &[u8]) -> Option<Vec<u8>> {
    let mut out = vec![0; job.len()];
    let length = library::form_of_job(job, &mut out) as usize;
    out.get(..length).map(<[u8]>::to_vec)
}

/// A job's form and its partner's are equal exactly where they say the same; their
/// forms and that of the next seed's job are compared.
fn compare_partner(totals: &mut Totals, output: &mut Output, kind: &str, seed: u64, job: &[u8]) {
    let Some((other, same)) = made_partner(job, seed) else { return };
    let name = format!("{kind} {seed}");
    compare(totals, output, &format!("{name} partner"), &other);
    totals.pairs[usize::from(!same)] += 1;
    let third = made_draft(kind, seed + 1, Orders::in_force()).map_or(other.clone(), |draft| draft.job_bytes());
    let (Some(form), Some(form_other), Some(form_third)) =
        (library_form(job), library_form(&other), library_form(&third))
    else {
        totals.differ(&name, job, "it, its partner or the next job is refused");
        return;
    };
    if (form == form_other) != same {
        totals.differ(&name, job, &format!("forms of it and its partner are equal or not, expected {same}"));
    }
    compare_three(totals, &format!("{name} forms"), [&form, &form_other, &form_third]);
}

pub fn compare_made(totals: &mut Totals, kind: &str, seeds: Range<u64>) {
    let mut output = Output::new(MOST_OUTPUT);
    for seed in seeds {
        let job = made_job(kind, seed);
        compare(totals, &mut output, &format!("{kind} {seed}"), &job);
        compare_partner(totals, &mut output, kind, seed, &job);
    }
}

/// All small jobs of one sort: the library's forms, beside the oracle's, and one to one
/// with keys.
pub fn compare_small(totals: &mut Totals) {
    let mut met = OneToOne::default();
    for (number, draft) in small_drafts(Orders::in_force()).enumerate() {
        let job = draft.job_bytes();
        let form = library_form(&job);
        (totals.small, totals.calls) = (totals.small + 1, totals.calls + 1);
        let fault = match form {
            Some(form) if Ok(&form) == form_of(&job).as_ref() => met.take(&draft, form).err(),
            _ => Some("another form, or none".to_string()),
        };
        if let Some(fault) = fault {
            totals.differ(&format!("small job {number}"), &job, &fault);
        }
    }
    if let Err(fault) = met.end() {
        totals.fail(&format!("all small jobs: {fault}"));
    }
}
