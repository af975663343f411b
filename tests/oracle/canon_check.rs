//! Order 7 in second ways: equal forms for equal keys and no others, the form of a
//! form, its verdicts, the order of forms, and all small jobs of one sort.

use std::cmp::Ordering;
use std::ops::Range;

use crate::canon::{canonical_form, compare_forms, Key};
use crate::canon_dress::{made_draft, made_pair};
use crate::canon_edges::canon_edges;
use crate::canon_readings::{count_shown, Shown};
use crate::canon_small::{small_drafts, OneToOne};
use crate::checks::Job;
use crate::draft::{Body, Draft};
use crate::model::{well_founded, Program};
use crate::orders::Orders;
use crate::promises::ensure;

/// At most so many faults are sought.
const MOST_FAULTS: usize = 20;

#[derive(Default, Debug)]
pub struct CanonTotals {
    pub edges: usize,
    pub forms: usize,
    /// Forms shorter than their job.
    pub shortened: usize,
    pub equal_pairs: usize,
    pub unequal_pairs: usize,
    pub triples: usize,
    /// All small jobs of one sort, and how many forms they have.
    pub small: usize,
    pub small_forms: usize,
    pub shown: Shown,
}

fn form(draft: &Draft, orders: Orders) -> Result<Vec<u8>, String> {
    let bytes = draft.job_bytes();
    canonical_form(&bytes, bytes.len(), orders).map_err(|refusal| format!("a made job is refused: {refusal:?}"))
}

/// Whether two neighbouring rules stand as in a form: by head, then by length
/// without repeats, then by literals; a missing record's length is 65,535.
fn in_order(one: &(u16, Body), other: &(u16, Body)) -> bool {
    let place = |rule: &(u16, Body)| (rule.0, rule.1.length_field(), rule.1.literals().to_vec());
    place(one) < place(other)
}

/// Whether the rules stand as in a form.
fn written_one_way(draft: &Draft) -> bool {
    let rising = |rule: &(u16, Body)| rule.1.literals().windows(2).all(|pair| pair[0] < pair[1]);
    draft.rules.iter().all(rising) && draft.rules.windows(2).all(|pair| in_order(&pair[0], &pair[1]))
}

/// What holds of one job's form.
fn check_form(draft: &Draft, orders: Orders, totals: &mut CanonTotals) -> Result<(), String> {
    let (bytes, written) = (draft.job_bytes(), form(draft, orders)?);
    totals.forms += 1;
    totals.shortened += usize::from(written.len() < bytes.len());
    count_shown(draft, &written, &mut totals.shown);
    ensure(written.len() <= bytes.len(), "a form is longer than its job")?;
    let read = |bytes: &[u8]| Job::check(bytes, orders).map_err(|refusal| format!("refused: {refusal:?}"));
    let (job, original) = (read(&written)?, read(&bytes)?);
    let again = canonical_form(&written, written.len(), orders);
    ensure(again.as_ref() == Ok(&written), "doing it again changes something")?;
    let verdicts = |job: &Job| well_founded(&Program::of_job(job));
    ensure(verdicts(&job) == verdicts(&original), "verdicts aren't the same")?;
    let form = Draft::of_job(&job);
    ensure(written_one_way(&form), "a form isn't written one way")?;
    let kept = form.questions == draft.questions && Key::of_draft(&form) == Key::of_draft(draft);
    ensure(kept, "a form has another key")?;
    let short = canonical_form(&bytes, bytes.len() - 1, orders);
    ensure(short.is_err_and(|refusal| refusal.number == 19), "an output below the job isn't refused")
}

/// Forms are equal exactly when keys are, and only then compare as equal.
fn check_pair(one: &Draft, other: &Draft, orders: Orders, totals: &mut CanonTotals) -> Result<(), String> {
    let (form_one, form_other) = (form(one, orders)?, form(other, orders)?);
    let equal = Key::of_draft(one) == Key::of_draft(other);
    *(if equal { &mut totals.equal_pairs } else { &mut totals.unequal_pairs }) += 1;
    ensure((form_one == form_other) == equal, "forms aren't equal exactly when keys are")?;
    let order = compare_forms(&form_one, &form_other);
    ensure((order == Ordering::Equal) == equal, "the order doesn't tell different forms apart")?;
    ensure(compare_forms(&form_other, &form_one) == order.reverse(), "the order isn't the same both ways")?;
    ensure(form_one.cmp(&form_other) == order, "the order isn't that of the bytes")
}

fn check_triple(forms: [&[u8]; 3], totals: &mut CanonTotals) -> Result<(), String> {
    let [one, two, three] = forms;
    totals.triples += 1;
    let both = compare_forms(one, two).is_le() && compare_forms(two, three).is_le();
    ensure(!both || compare_forms(one, three).is_le(), "the order isn't transitive")
}

fn check_seed(kind: &str, seed: u64, orders: Orders, totals: &mut CanonTotals) -> Result<(), String> {
    let Some((one, other)) = made_pair(kind, seed, orders) else { return Ok(()) };
    check_form(&one, orders, totals)?;
    check_form(&other, orders, totals)?;
    check_pair(&one, &other, orders, totals)?;
    let third = made_draft(kind, seed + 1, orders).unwrap_or_else(|| one.clone());
    check_pair(&one, &third, orders, totals)?;
    let forms = [form(&one, orders)?, form(&other, orders)?, form(&third, orders)?];
    for [a, b, c] in [[0, 1, 2], [0, 2, 1], [1, 0, 2], [1, 2, 0], [2, 0, 1], [2, 1, 0]] {
        check_triple([&forms[a], &forms[b], &forms[c]], totals)?;
    }
    Ok(())
}

/// Made jobs of a kind.
pub fn check_kind(kind: &str, seeds: Range<u64>, orders: Orders, totals: &mut CanonTotals) -> Vec<String> {
    let fault = |seed: u64| Some(format!("order 7, {kind} {seed}: {}", check_seed(kind, seed, orders, totals).err()?));
    seeds.filter_map(fault).take(MOST_FAULTS).collect()
}

/// The edge cases.
pub fn check_edges(orders: Orders, totals: &mut CanonTotals) -> Vec<String> {
    let edges = canon_edges(orders);
    totals.edges += edges.len();
    let wrong = |edge: &&crate::canon_edges::CanonEdge| canonical_form(&edge.job, edge.output, orders) != edge.expected;
    edges.iter().filter(wrong).map(|edge| format!("order 7, {}: another answer", edge.name)).collect()
}

/// All small jobs of one sort: forms and keys stand one to one.
pub fn check_all_small(orders: Orders, totals: &mut CanonTotals) -> Result<(), String> {
    let mut met = OneToOne::default();
    for draft in small_drafts(orders) {
        totals.small += 1;
        met.take(&draft, form(&draft, orders)?)?;
    }
    totals.small_forms += met.end()?;
    Ok(())
}

/// Kinds and how many jobs of each a slice has.
const SLICE: [(&str, u64); 13] = [
    ("tiny", 1500),
    ("small", 1500),
    ("empty", 50),
    ("negloop", 60),
    ("strat", 30),
    ("cluster", 30),
    ("random", 10),
    ("ring", 20),
    ("chain", 10),
    ("tower", 60),
    ("failing", 100),
    ("large", 3),
    ("wide", 20),
];

/// The edge cases, a slice of every kind, and all small jobs of one sort.
pub fn check_slice(orders: Orders, totals: &mut CanonTotals) -> Vec<String> {
    let mut faults = check_edges(orders, totals);
    faults.extend(SLICE.iter().flat_map(|&(kind, seeds)| check_kind(kind, 0..seeds, orders, totals)));
    faults.extend(check_all_small(orders, totals).err().map(|fault| format!("order 7, all small jobs: {fault}")));
    faults
}
