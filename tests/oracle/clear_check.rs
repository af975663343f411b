//! Second ways to what order 9 says: the model by all unfounded sets and by 01's
//! alternating sets; the clear claims path by path, and none of them undefined; wrong
//! readings, which some job must show.

use std::ops::Range;

use crate::checks::{part_input, Job};
use crate::clear::{standings, Standing};
use crate::clear_readings::{clear_by, Reading, MISREADINGS};
use crate::clear_sorts::{count_model, Met};
use crate::draft::Draft;
use crate::family::{family_job, family_size};
use crate::jobs::generate;
use crate::lines::in_words;
use crate::missing::extension;
use crate::missing_check::alternating;
use crate::model::{well_founded, Program, Verdict};
use crate::orders::Orders;
use crate::promises::ensure;
use crate::textbook::well_founded_by_the_letter;
use crate::worked::worked_fields;

/// Up to so many claims all sets of claims are gone through.
const FEW_CLAIMS: usize = 4;
/// Up to so many claims paths are.
const SOME_CLAIMS: usize = 320;
/// At most so many faults of a kind are sought.
const MOST_FAULTS: usize = 20;

#[derive(Default, Debug)]
pub struct ClearTotals {
    pub jobs: usize,
    pub refused: usize,
    pub with_missing: usize,
    /// Jobs whose model was found by all unfounded sets, and whose clear claims path
    /// by path.
    pub by_sets: usize,
    pub by_paths: usize,
    pub sorts: Met,
}

/// Both wordings of the model give these verdicts of the job, extended where it has
/// missing records.
fn check_wordings(job: &Job, model: &[Verdict]) -> Result<(), String> {
    let program = if job.missing_records() == 0 { Program::of_job(job) } else { extension(job) };
    let (letter, sets) = (well_founded_by_the_letter(&program), alternating(&program));
    ensure(letter[..job.claims] == *model, "the unfounded sets give another model")?;
    ensure(sets == letter, "01's alternating sets give another model")
}

fn check_job(job: &Job, totals: &mut ClearTotals) -> Result<(), String> {
    let model = well_founded(&Program::of_job(job));
    let standings = standings(job);
    let clear: Vec<bool> = standings.iter().map(Standing::clear).collect();
    totals.jobs += 1;
    totals.with_missing += usize::from(job.missing_records() > 0);
    count_model(&standings, &model, &mut totals.sorts);
    if job.claims <= SOME_CLAIMS {
        totals.by_paths += 1;
        ensure(clear == clear_by(job, Reading::AsWorded), "path by path other claims are clear")?;
    }
    if job.claims <= FEW_CLAIMS {
        totals.by_sets += 1;
        check_wordings(job, &model)?;
    }
    ensure(!undefined_among(&clear, &model), "a clear claim is undefined")
}

fn undefined_among(clear: &[bool], model: &[Verdict]) -> bool {
    clear.iter().zip(model).any(|(&clear, &value)| clear && value == Verdict::Undefined)
}

/// The bytes of a made job, or of the family's job of this number.
fn job_bytes(kind: &str, seed: u64, orders: Orders) -> Option<Vec<u8>> {
    match kind {
        "family" => (seed < family_size(orders)).then(|| family_job(seed, 1, orders).job_bytes()),
        _ => generate(kind, seed, orders).map(|input| part_input(&input).0.to_vec()),
    }
}

/// One such job.  A fault shows a job of a few claims in words.
fn check_seed(kind: &str, seed: u64, orders: Orders, totals: &mut ClearTotals) -> Result<(), String> {
    let bytes = job_bytes(kind, seed, orders).ok_or("no such job")?;
    let Ok(job) = Job::check(&bytes, orders) else {
        totals.refused += 1;
        return Ok(());
    };
    check_job(&job, totals).map_err(|fault| match job.claims {
        0..=FEW_CLAIMS => format!("{fault}: {}", in_words(&job)),
        _ => fault,
    })
}

/// Jobs of a kind by their seeds; `family` for the family's.
pub fn check_kind(kind: &str, seeds: Range<u64>, orders: Orders, totals: &mut ClearTotals) -> Vec<String> {
    let fault = |seed: u64| {
        let fault = check_seed(kind, seed, orders, totals).err()?;
        Some(format!("order 9, {kind} {seed}: {fault}"))
    };
    seeds.filter_map(fault).take(MOST_FAULTS).collect()
}

/// The worked fields P1 to P9 by hand: + for each clear claim, - for another.
const WORKED: [&str; 9] = ["+", "+", "+", "-", "--", "+++", "---", "--", "+++"];

pub fn check_worked(orders: Orders) -> Vec<String> {
    let clear_claims = |draft: &Draft| {
        let job = Job::check(&draft.job_bytes(), orders).expect("a worked field is accepted");
        standings(&job).iter().map(|standing| if standing.clear() { '+' } else { '-' }).collect::<String>()
    };
    let fields = worked_fields().into_iter().zip(WORKED);
    let wrong = fields.filter(|((_, draft, _), expected)| clear_claims(draft) != *expected);
    wrong.map(|((name, ..), _)| format!("clear claims of {name}")).collect()
}

/// Kinds and how many jobs of each are gone through in `selfcheck`, beside all of
/// the family.
const SLICE: [(&str, u64); 12] = [
    ("tiny", 3000),
    ("small", 2000),
    ("failing", 300),
    ("damaged", 300),
    ("tower", 200),
    ("negloop", 60),
    ("strat", 30),
    ("cluster", 30),
    ("ring", 30),
    ("random", 20),
    ("chain", 20),
    ("empty", 20),
];

pub fn check_slice(orders: Orders, totals: &mut ClearTotals) -> Vec<String> {
    let all = [("family", family_size(orders))].into_iter().chain(SLICE);
    all.flat_map(|(kind, count)| check_kind(kind, 0..count, orders, totals)).collect()
}

/// Whether a reading is shown to be wrong by a job.
type Shows = fn(&Job, Reading) -> bool;

/// A claim that is clear by the reading is undefined.
fn is_wrong(job: &Job, reading: Reading) -> bool {
    undefined_among(&clear_by(job, reading), &well_founded(&Program::of_job(job)))
}

/// A claim that is clear isn't by the reading.
fn is_too_strict(job: &Job, reading: Reading) -> bool {
    let (clear, by_reading) = (clear_by(job, Reading::AsWorded), clear_by(job, reading));
    clear.iter().zip(by_reading).any(|(&clear, by_reading)| clear && !by_reading)
}

/// The wrong readings, each with the first of the family's jobs that shows it.
pub fn readings_shown(orders: Orders) -> Vec<(&'static str, Option<String>)> {
    let wrong = MISREADINGS.map(|(name, reading)| (name, reading, is_wrong as Shows));
    let strict = ("leading back through any ring, which is too strict", Reading::AnyRing, is_too_strict as Shows);
    let job = |number: u64| Job::check(&family_job(number, 1, orders).job_bytes(), orders).ok();
    let shown = |reading: Reading, shows: Shows| {
        let mut jobs = (0..family_size(orders)).filter_map(job);
        jobs.find(|job| shows(job, reading)).map(|job| in_words(&job))
    };
    wrong.into_iter().chain([strict]).map(|(name, reading, shows)| (name, shown(reading, shows))).collect()
}
