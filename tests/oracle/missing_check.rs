//! Second ways to what order 2 says: jobs with missing records beside the jobs so
//! extended, which have none, and beside 01's alternating sets.

use crate::checks::{part_input, word_at, Job, Literal, Refusal};
use crate::draft::{Body, Draft};
use crate::jobs::generate;
use crate::missing::{extended_job, extension};
use crate::missing_jobs::has_missing;
use crate::missing_sorts::{count_model, Met};
use crate::model::{well_founded, well_founded_by_definition, Program, Verdict};
use crate::orders::{Missing, Orders};
use crate::promises::ensure;
use crate::selfcheck::{fuzz_one, FuzzTotals};
use crate::table::Table;
use crate::turns::{run_listing, Kind};

/// Up to so many claims the slow ways are gone through too.
const FEW_CLAIMS: usize = 320;

/// D(S) as 01 has it.
fn least_set(program: &Program, s: &[bool]) -> Vec<bool> {
    let mut set = vec![false; program.atoms];
    loop {
        let holds = |literal: &Literal| {
            let claim = literal.claim as usize;
            if literal.negated {
                !s[claim]
            } else {
                set[claim]
            }
        };
        let fits = |&rule: &usize| !set[program.heads[rule] as usize] && program.body(rule).iter().all(holds);
        let joining: Vec<usize> = (0..program.heads.len()).filter(fits).collect();
        if joining.is_empty() {
            return set;
        }
        for rule in joining {
            set[program.heads[rule] as usize] = true;
        }
    }
}

/// 01's alternating sets, for a program without missing records.
pub fn alternating(program: &Program) -> Vec<Verdict> {
    let mut known = vec![false; program.atoms];
    loop {
        let upper = least_set(program, &known);
        let next = least_set(program, &upper);
        if next == known {
            let verdict = |atom: usize| match (known[atom], upper[atom]) {
                (true, _) => Verdict::True,
                (false, false) => Verdict::False,
                (false, true) => Verdict::Undefined,
            };
            return (0..program.atoms).map(verdict).collect();
        }
        known = next;
    }
}

#[derive(Default, Debug)]
pub struct MissingTotals {
    pub inputs: usize,
    pub refused: usize,
    pub records: usize,
    pub sorts: Met,
    pub extended_jobs: usize,
    pub alternating: usize,
    /// Turns that completed claims on tables that no run made.
    pub completions: usize,
    pub fuzz: FuzzTotals,
}

/// The model of the job itself is that of the extension, by every way.
fn check_model(job: &Job, totals: &mut MissingTotals) -> Result<Vec<Verdict>, String> {
    let program = Program::of_job(job);
    let extension = extension(job);
    let model = well_founded(&program);
    let extended = well_founded(&extension);
    ensure(extended[job.claims] == Verdict::Undefined, "u isn't undefined")?;
    ensure(model[..] == extended[..job.claims], "the model isn't that of the job so extended")?;
    if job.claims <= FEW_CLAIMS {
        totals.alternating += 1;
        ensure(model == well_founded_by_definition(&program), "W step by step gives another model")?;
        ensure(extended == well_founded_by_definition(&extension), "W gives another model of the extension")?;
        ensure(extended == alternating(&extension), "01's alternating sets give another model")?;
    }
    let never_false = |claim: usize| model[claim] != Verdict::False || !job.has_missing_record(claim as u32);
    ensure((0..job.claims).all(never_false), "a missing head is false")?;
    Ok(model)
}

/// Without order 2 the first missing record is refused by 6.
fn check_refusal_before(bytes: &[u8], draft: &Draft, before: Orders) -> Result<(), String> {
    let first = draft.rules.iter().position(|(_, body)| *body == Body::Missing);
    let expected = first.map_or(Ok(()), |rule| Err(Refusal { number: 6, place: 36 + 4 * rule }));
    let answer = Job::check(bytes, before).map(|_| ());
    ensure(answer == expected, "without order 2 the first missing record isn't refused")
}

fn answers(job: &Job, orders: Orders, schedule: &[u8]) -> Vec<u32> {
    let (table, _) = run_listing(job, orders, schedule, false, |_, _, _| {});
    (0..job.questions.len()).map(|question| table.answer(question)).collect()
}

/// The extension as a job without missing records, run with the same schedule.
fn check_extended_job(job: &Job, orders: Orders, schedule: &[u8], model: &[Verdict]) -> Result<bool, String> {
    let Some(extended) = extended_job(job) else { return Ok(false) };
    let before = Orders { missing: Missing::Off, ..orders };
    let extended = Job::check(&extended.job_bytes(), before).map_err(|refusal| format!("{refusal:?}"))?;
    let verdicts = well_founded(&Program::of_job(&extended));
    ensure(verdicts[..job.claims] == *model, "the extended job has other verdicts")?;
    let same = answers(job, orders, schedule) == answers(&extended, before, schedule);
    ensure(same, "the extended job has other answers")?;
    Ok(true)
}

/// One made job with missing records, of a kind that is followed by a schedule.
pub fn check_missing(kind: &str, seed: u64, orders: Orders, totals: &mut MissingTotals) -> Result<(), String> {
    let input = generate(kind, seed, orders).ok_or("no such kind")?;
    let (bytes, schedule) = part_input(&input);
    totals.inputs += 1;
    let Ok(job) = Job::check(bytes, orders) else {
        totals.refused += 1;
        return Ok(());
    };
    let draft = Draft::of_job(&job);
    ensure(draft.job_bytes() == bytes, "the job's lists give other bytes")?;
    check_refusal_before(bytes, &draft, Orders { missing: Missing::Off, ..orders })?;
    let model = check_model(&job, totals)?;
    totals.records += job.missing_records();
    count_model(&job, &model, &mut totals.sorts);
    if schedule.iter().all(|&worker| usize::from(worker) < job.workers) {
        totals.extended_jobs += usize::from(check_extended_job(&job, orders, schedule, &model)?);
        fuzz_one(&input, orders, &mut totals.fuzz);
    }
    Ok(())
}

/// The job with complete claims' rules exchanged, and u for missing records.
fn exchanged_extension(table: &Table) -> Program {
    let job = table.job;
    let undefined = Literal { claim: job.claims as u32, negated: false };
    let mut program = Program::new(job.claims + 1);
    program.add_undefined(undefined.claim);
    for claim in table.claims() {
        match table.value(claim) {
            Some(Verdict::True) => program.add_rule(claim, []),
            Some(Verdict::False) => {}
            Some(Verdict::Undefined) => program.add_undefined(claim),
            None => {
                for rule in job.rules_of(claim) {
                    let body = if rule.missing { &[undefined][..] } else { job.body(rule) };
                    program.add_rule(claim, body.iter().copied());
                }
            }
        }
    }
    program
}

/// A table in range that no run need have made: what a turn completes has the
/// exchanged extension's values.
pub fn check_missing_table(seed: u64, orders: Orders, totals: &mut MissingTotals) -> Result<(), String> {
    let input = generate("table", seed, orders).ok_or("no such kind")?;
    let (bytes, rest) = part_input(&input);
    let words: Vec<u32> = rest.chunks_exact(4).map(|word| word_at(word, 0)).collect();
    totals.inputs += 1;
    let job = Job::check(bytes, orders).map_err(|refusal| format!("a made job is refused: {refusal:?}"))?;
    let Ok(before) = Table::from_words(&job, orders, words) else {
        totals.refused += 1;
        return Ok(());
    };
    totals.records += job.missing_records();
    let model = alternating(&exchanged_extension(&before));
    for worker in before.workers() {
        let mut after = before.clone();
        if after.turn(worker) == Kind::Completed {
            totals.completions += 1;
            let right = |claim: u32| after.value(claim).map_or(true, |value| value == model[claim as usize]);
            let right_then = before.claims().filter(|&claim| !before.complete(claim)).all(right);
            ensure(right_then, "completed with another value than the extension's")?;
        }
    }
    Ok(())
}

/// Kinds and how many of each are gone through in `selfcheck`.
const SLICE: [(&str, u64); 13] = [
    ("tiny", 300),
    ("small", 300),
    ("failing", 150),
    ("damaged", 200),
    ("tower", 40),
    ("negloop", 15),
    ("strat", 8),
    ("cluster", 8),
    ("ring", 6),
    ("random", 3),
    ("chain", 3),
    ("empty", 10),
    ("table", 1000),
];

/// Made jobs and tables with missing records, of this kind; `table` for tables.
pub fn check_kind(
    kind: &str,
    seeds: impl Iterator<Item = u64>,
    orders: Orders,
    totals: &mut MissingTotals,
) -> Vec<String> {
    let mut check = |seed: u64| match kind {
        "table" => check_missing_table(seed, orders, totals),
        _ => check_missing(kind, seed, orders, totals),
    };
    let fault = |seed: u64| check(seed).err().map(|fault| format!("order 2, {kind} {seed}: {fault}"));
    seeds.filter_map(fault).collect()
}

/// A slice of all kinds, of seeds that have missing records.
pub fn check_slice(orders: Orders, totals: &mut MissingTotals) -> Vec<String> {
    let seeds = |count: u64| (0..3 * count).filter(|&seed| has_missing(seed, orders));
    SLICE.iter().flat_map(|&(kind, count)| check_kind(kind, seeds(count), orders, totals)).collect()
}
