//! Checks of order 8 in second ways: admission from the foreign claims backwards, and
//! pairs of jobs for what a worker may learn.

use std::ops::Range;

use crate::checks::{Job, Refusal, NEGATED};
use crate::draft::{Draft, Random};
use crate::orders::Orders;
use crate::partners::admit;
use crate::partners_edges::partners_edges;
use crate::partners_jobs::{make_pair, make_shared, make_wide_shared, Pair, Shared};
use crate::partners_readings::{count_shown, Shown};
use crate::promises::ensure;
use crate::turns::run_listing;

#[derive(Default, Debug)]
pub struct PartnersTotals {
    pub edges: usize,
    pub jobs: usize,
    pub admitted: usize,
    pub refused: [usize; 2],
    /// Jobs that show each wrong reading.
    pub shown: Shown,
    /// Pairs, both admitted and finished, and the answers held against each other.
    pub pairs: usize,
    pub answers: usize,
    /// Of those pairs: they differ; another worker's answers differ.
    pub different: usize,
    pub others_differ: usize,
    /// Pairs that are not both admitted, and those where the worker's answers differ.
    pub not_admitted: usize,
    pub leaked: usize,
}

/// The claims from which some way leads to a claim foreign to `group`.
fn tainted(draft: &Draft, claim_groups: &[u8], group: u8) -> Vec<bool> {
    let mut tainted: Vec<bool> = claim_groups.iter().map(|&claim| claim != 0 && claim != group).collect();
    loop {
        let mut grown = false;
        for (head, body) in &draft.rules {
            let leads = body.literals().iter().any(|&literal| tainted[usize::from(literal & !NEGATED)]);
            if leads && !tainted[usize::from(*head)] {
                tainted[usize::from(*head)] = true;
                grown = true;
            }
        }
        if !grown {
            return tainted;
        }
    }
}

/// Checks 20 and 21 again, for an accepted job.
fn admit_again(shared: &Shared) -> Result<(), Refusal> {
    let Shared { draft, claim_groups, worker_groups } = shared;
    for (list, count) in [(claim_groups, draft.claims), (worker_groups, draft.workers)] {
        if list.len() != count {
            return Err(Refusal { number: 20, place: list.len() });
        }
    }
    let tainted: Vec<Vec<bool>> = worker_groups.iter().map(|&group| tainted(draft, claim_groups, group)).collect();
    let foreign = |&(worker, claim): &(u16, u16)| tainted[usize::from(worker)][usize::from(claim)];
    // The questions end the job.
    let questions_at = draft.job_bytes().len() - 4 * draft.questions.len();
    match draft.questions.iter().position(foreign) {
        Some(question) => Err(Refusal { number: 21, place: questions_at + 4 * question }),
        None => Ok(()),
    }
}

/// Admission in both ways.
fn admitted(shared: &Shared, orders: Orders) -> Result<Result<(), Refusal>, String> {
    let answer = admit(&shared.draft.job_bytes(), &shared.claim_groups, &shared.worker_groups, orders);
    ensure(answer == admit_again(shared), "two ways of admission differ")?;
    Ok(answer)
}

/// The answers after a schedule and to the end.
pub fn finished_answers(draft: &Draft, random: &mut Random, orders: Orders) -> Vec<u32> {
    let bytes = draft.job_bytes();
    let job = Job::check(&bytes, orders).expect("a made job is accepted");
    let schedule: Vec<u8> = (0..random.below(60)).map(|_| random.below(draft.workers) as u8).collect();
    let (table, _) = run_listing(&job, orders, &schedule, false, |_, _, _| {});
    (0..job.questions.len()).map(|question| table.answer(question)).collect()
}

fn count_pair(pair: &Pair, answers: &[Vec<u32>; 2], totals: &mut PartnersTotals) {
    totals.pairs += 1;
    totals.answers += pair.own_questions();
    totals.different += usize::from(pair.one.draft.rules != pair.other.draft.rules);
    totals.others_differ += usize::from(pair.differ(answers, false));
}

/// A worker's answers are the same in both jobs, if both are admitted.
fn check_pair(random: &mut Random, orders: Orders, totals: &mut PartnersTotals) -> Result<(), String> {
    let pair = make_pair(random, orders);
    ensure(pair.fits(), "a pair differs elsewhere")?;
    let answers = [&pair.one, &pair.other].map(|shared| finished_answers(&shared.draft, random, orders));
    let own_differ = pair.differ(&answers, true);
    let admissions = [admitted(&pair.one, orders)?, admitted(&pair.other, orders)?];
    if admissions.iter().any(Result::is_err) {
        totals.not_admitted += 1;
        totals.leaked += usize::from(own_differ);
        return Ok(());
    }
    count_pair(&pair, &answers, totals);
    ensure(!own_differ, "a worker's answers differ")
}

fn check_admission(shared: &Shared, orders: Orders, totals: &mut PartnersTotals) -> Result<(), String> {
    totals.jobs += 1;
    let answer = admitted(shared, orders)?;
    match answer {
        Ok(()) => totals.admitted += 1,
        Err(refusal) => totals.refused[refusal.number as usize - 20] += 1,
    }
    if !matches!(answer, Err(Refusal { number: 20, .. })) && shared.draft.literal_sum() <= 256 {
        let job = Job::check(&shared.draft.job_bytes(), orders).expect("a made job is accepted");
        count_shown(&job, &shared.claim_groups, &shared.worker_groups, &mut totals.shown);
    }
    Ok(())
}

fn check_seed(seed: u64, orders: Orders, totals: &mut PartnersTotals) -> Result<(), String> {
    let random = &mut Random::new("partners", seed);
    check_admission(&make_shared(random, orders), orders, totals)?;
    check_pair(random, orders, totals)?;
    if seed % 200 == 0 {
        check_admission(&make_wide_shared(random), orders, totals)?;
    }
    Ok(())
}

pub fn check_seeds(seeds: Range<u64>, orders: Orders, totals: &mut PartnersTotals) -> Vec<String> {
    let fault = |seed| check_seed(seed, orders, totals).err().map(|fault| format!("partners {seed}: {fault}"));
    seeds.filter_map(fault).collect()
}

/// The edge cases: this oracle's answer is what is written down for each.
pub fn check_edges(orders: Orders, totals: &mut PartnersTotals) -> Vec<String> {
    let edges = partners_edges(orders);
    totals.edges += edges.len();
    let wrong = edges.iter().filter(|edge| admit(&edge.job, &edge.claims, &edge.workers, orders) != edge.expected);
    wrong.map(|edge| format!("partners edge {}", edge.name)).collect()
}
