//! Pairs of jobs that differ only in rules of claims foreign to one worker, each job run to
//! its end by the library's calls on a table: where the library admits both, the worker's
//! answers are the same.

use std::ops::Range;

use oracle::draft::{Draft, Random};
use oracle::orders::Orders;
use oracle::partners_check::finished_answers;
use oracle::partners_jobs::{Pair, Shared};
use oracle::promises::ensure;

use crate::beside::compare_shared;
use crate::library;
use crate::running::Running;
use crate::totals::{Totals, ANSWERS, BOTH, NOT_BOTH, OTHERS_DIFFER, OWN_DIFFER};

/// At most so many turns, of any workers, are made singly before the rounds.
const SINGLE: usize = 100;

fn random_turns(random: &mut Random, draft: &Draft, most: usize) -> Vec<u8> {
    (0..random.within(0, most)).map(|_| random.below(draft.workers) as u8).collect()
}

/// The answers after a run of random turns, then rounds.
fn answers_by_run(job: &[u8], schedule: &[u8]) -> Result<Vec<u32>, String> {
    let mut running = Running::start(job)?;
    running.run(schedule)?;
    running.finish()
}

/// The answers after single turns, then rounds.
fn answers_by_turns(job: &[u8], schedule: &[u8]) -> Result<Vec<u32>, String> {
    let mut running = Running::start(job)?;
    for &worker in schedule {
        running.turn(worker)?;
    }
    running.finish()
}

/// A job's answers, the same by both schedules, and the oracle's.
fn answers_of(random: &mut Random, shared: &Shared) -> Result<Vec<u32>, String> {
    let (draft, job) = (&shared.draft, shared.draft.job_bytes());
    let by_run = answers_by_run(&job, &random_turns(random, draft, 8 * draft.claims))?;
    let by_turns = answers_by_turns(&job, &random_turns(random, draft, SINGLE))?;
    ensure(by_run == by_turns, "the answers of one job differ by the order of turns")?;
    ensure(by_run == finished_answers(draft, random, Orders::in_force()), "the answers aren't the oracle's")?;
    Ok(by_run)
}

/// Counts a pair; where both jobs are admitted, the worker's answers are the same.
fn check_pair(totals: &mut Totals, random: &mut Random, pair: &Pair, admitted: bool) -> Result<(), String> {
    ensure(pair.fits(), "the pair differs elsewhere")?;
    let answers = [answers_of(random, &pair.one)?, answers_of(random, &pair.other)?];
    let own_differ = pair.differ(&answers, true);
    if !admitted {
        totals.pairs[NOT_BOTH] += 1;
        totals.pairs[OWN_DIFFER] += usize::from(own_differ);
        return Ok(());
    }
    totals.pairs[BOTH] += 1;
    totals.pairs[ANSWERS] += pair.own_questions();
    totals.pairs[OTHERS_DIFFER] += usize::from(pair.differ(&answers, false));
    ensure(!own_differ, "the worker's answers differ")
}

/// Pairs by these seeds, their jobs beside the oracle and as a pair.
pub fn compare_pairs(totals: &mut Totals, kind: &str, seeds: Range<u64>, make: fn(&mut Random, Orders) -> Pair) {
    for seed in seeds {
        let random = &mut Random::new(kind, seed);
        let pair = make(random, Orders::in_force());
        let name = format!("{kind} {seed}");
        let mut admitted = true;
        for (shared, which) in [(&pair.one, "one"), (&pair.other, "other")] {
            let job = shared.draft.job_bytes();
            compare_shared(totals, &format!("{name} {which}"), shared);
            admitted &= library::admit(&job, &shared.claim_groups, &shared.worker_groups) == 0;
        }
        if let Err(fault) = check_pair(totals, random, &pair, admitted) {
            totals.differ(&name, &pair.one.draft.job_bytes(), &fault);
        }
    }
}
