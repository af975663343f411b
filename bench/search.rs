//! Looks for jobs at the limits on which plain evaluation takes long: climbs from
//! shape to slower shape of churn.rs, once for each sort of driver.
//!
//! usage: search [TRIES [SEED]]     tries for each sort, and what they are drawn by

mod churn;
mod counters;
#[allow(dead_code)]
mod fields;
#[path = "../tests/compare/library.rs"]
#[allow(dead_code)]
mod library;

use std::time::Instant;

use churn::Churn;
use fields::job_of;
use oracle::draft::Random;
use oracle::model::{well_founded, Program};

const TRIES: usize = 100;

/// A time is the least of so many; a shape that is not near the slowest has one.
const TIMES: usize = 3;
const NEAR: f64 = 0.95;

/// After so many tries the slowest is timed again, since the machine may have been busy.
const AGAIN: usize = 10;

fn milliseconds(call: impl FnOnce()) -> f64 {
    let start = Instant::now();
    call();
    1e3 * start.elapsed().as_secs_f64()
}

/// How long the library takes for a job, at least `near` or measured once.  Its
/// verdicts must be the oracle's.
fn time_of(bytes: &[u8], near: f64) -> f64 {
    let mut verdicts = [0; 4096];
    let mut evaluate = || milliseconds(|| _ = library::evaluate(bytes, &mut verdicts).expect("a made job is accepted"));
    let mut least = evaluate();
    for _ in 1..TIMES {
        if least >= near {
            least = evaluate().min(least);
        }
    }
    let model = well_founded(&Program::of_job(&job_of(bytes)));
    let right = model.iter().zip(verdicts).all(|(&verdict, byte)| verdict as u8 == byte);
    assert!(right, "the verdicts differ");
    least
}

/// Another shape, one or two of its parts drawn anew.
fn neighbour(random: &mut Random, churn: &Churn) -> Churn {
    let mut next = churn.clone();
    for _ in 0..random.within(1, 2) {
        match random.below(8) {
            0 => next.rounds = random.within(200, 2047),
            1 => next.rounds = (next.rounds + random.below(200)).saturating_sub(100),
            2 => next.carried = random.below(8),
            3 => next.loaded = random.within(1, 2000),
            4 => next.length = random.within(1, 100),
            5 => next.deep = random.below(101),
            6 => next.mixed = !next.mixed,
            _ => next.backwards = !next.backwards,
        }
    }
    next.fitted()
}

/// The slowest shape found from a first one, and its time.
fn climb(random: &mut Random, first: Churn, tries: usize) -> (Churn, f64) {
    let mut slowest = first.fitted();
    let mut time = time_of(&slowest.job(), 0.0);
    for number in 0..tries {
        if number % AGAIN == AGAIN - 1 {
            time = time_of(&slowest.job(), 0.0).min(time);
        }
        let next = neighbour(random, &slowest);
        let taken = time_of(&next.job(), NEAR * time);
        if taken > time {
            println!("try {number}: {taken:.1} ms, {next:?}");
            (slowest, time) = (next, taken);
        }
    }
    (slowest, time)
}

fn show(churn: &Churn, time: f64) {
    let bytes = churn.job();
    let job = job_of(&bytes);
    let mut rounds = 0;
    let counted = milliseconds(|| rounds = counters::evaluate(&job_of(&bytes), &mut [0; 4096]));
    let (claims, rules, literals) = (job.claims, job.rules.len(), job.literals.len());
    println!("slowest: {time:.1} ms (counters {counted:.1}) for {claims} claims, {rules} rules, {literals} literals, {rounds} rounds");
    println!("  {churn:?}");
}

fn main() {
    let mut numbers = std::env::args().skip(1).map(|word| word.parse::<u64>().expect("a number"));
    let (tries, seed) = (numbers.next().unwrap_or(TRIES as u64), numbers.next().unwrap_or(1));
    let random = &mut Random::new("search", seed);
    for pairs in [false, true] {
        let first =
            Churn { rounds: 1000, pairs, backwards: true, carried: 0, loaded: 500, length: 10, deep: 50, mixed: true };
        let (slowest, time) = climb(random, first, tries as usize);
        show(&slowest, time);
    }
}
