//! The slowest jobs known.

use oracle::draft::{not, plain, Draft};

use crate::churn::Churn;

/// The slowest for evaluation by repeated passes.  Half of the claims are a chain
/// of negations, of which a round decides two.  The others are a plain chain, read
/// against its direction, that hangs on an undefined claim: each round would find
/// it anew, a claim a pass.
fn passes_job(claims: usize) -> Vec<u8> {
    let mut draft = Draft::new(claims, 1);
    let half = claims / 2;
    for claim in 0..half - 1 {
        draft.rule(claim, &[not(claim + 1)]);
    }
    for claim in half..claims - 1 {
        draft.rule(claim, &[plain(claim + 1)]);
    }
    draft.rule(claims - 1, &[not(claims - 1)]);
    draft.job_bytes()
}

/// The slowest that `bench/run search` found, behind a chain of negations.
const CHURN: Churn =
    Churn { rounds: 1977, pairs: false, backwards: true, carried: 0, loaded: 133, length: 92, deep: 1, mixed: true };

/// The slowest behind a tower of pairs.
const TOWER: Churn =
    Churn { rounds: 1109, pairs: true, backwards: true, carried: 2, loaded: 546, length: 64, deep: 12, mixed: true };

fn churn_jobs(kind: &'static str, churn: Churn) -> impl Iterator<Item = (&'static str, usize, Vec<u8>)> {
    [churn.rounds / 8, churn.rounds / 4, churn.rounds / 2, churn.rounds].into_iter().map(move |rounds| {
        let job = Churn { rounds, ..churn.clone() }.fitted().job();
        (kind, rounds, job)
    })
}

/// Kind, size and job: of `worst` the size is the number of claims, of the others
/// that of rounds.
pub fn worst_jobs() -> impl Iterator<Item = (&'static str, usize, Vec<u8>)> {
    let passes = [256, 512, 1024, 2048, 4096].into_iter().map(|claims| ("worst", claims, passes_job(claims)));
    passes.chain(churn_jobs("churn", CHURN)).chain(churn_jobs("tower", TOWER))
}
