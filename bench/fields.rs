//! The made fields that are timed.  None has missing records, so that libraries
//! from before order 2 are lent the same ones.

use oracle::checks::{part_input, Job};
use oracle::draft::{plain, Draft};
use oracle::jobs::generate;
use oracle::orders::Orders;
use oracle::turns::whole_schedule;

/// A made field: the job, then the schedule.
pub fn made(kind: &str, seed: u64) -> Vec<u8> {
    if kind == "knot" {
        return knot(seed as usize).bytes();
    }
    generate(kind, seed, Orders::of(&[])).expect("the kind is known")
}

/// So many claims in a ring, a power of two, each far from the next.  The one opened
/// last leads to three times as many besides, so that most turns gather the whole
/// ring and pass one literal.
fn knot(claims: usize) -> Draft {
    let mut draft = Draft::new(claims, 1);
    let next = |claim: usize| (claim + claims * 5 / 8 + 1) % claims;
    (0..claims).for_each(|claim| draft.rule(claim, &[plain(next(claim))]));
    let last = claims - next(0);
    draft.rule(last, &(0..3 * claims).map(|i| plain(7 * i % claims)).collect::<Vec<u16>>());
    draft.ask(0, 0);
    draft
}

pub fn job_of(bytes: &[u8]) -> Job {
    Job::check(bytes, Orders::in_force()).expect("a made field is accepted")
}

/// Kinds and seeds of the fields that are evaluated.  The large ones are of all eight shapes.
const EVALUATED: [(&str, &[u64]); 11] = [
    ("tiny", &[1, 2, 3]),
    ("small", &[1, 2, 3]),
    ("ring", &[1, 2, 3, 4, 5]),
    ("negloop", &[1, 2, 3, 4, 5]),
    ("chain", &[1, 2, 3, 4, 5]),
    ("strat", &[1, 2, 3, 4, 5]),
    ("random", &[1, 2, 3, 4, 5]),
    ("cluster", &[1, 2, 3, 4, 5]),
    ("tower", &[1, 2, 3, 4]),
    ("large", &[0, 1, 2, 3, 10, 4, 5, 6]),
    ("empty", &[1, 2]),
];

/// The 50 fields on which plain evaluation is timed: kind, seed and job.
pub fn evaluated_fields() -> impl Iterator<Item = (&'static str, u64, Vec<u8>)> {
    let fields = EVALUATED.into_iter().flat_map(|(kind, seeds)| seeds.iter().map(move |&seed| (kind, seed)));
    fields.map(|(kind, seed)| (kind, seed, part_input(&made(kind, seed)).0.to_vec()))
}

/// Kinds and seeds of the fields that are run.
const RUN: [(&str, &[u64]); 13] = [
    ("tiny", &[1, 2, 3]),
    ("small", &[1, 2, 3]),
    ("ring", &[1, 2, 3, 4]),
    ("negloop", &[1, 2, 3, 4]),
    ("chain", &[1, 2, 3, 4]),
    ("strat", &[1, 2, 3, 4]),
    ("random", &[1, 2, 3, 4]),
    ("cluster", &[1, 2, 3, 4]),
    ("tower", &[1, 2, 3, 4]),
    ("failing", &[26, 36, 37, 44]),
    ("knot", &[16, 256, 4096]),
    ("large", &[0, 1, 3, 4]),
    ("empty", &[1, 2]),
];

/// A field: its job, and a schedule after which all is answered.
pub struct Field {
    pub kind: &'static str,
    pub seed: u64,
    pub bytes: Vec<u8>,
    pub schedule: Vec<u8>,
}

fn make_field(kind: &'static str, seed: u64) -> Field {
    let input = made(kind, seed);
    let (bytes, made) = part_input(&input);
    Field { kind, seed, bytes: bytes.to_vec(), schedule: whole_schedule(&job_of(bytes), Orders::in_force(), made) }
}

/// The fields on which runs are timed, of the kinds that are wanted.
pub fn run_fields(wanted: impl Fn(&str) -> bool) -> impl Iterator<Item = Field> {
    let fields = RUN.into_iter().filter(move |(kind, _)| wanted(kind));
    fields.flat_map(|(kind, seeds)| seeds.iter().map(move |&seed| make_field(kind, seed)))
}
