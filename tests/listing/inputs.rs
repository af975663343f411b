//! Made inputs: those of the oracle's kinds, and kinds for what only a listing
//! sees, which is where the job ends and what comes after it.

use oracle::checks::{half_at, word_at, HEADER_BYTES, MAX_INPUT_BYTES, MAX_JOB_BYTES};
use oracle::damage::{put_half, put_word};
use oracle::draft::{Draft, Random};
use oracle::failing::make_failing;
use oracle::jobs::{generate, make_cluster, make_negloop, make_ring, make_small, make_tiny, make_tower};
use oracle::missing_jobs::add_missing;
use oracle::orders::Orders;

/// The input of a kind and seed; none where no kind is called so.
pub fn made(kind: &str, seed: u64) -> Option<Vec<u8>> {
    let random = &mut Random::new(kind, seed);
    match kind {
        "long" => Some(make_long(random, seed)),
        "cut" => Some(make_cut(random, seed)),
        "turns" => Some(make_turns(random, seed)),
        "bytes" => Some(make_bytes(random)),
        "fields" => Some(make_fields(random, seed)),
        _ => generate(kind, seed, Orders::in_force()),
    }
}

fn make_any(random: &mut Random, seed: u64) -> Draft {
    let mut draft = match random.below(9) {
        0 => make_negloop(random),
        1 => make_ring(random),
        2 => make_cluster(random),
        3 => make_tower(random),
        4 => make_failing(random, 40),
        5 | 6 => make_tiny(random),
        _ => make_small(random),
    };
    add_missing(&mut draft, seed, Orders::in_force());
    draft
}

/// A small job with turns up to a length around the most that is read; now and
/// then its first word says another length near a limit.
fn make_long(random: &mut Random, seed: u64) -> Vec<u8> {
    let mut draft = if random.percent(50) { make_tiny(random) } else { make_small(random) };
    add_missing(&mut draft, seed, Orders::in_force());
    let mut bytes = draft.job_bytes();
    let length = match random.below(10) {
        0 => random.within(MAX_JOB_BYTES - 4, MAX_JOB_BYTES + 4),
        1 => random.within(MAX_INPUT_BYTES + 1, 3 * MAX_INPUT_BYTES),
        _ => random.within(MAX_INPUT_BYTES - 6, MAX_INPUT_BYTES + 6),
    };
    let workers = random.within(1, draft.workers);
    bytes.extend((bytes.len()..length).map(|_| random.below(workers) as u8));
    if random.percent(10) {
        let at = random.within(length - 10, length - 1);
        bytes[at] = draft.workers as u8;
    }
    if random.percent(30) {
        let words = [length, length + 1, length - 1, MAX_JOB_BYTES, MAX_JOB_BYTES + 1, MAX_INPUT_BYTES];
        put_word(&mut bytes, 0, random.pick(&words) as u32);
    }
    bytes
}

/// An input cut anywhere, in header, rules, literals, questions or schedule; half
/// of those cut in the job have their first word put right.
fn make_cut(random: &mut Random, seed: u64) -> Vec<u8> {
    let mut bytes = make_any(random, seed).bytes();
    let job = word_at(&bytes, 0) as usize;
    let length = match random.below(4) {
        0 => random.within(0, HEADER_BYTES + 4),
        1 => random.within(0, job),
        2 => job - random.within(0, 5),
        _ => random.within(job, bytes.len()),
    };
    bytes.truncate(length);
    if length < job && random.percent(50) {
        put_word(&mut bytes, 0, length as u32);
    }
    bytes
}

/// A job with turns in any order, and in half of them one of a worker that isn't.
fn make_turns(random: &mut Random, seed: u64) -> Vec<u8> {
    let mut draft = make_any(random, seed);
    let length = random.pick(&[1, 2, 10, 300, 3000]);
    let length = random.within(1, length);
    draft.schedule = (0..length).map(|_| random.below(draft.workers) as u8).collect();
    for _ in 0..random.pick(&[0, 0, 1, 1, 2]) {
        let at = random.below(length);
        draft.schedule[at] = random.within(draft.workers, 255) as u8;
    }
    draft.bytes()
}

/// Random bytes, some with a first word that names a part of them.
fn make_bytes(random: &mut Random) -> Vec<u8> {
    let most = random.pick(&[3, 40, 200, 2000, MAX_INPUT_BYTES + 100]);
    let length = random.within(0, most);
    let mut bytes: Vec<u8> = (0..length).map(|_| random.next() as u8).collect();
    if random.percent(70) {
        put_word(&mut bytes, 0, random.within(0, length) as u32);
    }
    bytes
}

/// A header that fits, and random fields after it: few claims or many, so that
/// every later check is met.
fn make_fields(random: &mut Random, seed: u64) -> Vec<u8> {
    let claims = random.pick(&[0, 1, 2, 40, 4096]);
    let mut draft = Draft::new(claims, random.within(1, 32));
    let mut lengths = vec![0; random.within(0, 4)];
    let literals = if lengths.is_empty() { 0 } else { random.within(0, 6) };
    for _ in 0..literals {
        let at = random.below(lengths.len());
        lengths[at] += 1;
    }
    lengths.iter().for_each(|&length| draft.rule(0, &vec![0; length]));
    draft.questions = vec![(0, 0); random.within(0, 3)];
    add_missing(&mut draft, seed, Orders::in_force());
    let (mut bytes, rules) = (draft.bytes(), draft.rules.len());
    let honest = random.pick(&[0, 60, 90, 98]);
    for at in (HEADER_BYTES..bytes.len()).step_by(2) {
        let kept = at < HEADER_BYTES + 4 * rules && at % 4 == 2 && random.percent(80);
        let most = if random.percent(honest) { claims.max(1) } else { 65_536 };
        let value = if kept { half_at(&bytes, at) } else { random.below(most) as u16 };
        put_half(&mut bytes, at, value);
    }
    bytes.extend((0..random.within(0, 20)).map(|_| random.below(32) as u8));
    bytes
}
