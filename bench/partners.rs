//! Times the call that admits a job with groups: the library's and the oracle's, and beside
//! them the library's check of the job alone, which admission begins with.  bench/run
//! builds it.

#[path = "../tests/partners/library.rs"]
mod library;
#[allow(dead_code)]
mod times;
#[path = "../tests/compare/library.rs"]
#[allow(dead_code)]
mod zestchintz;

use oracle::checks::{refuse, Refusal, MAX_CLAIMS, MAX_QUESTIONS, MAX_RULES};
use oracle::draft::{not, plain, Draft};
use oracle::lines::job_of_text;
use oracle::orders::Orders;
use oracle::partners::admit;
use times::{median_times_of, ratio};

const CLAIMS: usize = MAX_CLAIMS as usize;
const RULES: usize = MAX_RULES as usize;
const QUESTIONS: usize = MAX_QUESTIONS as usize;
const WORKERS: usize = 32;
const GROUPS: usize = 255;

/// A job with the lists lent beside it.
struct Field {
    name: &'static str,
    job: Vec<u8>,
    claims: Vec<u8>,
    workers: Vec<u8>,
}

/// A job whose workers are of groups 1, 2 and so on.
fn field(name: &'static str, draft: &Draft, claims: Vec<u8>) -> Field {
    Field { name, job: draft.job_bytes(), claims, workers: (1..=draft.workers as u8).collect() }
}

fn public() -> Vec<u8> {
    vec![0; CLAIMS]
}

/// A rule of four literals for a claim, which lead on in a ring of `size` claims that starts
/// at `from`.
fn lead_on(draft: &mut Draft, from: usize, size: usize, claim: usize) {
    let next = |step: usize| from + (claim - from + step) % size;
    draft.rule(claim, &[plain(next(1)), not(next(3)), plain(next(1025)), not(next(2050))]);
}

/// The first `size` claims in one ring, asked for by all workers in turn.
fn ring(size: usize, workers: usize) -> Draft {
    let mut draft = Draft::new(CLAIMS, workers);
    (0..size).for_each(|claim| lead_on(&mut draft, 0, size, claim));
    (0..QUESTIONS).for_each(|question| draft.ask(question % workers, 4 * question % size));
    draft
}

/// Each claim leads to the next; its start is asked for first.
fn chain() -> Draft {
    let mut draft = Draft::new(CLAIMS, 1);
    (1..CLAIMS).for_each(|claim| draft.rule(claim - 1, &[not(claim)]));
    (0..QUESTIONS).for_each(|question| draft.ask(0, 4 * question));
    draft
}

/// Every claim is of a group, and its rules lead on within that; each worker asks for claims
/// of its own.
fn own_groups() -> Field {
    let group_of = |claim: usize| 1 + claim % GROUPS;
    let next = |claim: usize| if claim + GROUPS < CLAIMS { claim + GROUPS } else { claim % GROUPS };
    let mut draft = Draft::new(CLAIMS, WORKERS);
    for head in (0..RULES).map(|rule| rule * CLAIMS / RULES) {
        draft.rule(head, &[plain(next(head)), not(next(next(head)))]);
    }
    (0..QUESTIONS).for_each(|question| draft.ask(question % WORKERS, question % WORKERS + GROUPS * (question / 64)));
    field("255 groups, 32 workers", &draft, (0..CLAIMS).map(|claim| group_of(claim) as u8).collect())
}

/// Rings of eight claims, each asked for by workers of two groups.
fn small_rings() -> Draft {
    let mut draft = Draft::new(CLAIMS, 2);
    (0..CLAIMS).for_each(|claim| lead_on(&mut draft, claim / 8 * 8, 8, claim));
    (0..QUESTIONS).for_each(|question| draft.ask(question % 2, question / 2 * 8));
    draft
}

/// A ring of public claims, and the last question for a claim of group 99.
fn last_refused() -> Field {
    let mut draft = ring(CLAIMS - 1, WORKERS);
    draft.questions[QUESTIONS - 1].1 = (CLAIMS - 1) as u16;
    let mut claims = public();
    claims[CLAIMS - 1] = 99;
    field("one ring, last question refused", &draft, claims)
}

/// The field of examples/fields/partners.txt.
fn example() -> Field {
    let job = job_of_text(include_bytes!("../examples/fields/partners.rules")).expect("its lines fit");
    Field { name: "examples/fields/partners", job, claims: vec![0, 0, 0, 0, 1, 1, 2, 2], workers: vec![0, 1, 2] }
}

fn two_claims() -> Field {
    let mut draft = Draft::new(2, 1);
    draft.rule(0, &[plain(1)]);
    draft.rule(1, &[plain(0)]);
    draft.ask(0, 0);
    field("two claims, one question", &draft, vec![0, 1])
}

fn fields() -> [Field; 8] {
    [
        field("one ring, 32 groups", &ring(CLAIMS, WORKERS), public()),
        field("one ring, one worker", &ring(CLAIMS, 1), public()),
        field("a chain", &chain(), public()),
        own_groups(),
        field("512 rings, each for two groups", &small_rings(), public()),
        last_refused(),
        example(),
        two_claims(),
    ]
}

/// What a code says.
fn answer(code: u64) -> Result<(), Refusal> {
    match code {
        0 => Ok(()),
        _ => refuse((code >> 56 & 0x7f) as u32, (code & ((1 << 56) - 1)) as usize),
    }
}

/// Prints a row.
fn measure(field: &Field) {
    let Field { name, job, claims, workers } = field;
    let call_oracle = || admit(job, claims, workers, Orders::in_force());
    assert_eq!(answer(library::admit(job, claims, workers)), call_oracle(), "{name}: the answers differ");
    let mut ours = || _ = library::admit(job, claims, workers);
    let mut check = || _ = zestchintz::check_code(job);
    let mut oracle = || _ = call_oracle();
    let [ours, check, oracle] = median_times_of([&mut ours, &mut check, &mut oracle]);
    let (us, check_us, oracle_ms, ratio) = (1e6 * ours, 1e6 * check, 1e3 * oracle, ratio(ours, oracle));
    println!("| {name:31} | {:6} | {us:9.3} | {check_us:9.3} | {oracle_ms:9.4} | {ratio:>11} |", job.len());
}

const HEADING: &str = "\
| job                             |  bytes |   ours us |  check us | oracle ms | ours/oracle |
|---------------------------------|-------:|----------:|----------:|----------:|------------:|
";

fn main() {
    print!("{HEADING}");
    fields().iter().for_each(measure);
}
