//! The program replayjob: the schedule that it writes and its words beside the oracle's
//! replay, and its days listed.

use std::ops::Range;
use std::process::{Output, Stdio};

use oracle::checks::{part_input, Refusal, MAX_INPUT_BYTES};
use oracle::draft::{Draft, Random};
use oracle::listing::listing;
use oracle::orders::Orders;
use oracle::record::{false_pair, perform, workers_in, Answer, Call, Lent};
use oracle::record_days::{calls_of, made_day};
use oracle::turns::KINDS;

use crate::process::{fault_of_output, is_one_line, outputs, path_of, piped, says_check, spawn};
use crate::totals::Totals;

/// The sorts of runs: refused by a check, a day, one that is too long to be listed, an
/// input too long.
pub const RUNS: [&str; 13] = [
    "refused by 1",
    "refused by 2",
    "refused by 3",
    "refused by 4",
    "refused by 5",
    "refused by 6",
    "refused by 7",
    "refused by 8",
    "refused by 23",
    "refused by 24",
    "a day",
    "a day too long to be listed",
    "an input too long",
];
const DAY: usize = 10;
const UNLISTED: usize = 11;
const TOO_LONG: usize = 12;

const NAME: &str = "replayjob";
/// The most that the program reads.
const MOST_DAY: usize = 1_048_576;
/// The words of the largest table.
const MOST_WORDS: usize = 13_416;
/// Days of up to so many bytes are listed.
const SHORT: usize = 4_000;

pub struct Program {
    path: String,
    verdicts: String,
}

/// Whether words say which pair is false, what it says, and what its turn is.
fn says_pair(said: &str, left: &Lent, number: usize) -> bool {
    let ([worker, kind], turn) = false_pair(left, number, Orders::in_force());
    let start = format!("{NAME}: refused by check 24: pair {number}: worker {worker}, ");
    let kind = KINDS.get(usize::from(kind)).map_or(kind.to_string(), |name| name.to_string());
    let end = turn.map_or("no such worker\n".to_string(), |kind| format!(" {}\n", kind.name()));
    is_one_line(NAME, said) && said.starts_with(&start) && said[start.len()..].contains(&kind) && said.ends_with(&end)
}

fn says(said: &str, refusal: &Refusal, left: &Lent) -> bool {
    match refusal.number {
        24 => says_pair(said, left, refusal.place),
        number => says_check(NAME, said, number, refusal.place),
    }
}

/// A day replayed by the oracle on a table of any job, and what that leaves.
fn replayed(day: &[u8]) -> (Answer, Lent) {
    let (job, record) = part_input(day);
    let (job, bytes) = (job.to_vec(), record.to_vec());
    let mut lent = Lent { job, table: vec![0; MOST_WORDS], schedule: Vec::new(), bytes };
    (perform(Call::Replay, &mut lent, Orders::in_force()), lent)
}

impl Program {
    pub fn find() -> Program {
        Program {
            path: path_of("ZESTCHINTZ_REPLAYJOB", "target/bin/replayjob"),
            verdicts: path_of("ZESTCHINTZ_VERDICTS", "target/bin/verdicts"),
        }
    }

    fn run(&self, day: &[u8]) -> Output {
        let [output] = outputs(day, [spawn(&self.path, Stdio::piped(), Stdio::piped())]);
        output
    }

    /// The listing of a day that comes through a pipe.
    fn compare_listing(&self, totals: &mut Totals, name: &str, day: &[u8], field: &[u8]) {
        totals.listed += 1;
        let [_, output] = piped(day, &self.path, &self.verdicts);
        if output.stdout != listing(field, Orders::in_force(), false).as_bytes() || !output.stderr.is_empty() {
            totals.differ_day(name, day, "piped into verdicts it gives another listing");
        }
    }

    /// A day too long to be listed: a line says so beside the schedule.
    fn compare_unlisted(&self, totals: &mut Totals, name: &str, day: &[u8], field: &[u8]) {
        totals.runs[UNLISTED] += 1;
        let output = self.run(day);
        let said = String::from_utf8_lossy(&output.stderr);
        let says = is_one_line(NAME, &said) && said.contains(&field.len().to_string()) && said.contains("verdicts");
        if !output.status.success() || output.stdout != field || !says {
            totals.differ_day(
                name,
                day,
                &format!("{} bytes instead of {}; {said:?}", output.stdout.len(), field.len()),
            );
        }
    }

    /// Runs the program on a day, and lists a short one.
    fn compare(&self, totals: &mut Totals, name: &str, day: &[u8]) {
        let (answer, left) = replayed(day);
        let field = answer.check.map(|()| [&left.job[..], &workers_in(&left.bytes)].concat());
        match &field {
            Ok(field) if field.len() > MAX_INPUT_BYTES => return self.compare_unlisted(totals, name, day, field),
            Ok(_) => totals.runs[DAY] += 1,
            Err(refusal) => {
                let sort = format!("refused by {}", refusal.number);
                totals.runs[RUNS.iter().position(|name| *name == sort).expect("a check of replayjob")] += 1;
            }
        }
        if let Some(fault) = fault_of_output(&field, &self.run(day), |said, refusal| says(said, refusal, &left)) {
            totals.differ_day(name, day, &format!("{NAME}: {fault}"));
        }
        if let Some(field) = field.ok().filter(|field| field.len() <= SHORT) {
            self.compare_listing(totals, name, day, &field);
        }
    }
}

/// The replays of made days.
pub fn run_made(totals: &mut Totals, program: &Program, kind: &str, seeds: Range<u64>) -> Option<()> {
    let orders = Orders::in_force();
    for seed in seeds {
        let (day, other) = (made_day(kind, seed, orders)?, made_day(kind, seed + 1, orders)?);
        let random = &mut Random::new("replayjob", seed);
        let calls = calls_of(&day, &other.record(orders).unwrap_or_default(), random, orders);
        for made in calls.iter().filter(|made| made.call == Call::Replay) {
            let day = [&made.lent.job[..], &made.lent.bytes].concat();
            program.compare(totals, &format!("{kind} {seed} {}", made.how), &day);
        }
    }
    Some(())
}

/// A job, and behind it idle turns up to so many bytes.
fn idle_day(job: &[u8], length: usize) -> Vec<u8> {
    let mut day = job.to_vec();
    day.resize(length, 0);
    day
}

/// Days around the most bytes that are read and around the most that are listed.
pub fn run_long(totals: &mut Totals, program: &Program) {
    let job = Draft::new(0, 1).job_bytes();
    let listed = job.len() + 2 * (MAX_INPUT_BYTES - job.len());
    for length in [listed, listed + 2, 300_001, MOST_DAY - 1, MOST_DAY] {
        program.compare(totals, &format!("long {length}"), &idle_day(&job, length));
    }
    for length in [MOST_DAY + 1, MOST_DAY + 2, 3 * MOST_DAY] {
        totals.runs[TOO_LONG] += 1;
        let (name, day) = (format!("long {length}"), idle_day(&job, length));
        let output = program.run(&day);
        let said = String::from_utf8_lossy(&output.stderr);
        let right = is_one_line(NAME, &said) && said.replace(',', "").contains(&MOST_DAY.to_string());
        if !output.status.success() || !output.stdout.is_empty() || !right {
            totals.differ_day(&name, &day, &format!("{NAME}: it says {said:?}"));
        }
    }
}
