//! One job at a time: the library's codes and bytes beside the oracle's.

use std::hint::black_box;

use oracle::checks::{Job, Refusal};
use oracle::clear::{standings, Standing};
use oracle::clear_sorts;
use oracle::missing_sorts::{count_model, Met, SORTS};
use oracle::model::{well_founded, Program, Verdict};
use oracle::orders::{Missing, Orders, MISREADINGS};
use oracle::readings::evaluation_shows;

use crate::counts::{add, listed, unmet};
use crate::library;
use crate::parts::Counted;

/// At most this many differences are printed.
const PRINTED: usize = 20;

/// Bytes around the lent output that nobody may change.
const GUARD: usize = 64;

/// What was compared so far.
#[derive(Default)]
pub struct Totals {
    pub jobs: usize,
    pub calls: usize,
    pub accepted: usize,
    pub refused: [usize; 14],
    pub verdicts: [usize; 4],
    /// Accepted jobs with missing records, and their claims by sort.
    pub missing_jobs: usize,
    pub missing: Met,
    /// Jobs that wrong readings of order 2 would refuse or give other verdicts.
    pub misread: [usize; 4],
    /// Claims by whether they are clear (order 9).
    pub clear: clear_sorts::Met,
    pub differences: usize,
}

/// What evaluating a job must give.
struct Evaluation {
    checked: Result<usize, Refusal>,
    values: Vec<u8>,
    /// Per claim: it is clear (order 9), so that it is not undefined.
    clear: Vec<bool>,
}

/// The code for an answer, by the layout that the header file gives.
fn code_of(answer: &Result<usize, Refusal>) -> u64 {
    match *answer {
        Ok(claims) => claims as u64,
        Err(Refusal { number: 1, place }) => (1 << 63) + place as u64,
        Err(Refusal { number, place }) => (u64::from(number) << 32) + place as u64,
    }
}

/// A byte that no verdict equals and that differs from its neighbours.
fn filling(at: usize) -> u8 {
    0x80 | (at * 37 % 128) as u8
}

/// Output lengths worth a call for a job of so many claims.
fn interesting_lengths(claims: usize) -> Vec<usize> {
    let mut lengths = vec![0, 1, claims / 2, claims.saturating_sub(1), claims, claims + 1, claims + 200];
    lengths.sort_unstable();
    lengths.dedup();
    lengths
}

impl Totals {
    /// Compares both calls on these bytes.  `name` says how to make them again.
    pub fn compare(&mut self, name: &str, bytes: &[u8]) {
        self.jobs += 1;
        let kept = bytes.to_vec();
        let job = Job::check(bytes, Orders::in_force());
        let checked = job.as_ref().map(|job| job.claims).map_err(|&refusal| refusal);
        self.count(&checked);
        self.expect(name, "check", code_of(&checked), library::check_code(bytes));
        let mut right = Evaluation { checked, values: Vec::new(), clear: Vec::new() };
        if let Ok(job) = &job {
            let (model, standings) = (well_founded(&Program::of_job(job)), standings(job));
            self.count_verdicts(bytes, job, &model);
            clear_sorts::count_model(&standings, &model, &mut self.clear);
            right.values = model.iter().map(|&verdict| verdict as u8).collect();
            right.clear = standings.iter().map(Standing::clear).collect();
        }
        let lengths = if job.is_ok() { interesting_lengths(right.values.len()) } else { vec![0, 50] };
        for length in lengths {
            self.compare_output(name, bytes, &right, length);
        }
        if *black_box(bytes) != kept[..] {
            self.differ(name, "the job's bytes were changed");
        }
    }

    /// One evaluation into `length` bytes between guards.
    fn compare_output(&mut self, name: &str, bytes: &[u8], right: &Evaluation, length: usize) {
        let values = &right.values;
        let answer = match right.checked {
            Ok(claims) if length < claims => Err(Refusal { number: 13, place: claims }),
            other => other,
        };
        let mut expected: Vec<u8> = (0..length + 2 * GUARD).map(filling).collect();
        let mut lent = expected.clone();
        if answer.is_ok() {
            expected[GUARD..GUARD + values.len()].copy_from_slice(values);
        }
        let code = library::evaluate_code(bytes, &mut lent[GUARD..GUARD + length]);
        let what = format!("evaluate into {length} bytes");
        self.expect(name, &what, code_of(&answer), code);
        let lent = black_box(lent);
        if let Some(at) = (0..lent.len()).find(|&at| lent[at] != expected[at]) {
            let place = at as i64 - GUARD as i64;
            self.differ(name, &format!("{what}: byte {place} is {}, expected {}", lent[at], expected[at]));
        }
        if answer.is_ok() {
            self.expect_clear(name, &what, &right.clear, &lent[GUARD..]);
        }
    }

    /// No clear claim is undefined.
    fn expect_clear(&mut self, name: &str, what: &str, clear: &[bool], verdicts: &[u8]) {
        let undefined = |&claim: &usize| clear[claim] && verdicts[claim] == Verdict::Undefined as u8;
        if let Some(claim) = (0..clear.len()).find(undefined) {
            self.differ(name, &format!("{what}: claim {claim} is clear and undefined"));
        }
    }

    pub fn expect(&mut self, name: &str, what: &str, expected: u64, code: u64) {
        self.calls += 1;
        if code != expected {
            let (said, right) = (library::answer(code), library::answer(expected));
            self.differ(name, &format!("{what}: {said:?} ({code:#x}), expected {right:?} ({expected:#x})"));
        }
    }

    pub fn differ(&mut self, name: &str, what: &str) {
        self.differences += 1;
        if self.differences <= PRINTED {
            println!("differs: {name}: {what}");
        }
    }

    /// The gate must meet every sort of claim that is clear or isn't, under order 2
    /// every sort of claim with a missing record, and jobs that show each wrong
    /// reading.
    pub fn expect_all_met(&mut self) {
        let mut names = unmet(clear_sorts::sorts(Orders::in_force()), &self.clear);
        if Orders::in_force().missing != Missing::Off {
            names.extend(unmet(&SORTS, &self.missing));
            names.extend(unmet(&MISREADINGS.map(|(name, _)| name), &self.misread));
        }
        for name in names {
            self.differ("the gate", &format!("{name}: never met"));
        }
    }

    fn count_verdicts(&mut self, bytes: &[u8], job: &Job, model: &[Verdict]) {
        for &verdict in model {
            self.verdicts[verdict as usize] += 1;
        }
        if job.missing_records() > 0 {
            self.missing_jobs += 1;
            count_model(job, model, &mut self.missing);
            for (count, (_, missing)) in self.misread.iter_mut().zip(MISREADINGS) {
                *count += usize::from(evaluation_shows(bytes, model, Orders { missing, ..Orders::in_force() }));
            }
        }
    }

    fn count(&mut self, checked: &Result<usize, Refusal>) {
        match checked {
            Ok(_) => self.accepted += 1,
            Err(refusal) => self.refused[refusal.number as usize] += 1,
        }
    }
}

impl Counted for Totals {
    fn add(&mut self, other: &Self) {
        self.jobs += other.jobs;
        self.calls += other.calls;
        self.accepted += other.accepted;
        self.differences += other.differences;
        self.missing_jobs += other.missing_jobs;
        add(&mut self.refused, &other.refused);
        add(&mut self.verdicts, &other.verdicts);
        add(&mut self.missing, &other.missing);
        add(&mut self.misread, &other.misread);
        add(&mut self.clear, &other.clear);
    }

    fn counts(&self) -> String {
        format!(
            "{} jobs, {} accepted, {} with missing records, {} refused",
            self.jobs,
            self.accepted,
            self.missing_jobs,
            self.jobs - self.accepted
        )
    }

    fn differences(&self) -> usize {
        self.differences
    }

    fn summary(&self) {
        let rows: Vec<String> = (1..=8).map(|number| format!("{number}: {}", self.refused[number])).collect();
        println!("refused by number {}", rows.join(", "));
        println!("verdicts true {}, false {}, undefined {}", self.verdicts[1], self.verdicts[2], self.verdicts[3]);
        println!("{} jobs with missing records: {}", self.missing_jobs, listed(&SORTS, &self.missing));
        println!("wrong readings shown: {}", listed(&MISREADINGS.map(|(name, _)| name), &self.misread));
        println!("claims by order 9: {}", listed(clear_sorts::sorts(Orders::in_force()), &self.clear));
        if self.differences > 0 {
            println!("a made job alone: compare made KIND SEED 1");
        }
        println!("{} jobs in {} calls compared, {} differences", self.jobs, self.calls, self.differences);
    }
}
