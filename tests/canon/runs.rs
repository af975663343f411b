//! The program canonjob: its form and its words beside the oracle's form and refusal.

use std::fs::File;
use std::ops::Range;
use std::process::{Command, Output, Stdio};

use oracle::canon_edges::canon_edges;
use oracle::checks::{Refusal, MAX_JOB_BYTES};
use oracle::orders::Orders;

use crate::beside::form_of;
use crate::made::{made_job, made_partner};
use crate::process::{fault_of_output, is_one_line, outputs, path_of, says_check, spawn};
use crate::totals::Totals;

/// The sorts of runs: refused by a check, a form, a form that goes through the program
/// again, partners that say the same or not, an input longer than any job, an output
/// that can't be written.
pub const RUNS: [&str; 14] = [
    "refused by 1",
    "refused by 2",
    "refused by 3",
    "refused by 4",
    "refused by 5",
    "refused by 6",
    "refused by 7",
    "refused by 8",
    "a form",
    "a form again",
    "equal partners",
    "unequal partners",
    "an input too long",
    "an output that can't be written",
];
const FORM: usize = 8;
const AGAIN: usize = 9;
const PARTNERS: usize = 10;
const TOO_LONG: usize = 12;
const UNWRITTEN: usize = 13;

/// Where the forms of partners are put for `cmp`.
const FILES: [&str; 2] = ["target/tests/canon-one.form", "target/tests/canon-other.form"];

pub struct Program {
    path: String,
}

/// Whether a refusal is said with its number and its place, which for an input longer
/// than any job is one byte more than a job may have.
fn says(said: &str, refusal: &Refusal) -> bool {
    says_check("canonjob", said, refusal.number, refusal.place.min(MAX_JOB_BYTES + 1))
}

impl Program {
    pub fn find() -> Program {
        Program { path: path_of("ZESTCHINTZ_CANONJOB", "target/bin/canonjob") }
    }

    /// What canonjob writes for a job; its standard output may go elsewhere.
    fn run(&self, job: &[u8], output: impl Into<Stdio>) -> Output {
        let [output] = outputs(job, [spawn(&self.path, Stdio::piped(), output)]);
        output
    }

    /// Runs the program on a job; what it writes.
    fn compare(&self, totals: &mut Totals, name: &str, job: &[u8], sort: Option<usize>) -> Vec<u8> {
        let answer = form_of(job);
        let by_answer = answer.as_ref().map_or_else(|refusal| refusal.number as usize - 1, |_| FORM);
        totals.jobs += 1;
        totals.run[sort.unwrap_or(by_answer)] += 1;
        let output = self.run(job, Stdio::piped());
        if let Some(fault) = fault_of_output(&answer, &output, says) {
            totals.differ(name, job, &format!("canonjob: {fault}"));
        }
        output.stdout
    }

    /// A job, its form again, and its partner, whose form is by `cmp` the same exactly
    /// where it says the same.
    fn compare_seed(&self, totals: &mut Totals, name: &str, seed: u64, job: &[u8]) {
        let form = self.compare(totals, name, job, None);
        let Some((other, same)) = made_partner(job, seed) else { return };
        if self.compare(totals, name, &form, Some(AGAIN)) != form {
            totals.differ(name, job, "canonjob: the form of its form is another");
        }
        let form_other = self.compare(totals, &format!("{name} partner"), &other, Some(PARTNERS + usize::from(!same)));
        let written = [form, form_other].iter().zip(FILES).all(|(form, file)| std::fs::write(file, form).is_ok());
        let cmp = Command::new("cmp").arg("-s").args(FILES).status().expect("cmp can be run");
        if !written || cmp.success() != same {
            totals.differ(name, job, &format!("cmp finds its form and its partner's equal or not, expected {same}"));
        }
    }
}

pub fn run_edges(totals: &mut Totals, program: &Program) {
    for (number, edge) in canon_edges(Orders::in_force()).iter().enumerate() {
        program.compare(totals, &format!("form edge {number}"), &edge.job, None);
    }
}

pub fn run_made(totals: &mut Totals, program: &Program, kind: &str, seeds: Range<u64>) {
    for seed in seeds {
        program.compare_seed(totals, &format!("{kind} {seed}"), seed, &made_job(kind, seed));
    }
}

/// Inputs longer than any job, some of them a good job and more.
pub fn run_long(totals: &mut Totals, program: &Program) {
    for length in [MAX_JOB_BYTES + 1, 65_535, 65_536, 65_537, 200_000, 1 << 20, (1 << 22) + 1] {
        for mut job in [made_job("large", 0), made_job("small", 1)] {
            job.resize(length, 0);
            program.compare(totals, &format!("long {length}"), &job, Some(TOO_LONG));
        }
    }
}

/// An output that can't be written: a line says so.
pub fn run_unwritten(totals: &mut Totals, program: &Program) {
    for job in [made_job("small", 1), made_job("large", 0)] {
        let full = File::options().write(true).open("/dev/full").expect("/dev/full can be opened");
        let output = program.run(&job, full);
        totals.jobs += 1;
        totals.run[UNWRITTEN] += 1;
        let said = String::from_utf8_lossy(&output.stderr);
        if !output.status.success() || !is_one_line("canonjob", &said) || !said.contains("writ") {
            totals.differ("full", &job, &format!("canonjob: to /dev/full it says {said:?}"));
        }
    }
}
