//! One call on a job and a table: as the library makes it, and what the oracle
//! says it must answer and leave in the table.

use std::fmt;

use oracle::checks::{check_schedule, refuse, Job, Refusal};
use oracle::orders::Orders;
use oracle::table::Table;

use crate::library;
use crate::met::Met;

#[derive(Clone)]
pub enum Call {
    Start,
    Turn(usize),
    Run(Vec<u8>),
    Read(usize),
}

/// What a call gives: its code, and the tally where it is a run.
#[derive(Clone, Copy, PartialEq, Eq)]
pub struct Given {
    pub code: u64,
    pub tally: [u64; 8],
}

/// Reading a claim of this mark.
fn reading(mark: u32) -> u64 {
    match mark {
        0 => 0,
        256..=258 => u64::from(mark - 255),
        _ => 4,
    }
}

/// The code for an answer.
fn code_of(answer: Result<u64, Refusal>) -> u64 {
    match answer {
        Ok(answer) => answer,
        Err(Refusal { number: 1, place }) => (1 << 63) + place as u64,
        Err(Refusal { number, place }) => (u64::from(number) << 32) + place as u64,
    }
}

impl Given {
    /// What a refused call gives.
    pub fn refused(refusal: Refusal) -> Given {
        Given { code: code_of(Err(refusal)), tally: [0; 8] }
    }
}

impl fmt::Display for Given {
    fn fmt(&self, out: &mut fmt::Formatter) -> fmt::Result {
        match (self.code >> 63, self.code >> 32) {
            (1, _) => write!(out, "refused 1 {}", self.code & !(1 << 63))?,
            (_, 0) => write!(out, "{}", self.code)?,
            (_, number) => write!(out, "refused {number} {}", self.code as u32)?,
        }
        if self.tally != [0; 8] {
            write!(out, " with tally {:?}", self.tally)?;
        }
        Ok(())
    }
}

impl Call {
    /// The library makes the call.
    pub fn by_library(&self, job: &[u8], table: &mut [u32]) -> Given {
        let mut tally = [0; 8];
        let code = match self {
            Call::Start => library::start(job, table),
            Call::Turn(worker) => library::turn(job, table, *worker),
            Call::Run(schedule) => {
                tally = [0xdead_beef; 8];
                library::run(job, table, schedule, &mut tally)
            }
            Call::Read(claim) => library::read(job, table, *claim),
        };
        Given { code, tally }
    }

    /// The oracle makes the call on a table that passed the checks before:
    /// checks 11 and 12 are left, and `table` moves on.  `met` counts what its
    /// turns meet.
    pub fn by_oracle(&self, table: &mut Table, met: &mut Met) -> Given {
        let mut tally = [0; 8];
        let answer = match self {
            Call::Start => {
                let words = std::mem::take(&mut table.words);
                Table::start_lent(table.job, table.orders, table.by_text, words).map(|started| {
                    *table = started;
                    0
                })
            }
            Call::Turn(worker) if *worker >= table.job.workers => refuse(11, 0),
            Call::Turn(worker) => Ok(met.turn(table, *worker as u32) as u64),
            Call::Run(schedule) => check_schedule(table.job, schedule).map(|()| {
                for &worker in schedule {
                    tally[met.turn(table, u32::from(worker)) as usize] += 1;
                }
                0
            }),
            Call::Read(claim) if *claim >= table.job.claims => refuse(12, 0),
            Call::Read(claim) => Ok(reading(table.mark(*claim as u32))),
        };
        Given { code: code_of(answer), tally }
    }

    /// The oracle makes the call on any job and any words, with all checks.
    pub fn on_words(&self, job: &Result<Job, Refusal>, words: &mut Vec<u32>, met: &mut Met) -> Given {
        let job = match job {
            Err(refusal) => return Given::refused(*refusal),
            Ok(job) => job,
        };
        let lent = match self {
            Call::Start => Table::start_lent(job, Orders::in_force(), true, words.clone()),
            _ => Table::from_words(job, Orders::in_force(), words.clone()),
        };
        match lent {
            Err(refusal) => Given::refused(refusal),
            Ok(mut table) => {
                let given = self.by_oracle(&mut table, met);
                *words = table.words;
                given
            }
        }
    }
}

impl fmt::Display for Call {
    fn fmt(&self, out: &mut fmt::Formatter) -> fmt::Result {
        match self {
            Call::Start => write!(out, "start"),
            Call::Turn(worker) => write!(out, "turn of worker {worker}"),
            Call::Run(schedule) if schedule.len() <= 40 => write!(out, "run {schedule:?}"),
            Call::Run(schedule) => write!(out, "run of {} turns", schedule.len()),
            Call::Read(claim) => write!(out, "reading of claim {claim}"),
        }
    }
}
