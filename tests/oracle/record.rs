//! Order 11: runs on record and their replay.

use crate::checks::{check_schedule, refuse, Job, Refusal};
use crate::orders::Orders;
use crate::table::Table;
use crate::turns::{Kind, Tally};

/// A job with at most so many claims and literals is small.
const SMALL: usize = 300;

#[derive(Clone, Copy, Debug, PartialEq, Eq)]
pub enum Call {
    RecordedRun,
    Replay,
}

/// All that a call is lent; a replay has no use for the schedule.
#[derive(Clone, Debug, PartialEq, Eq)]
pub struct Lent {
    pub job: Vec<u8>,
    pub table: Vec<u32>,
    pub schedule: Vec<u8>,
    /// The buffer, or the record.
    pub bytes: Vec<u8>,
}

/// The check, and the tally of the turns that the table holds then; zeros where the call
/// was refused before any turn.
#[derive(Clone, Copy, Debug, PartialEq, Eq)]
pub struct Answer {
    pub check: Result<(), Refusal>,
    pub tally: Tally,
}

/// Makes the call on what is lent.
pub fn perform(call: Call, lent: &mut Lent, orders: Orders) -> Answer {
    let Lent { job, table, schedule, bytes } = lent;
    let mut tally = [0; 8];
    let check = match call {
        Call::RecordedRun => recorded_run(orders, job, table, schedule, bytes).map(|counts| tally = counts),
        Call::Replay => replay(orders, job, table, bytes, &mut tally),
    };
    Answer { check, tally }
}

pub fn is_small(job: &Job) -> bool {
    job.claims + job.literals.len() <= SMALL
}

/// Check 9, and a table started in lent words; turns on a small job follow the text.
pub fn started<'a>(job: &'a Job, orders: Orders, words: &[u32]) -> Result<Table<'a>, Refusal> {
    Table::start_lent(job, orders, is_small(job), words.to_vec())
}

/// A run that starts its table and writes worker and kind of each turn: checks
/// 1 to 9, 11, 25.  Bytes past what is written stay.
fn recorded_run(
    orders: Orders,
    job: &[u8],
    words: &mut Vec<u32>,
    schedule: &[u8],
    buffer: &mut [u8],
) -> Result<Tally, Refusal> {
    let job = Job::check(job, orders)?;
    let mut table = started(&job, orders, words)?;
    check_schedule(&job, schedule)?;
    if buffer.len() < 2 * schedule.len() {
        return refuse(25, 2 * schedule.len());
    }
    let mut tally = [0; 8];
    for (&worker, pair) in schedule.iter().zip(buffer.chunks_exact_mut(2)) {
        let kind = table.turn(u32::from(worker));
        tally[kind as usize] += 1;
        pair.copy_from_slice(&[worker, kind as u8]);
    }
    *words = table.words;
    Ok(tally)
}

/// Starts a table and goes through the pairs: checks 1 to 9, 23, 24.  At a
/// false pair the table holds the turns before it, which `tally` counts.
fn replay(orders: Orders, job: &[u8], words: &mut Vec<u32>, record: &[u8], tally: &mut Tally) -> Result<(), Refusal> {
    let job = Job::check(job, orders)?;
    let mut table = started(&job, orders, words)?;
    if record.len() % 2 == 1 {
        return refuse(23, record.len());
    }
    let (held, counts) = pairs_held(&mut table.clone(), record);
    assert!(table.run(&workers_in(&record[..2 * held])) == counts, "the same turns again");
    *words = table.words;
    *tally = counts;
    if held < record.len() / 2 {
        return refuse(24, held);
    }
    Ok(())
}

/// How many pairs hold before the first false one, and their tally.
fn pairs_held(table: &mut Table, record: &[u8]) -> (usize, Tally) {
    let mut tally = [0; 8];
    for (number, pair) in record.chunks_exact(2).enumerate() {
        let worker = u32::from(pair[0]);
        if !table.workers().contains(&worker) || table.turn(worker) as u8 != pair[1] {
            return (number, tally);
        }
        tally[usize::from(pair[1])] += 1;
    }
    (record.len() / 2, tally)
}

/// The schedule that a record names.
pub fn workers_in(record: &[u8]) -> Vec<u8> {
    record.chunks_exact(2).map(|pair| pair[0]).collect()
}

/// The pair that a replay was refused for, and what its turn is on the table left; none
/// where the job has no such worker.
pub fn false_pair(lent: &Lent, number: usize, orders: Orders) -> ([u8; 2], Option<Kind>) {
    let pair = [lent.bytes[2 * number], lent.bytes[2 * number + 1]];
    let job = Job::check(&lent.job, orders).expect("the job was accepted");
    let mut table = Table::from_words(&job, orders, lent.table.clone()).expect("turns made the table");
    let known = table.workers().contains(&u32::from(pair[0]));
    (pair, known.then(|| table.turn(u32::from(pair[0]))))
}
