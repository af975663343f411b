//! Checks of order 11 in second ways: replays by recorded runs alone, records by the
//! turns that they name, and all short records of small jobs.

use std::ops::Range;

use crate::checks::{refuse, Job};
use crate::draft::Random;
use crate::orders::Orders;
use crate::promises::ensure;
use crate::record::{perform, workers_in, Answer, Call, Lent};
use crate::record_days::{calls_of, made_day, Made};
use crate::record_edges::record_edges;
use crate::record_readings::{count_shown, Shown};
use crate::table::{Layout, Table};
use crate::turns::KINDS;

/// The kinds of jobs whose days are made, in turn.
const DAYS: [&str; 6] = ["tiny", "small", "failing", "tower", "empty", "damaged"];

#[derive(Default, Debug)]
pub struct RecordTotals {
    pub edges: usize,
    pub days: usize,
    pub calls: usize,
    pub accepted: usize,
    pub refused: [usize; 26],
    /// Records of small jobs, and those accepted.
    pub short: usize,
    pub short_accepted: usize,
    /// Calls that show each wrong reading.
    pub shown: Shown,
}

/// A recorded run of these turns on words of the lent length; its record and what it leaves.
fn record_of(lent: &Lent, schedule: &[u8], orders: Orders) -> (Answer, Lent) {
    let bytes = vec![0; 2 * schedule.len()];
    let mut run = Lent { schedule: schedule.to_vec(), bytes, ..lent.clone() };
    (perform(Call::RecordedRun, &mut run, orders), run)
}

/// A replay by recorded runs: the pairs that hold are those on which the record agrees
/// with that of the turns it names.
fn replay_again(lent: &mut Lent, orders: Orders) -> Answer {
    let (none, _) = record_of(lent, &[], orders);
    if none.check.is_err() {
        return none;
    }
    if lent.bytes.len() % 2 == 1 {
        return Answer { check: refuse(23, lent.bytes.len()), tally: [0; 8] };
    }
    let workers = Job::check(&lent.job, orders).expect("the job was accepted").workers;
    let known: Vec<u8> = workers_in(&lent.bytes).into_iter().take_while(|&byte| usize::from(byte) < workers).collect();
    let (_, run) = record_of(lent, &known, orders);
    let held = run.bytes.chunks(2).zip(lent.bytes.chunks(2)).take_while(|(one, other)| one == other).count();
    let (mut answer, run) = record_of(lent, &known[..held], orders);
    lent.table = run.table;
    if 2 * held < lent.bytes.len() {
        answer.check = refuse(24, held);
    }
    answer
}

/// An accepted recorded run: start and run leave its table, its record has the schedule's
/// workers and the kinds that its tally counts.
fn check_run(lent: &Lent, answer: &Answer, left: &Lent, orders: Orders) -> Result<(), String> {
    let job = Job::check(&lent.job, orders).expect("the job was accepted");
    let mut table = Table::start_lent(&job, orders, false, lent.table.clone()).expect("the table was long enough");
    ensure(table.run(&lent.schedule) == answer.tally, "start and run have another tally")?;
    ensure(table.words == left.table, "start and run leave another table")?;
    let (record, behind) = left.bytes.split_at(2 * lent.schedule.len());
    ensure(behind == &lent.bytes[record.len()..], "bytes behind the record changed")?;
    ensure(workers_in(record) == lent.schedule, "the record names another schedule")?;
    let counted = |kind: usize| record.chunks_exact(2).filter(|pair| usize::from(pair[1]) == kind).count() as u64;
    ensure((0..8).all(|kind| counted(kind) == answer.tally[kind]), "the record has other kinds")
}

fn check_call(made: &Made, orders: Orders, totals: &mut RecordTotals) -> Result<(), String> {
    let (mut left, mut again) = (made.lent.clone(), made.lent.clone());
    let answer = perform(made.call, &mut left, orders);
    totals.calls += 1;
    match (made.call, answer.check) {
        (Call::Replay, _) => {
            ensure((replay_again(&mut again, orders), &again) == (answer, &left), "two replays differ")?
        }
        (Call::RecordedRun, Ok(())) => check_run(&made.lent, &answer, &left, orders)?,
        (Call::RecordedRun, Err(_)) => ensure(left == made.lent, "a refused run changed what was lent")?,
    }
    match answer.check {
        Ok(()) => totals.accepted += 1,
        Err(refusal) => totals.refused[refusal.number as usize] += 1,
    }
    count_shown(made.call, &made.lent, (&answer, &left), orders, &mut totals.shown);
    Ok(())
}

fn check_day(seed: u64, orders: Orders, totals: &mut RecordTotals) -> Result<(), String> {
    let (kind, number) = (DAYS[seed as usize % DAYS.len()], seed / DAYS.len() as u64);
    let [day, other] = [number, number + 1].map(|seed| made_day(kind, seed, orders).expect("a kind of jobs"));
    totals.days += 1;
    let other = other.record(orders).unwrap_or_default();
    for made in calls_of(&day, &other, &mut Random::new("record", seed), orders) {
        check_call(&made, orders, totals).map_err(|fault| format!("{:?}, {}: {fault}", made.call, made.how))?;
    }
    Ok(())
}

pub fn check_seeds(seeds: Range<u64>, orders: Orders, totals: &mut RecordTotals) -> Vec<String> {
    let fault = |seed| check_day(seed, orders, totals).err().map(|fault| format!("day {seed}: {fault}"));
    seeds.filter_map(fault).collect()
}

/// Every record of so many pairs, of all workers and one more, all kinds and one more.
pub fn short_records(workers: usize, pairs: u32) -> impl Iterator<Item = Vec<u8>> {
    let kinds = KINDS.len() + 1;
    let each = (workers + 1) * kinds;
    (0..each.pow(pairs)).map(move |number| {
        let pair = |at: u32| number / each.pow(at) % each;
        (0..pairs).flat_map(|at| [(pair(at) / kinds) as u8, (pair(at) % kinds) as u8]).collect()
    })
}

/// Of all records of so many pairs exactly those are accepted that a schedule has, each
/// schedule its own.
fn check_short(seed: u64, pairs: u32, orders: Orders, totals: &mut RecordTotals) -> Result<(), String> {
    let job = made_day("tiny", seed, orders).expect("a kind of jobs").job;
    let read = Job::check(&job, orders).expect("a made job is accepted");
    let table = vec![0; Layout::of_job(&read, orders).used];
    let lent = Lent { job, table, schedule: Vec::new(), bytes: Vec::new() };
    let mut accepted = 0;
    for record in short_records(read.workers, pairs) {
        let mut lent = Lent { bytes: record, ..lent.clone() };
        totals.short += 1;
        if perform(Call::Replay, &mut lent, orders).check.is_ok() {
            accepted += 1;
            let (_, run) = record_of(&lent, &workers_in(&lent.bytes), orders);
            ensure(run.bytes == lent.bytes && run.table == lent.table, "an accepted record is no run's")?;
        }
    }
    totals.short_accepted += accepted;
    ensure(accepted == read.workers.pow(pairs), "not one record a schedule is accepted")
}

pub fn check_short_records(seeds: Range<u64>, orders: Orders, totals: &mut RecordTotals) -> Vec<String> {
    let fault = |seed| {
        let pairs = (0..=2).map(|pairs| check_short(seed, pairs, orders, totals));
        pairs.filter_map(Result::err).next().map(|fault| format!("short records of tiny {seed}: {fault}"))
    };
    seeds.filter_map(fault).collect()
}

/// The edge cases: this oracle's answer and what it leaves are what is written down.
pub fn check_edges(orders: Orders, totals: &mut RecordTotals) -> Vec<String> {
    let edges = record_edges();
    totals.edges += edges.len();
    edges.iter().filter_map(|edge| edge.fault(orders)).collect()
}
