//! All records of a few pairs on small jobs, by the library alone: replay accepts exactly
//! those that recorded runs give.

use std::collections::HashSet;
use std::ops::Range;

use oracle::checks::{refuse, Job};
use oracle::orders::Orders;
use oracle::record_check::short_records;
use oracle::record_days::made_day;
use oracle::table::Layout;

use crate::codes::{code_of_check, said};
use crate::library;
use crate::totals::Totals;

/// The most pairs of a record.
const PAIRS: u32 = 3;

/// The schedules of so many turns.
fn schedules(workers: usize, turns: u32) -> impl Iterator<Item = Vec<u8>> {
    let turn = move |number: usize, at: u32| (number / workers.pow(at) % workers) as u8;
    (0..workers.pow(turns)).map(move |number| (0..turns).map(|at| turn(number, at)).collect())
}

/// The records of all schedules of up to `PAIRS` turns.
fn records(job: &[u8], workers: usize, words: &mut [u32]) -> HashSet<Vec<u8>> {
    let record = |schedule: Vec<u8>| {
        let mut buffer = vec![0; 2 * schedule.len()];
        let code = library::record(job, words, &schedule, &mut buffer, &mut [0; 8]);
        (code == 0).then_some(buffer)
    };
    (0..=PAIRS).flat_map(|turns| schedules(workers, turns)).filter_map(record).collect()
}

/// The code for a record where these are the ones that recorded runs give.
fn code_by_runs(given: &HashSet<Vec<u8>>, record: &[u8]) -> u64 {
    let first_false = (0..record.len() / 2).find(|&pair| !given.contains(&record[..2 * pair + 2]));
    code_of_check(&first_false.map_or(Ok(()), |pair| refuse(24, pair)))
}

fn compare_job(totals: &mut Totals, name: &str, bytes: &[u8]) {
    let job = Job::check(bytes, Orders::in_force()).expect("a made job is accepted");
    let mut words = vec![0; Layout::of_job(&job, Orders::in_force()).used];
    let given = records(bytes, job.workers, &mut words);
    let schedules: usize = (0..=PAIRS).map(|turns| job.workers.pow(turns)).sum();
    if given.len() != schedules {
        totals.differ_day(name, bytes, &format!("{} records for {schedules} schedules", given.len()));
    }
    for record in (0..=PAIRS).flat_map(|pairs| short_records(job.workers, pairs)) {
        let code = library::replay(bytes, &mut words, &record, &mut [0; 8]);
        let right = code_by_runs(&given, &record);
        totals.short += 1;
        totals.short_accepted += usize::from(right == 0);
        if code != right {
            let what = format!("{record:?}: {}, by recorded runs {}", said(code), said(right));
            totals.differ_day(name, &[bytes, &record[..]].concat(), &what);
        }
    }
}

pub fn compare_short(totals: &mut Totals, seeds: Range<u64>) {
    for seed in seeds {
        let day = made_day("tiny", seed, Orders::in_force()).expect("a kind of jobs");
        compare_job(totals, &format!("short records of tiny {seed}"), &day.job);
    }
}
