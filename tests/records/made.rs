//! Made days: their recorded runs and replays beside the oracle's, and what the order
//! promises of the library by itself.

use std::ops::Range;

use oracle::checks::Job;
use oracle::draft::Random;
use oracle::orders::Orders;
use oracle::promises::ensure;
use oracle::record::is_small;
use oracle::record_days::{calls_of, made_day, Day};
use oracle::table::Layout;
use oracle::turns::Tally;

use crate::beside::compare;
use crate::library;
use crate::table;
use crate::totals::Totals;

/// A table, and the tally of the turns that it holds.
type Ended = (Vec<u32>, Tally);

fn accepted(call: &str, code: u64) -> Result<(), String> {
    ensure(code == 0, &format!("{call} is refused: {code:#x}"))
}

/// Words that are no table, so many more than are used.
fn any_words(random: &mut Random, used: usize, more: usize) -> Vec<u32> {
    (0..used + more).map(|_| random.next() as u32).collect()
}

fn recorded(day: &Day, mut words: Vec<u32>, record: &mut [u8]) -> Result<Ended, String> {
    let mut tally = [0; 8];
    accepted("the recorded run", library::record(&day.job, &mut words, &day.schedule, record, &mut tally))?;
    Ok((words, tally))
}

fn started_and_run(day: &Day, mut words: Vec<u32>) -> Result<Ended, String> {
    let mut tally = [0; 8];
    accepted("the start", table::start(&day.job, &mut words))?;
    accepted("the run", table::run(&day.job, &mut words, &day.schedule, &mut tally))?;
    Ok((words, tally))
}

fn replayed(day: &Day, mut words: Vec<u32>, record: &[u8]) -> Result<Ended, String> {
    let mut tally = [0; 8];
    accepted("the replay", library::replay(&day.job, &mut words, record, &mut tally))?;
    Ok((words, tally))
}

/// Worker and kind of each turn, made singly.
fn single_turns(day: &Day, mut words: Vec<u32>) -> Result<Vec<u8>, String> {
    accepted("the start", table::start(&day.job, &mut words))?;
    let turn = |&worker: &u8| [worker, table::turn(&day.job, &mut words, usize::from(worker)) as u8];
    Ok(day.schedule.iter().flat_map(turn).collect())
}

/// A recorded run leaves what start and run leave, its record has the turns as they are
/// made singly (on small jobs), and replayed with another table it leaves the same words
/// used and the same tally.
fn check_promise(day: &Day, job: &Job, random: &mut Random) -> Result<(), String> {
    let used = Layout::of_job(job, Orders::in_force()).used;
    let words = any_words(random, used, 3);
    let mut record = vec![0; 2 * day.schedule.len()];
    let (table, tally) = recorded(day, words.clone(), &mut record)?;
    ensure(started_and_run(day, words)? == (table.clone(), tally), "start and run leave something else")?;
    if is_small(job) {
        let single = single_turns(day, any_words(random, used, 0))?;
        ensure(single == record, "single turns have another record")?;
    }
    for more in [0, 1, 500] {
        let words = any_words(random, used, more);
        let (again, counts) = replayed(day, words.clone(), &record)?;
        ensure(counts == tally && again[..used] == table[..used], "the replay ends elsewhere")?;
        ensure(again[used..] == words[used..], "the replay changes words past those used")?;
    }
    Ok(())
}

fn compare_day(totals: &mut Totals, name: &str, day: &Day, other: &[u8]) {
    let random = &mut Random::new(name, 0);
    totals.days += 1;
    for made in calls_of(day, other, random, Orders::in_force()) {
        compare(totals, &format!("{name} {}", made.how), made.call, &made.lent);
    }
    if day.record(Orders::in_force()).is_none() {
        return;
    }
    let job = Job::check(&day.job, Orders::in_force()).expect("the day's job is accepted");
    totals.with_missing += usize::from(job.missing_records() > 0);
    totals.promised += 1;
    if let Err(fault) = check_promise(day, &job, random) {
        totals.differ_day(name, &[&day.job[..], &day.schedule].concat(), &fault);
    }
}

/// The days of a kind by these seeds, each beside the next one's record.
pub fn compare_made(totals: &mut Totals, kind: &str, seeds: Range<u64>) -> Option<()> {
    let orders = Orders::in_force();
    let mut next = made_day(kind, seeds.start, orders)?;
    for seed in seeds {
        let day = std::mem::replace(&mut next, made_day(kind, seed + 1, orders)?);
        compare_day(totals, &format!("{kind} {seed}"), &day, &next.record(orders).unwrap_or_default());
    }
    Some(())
}
