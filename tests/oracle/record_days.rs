//! Made days (order 11): jobs with their schedules, their records, and the calls on them.

use crate::checks::{check_schedule, part_input, Job};
use crate::draft::Random;
use crate::jobs::generate;
use crate::orders::Orders;
use crate::record::{is_small, perform, Call, Lent};
use crate::record_altered::{With, ALTERATIONS};
use crate::table::{Layout, Table};
use crate::turns::whole_schedule;

/// On jobs that aren't small so many sorts of altered records are tried, else all.
const FEW: usize = 3;

/// What a buffer holds before.
const FILL: u8 = 0xAA;

pub struct Day {
    pub job: Vec<u8>,
    pub schedule: Vec<u8>,
}

/// A made job of a kind and its schedule; every second goes on until all is answered.
pub fn made_day(kind: &str, seed: u64, orders: Orders) -> Option<Day> {
    let input = generate(kind, seed, orders)?;
    let (bytes, schedule) = part_input(&input);
    let whole = Job::check(bytes, orders).and_then(|job| {
        check_schedule(&job, schedule)?;
        Ok(if seed % 2 == 0 { whole_schedule(&job, orders, schedule) } else { schedule.to_vec() })
    });
    Some(Day { job: bytes.to_vec(), schedule: whole.unwrap_or(schedule.to_vec()) })
}

impl Day {
    /// Its record, where job and schedule are accepted.
    pub fn record(&self, orders: Orders) -> Option<Vec<u8>> {
        let used = Layout::of_job(&Job::check(&self.job, orders).ok()?, orders).used;
        let bytes = vec![0; 2 * self.schedule.len()];
        let mut lent = Lent { job: self.job.clone(), table: vec![0; used], schedule: self.schedule.clone(), bytes };
        perform(Call::RecordedRun, &mut lent, orders).check.ok()?;
        Some(lent.bytes)
    }
}

/// Words for a table: zeros, any, or a table that turns made, and some words more.
fn some_words(random: &mut Random, job: &Job, orders: Orders) -> Vec<u32> {
    let mut words = match random.below(3) {
        0 => vec![0; Layout::of_job(job, orders).used],
        1 => (0..Layout::of_job(job, orders).used).map(|_| random.next() as u32).collect(),
        _ => {
            let mut table = Table::start(job, orders, false);
            let schedule: Vec<u8> = (0..random.within(1, 60)).map(|_| random.below(job.workers) as u8).collect();
            table.run(&schedule);
            table.words
        }
    };
    words.extend((0..random.pick(&[0, 0, 1, 2, 5, 40])).map(|_| random.next() as u32));
    words
}

/// A call, and in what it is unlike the day's own.
pub struct Made {
    pub how: &'static str,
    pub call: Call,
    pub lent: Lent,
}

/// Makes the calls on a day whose job is accepted.
struct Maker<'a> {
    day: &'a Day,
    job: Job,
    orders: Orders,
    random: &'a mut Random,
    made: Vec<Made>,
}

impl Maker<'_> {
    fn add(&mut self, how: &'static str, call: Call, table: Vec<u32>, schedule: Vec<u8>, bytes: Vec<u8>) {
        let lent = Lent { job: self.day.job.clone(), table, schedule, bytes };
        self.made.push(Made { how, call, lent });
    }

    fn words(&mut self) -> Vec<u32> {
        some_words(self.random, &self.job, self.orders)
    }

    /// Fewer words than are used.
    fn too_few(&mut self) -> Vec<u32> {
        let used = Layout::of_job(&self.job, self.orders).used;
        let (mut words, any) = (self.words(), self.random.below(used));
        words.truncate(self.random.pick(&[used - 1, any, 0]));
        words
    }

    /// The day's schedule with a byte that names no worker.
    fn bad_schedule(&mut self) -> Vec<u8> {
        let mut schedule = self.day.schedule.clone();
        let at = self.random.below(schedule.len() + 1);
        schedule.insert(at, self.random.pick(&[self.job.workers as u8, 128, 255]));
        schedule
    }

    /// Less than two bytes a turn, where there is a turn.
    fn too_short(&mut self, turns: usize) -> Vec<u8> {
        let most = (2 * turns).saturating_sub(1);
        let any = self.random.below(most + 1);
        vec![FILL; self.random.pick(&[most, turns.min(most), any, 0])]
    }

    fn runs(&mut self) {
        let (good, turns) = (self.day.schedule.clone(), self.day.schedule.len());
        let more = self.random.pick(&[0, 0, 1, 2, 9]);
        let (words, buffer) = (self.words(), vec![FILL; 2 * turns + more]);
        self.add("as it is", Call::RecordedRun, words, good.clone(), buffer.clone());
        let (words, short) = (self.words(), self.too_short(turns));
        self.add("a buffer too short", Call::RecordedRun, words, good.clone(), short.clone());
        let (words, bad) = (self.words(), self.bad_schedule());
        self.add("a bad worker", Call::RecordedRun, words.clone(), bad.clone(), vec![FILL; 2 * turns + 2]);
        self.add("a bad worker, a buffer too short", Call::RecordedRun, words, bad.clone(), short);
        let few = self.too_few();
        self.add("a table too short", Call::RecordedRun, few.clone(), good, buffer);
        self.add("a table too short, a bad worker", Call::RecordedRun, few, bad, Vec::new());
    }

    fn replays(&mut self, record: &[u8], other: &[u8]) {
        for _ in 0..2 {
            let words = self.words();
            self.add("as it is", Call::Replay, words, Vec::new(), record.to_vec());
        }
        let few = self.too_few();
        self.add("a table too short", Call::Replay, few.clone(), Vec::new(), record.to_vec());
        self.add("a table too short, a byte more", Call::Replay, few, Vec::new(), [record, &[0]].concat());
        let mut alterations = ALTERATIONS.to_vec();
        if !is_small(&self.job) {
            self.random.shuffle(&mut alterations);
            alterations.truncate(FEW);
        }
        let with = With { workers: self.job.workers, other };
        for (how, alter) in alterations {
            let (words, mut bytes) = (self.words(), record.to_vec());
            alter(self.random, &mut bytes, &with);
            self.add(how, Call::Replay, words, Vec::new(), bytes);
        }
    }
}

/// Both calls on a job that is refused, with anything else lent.
fn calls_of_refused(day: &Day, random: &mut Random) -> Vec<Made> {
    let table: Vec<u32> = (0..random.within(0, 60)).map(|_| random.next() as u32).collect();
    let (schedule, bytes) = (day.schedule.clone(), (0..random.within(0, 30)).map(|_| random.below(8) as u8).collect());
    let lent = Lent { job: day.job.clone(), table, schedule, bytes };
    let made = |call: Call| Made { how: "a refused job", call, lent: lent.clone() };
    vec![made(Call::RecordedRun), made(Call::Replay)]
}

/// Recorded runs and replays of a day: as it is, and with this or that altered.
pub fn calls_of(day: &Day, other: &[u8], random: &mut Random, orders: Orders) -> Vec<Made> {
    let Ok(job) = Job::check(&day.job, orders) else { return calls_of_refused(day, random) };
    let mut maker = Maker { day, job, orders, random, made: Vec::new() };
    maker.runs();
    if let Some(record) = day.record(orders) {
        maker.replays(&record, other);
    }
    maker.made
}
