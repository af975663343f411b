//! Lists of turns by shortcuts beside the text, compared word by word.

use crate::checks::{part_input, Job};
use crate::draft::Random;
use crate::explore::skipped;
use crate::model::{well_founded, Program, Verdict};
use crate::orders::{Orders, Skip};
use crate::promises::{check_end, check_values, ensure};
use crate::table::Table;
use crate::turns::Kind;

/// What the lists met; sums over jobs.
#[derive(Default, Debug)]
pub struct Lists {
    pub lists: u64,
    pub turns: u64,
    pub skips: u64,
    /// Lists on jobs with missing records.
    pub missing: u64,
    /// Turns before which something found was kept.
    pub kept: u64,
}

struct Pair<'a> {
    short: Table<'a>,
    text: Table<'a>,
    model: Vec<Verdict>,
    changes: usize,
    /// Idle turns since the last that changed something.
    idle: usize,
}

impl Pair<'_> {
    /// One turn by both, and what it must leave.
    fn turn(&mut self, worker: u32, lists: &mut Lists) -> Result<(), String> {
        let before = self.text.clone();
        lists.kept += u64::from(self.short.found.is_some());
        let kind = self.short.turn(worker);
        ensure(self.text.turn(worker) == kind, "shortcuts give another kind than the text")?;
        ensure(self.text.words == self.short.words, "shortcuts give another table than the text")?;
        let changed = before.words != self.text.words;
        ensure(changed == (kind != Kind::Idle), "a turn changes something exactly when it isn't idle")?;
        if kind == Kind::Completed {
            check_values(&self.text, &self.model)?;
        }
        self.changes += usize::from(changed);
        self.idle = if changed { 0 } else { self.idle + 1 };
        lists.turns += 1;
        let may_skip = kind == Kind::Passed && self.text.orders.skip != Skip::Off;
        lists.skips += u64::from(may_skip && skipped(&before, &self.text));
        Ok(())
    }
}

/// A made job's schedule, then workers at random, often the last one again,
/// until all is answered.
pub fn check_shortcuts(input: &[u8], orders: Orders, random: &mut Random, lists: &mut Lists) -> Result<(), String> {
    let (bytes, schedule) = part_input(input);
    let Ok(job) = Job::check(bytes, orders) else { return Ok(()) };
    let (short, text) = (Table::start(&job, orders, false), Table::start(&job, orders, true));
    let mut pair = Pair { short, text, model: well_founded(&Program::of_job(&job)), changes: 0, idle: 0 };
    let mut made = schedule.iter().map(|&byte| u32::from(byte)).filter(|&worker| (worker as usize) < job.workers);
    let mut last = 0;
    while !pair.text.all_answered() {
        let again = pair.idle == 0 && random.percent(80);
        let next = if again { last } else { random.below(job.workers) as u32 };
        last = made.next().unwrap_or(next);
        pair.turn(last, lists)?;
        ensure(pair.idle <= 65_536 + 1000 * job.workers, "no turn changes anything any more")?;
    }
    ensure(pair.changes <= job.promised_rounds(), "more changing turns than 2L + A + 3Q")?;
    lists.lists += 1;
    lists.missing += u64::from(job.missing_records() > 0);
    check_values(&pair.text, &pair.model)?;
    check_end(&pair.text, &job.asked_closure())
}
