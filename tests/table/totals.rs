//! What was compared and what differs.

use oracle::checks::Job;
use oracle::missing_sorts;
use oracle::orders::{Missing, Newest, Orders, Skip};
use oracle::table::{Layout, Table};
use oracle::turns::KINDS;

use crate::calls::{Call, Given};
use crate::counts::{add, listed, unmet};
use crate::failed::{SORTS, SORTS_OF_LISTS};
use crate::kept;
use crate::met::Met;
use crate::newest;
use crate::parts::Counted;

/// At most this many differences are printed.
const PRINTED: usize = 20;

const READINGS: [&str; 5] = ["fresh", "true", "false", "undefined", "open"];
const EXCHANGED: &str = "missing record of a false claim exchanged away";
const PARTS: [&str; 9] =
    ["header", "opened count", "mark", "cursor", "opening number", "awaited", "answered", "question", "newest"];

/// Of these parts a word out of range comes before a third word.
const BEFORE_NEWEST: usize = 7;

#[derive(Default)]
pub struct Totals {
    /// Jobs compared, each with a list of calls or with single tables; those of
    /// them with missing records.
    pub jobs: usize,
    pub missing_jobs: usize,
    /// Lists whose questions were all answered in the end.
    pub finished: usize,
    pub calls: usize,
    pub kinds: [u64; 8],
    pub readings: [usize; 5],
    /// Refusals by number, and those of number 10 by the part of the table.
    pub refused: [usize; 13],
    pub bad_words: [usize; 9],
    /// Those of third words by cause, and those of words before a wrong third word.
    pub bad_newest: newest::Causes,
    pub before_newest: [usize; 9],
    /// What turns met in lists from a start and on tables that no run made.
    pub in_lists: Met,
    pub on_tables: Met,
    /// Runs on tables that no run made, by kinds of their turns, and what those keep.
    pub runs_with: [usize; 8],
    pub kept: kept::Counts,
    pub differences: usize,
}

/// Which of `PARTS` a word of the table belongs to.
fn part_of(layout: &Layout, at: usize) -> usize {
    if at < 8 {
        at / 7
    } else if at < layout.workers_at {
        2 + (at - layout.claims_at) % 3
    } else if at < layout.questions_at {
        [5, 6, 8][(at - layout.workers_at) % Orders::in_force().worker_words()]
    } else {
        7
    }
}

impl Totals {
    /// Counts a job that was accepted.
    pub fn count_job(&mut self, job: &Job) {
        self.missing_jobs += usize::from(job.missing_records() > 0);
    }

    /// Counts a call by what the oracle says it gives.
    pub fn count(&mut self, call: &Call, expected: &Given, layout: Option<&Layout>) {
        self.calls += 1;
        let number = if expected.code >> 63 == 1 { 1 } else { (expected.code >> 32) as usize };
        if number > 0 {
            self.refused[number] += 1;
            if let (10, Some(layout)) = (number, layout) {
                self.bad_words[part_of(layout, expected.code as u32 as usize)] += 1;
            }
            return;
        }
        match call {
            Call::Start => {}
            Call::Turn(_) => self.kinds[expected.code as usize] += 1,
            Call::Run(_) => add(&mut self.kinds, &expected.tally),
            Call::Read(_) => self.readings[expected.code as usize] += 1,
        }
    }

    /// Counts what a call refused by 10 has to do with third words.
    pub fn count_bad_word(&mut self, job: &Job, words: &[u32], expected: &Given) {
        if expected.code >> 32 != 10 || Orders::in_force().newest == Newest::Off {
            return;
        }
        let mut table = Table::start(job, Orders::in_force(), true);
        table.words = words.to_vec();
        let at = expected.code as u32 as usize;
        let part = part_of(&table.layout, at);
        let wrong = table.workers().find(|&worker| table.worker_at(worker) + 2 >= at && !table.is_newest_word(worker));
        match wrong {
            Some(worker) if PARTS[part] == "newest" => self.bad_newest[newest::cause(&table, worker)] += 1,
            Some(_) => self.before_newest[part] += 1,
            None => {}
        }
    }

    pub fn differ(&mut self, name: &str, what: &str) {
        self.differences += 1;
        if self.differences <= PRINTED {
            println!("differs: {name}: {what}");
        }
    }

    pub fn turns(&self) -> u64 {
        self.kinds.iter().sum()
    }

    /// Counts the kinds that a run's turns had.
    pub fn count_run(&mut self, expected: &Given) {
        add(&mut self.runs_with, &expected.tally.map(|turns| usize::from(turns > 0)));
    }

    /// What the orders in force bring and was never met.
    fn unmet_of_orders(&self) -> Vec<String> {
        let (mut in_lists, mut on_tables) = (Vec::new(), Vec::new());
        if Orders::in_force().missing != Missing::Off {
            in_lists.extend(unmet(&missing_sorts::SORTS, &self.in_lists.missing.sorts));
            on_tables.extend(unmet(&missing_sorts::SORTS, &self.on_tables.missing.sorts));
            on_tables.extend(unmet(&[EXCHANGED], &[self.on_tables.missing.exchanged]));
        }
        if Orders::in_force().newest != Newest::Off {
            in_lists.extend(unmet(&newest::SORTS[..newest::SORTS_OF_LISTS], &self.in_lists.newest));
            on_tables.extend(unmet(&newest::SORTS, &self.on_tables.newest));
        }
        if Orders::in_force().skip != Skip::Off {
            in_lists.extend(unmet(&SORTS[..SORTS_OF_LISTS], &self.in_lists.failed));
            on_tables.extend(unmet(&SORTS, &self.on_tables.failed));
        }
        let in_lists = in_lists.iter().map(|sort| format!("{sort} in a list"));
        in_lists.chain(on_tables.iter().map(|sort| format!("{sort} on a table"))).collect()
    }

    /// Parts of the table, and causes by which third words are refused.
    fn unmet_of_check_10(&self) -> Vec<String> {
        if Orders::in_force().newest == Newest::Off {
            return unmet(&PARTS[..PARTS.len() - 1], &self.bad_words);
        }
        let causes = unmet(&newest::CAUSES, &self.bad_newest);
        let before = unmet(&PARTS[..BEFORE_NEWEST], &self.before_newest);
        let mut all = unmet(&PARTS, &self.bad_words);
        all.extend(causes.iter().map(|cause| format!("third word that is {cause}")));
        all.extend(before.iter().map(|part| format!("third word behind a bad word: {part}")));
        all
    }

    /// The gate must meet every kind of turn, every reading, every refusal, and
    /// every sort of what the orders in force bring.
    pub fn expect_all_met(&mut self) {
        let refusals: Vec<String> = (1..=12).map(|number| format!("refusal {number}")).collect();
        let refusals: Vec<&str> = refusals.iter().map(String::as_str).collect();
        let mut missing = unmet(&KINDS, &self.kinds.map(|count| count as usize));
        missing.extend(unmet(&READINGS, &self.readings));
        missing.extend(unmet(&refusals, &self.refused[1..]));
        missing.extend(self.unmet_of_check_10());
        missing.extend(self.unmet_of_orders());
        for name in missing {
            self.differ("the gate", &format!("{name} was never met"));
        }
    }
}

impl Counted for Totals {
    fn add(&mut self, other: &Self) {
        self.jobs += other.jobs;
        self.missing_jobs += other.missing_jobs;
        self.finished += other.finished;
        self.calls += other.calls;
        self.differences += other.differences;
        add(&mut self.kinds, &other.kinds);
        add(&mut self.readings, &other.readings);
        add(&mut self.refused, &other.refused);
        add(&mut self.bad_words, &other.bad_words);
        add(&mut self.bad_newest, &other.bad_newest);
        add(&mut self.before_newest, &other.before_newest);
        self.in_lists.add(&other.in_lists);
        self.on_tables.add(&other.on_tables);
        add(&mut self.runs_with, &other.runs_with);
        add(&mut self.kept, &other.kept);
    }

    fn counts(&self) -> String {
        format!(
            "{} jobs, {} with missing records, {} lists to their end, {} calls, {} turns",
            self.jobs,
            self.missing_jobs,
            self.finished,
            self.calls,
            self.turns()
        )
    }

    fn differences(&self) -> usize {
        self.differences
    }

    fn summary(&self) {
        println!("turns: {}", listed(&KINDS, &self.kinds));
        println!("readings: {}", listed(&READINGS, &self.readings));
        let rows: Vec<String> = (1..=12).map(|number| format!("{number}: {}", self.refused[number])).collect();
        println!("refused by number {}", rows.join(", "));
        println!("refused by 10 at: {}", listed(&PARTS, &self.bad_words));
        println!("third words refused: {}", listed(&newest::CAUSES, &self.bad_newest));
        println!("third words wrong behind: {}", listed(&PARTS[..BEFORE_NEWEST], &self.before_newest));
        println!("newest claims in lists: {}", listed(&newest::SORTS, &self.in_lists.newest));
        println!("newest claims on tables that no run made: {}", listed(&newest::SORTS, &self.on_tables.newest));
        println!("failed rules in lists: {}", listed(&SORTS, &self.in_lists.failed));
        println!("failed rules on tables that no run made: {}", listed(&SORTS, &self.on_tables.failed));
        println!("claims completed in lists: {}", listed(&missing_sorts::SORTS, &self.in_lists.missing.sorts));
        println!(
            "claims completed on tables that no run made: {}, {EXCHANGED} {}",
            listed(&missing_sorts::SORTS, &self.on_tables.missing.sorts),
            self.on_tables.missing.exchanged
        );
        println!("runs on tables that no run made with turns: {}", listed(&KINDS, &self.runs_with));
        println!("what they keep: {}", listed(&kept::SORTS, &self.kept));
        if self.differences > 0 {
            println!("a made job alone: table made KIND SEED 1");
        }
        println!(
            "{} jobs ({} with missing records, {} lists to their end), {} calls with {} turns compared, {} differences",
            self.jobs,
            self.missing_jobs,
            self.finished,
            self.calls,
            self.turns(),
            self.differences
        );
    }
}
