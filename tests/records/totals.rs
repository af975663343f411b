//! What was compared and what differs.

use oracle::orders::Orders;
use oracle::record::{false_pair, Answer, Call, Lent};
use oracle::record_readings::{count_shown, Shown, RECORD_READINGS};
use oracle::turns::{Tally, KINDS};

use crate::counts::{add, listed, unmet};
use crate::differing;
use crate::parts::Counted;
use crate::runs::RUNS;

/// Recorded runs by the number that refuses them, then those accepted.
const RECORDED: [&str; 12] = ["1", "2", "3", "4", "5", "6", "7", "8", "9", "11", "25", "accepted"];

/// Replays by the number that refuses them, 24 by what is false; then those accepted.
const REPLAYED: [&str; 14] =
    ["1", "2", "3", "4", "5", "6", "7", "8", "9", "23", "24 by worker", "24 by kind", "24 by no kind", "accepted"];
const BY_WORKER: usize = 10;
const BY_KIND: usize = 11;
const BY_NO_KIND: usize = 12;

/// Where a false pair stands.
const FALSE: [&str; 3] = ["the first pair", "a pair between", "the last pair"];

#[derive(Default)]
pub struct Totals {
    /// Made days, those with missing records, and those on which the library is held to
    /// the promise by itself.
    pub days: usize,
    pub with_missing: usize,
    pub promised: usize,
    pub calls: usize,
    recorded: [usize; RECORDED.len()],
    replayed: [usize; REPLAYED.len()],
    /// The turns of recorded runs by kind.
    kinds: Tally,
    /// False pairs by their place, by the kind that they say, and by the turn's own.
    false_at: [usize; FALSE.len()],
    false_said: [usize; 8],
    false_is: [usize; 8],
    /// Calls that show each wrong reading.
    shown: Shown,
    /// All records of a few pairs on small jobs, and those accepted.
    pub short: usize,
    pub short_accepted: usize,
    /// Runs of the program by sort, and days that were listed.
    pub runs: [usize; RUNS.len()],
    pub listed: usize,
    pub differences: usize,
}

/// The place of a number, or of `accepted`, among names.
fn sort_of(names: &[&str], number: Option<u32>) -> usize {
    let name = number.map_or("accepted".to_string(), |number| number.to_string());
    names.iter().position(|known| *known == name).expect("a number of these calls")
}

impl Totals {
    /// Counts a call by what the oracle's answers and leaves.
    pub fn count(&mut self, call: Call, lent: &Lent, answer: &Answer, left: &Lent) {
        self.calls += 1;
        let number = answer.check.err().map(|refusal| refusal.number);
        match (call, answer.check) {
            (Call::RecordedRun, check) => {
                self.recorded[sort_of(&RECORDED, number)] += 1;
                if check.is_ok() {
                    add(&mut self.kinds, &answer.tally);
                }
            }
            (Call::Replay, Err(refusal)) if refusal.number == 24 => self.count_false(left, refusal.place),
            (Call::Replay, _) => self.replayed[sort_of(&REPLAYED, number)] += 1,
        }
        count_shown(call, lent, (answer, left), Orders::in_force(), &mut self.shown);
    }

    /// Counts a false pair.
    fn count_false(&mut self, left: &Lent, number: usize) {
        let last = left.bytes.len() / 2 - 1;
        self.false_at[if number == 0 { 0 } else { 1 + number / last }] += 1;
        let ([_, said], turn) = false_pair(left, number, Orders::in_force());
        let Some(kind) = turn else { return self.replayed[BY_WORKER] += 1 };
        self.false_is[kind as usize] += 1;
        match self.false_said.get_mut(usize::from(said)) {
            Some(count) => {
                *count += 1;
                self.replayed[BY_KIND] += 1;
            }
            None => self.replayed[BY_NO_KIND] += 1,
        }
    }

    /// A difference; its day is kept.
    pub fn differ_day(&mut self, name: &str, day: &[u8], what: &str) {
        self.differences += 1;
        differing::say(self.differences, name, what, day, "records", "day");
    }

    /// A difference of a call; its job, and the schedule or record, are kept.
    pub fn differ(&mut self, name: &str, call: Call, lent: &Lent, what: &str) {
        let (how, bytes) = match call {
            Call::RecordedRun => ("a recorded run", &lent.schedule),
            Call::Replay => ("a replay", &lent.bytes),
        };
        let words = lent.table.len();
        let day = [&lent.job[..], bytes].concat();
        self.differ_day(name, &day, &format!("{how} on {words} words, {} bytes: {what}", lent.bytes.len()));
    }

    /// What was met, with a heading, its names and its counts.
    fn met(&self) -> [(&'static str, Vec<&'static str>, Vec<usize>); 8] {
        let kinds = || KINDS.to_vec();
        [
            ("recorded runs", RECORDED.to_vec(), self.recorded.to_vec()),
            ("turns on record", kinds(), self.kinds.map(|count| count as usize).to_vec()),
            ("replays", REPLAYED.to_vec(), self.replayed.to_vec()),
            ("false pairs", FALSE.to_vec(), self.false_at.to_vec()),
            ("false pairs that say", kinds(), self.false_said.to_vec()),
            ("false pairs whose turn is", kinds(), self.false_is.to_vec()),
            ("wrong readings shown", RECORD_READINGS.map(|(name, _)| name).to_vec(), self.shown.to_vec()),
            ("runs of replayjob", RUNS.to_vec(), self.runs.to_vec()),
        ]
    }

    /// The gate must meet all of it.
    pub fn expect_all_met(&mut self) {
        let never = |(heading, names, counts): (&str, Vec<&str>, Vec<usize>)| -> Vec<String> {
            unmet(&names, &counts).iter().map(|name| format!("{heading}: {name}")).collect()
        };
        let names: Vec<String> = self.met().into_iter().flat_map(never).collect();
        self.differences += differing::never_met(&names);
    }
}

impl Counted for Totals {
    fn add(&mut self, other: &Self) {
        self.days += other.days;
        self.with_missing += other.with_missing;
        self.promised += other.promised;
        self.calls += other.calls;
        self.short += other.short;
        self.short_accepted += other.short_accepted;
        self.listed += other.listed;
        self.differences += other.differences;
        add(&mut self.recorded, &other.recorded);
        add(&mut self.replayed, &other.replayed);
        add(&mut self.kinds, &other.kinds);
        add(&mut self.false_at, &other.false_at);
        add(&mut self.false_said, &other.false_said);
        add(&mut self.false_is, &other.false_is);
        add(&mut self.shown, &other.shown);
        add(&mut self.runs, &other.runs);
    }

    fn counts(&self) -> String {
        let counts = [
            (self.days, "days"),
            (self.with_missing, "with missing records"),
            (self.calls, "calls"),
            (self.kinds.iter().sum::<u64>() as usize, "turns on record"),
            (self.short, "short records"),
            (self.runs.iter().sum(), "runs"),
        ];
        let met = counts.iter().filter(|(count, _)| *count > 0).map(|(count, what)| format!("{count} {what}"));
        met.collect::<Vec<String>>().join(", ")
    }

    fn differences(&self) -> usize {
        self.differences
    }

    fn summary(&self) {
        for (heading, names, counts) in self.met().iter().filter(|met| met.2.iter().any(|&count| count > 0)) {
            println!("{heading}: {}", listed(names, counts));
        }
        if self.differences > 0 {
            println!("a made day alone: records made KIND SEED 1");
        }
        println!(
            "{} days ({} with missing records, the promise by itself on {}), {} calls compared, {} short records \
             ({} accepted), {} runs of replayjob ({} listed), {} differences",
            self.days,
            self.with_missing,
            self.promised,
            self.calls,
            self.short,
            self.short_accepted,
            self.runs.iter().sum::<usize>(),
            self.listed,
            self.differences
        );
    }
}
