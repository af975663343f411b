//! Runs on tables that no run made, in which workers have many turns on what their
//! newest claims reach: the library's runs beside the oracle's turns by the text.

use oracle::checks::{part_input, word_at, Job};
use oracle::draft::Random;
use oracle::orders::{Orders, Skip};
use oracle::table::Table;
use oracle::turns::{Kind, KINDS};

use crate::calls::{Call, Given};
use crate::counts::listed;
use crate::kept::{self, Watch};
use crate::lent::Lent;
use crate::totals::Totals;

/// A run has so many turns at most; it ends where all workers are idle.
const MOST_TURNS: usize = 70;

/// Of so many runs one is made again by single turns.
const SINGLE: usize = 10;

/// Of a hundred runs so many at least must have turns of the kind, by its number.
const LEAST_RUNS: [usize; 8] = [90, 30, 40, 30, 35, 90, 50, 30];

/// For so many runs there must be a turn of each sort.
const RUNS_FOR_SORT: usize = 50;

/// A run by the text: its turns, their kinds, and the words before and after each.
struct ByText {
    schedule: Vec<u8>,
    kinds: Vec<Kind>,
    words: Vec<Vec<u32>>,
}

/// How the next worker is chosen.
#[derive(Clone, Copy)]
enum Style {
    /// Of a hundred turns so many are the same worker's as the turn before, unless
    /// that was idle.
    Again(usize),
    Rounds,
}

const STYLES: [Style; 5] = [Style::Again(95), Style::Again(90), Style::Again(60), Style::Again(0), Style::Rounds];

impl Style {
    fn next(self, random: &mut Random, workers: usize, last: u32, idle: usize) -> u32 {
        match self {
            Style::Again(chance) if idle == 0 && random.percent(chance) => last,
            Style::Again(_) if idle == 0 => random.below(workers) as u32,
            _ => (last + 1) % workers as u32,
        }
    }
}

impl ByText {
    /// Turns of workers as they are chosen, until all are idle, mostly.
    fn make(table: &mut Table, random: &mut Random, totals: &mut Totals) -> ByText {
        let mut run = ByText { schedule: Vec::new(), kinds: Vec::new(), words: vec![table.words.clone()] };
        let (workers, style) = (table.job.workers, random.pick(&STYLES));
        let (mut last, mut idle) = (random.below(workers) as u32, 0);
        let mut watch = Watch::default();
        while run.schedule.len() < MOST_TURNS && idle < workers {
            last = style.next(random, workers, last, idle);
            watch.before(table, last, &mut totals.kept);
            let kind = table.turn(last);
            watch.after(table, last, kind, &mut totals.kept);
            idle = if kind == Kind::Idle { idle + 1 } else { 0 };
            run.schedule.push(last as u8);
            run.kinds.push(kind);
            run.words.push(table.words.clone());
        }
        run
    }

    /// The first so many turns, as one call.
    fn call(&self, turns: usize) -> (Call, Given) {
        let mut tally = [0; 8];
        self.kinds[..turns].iter().for_each(|&kind| tally[kind as usize] += 1);
        (Call::Run(self.schedule[..turns].to_vec()), Given { code: 0, tally })
    }

    /// The library makes the first so many turns in one call: what differs, if
    /// anything does.
    fn fault(&self, bytes: &[u8], turns: usize) -> Option<String> {
        let (call, expected) = self.call(turns);
        let mut lent = Lent::new(&self.words[0]);
        let given = call.by_library(bytes, lent.table(self.words[0].len()));
        if given != expected {
            return Some(format!("{call} gives {given}, expected {expected}"));
        }
        lent.difference(&self.words[turns]).map(|word| format!("{call}: {word}"))
    }

    /// The library makes each turn by a call of its own.
    fn fault_of_single(&self, bytes: &[u8]) -> Option<String> {
        let mut lent = Lent::new(&self.words[0]);
        for (at, (&worker, &kind)) in self.schedule.iter().zip(&self.kinds).enumerate() {
            let call = Call::Turn(usize::from(worker));
            let given = call.by_library(bytes, lent.table(self.words[0].len()));
            if given.code != kind as u64 {
                return Some(format!("step {at}: {call} gives {given}, expected {}", kind.name()));
            }
            if let Some(word) = lent.difference(&self.words[at + 1]) {
                return Some(format!("step {at}: {call}: {word}"));
            }
        }
        None
    }
}

/// A job with a table that no run made: a run on it, which must give the same after
/// every turn; some also turn by turn.
pub fn compare_run(totals: &mut Totals, name: &str, input: &[u8]) {
    let (bytes, rest) = part_input(input);
    let words: Vec<u32> = rest.chunks_exact(4).map(|word| word_at(word, 0)).collect();
    let job = Job::check(bytes, Orders::in_force()).expect("a job with a table is accepted");
    let mut table = Table::from_words(&job, Orders::in_force(), words).expect("a dense table is in range");
    let random = &mut Random::new(name, 3);
    let run = ByText::make(&mut table, random, totals);
    let turns = run.schedule.len();
    totals.jobs += 1;
    totals.count_job(&job);
    let (call, expected) = run.call(turns);
    totals.count(&call, &expected, None);
    totals.count_run(&expected);
    totals.calls += turns;
    if let Some(fault) = (0..=turns).find_map(|turns| run.fault(bytes, turns)) {
        totals.differ(name, &fault);
    }
    if random.below(SINGLE) == 0 {
        totals.calls += turns;
        if let Some(fault) = run.fault_of_single(bytes) {
            totals.differ(name, &fault);
        }
    }
}

/// Says how many turns of the runs had each kind; kinds and sorts must not be rare.
pub fn expect_enough(all: &mut Totals, made: &Totals) {
    println!("turns of these runs: {}", listed(&KINDS, &made.kinds));
    let kinds = (0..8).filter(|&kind| 100 * made.runs_with[kind] < LEAST_RUNS[kind] * made.jobs);
    let sorts = kept::SORTS.iter().zip(made.kept).filter(|(_, count)| RUNS_FOR_SORT * count < made.jobs);
    let rare = kinds.map(|kind| KINDS[kind]).chain(sorts.map(|(sort, _)| *sort));
    for name in rare.filter(|&name| name != kept::BEHIND || Orders::in_force().skip != Skip::Off) {
        all.differ("the gate", &format!("{name} is rare in runs on tables that no run made"));
    }
}
