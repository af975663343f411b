//! Times single calls on tables of made fields, most of them at the limits: the
//! library's and the oracle's by the text, checks included.  bench/run builds
//! it.  `single times` prints the library's alone, for bench/before.

#[allow(dead_code)]
mod fields;
#[path = "../tests/table/library.rs"]
#[allow(dead_code)]
mod library;
#[allow(dead_code)]
mod times;

use fields::{job_of, made};
use oracle::checks::{part_input, Job};
use oracle::orders::{Orders, Skip};
use oracle::table::Table;
use oracle::turns::{run_listing, Kind};
use times::{median_times_on, ratio, show_spread};

const FIELDS: [(&str, u64); 5] = [("small", 1), ("failing", 44), ("large", 0), ("large", 1), ("large", 3)];

/// A call, and the words of the table it is made on.
struct Case {
    name: &'static str,
    call: Call,
    words: Vec<u32>,
}

#[derive(Clone, Copy)]
enum Call {
    Start,
    Read(u32),
    Turn(u32),
}

/// The tables before some turns of each kind, with the worker: more and more
/// turns of the kind apart.
struct Sampled {
    seen: [usize; 8],
    tables: [Vec<(u32, Vec<u32>)>; 8],
}

/// Turns by these orders, on tables with the words of the orders in force.
fn turns_by(numbers: &[u32]) -> Orders {
    Orders { newest: Orders::in_force().newest, ..Orders::of(numbers) }
}

impl Sampled {
    /// Goes through a made field's turns as they were before any order, so that
    /// every library is lent the same tables, but for third words.
    fn of(job: &Job, schedule: &[u8]) -> Sampled {
        let mut sampled = Sampled { seen: [0; 8], tables: Default::default() };
        let mut before = Table::start(job, turns_by(&[]), true).words;
        run_listing(job, turns_by(&[]), schedule, false, |table, worker, kind| {
            sampled.seen[kind as usize] += 1;
            if sampled.seen[kind as usize].is_power_of_two() {
                sampled.tables[kind as usize].push((worker, before.clone()));
            }
            if kind != Kind::Idle {
                before.copy_from_slice(&table.words);
            }
        });
        sampled
    }

    /// About the middle one of those on which the turn is the same whatever the
    /// orders.
    fn case(&self, job: &Job, kind: Kind) -> Option<Case> {
        let tables: Vec<&(u32, Vec<u32>)> = self.tables[kind as usize]
            .iter()
            .filter(|(worker, words)| turn_on(job, &[], words, *worker) == turn_on(job, &[5], words, *worker))
            .collect();
        let (worker, words) = tables.get(tables.len() * 2 / 3)?;
        Some(Case { name: kind.name(), call: Call::Turn(*worker), words: words.clone() })
    }
}

/// What a turn gives by the text under these orders.
fn turn_on(job: &Job, orders: &[u32], words: &[u32], worker: u32) -> (Kind, Vec<u32>) {
    let mut table = Table::from_words(job, turns_by(orders), words.to_vec()).expect("turns made the table");
    (table.turn(worker), table.words)
}

/// A table on which a worker's turn passes the rest of a failed rule.
fn skip_case(job: &Job, schedule: &[u8]) -> Option<Case> {
    let mut cases = Vec::new();
    let mut before = Table::start(job, turns_by(&[5]), true);
    run_listing(job, turns_by(&[5]), schedule, false, |table, worker, kind| {
        if kind == Kind::Passed && cases.len() < 8 && oracle::explore::skipped(&before, table) {
            cases.push((worker, before.words.clone()));
        }
        if kind != Kind::Idle {
            before.words.copy_from_slice(&table.words);
        }
    });
    let (worker, words) = cases.pop()?;
    Some(Case { name: "passed (skip)", call: Call::Turn(worker), words })
}

/// Reading is timed on the last of the tables sampled.
fn cases_of(job: &Job, schedule: &[u8]) -> Vec<Case> {
    let sampled = Sampled::of(job, schedule);
    let started = Table::start(job, Orders::in_force(), true).words;
    let last = sampled.tables.iter().flatten().map(|(_, words)| words.clone()).last();
    let kinds = [Kind::Idle, Kind::Woke, Kind::Answered, Kind::Opened, Kind::Passed, Kind::Waits, Kind::Took];
    let mut cases = vec![
        Case { name: "start", call: Call::Start, words: started.clone() },
        Case { name: "read", call: Call::Read(job.claims as u32 / 2), words: last.unwrap_or(started) },
    ];
    cases.extend(kinds.into_iter().filter_map(|kind| sampled.case(job, kind)));
    cases.extend(sampled.case(job, Kind::Completed));
    if Orders::in_force().skip != Skip::Off {
        cases.extend(skip_case(job, schedule));
    }
    cases
}

fn call_ours(call: Call, job: &[u8], words: &mut [u32]) -> u64 {
    match call {
        Call::Start => library::start(job, words),
        Call::Read(claim) => library::read(job, words, claim as usize),
        Call::Turn(worker) => library::turn(job, words, worker as usize),
    }
}

/// The oracle's call with all its checks; the code as the library gives it.
fn call_oracle(call: Call, bytes: &[u8], words: &mut [u32]) -> u64 {
    let job = job_of(bytes);
    if let Call::Start = call {
        words.copy_from_slice(&Table::start(&job, Orders::in_force(), true).words);
        return 0;
    }
    let mut table = Table::from_words(&job, Orders::in_force(), words.to_vec()).expect("turns made the table");
    let code = match call {
        Call::Turn(worker) => table.turn(worker) as u64,
        Call::Read(claim) => match (table.mark(claim), table.value(claim)) {
            (0, _) => 0,
            (_, None) => 4,
            (_, Some(value)) => value as u64,
        },
        Call::Start => unreachable!(),
    };
    words.copy_from_slice(&table.words);
    code
}

/// Both give the same, or the run stops.
fn expect_equal(name: &str, case: &Case, bytes: &[u8]) {
    let (mut ours, mut expected) = (case.words.clone(), case.words.clone());
    let codes = (call_ours(case.call, bytes, &mut ours), call_oracle(case.call, bytes, &mut expected));
    assert!(codes.0 == codes.1 && ours == expected, "{name}, {}: the calls differ", case.name);
}

fn measure(kind: &str, seed: u64, times_only: bool) -> Vec<f64> {
    let input = made(kind, seed);
    let (bytes, schedule) = part_input(&input);
    let job = job_of(bytes);
    let mut ratios = Vec::new();
    for case in cases_of(&job, schedule) {
        let (name, call) = (format!("{kind} {seed}"), case.call);
        expect_equal(&name, &case, bytes);
        let ours: &mut dyn FnMut(&mut [u32]) = &mut |words| _ = call_ours(call, bytes, words);
        if times_only {
            let [ours] = median_times_on(&case.words, [ours]);
            println!("{name}, {}\t{ours}", case.name);
            continue;
        }
        let [ours, text] = median_times_on(&case.words, [ours, &mut |words| _ = call_oracle(call, bytes, words)]);
        let name = format!("{name}, {}", case.name);
        println!("| {name:26} | {:9.3} | {:9.3} | {:>9} |", 1e6 * ours, 1e6 * text, ratio(ours, text));
        ratios.push(ours / text);
    }
    ratios
}

const HEADING: &str = "\
| field, call                |   ours us |   text us | ours/text |
|----------------------------|----------:|----------:|----------:|
";

fn main() {
    let times_only = std::env::args().nth(1).as_deref() == Some("times");
    if !times_only {
        print!("{HEADING}");
    }
    let ratios: Vec<f64> = FIELDS.iter().flat_map(|&(kind, seed)| measure(kind, seed, times_only)).collect();
    if !times_only {
        println!();
        show_spread("ours / text", ratios, "calls");
    }
}
