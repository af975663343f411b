//! Times whole runs on made fields: the library's and the oracle's, one after
//! the other on the same job, schedule and table.  bench/run builds it; kinds
//! may be named.  `turns times` prints the library's alone, for bench/before.

#[allow(dead_code)]
mod fields;
#[path = "../tests/table/library.rs"]
#[allow(dead_code)]
mod library;
#[allow(dead_code)]
mod times;

use fields::{job_of, run_fields, Field};
use oracle::checks::Job;
use oracle::orders::Orders;
use oracle::table::{Layout, Table};
use times::{median_times, ratio, show_spread};

/// The library starts a table and makes the run.
fn run_ours(field: &Field, words: &mut [u32]) -> [u64; 8] {
    let mut tally = [0; 8];
    assert!(library::start(&field.bytes, words) == 0, "a made field is started");
    assert!(library::run(&field.bytes, words, &field.schedule, &mut tally) == 0, "the run is accepted");
    tally
}

/// The oracle checks the job, starts a table, makes the turns and lays the
/// words where the library does; by the text, or with shortcuts.
fn run_oracle(field: &Field, by_text: bool, words: &mut [u32]) -> [u64; 8] {
    let job = job_of(&field.bytes);
    let mut table = Table::start(&job, Orders::in_force(), by_text);
    let tally = table.run(&field.schedule);
    words.copy_from_slice(&table.words);
    tally
}

/// One field's times in seconds.
struct Row {
    ours: f64,
    text: f64,
    oracle: f64,
    turns: usize,
}

/// The library's seconds alone, and how many turns changed something.
fn print_times(field: &Field) {
    let job = job_of(&field.bytes);
    let mut words = vec![0; Layout::of_job(&job, Orders::in_force()).used];
    let tally = run_ours(field, &mut words);
    let [ours] = median_times([&mut || _ = run_ours(field, &mut words)]);
    println!("{} {}\t{ours}\t{}", field.kind, field.seed, tally[1..].iter().sum::<u64>());
}

fn measure(field: &Field) -> Row {
    let job = job_of(&field.bytes);
    let mut words = vec![0; Layout::of_job(&job, Orders::in_force()).used];
    let tally = run_ours(field, &mut words);
    let made = words.clone();
    for by_text in [true, false] {
        assert!(run_oracle(field, by_text, &mut words) == tally, "{} {}: the tallies differ", field.kind, field.seed);
        assert!(words == made, "{} {}: the tables differ", field.kind, field.seed);
    }
    let words = std::cell::RefCell::new(words);
    let [ours, text, oracle] = median_times([
        &mut || _ = run_ours(field, &mut words.borrow_mut()),
        &mut || _ = run_oracle(field, true, &mut words.borrow_mut()),
        &mut || _ = run_oracle(field, false, &mut words.borrow_mut()),
    ]);
    let row = Row { ours, text, oracle, turns: field.schedule.len() };
    show(field, &job, &row, tally);
    row
}

fn show(field: &Field, job: &Job, row: &Row, tally: [u64; 8]) {
    println!(
        "| {:7} | {:4} | {:4} | {:5} | {:2} | {:4} | {:6} | {:6} | {:9} | {:10.4} | {:10.4} | {:10.4} | {:>9} | {:>11} |",
        field.kind,
        field.seed,
        job.claims,
        job.literals.len(),
        job.workers,
        job.questions.len(),
        row.turns,
        row.turns as u64 - tally[0],
        tally[6],
        1e3 * row.ours,
        1e3 * row.text,
        1e3 * row.oracle,
        ratio(row.ours, row.text),
        ratio(row.ours, row.oracle),
    );
}

const HEADING: &str = "\
| kind    | seed |    A |     L |  T |    Q |  turns |  moved | completed |    ours ms |    text ms |  oracle ms | ours/text | ours/oracle |
|---------|-----:|-----:|------:|---:|-----:|-------:|-------:|----------:|-----------:|-----------:|-----------:|----------:|------------:|
";

fn main() {
    let mut named: Vec<String> = std::env::args().skip(1).collect();
    let times_only = named.first().is_some_and(|word| word == "times");
    named.retain(|word| word != "times");
    let wanted = |kind: &str| named.is_empty() || named.iter().any(|name| name == kind);
    let fields = run_fields(wanted);
    if times_only {
        return fields.for_each(|field| print_times(&field));
    }
    print!("{HEADING}");
    let rows: Vec<Row> = fields.map(|field| measure(&field)).collect();
    println!();
    show_spread("ours / text", rows.iter().map(|row| row.ours / row.text).collect(), "fields");
    show_spread("ours / oracle", rows.iter().map(|row| row.ours / row.oracle).collect(), "fields");
    let microseconds = rows.iter().map(|row| 1e6 * row.ours / row.turns.max(1) as f64);
    show_spread("ours, microseconds a turn", microseconds.collect(), "fields");
}
