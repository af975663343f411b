//! Times plain evaluation on 50 made fields: the library, the program with counters
//! per rule, the oracle and SWI-Prolog, one after the other on the same job.
//! bench/run builds it.

mod churn;
mod counters;
#[allow(dead_code)]
mod fields;
#[path = "../tests/compare/library.rs"]
#[allow(dead_code)]
mod library;
mod prolog;
#[allow(dead_code)]
mod times;
mod worst;

use fields::{evaluated_fields, job_of};
use oracle::model::{well_founded, Program};
use times::{median_times, ratio, show_spread};
use worst::worst_jobs;

/// The oracle's check and evaluation, with the library's way of answering.
fn oracle_evaluate(bytes: &[u8], verdicts: &mut [u8]) -> usize {
    let job = job_of(bytes);
    for (byte, verdict) in verdicts.iter_mut().zip(well_founded(&Program::of_job(&job))) {
        *byte = verdict as u8;
    }
    job.claims
}

/// One field's times in seconds.
struct Row {
    kind: &'static str,
    seed: u64,
    sizes: [usize; 3],
    ours: f64,
    counters: f64,
    oracle: f64,
    prolog: Result<f64, &'static str>,
}

fn measure(kind: &'static str, seed: u64, bytes: &[u8]) -> Row {
    let job = job_of(bytes);
    let (mut expected, mut counted, mut verdicts) = ([0; 4096], [0; 4096], [0; 4096]);
    let [oracle, counters, ours] = median_times([
        &mut || _ = oracle_evaluate(bytes, &mut expected),
        &mut || _ = counters::evaluate(&job_of(bytes), &mut counted),
        &mut || _ = library::evaluate(bytes, &mut verdicts).expect("a made field is accepted"),
    ]);
    assert!(verdicts == expected && counted == expected, "{kind} {seed}: the verdicts differ");
    let sizes = [job.claims, job.rules.len(), job.literals.len()];
    Row { kind, seed, sizes, ours, counters, oracle, prolog: prolog::seconds(&job) }
}

fn show(row: &Row) {
    let [claims, rules, literals] = row.sizes;
    let (time, against) = match row.prolog {
        Ok(seconds) => (format!("{:.1}", 1e3 * seconds), ratio(seconds, row.ours)),
        Err(why) => (why.to_string(), "-".to_string()),
    };
    println!(
        "| {:7} | {:4} | {claims:4} | {rules:4} | {literals:5} | {:9.4} | {:11.4} | {:9.4} | {time:>9} | {:>13} | {:>11} | {against:>11} |",
        row.kind,
        row.seed,
        1e3 * row.ours,
        1e3 * row.counters,
        1e3 * row.oracle,
        ratio(row.ours, row.counters),
        ratio(row.ours, row.oracle),
    );
}

/// The medians and extremes of the ratios over all fields.
fn show_summary(rows: &[Row]) {
    println!();
    show_spread("ours / counters", rows.iter().map(|row| row.ours / row.counters).collect(), "fields");
    show_spread("ours / oracle", rows.iter().map(|row| row.ours / row.oracle).collect(), "fields");
    let decided = rows.iter().filter_map(|row| row.prolog.ok().map(|seconds| seconds / row.ours));
    show_spread("SWI-Prolog / ours", decided.collect(), "fields");
    let sum = |time: fn(&Row) -> f64| 1e3 * rows.iter().map(time).sum::<f64>();
    let (ours, counters, oracle) = (sum(|row| row.ours), sum(|row| row.counters), sum(|row| row.oracle));
    println!("all fields once: ours {ours:.1} ms, counters {counters:.1} ms, oracle {oracle:.1} ms");
}

/// A row for each field, shown as it is measured.
fn measure_all(fields: impl Iterator<Item = (&'static str, u64, Vec<u8>)>) -> Vec<Row> {
    let mut rows = Vec::new();
    for (kind, seed, job) in fields {
        let row = measure(kind, seed, &job);
        show(&row);
        rows.push(row);
    }
    rows
}

const HEADING: &str = "\
| kind    | seed |    A |    M |     L |   ours ms | counters ms | oracle ms | Prolog ms | ours/counters | ours/oracle | Prolog/ours |
|---------|-----:|-----:|-----:|------:|----------:|------------:|----------:|----------:|--------------:|------------:|------------:|
";

fn main() {
    print!("{HEADING}");
    let rows = match std::env::args().nth(1).as_deref() {
        Some("worst") => measure_all(worst_jobs().map(|(kind, size, job)| (kind, size as u64, job))),
        _ => measure_all(evaluated_fields()),
    };
    show_summary(&rows);
}
