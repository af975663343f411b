//! Compares the library's check and plain evaluation with the oracle's, call by
//! call; exit status 1 if any differ.  `compare help` prints the commands.

mod arguments;
mod compare;
mod counts;
mod faults;
mod lengths;
mod library;
mod mapped;
mod parts;

use std::io::{Read, Write};
use std::ops::Range;
use std::process::exit;

use arguments::{each_kind, refuse, seeds};
use compare::Totals;
use counts::missing_unmet;
use oracle::checks::{part_input, MAX_INPUT_BYTES};
use oracle::edges::{edge_cases, Expected};
use oracle::jobs::generate;
use oracle::orders::Orders;
use parts::{part, run};

const USAGE: &str = "\
compare                          all that the gate runs
compare made KINDS FROM COUNT    made jobs of these kinds (commas between, or `all`),
                                 COUNT seeds each, the first of them FROM
compare edges                    the edge cases
compare faults                   every fault and pair of faults of a small job
compare lengths                  lengths of 4 GiB and more
compare verdicts < JOB           the library's verdicts, claim and verdict a line
";

/// Kinds and how many jobs of each the gate compares.
const GATE: [(&str, u64); 14] = [
    ("tiny", 6500),
    ("small", 6500),
    ("damaged", 5000),
    ("empty", 200),
    ("negloop", 500),
    ("strat", 300),
    ("cluster", 300),
    ("random", 200),
    ("ring", 200),
    ("chain", 100),
    ("tower", 200),
    ("failing", 500),
    ("large", 50),
    ("marred", 50),
];

/// A made input is compared twice: its job alone, and all its bytes, with the
/// schedule after the job, as one job.
fn compare_input(totals: &mut Totals, name: &str, input: &[u8]) {
    let (job, schedule) = part_input(input);
    totals.compare(name, job);
    if !schedule.is_empty() {
        totals.compare(&format!("{name}, schedule included"), input);
    }
}

/// The edge cases, beside the oracle and beside what is written down for each.
fn compare_edges(totals: &mut Totals) {
    for (seed, edge) in edge_cases(Orders::in_force()).iter().enumerate() {
        let name = format!("edge {seed} ({})", edge.name);
        compare_input(totals, &name, &edge.bytes);
        let checked = library::check(part_input(&edge.bytes).0);
        let right = match edge.expected {
            // Inputs this long and schedules are for the listing program.
            _ if edge.bytes.len() > MAX_INPUT_BYTES => continue,
            Expected::Refused(11, _) => checked.is_ok(),
            Expected::Refused(number, place) => checked == Err(library::Refusal { number, place: place as u64 }),
            Expected::Begins(_) | Expected::Whole(_) => checked.is_ok(),
        };
        if !right {
            totals.differ(&name, &format!("check gives {checked:?}"));
        }
    }
}

fn compare_made(totals: &mut Totals, kind: &str, seeds: Range<u64>) {
    for seed in seeds {
        let Some(input) = generate(kind, seed, Orders::in_force()) else {
            eprintln!("compare: no kind is called {kind}");
            exit(2);
        };
        compare_input(totals, &format!("{kind} {seed}"), &input);
    }
}

fn compare_gate(all: &mut Totals) {
    part(all, "edges", compare_edges);
    part(all, "single faults", faults::single_faults);
    part(all, "double faults", faults::double_faults);
    part(all, "long jobs", lengths::long_jobs);
    part(all, "long outputs", lengths::long_outputs);
    for (kind, count) in GATE {
        let made = part(all, kind, |totals| compare_made(totals, kind, 0..count));
        if let Some(fault) = missing_unmet(kind, made.accepted, made.missing_jobs) {
            all.differ("the gate", &fault);
        }
    }
    all.expect_all_met();
}

/// Prints the library's verdicts of the job on standard input; a schedule
/// after it is left out.
fn print_verdicts() {
    let mut input = Vec::new();
    std::io::stdin().lock().read_to_end(&mut input).expect("standard input can be read");
    let mut verdicts = [0; 4096];
    let mut out = String::new();
    match library::evaluate(part_input(&input).0, &mut verdicts) {
        Err(library::Refusal { number, place }) => out.push_str(&format!("refused {number} {place}\n")),
        Ok(claims) => {
            for (claim, &verdict) in verdicts[..claims].iter().enumerate() {
                let name = ["unwritten", "true", "false", "undefined"].get(usize::from(verdict)).unwrap_or(&"unknown");
                out.push_str(&format!("{claim} {name}\n"));
            }
        }
    }
    std::io::stdout().lock().write_all(out.as_bytes()).expect("standard output can be written");
}

/// Runs what the words after the program's name say.
fn command(all: &mut Totals, words: &[&str]) {
    match words {
        [] => compare_gate(all),
        ["edges"] => _ = part(all, "edges", compare_edges),
        ["faults"] => {
            part(all, "single faults", faults::single_faults);
            part(all, "double faults", faults::double_faults);
        }
        ["lengths"] => {
            part(all, "long jobs", lengths::long_jobs);
            part(all, "long outputs", lengths::long_outputs);
        }
        ["made", kinds, from, count] => each_kind(kinds, &GATE, seeds(from, count, USAGE), |kind, seeds| {
            part(all, kind, |totals| compare_made(totals, kind, seeds));
        }),
        ["verdicts"] => {
            print_verdicts();
            exit(0);
        }
        _ => refuse(USAGE),
    }
}

fn main() {
    run(command)
}
