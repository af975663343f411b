//! Compares the call that makes a job of typed lines, and the program makejob, with
//! the oracle's, byte for byte; exit status 1 if any differ.  `lines help` prints the
//! commands.

#[path = "../compare/arguments.rs"]
#[allow(dead_code)]
mod arguments;
mod beside;
#[allow(dead_code)]
mod codes;
#[path = "../compare/counts.rs"]
#[allow(dead_code)]
mod counts;
mod differing;
mod lengths;
mod lent;
mod library;
#[path = "../compare/mapped.rs"]
mod mapped;
#[path = "../compare/parts.rs"]
mod parts;
#[allow(dead_code)]
mod process;
mod program;
mod totals;

use std::ops::Range;

use arguments::{refuse, seeds};
use beside::{compare, lend_text, MOST_OUTPUT};
use codes::fault_of_call;
use lent::Output;
use oracle::lines_edges::lines_edges;
use oracle::lines_sorts::sort_of;
use oracle::texts::generate_text;
use parts::{part, run};
use process::Programs;
use totals::Totals;

const USAGE: &str = "\
lines                        all that the gate runs
lines made FROM COUNT        the call on made texts of COUNT seeds, the first of them FROM
lines edges                  the call on the edge cases
lines lengths                lengths of 4 GiB and more
lines program FROM COUNT     the program makejob on made texts
lines program                the program on the edge cases, long texts and a full disk

ZESTCHINTZ_MAKEJOB may name another program than target/bin/makejob,
ZESTCHINTZ_VERDICTS another one than target/bin/verdicts.
";

/// How many made texts the gate gives to the call, and to the program.
const GATE_CALLS: u64 = 10_000;
const GATE_RUNS: u64 = 600;

/// The edge cases, beside the oracle and beside what is written down for each.
fn compare_edges(totals: &mut Totals) {
    let mut output = Output::new(MOST_OUTPUT);
    for (number, edge) in lines_edges().iter().enumerate() {
        let (name, text) = (format!("edge {number}"), &edge.call.text);
        compare(totals, &mut output, &name, text);
        totals.count_call(sort_of(text, &edge.expected));
        if let Some(fault) =
            fault_of_call(library::job_of_lines, &lend_text(text), &mut output, edge.call.output, &edge.expected)
        {
            totals.differ(&name, text, &format!("{}: {fault}", edge.name));
        }
    }
}

fn compare_made(totals: &mut Totals, seeds: Range<u64>) {
    let mut output = Output::new(MOST_OUTPUT);
    for seed in seeds {
        compare(totals, &mut output, &format!("made {seed}"), &generate_text(seed));
    }
}

fn run_edges(totals: &mut Totals, programs: &Programs) {
    for (number, edge) in lines_edges().iter().enumerate() {
        program::compare(totals, programs, &format!("edge {number}"), &edge.call.text);
    }
}

fn run_made(totals: &mut Totals, programs: &Programs, seeds: Range<u64>) {
    for seed in seeds {
        program::compare(totals, programs, &format!("made {seed}"), &generate_text(seed));
    }
}

fn compare_lengths(all: &mut Totals) {
    part(all, "long texts", lengths::long_texts);
    part(all, "long outputs", lengths::long_outputs);
}

fn run_programs(all: &mut Totals, programs: &Programs) {
    part(all, "makejob, edges", |totals| run_edges(totals, programs));
    part(all, "makejob, long texts", |totals| program::compare_long_texts(totals, programs));
    part(all, "makejob, a full disk", |totals| program::compare_unwritten(totals, programs));
}

fn compare_gate(all: &mut Totals) {
    let programs = Programs::find();
    part(all, "edges", compare_edges);
    compare_lengths(all);
    part(all, "made", |totals| compare_made(totals, 0..GATE_CALLS));
    run_programs(all, &programs);
    part(all, "makejob, made", |totals| run_made(totals, &programs, 0..GATE_RUNS));
    all.expect_all_met();
}

/// Runs what the words after the program's name say.
fn command(all: &mut Totals, words: &[&str]) {
    match words {
        [] => compare_gate(all),
        ["edges"] => _ = part(all, "edges", compare_edges),
        ["lengths"] => compare_lengths(all),
        ["made", from, count] => {
            let seeds = seeds(from, count, USAGE);
            part(all, "made", |totals| compare_made(totals, seeds));
        }
        ["program"] => run_programs(all, &Programs::find()),
        ["program", from, count] => {
            let seeds = seeds(from, count, USAGE);
            part(all, "makejob, made", |totals| run_made(totals, &Programs::find(), seeds));
        }
        _ => refuse(USAGE),
    }
}

fn main() {
    run(command)
}
