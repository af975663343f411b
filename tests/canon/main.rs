//! Compares the calls that write a job's form and compare forms, and the program
//! canonjob, with the oracle's, byte for byte; exit status 1 if any differ.  `canon help`
//! prints the commands.

#[path = "../compare/arguments.rs"]
mod arguments;
mod beside;
#[path = "../lines/codes.rs"]
#[allow(dead_code)]
mod codes;
#[path = "../compare/counts.rs"]
mod counts;
#[path = "../lines/differing.rs"]
mod differing;
mod lengths;
#[path = "../lines/lent.rs"]
mod lent;
mod library;
mod made;
#[path = "../compare/mapped.rs"]
mod mapped;
mod orders;
#[path = "../compare/parts.rs"]
mod parts;
#[path = "../compare/library.rs"]
#[allow(dead_code)]
mod plain;
#[path = "../lines/process.rs"]
#[allow(dead_code)]
mod process;
mod runs;
mod totals;

use std::ops::Range;

use arguments::{each_kind, refuse, seeds};
use counts::missing_unmet;
use made::{compare_edges, compare_made, compare_small};
use parts::{part, run};
use runs::Program;
use totals::Totals;

const USAGE: &str = "\
canon                              all that the gate runs
canon made KINDS FROM COUNT        the calls on made jobs of these kinds (commas between, or `all`) and
                                   on their partners, COUNT seeds each, the first of them FROM
canon edges                        the calls on the edge cases
canon small                        the call on all small jobs of one sort
canon orders FROM COUNT            the comparing call on bytes and made strings
canon lengths                      lengths of 4 GiB and more
canon calls                        all that the gate runs but for the program canonjob
canon program KINDS FROM COUNT     the program canonjob on made jobs
canon program                      the program on the edge cases, long inputs and a full disk

ZESTCHINTZ_CANONJOB may name another program than target/bin/canonjob.
";

/// Kinds and how many jobs of each the gate gives to the calls.
const GATE: [(&str, u64); 16] = [
    ("tiny", 6000),
    ("small", 5000),
    ("damaged", 6000),
    ("edge", 200),
    ("empty", 200),
    ("negloop", 200),
    ("strat", 100),
    ("cluster", 100),
    ("random", 60),
    ("ring", 60),
    ("chain", 40),
    ("tower", 150),
    ("failing", 200),
    ("large", 24),
    ("wide", 150),
    ("marred", 60),
];

/// Kinds and how many jobs of each the gate gives to the program.
const GATE_RUNS: [(&str, u64); 6] =
    [("tiny", 60), ("small", 60), ("damaged", 250), ("strat", 10), ("large", 4), ("wide", 10)];

/// How many made strings the gate compares.
const GATE_STRINGS: u64 = 20_000;

fn compare_kind(all: &mut Totals, kind: &str, seeds: Range<u64>) {
    let made = part(all, kind, |totals| compare_made(totals, kind, seeds));
    if let Some(fault) = missing_unmet(kind, made.accepted, made.with_missing) {
        all.fail(&fault);
    }
}

fn compare_orders(all: &mut Totals, seeds: Range<u64>) {
    part(all, "bytes compared", orders::compare_bytes);
    part(all, "strings compared", |totals| orders::compare_strings(totals, seeds));
}

fn compare_lengths(all: &mut Totals) {
    part(all, "long jobs", lengths::long_jobs);
    part(all, "long outputs", lengths::long_outputs);
    part(all, "long strings", lengths::long_strings);
}

fn compare_calls(all: &mut Totals) {
    part(all, "edges", compare_edges);
    part(all, "small jobs", compare_small);
    compare_orders(all, 0..GATE_STRINGS);
    compare_lengths(all);
    for (kind, count) in GATE {
        compare_kind(all, kind, 0..count);
    }
}

fn run_program(all: &mut Totals, program: &Program) {
    part(all, "canonjob, edges", |totals| runs::run_edges(totals, program));
    part(all, "canonjob, long inputs", |totals| runs::run_long(totals, program));
    part(all, "canonjob, a full disk", |totals| runs::run_unwritten(totals, program));
}

fn run_kind(all: &mut Totals, program: &Program, kind: &str, seeds: Range<u64>) {
    part(all, &format!("canonjob, {kind}"), |totals| runs::run_made(totals, program, kind, seeds));
}

fn compare_gate(all: &mut Totals) {
    let program = Program::find();
    compare_calls(all);
    run_program(all, &program);
    for (kind, count) in GATE_RUNS {
        run_kind(all, &program, kind, 0..count);
    }
    all.expect_all_met();
}

/// Runs what the words after the program's name say.
fn command(all: &mut Totals, words: &[&str]) {
    match words {
        [] => compare_gate(all),
        ["edges"] => _ = part(all, "edges", compare_edges),
        ["small"] => _ = part(all, "small jobs", compare_small),
        ["orders", from, count] => compare_orders(all, seeds(from, count, USAGE)),
        ["lengths"] => compare_lengths(all),
        ["calls"] => compare_calls(all),
        ["made", kinds, from, count] => {
            each_kind(kinds, &GATE, seeds(from, count, USAGE), |kind, seeds| compare_kind(all, kind, seeds))
        }
        ["program"] => run_program(all, &Program::find()),
        ["program", kinds, from, count] => {
            let program = Program::find();
            each_kind(kinds, &GATE_RUNS, seeds(from, count, USAGE), |kind, seeds| run_kind(all, &program, kind, seeds))
        }
        _ => refuse(USAGE),
    }
}

fn main() {
    run(command)
}
