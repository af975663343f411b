//! Compares recorded runs and replays, and the program replayjob, with the oracle's, word
//! for word and byte for byte; exit status 1 if any differ.  `records help` prints the
//! commands.

#[path = "../compare/arguments.rs"]
mod arguments;
mod beside;
#[path = "../lines/codes.rs"]
#[allow(dead_code)]
mod codes;
#[path = "../compare/counts.rs"]
mod counts;
#[path = "../lines/differing.rs"]
mod differing;
mod lengths;
#[path = "../lines/lent.rs"]
#[allow(dead_code)]
mod lent;
mod library;
mod made;
#[path = "../compare/mapped.rs"]
mod mapped;
#[path = "../compare/parts.rs"]
mod parts;
#[path = "../lines/process.rs"]
#[allow(dead_code)]
mod process;
mod runs;
mod short;
#[path = "../table/library.rs"]
#[allow(dead_code)]
mod table;
mod totals;
#[path = "../table/lent.rs"]
mod words;

use std::ops::Range;

use arguments::{each_kind, refuse, seeds};
use beside::compare_edge;
use counts::missing_unmet;
use made::compare_made;
use oracle::record_edges::record_edges;
use parts::{part, run};
use runs::Program;
use short::compare_short;
use totals::Totals;

const USAGE: &str = "\
records                             all that the gate runs
records made KINDS FROM COUNT       both calls on made days of these kinds (commas between, or `all`),
                                    COUNT seeds each, the first of them FROM
records edges                       the calls on the edge cases
records short FROM COUNT            replays of all records of up to three pairs on small jobs
records lengths                     lengths of 4 GiB and more
records calls                       all that the gate runs but for the program replayjob
records program KINDS FROM COUNT    the program replayjob on made days
records program                     the program on long days

ZESTCHINTZ_REPLAYJOB may name another program than target/bin/replayjob.
";

/// Kinds and how many days of each the gate gives to the calls.
const GATE: [(&str, u64); 14] = [
    ("tiny", 1000),
    ("small", 600),
    ("failing", 400),
    ("tower", 100),
    ("empty", 60),
    ("damaged", 1000),
    ("edge", 201),
    ("negloop", 20),
    ("strat", 20),
    ("cluster", 10),
    ("ring", 10),
    ("chain", 4),
    ("random", 4),
    ("large", 4),
];

/// Kinds and how many days of each the gate gives to the program.
const GATE_RUNS: [(&str, u64); 6] =
    [("tiny", 12), ("small", 12), ("damaged", 60), ("edge", 60), ("strat", 4), ("large", 1)];

/// How many small jobs are given all short records.
const GATE_SHORT: u64 = 40;

fn compare_edges(totals: &mut Totals) {
    for (number, edge) in record_edges().iter().enumerate() {
        compare_edge(totals, &format!("edge {number}"), edge);
    }
}

fn compare_kind(all: &mut Totals, kind: &str, seeds: Range<u64>) -> Totals {
    part(all, kind, |totals| compare_made(totals, kind, seeds).unwrap_or_else(|| refuse(USAGE)))
}

fn compare_lengths(all: &mut Totals) {
    part(all, "long jobs", lengths::long_jobs);
    part(all, "long tables and buffers", lengths::long_outputs);
    part(all, "long schedules and records", lengths::long_inputs);
}

fn compare_calls(all: &mut Totals) {
    part(all, "edges", compare_edges);
    part(all, "short records", |totals| compare_short(totals, 0..GATE_SHORT));
    compare_lengths(all);
    for (kind, count) in GATE {
        let made = compare_kind(all, kind, 0..count);
        if let Some(fault) = missing_unmet(kind, made.promised, made.with_missing) {
            all.differ_day("the gate", &[], &fault);
        }
    }
}

fn run_kind(all: &mut Totals, program: &Program, kind: &str, seeds: Range<u64>) {
    part(all, &format!("replayjob, {kind}"), |totals| {
        runs::run_made(totals, program, kind, seeds).unwrap_or_else(|| refuse(USAGE))
    });
}

fn run_program(all: &mut Totals, program: &Program) {
    part(all, "replayjob, long days", |totals| runs::run_long(totals, program));
}

fn compare_gate(all: &mut Totals) {
    let program = Program::find();
    compare_calls(all);
    run_program(all, &program);
    for (kind, count) in GATE_RUNS {
        run_kind(all, &program, kind, 0..count);
    }
    all.expect_all_met();
}

/// Runs what the words after the program's name say.
fn command(all: &mut Totals, words: &[&str]) {
    match words {
        [] => compare_gate(all),
        ["edges"] => _ = part(all, "edges", compare_edges),
        ["short", from, count] => {
            _ = part(all, "short records", |totals| compare_short(totals, seeds(from, count, USAGE)))
        }
        ["lengths"] => compare_lengths(all),
        ["calls"] => compare_calls(all),
        ["made", kinds, from, count] => {
            each_kind(kinds, &GATE, seeds(from, count, USAGE), |kind, seeds| _ = compare_kind(all, kind, seeds))
        }
        ["program"] => run_program(all, &Program::find()),
        ["program", kinds, from, count] => {
            let program = Program::find();
            each_kind(kinds, &GATE_RUNS, seeds(from, count, USAGE), |kind, seeds| run_kind(all, &program, kind, seeds))
        }
        _ => refuse(USAGE),
    }
}

fn main() {
    run(command)
}
