//! Compares starting, turns, runs and readings with the oracle's, call by call
//! and on every word; exit status 1 if any differ.  `table help` prints the
//! commands.

#[path = "../compare/arguments.rs"]
mod arguments;
mod beside;
mod calls;
#[path = "../compare/counts.rs"]
mod counts;
mod failed;
mod kept;
mod lengths;
mod lent;
mod lent_runs;
mod library;
mod lists;
#[path = "../compare/mapped.rs"]
mod mapped;
mod met;
mod missing;
mod newest;
mod others;
#[path = "../compare/parts.rs"]
mod parts;
mod single;
mod totals;
mod words;

use std::ops::Range;
use std::process::exit;

use arguments::{each_kind, refuse, seeds};
use counts::missing_unmet;
use oracle::jobs::generate;
use oracle::orders::Orders;
use parts::{part, run};
use totals::Totals;

const USAGE: &str = "\
table                                  all that the gate runs
table made KINDS FROM COUNT [whole]    made jobs of these kinds (commas between, or `all`),
                                       COUNT seeds each, the first of them FROM; with
                                       `whole` no list is ended early
table orders                           edge cases of the change orders
table lengths                          lengths of 4 GiB and more

Kinds: those of `oracle kinds`, each a list of calls from a start; `table`, tables
that no run made; `dense`, runs on such tables of small dense jobs; `known`, such tables
of large jobs, many claims complete; `words`, tables with words out of range.
";

/// Kinds and how many jobs of each the gate compares.
const GATE: [(&str, u64); 18] = [
    ("tiny", 1500),
    ("small", 1500),
    ("failing", 3000),
    ("table", 8000),
    ("dense", 60_000),
    ("known", 10),
    ("words", 120),
    ("damaged", 1000),
    ("empty", 100),
    ("edge", 201),
    ("tower", 150),
    ("negloop", 30),
    ("strat", 40),
    ("cluster", 15),
    ("random", 8),
    ("ring", 15),
    ("chain", 8),
    ("large", 8),
];

/// In the gate a list ends early when it has cost about so many steps.
const GATE_WORK: usize = 30_000_000;

fn compare_made(totals: &mut Totals, kind: &str, seeds: Range<u64>, work: usize) {
    for seed in seeds {
        let name = format!("{kind} {seed}");
        if kind == "words" {
            words::compare_words(totals, &name, seed);
            continue;
        }
        let Some(input) = generate(kind, seed, Orders::in_force()) else {
            eprintln!("table: no kind is called {kind}");
            exit(2);
        };
        match kind {
            "table" => single::compare_table(totals, &name, &input),
            "dense" => lent_runs::compare_run(totals, &name, &input),
            "known" => single::compare_known(totals, &name, &input),
            _ => lists::compare_input(totals, &name, &input, work),
        }
    }
}

fn compare_lengths(all: &mut Totals) {
    part(all, "long jobs", lengths::long_jobs);
    part(all, "long tables", lengths::long_tables);
}

fn compare_gate(all: &mut Totals) {
    compare_lengths(all);
    part(all, "edge cases of orders", single::compare_order_edges);
    for (kind, count) in GATE {
        let made = part(all, kind, |totals| compare_made(totals, kind, 0..count, GATE_WORK));
        if kind == "dense" {
            lent_runs::expect_enough(all, &made);
        }
        if let Some(fault) = missing_unmet(kind, made.jobs, made.missing_jobs) {
            all.differ("the gate", &fault);
        }
    }
    all.expect_all_met();
}

/// Runs what the words after the program's name say.
fn command(all: &mut Totals, words: &[&str]) {
    match words {
        [] => compare_gate(all),
        ["lengths"] => compare_lengths(all),
        ["orders"] => _ = part(all, "edge cases of orders", single::compare_order_edges),
        ["made", kinds, from, count, rest @ ..] => {
            let seeds = seeds(from, count, USAGE);
            let work = match rest {
                [] => GATE_WORK,
                ["whole"] => usize::MAX,
                _ => refuse(USAGE),
            };
            each_kind(kinds, &GATE, seeds, |kind, seeds| {
                part(all, kind, |totals| compare_made(totals, kind, seeds, work));
            })
        }
        _ => refuse(USAGE),
    }
}

fn main() {
    run(command)
}
