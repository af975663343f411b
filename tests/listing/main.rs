//! Runs the listing program on edge cases and made inputs and compares what it
//! writes with the oracle's listings, byte for byte; exit status 1 if any differ.
//! `listing help` prints the commands.

#[path = "../compare/arguments.rs"]
mod arguments;
mod beside;
#[path = "../compare/counts.rs"]
mod counts;
mod inputs;
#[path = "../compare/parts.rs"]
mod parts;
mod program;
mod totals;

use std::ops::Range;
use std::process::exit;
use std::sync::atomic::{AtomicU64, Ordering};

use arguments::{each_kind, refuse, seeds};
use counts::missing_unmet;
use oracle::edges::edge_cases;
use oracle::orders::Orders;
use parts::{part, run, Counted};
use program::Program;
use totals::Totals;

const USAGE: &str = "\
listing                          all that the gate runs
listing made KINDS FROM COUNT    made inputs of these kinds (commas between, or `all`),
                                 COUNT seeds each, the first of them FROM
listing edges                    the edge cases

Kinds: those of `oracle kinds`; `long`, lengths around 65,536; `cut`, inputs cut short;
`turns`, schedules with workers that aren't; `bytes`, random bytes; `fields`, random
fields after a header that fits.  ZESTCHINTZ_VERDICTS may name another program than
target/bin/verdicts.
";

/// Kinds and how many inputs of each the gate lists.
const GATE: [(&str, u64); 19] = [
    ("large", 40),
    ("tiny", 1200),
    ("small", 1200),
    ("damaged", 1200),
    ("empty", 100),
    ("negloop", 200),
    ("strat", 80),
    ("cluster", 80),
    ("random", 25),
    ("ring", 80),
    ("chain", 25),
    ("tower", 150),
    ("failing", 600),
    ("table", 100),
    ("long", 150),
    ("cut", 500),
    ("turns", 400),
    ("bytes", 200),
    ("fields", 500),
];

/// With so many differences no more inputs are listed.
const MOST_DIFFERENCES: usize = 10;

const THREADS: usize = 2;

/// Lists these numbers in threads.
fn in_threads(totals: &mut Totals, numbers: Range<u64>, list: impl Fn(&mut Totals, u64) + Sync) {
    let next = AtomicU64::new(numbers.start);
    let one_thread = || {
        let mut totals = Totals::default();
        while totals.differences < MOST_DIFFERENCES {
            let number = next.fetch_add(1, Ordering::Relaxed);
            if number >= numbers.end {
                break;
            }
            list(&mut totals, number);
        }
        totals
    };
    std::thread::scope(|scope| {
        let threads: Vec<_> = (0..THREADS).map(|_| scope.spawn(one_thread)).collect();
        for thread in threads {
            totals.add(&thread.join().expect("a thread ends by itself"));
        }
    });
}

/// Lists one part, unless too much differs already.
fn list_part(all: &mut Totals, title: &str, numbers: Range<u64>, list: impl Fn(&mut Totals, u64) + Sync) -> Totals {
    if all.differences >= MOST_DIFFERENCES {
        return Totals::default();
    }
    part(all, title, |totals| in_threads(totals, numbers, list))
}

fn list_edges(all: &mut Totals) {
    let (edges, program) = (edge_cases(Orders::in_force()), Program::find());
    list_part(all, "edges", 0..edges.len() as u64, |totals, number| {
        beside::compare(totals, &program, &format!("edge {number}"), &edges[number as usize].bytes);
    });
}

fn list_made(all: &mut Totals, kind: &str, seeds: Range<u64>) -> Totals {
    let program = Program::find();
    list_part(all, kind, seeds, |totals, seed| {
        let Some(input) = inputs::made(kind, seed) else {
            eprintln!("listing: no kind is called {kind}");
            exit(2);
        };
        beside::compare(totals, &program, &format!("{kind} {seed}"), &input);
    })
}

fn list_gate(all: &mut Totals) {
    list_edges(all);
    for (kind, count) in GATE {
        let made = list_made(all, kind, 0..count);
        if let Some(fault) = missing_unmet(kind, made.accepted, made.missing_jobs) {
            all.differ("the gate", &fault);
        }
    }
    if all.differences == 0 {
        all.expect_all_met();
    }
}

/// Runs what the words after the program's name say.
fn command(all: &mut Totals, words: &[&str]) {
    match words {
        [] => list_gate(all),
        ["edges"] => list_edges(all),
        ["made", kinds, from, count] => {
            each_kind(kinds, &GATE, seeds(from, count, USAGE), |kind, seeds| _ = list_made(all, kind, seeds))
        }
        _ => refuse(USAGE),
    }
}

fn main() {
    run(command)
}
