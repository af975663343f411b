//! Compares the call that admits a job with the oracle's, code for code, and runs pairs of
//! jobs to their ends; exit status 1 if any differ.  `partners help` prints the commands.

#[path = "../compare/arguments.rs"]
#[allow(dead_code)]
mod arguments;
mod beside;
#[path = "../lines/codes.rs"]
#[allow(dead_code)]
mod codes;
#[path = "../compare/counts.rs"]
#[allow(dead_code)]
mod counts;
#[path = "../lines/differing.rs"]
mod differing;
mod example;
mod lengths;
#[path = "../lines/lent.rs"]
#[allow(dead_code)]
mod lent;
mod library;
#[path = "../compare/mapped.rs"]
mod mapped;
mod pairs;
#[path = "../compare/parts.rs"]
mod parts;
mod running;
#[path = "../table/library.rs"]
#[allow(dead_code)]
mod table;
mod totals;

use std::ops::Range;

use arguments::{refuse, seeds};
use beside::{compare, compare_edge, compare_shared};
use example::compare_example;
use oracle::checks::part_input;
use oracle::draft::Random;
use oracle::jobs::generate;
use oracle::orders::Orders;
use oracle::partners_edges::partners_edges;
use oracle::partners_jobs::{make_pair, make_shared, make_wide_pair, make_wide_shared};
use pairs::compare_pairs;
use parts::{part, run};
use totals::Totals;

const USAGE: &str = "\
partners                       all that the gate runs
partners edges                 the call on the edge cases
partners example               the call and the answers on examples/fields/partners.rules
partners lengths               lengths of 4 GiB and more
partners PART FROM COUNT       COUNT seeds, the first of them FROM, of one of these:
                               `made`, the call on made jobs with groups; `wide`, on such up
                               to the limits; `damaged`, on damaged jobs; `pairs` and
                               `wide-pairs`, pairs of jobs run to their ends
";

/// Parts that go by seeds, and how many the gate takes.
const GATE: [(&str, u64); 5] =
    [("made", 30_000), ("wide", 300), ("damaged", 6_000), ("pairs", 5_000), ("wide-pairs", 40)];

fn compare_edges(totals: &mut Totals) {
    for (number, edge) in partners_edges(Orders::in_force()).iter().enumerate() {
        compare_edge(totals, &format!("edge {number}"), edge);
    }
}

/// A job, and a pair of jobs that differ in rules of other groups' claims, by each seed.
fn compare_made(totals: &mut Totals, seeds: Range<u64>) {
    for seed in seeds {
        let random = &mut Random::new("partners made", seed);
        compare_shared(totals, &format!("made {seed}"), &make_shared(random, Orders::in_force()));
        let pair = make_pair(random, Orders::in_force());
        compare_shared(totals, &format!("made {seed} one"), &pair.one);
        compare_shared(totals, &format!("made {seed} other"), &pair.other);
    }
}

fn compare_wide(totals: &mut Totals, seeds: Range<u64>) {
    for seed in seeds {
        let shared = make_wide_shared(&mut Random::new("partners wide", seed));
        compare_shared(totals, &format!("wide {seed}"), &shared);
    }
}

fn compare_damaged(totals: &mut Totals, seeds: Range<u64>) {
    for seed in seeds {
        let input = generate("damaged", seed, Orders::in_force()).expect("a kind");
        let job = part_input(&input).0;
        compare(totals, &format!("damaged {seed}"), job, &[0; 3], &[1; 2]);
    }
}

/// One of the parts that go by seeds.
fn compare_seeds(all: &mut Totals, name: &str, seeds: Range<u64>) {
    part(all, name, |totals| match name {
        "made" => compare_made(totals, seeds),
        "wide" => compare_wide(totals, seeds),
        "damaged" => compare_damaged(totals, seeds),
        "pairs" => compare_pairs(totals, name, seeds, make_pair),
        "wide-pairs" => compare_pairs(totals, name, seeds, make_wide_pair),
        _ => refuse(USAGE),
    });
}

fn compare_gate(all: &mut Totals) {
    part(all, "edges", compare_edges);
    part(all, "example", compare_example);
    for (name, count) in GATE {
        compare_seeds(all, name, 0..count);
    }
    part(all, "lengths", lengths::long_lent);
    all.expect_all_met();
}

/// Runs what the words after the program's name say.
fn command(all: &mut Totals, words: &[&str]) {
    match words {
        [] => compare_gate(all),
        ["edges"] => _ = part(all, "edges", compare_edges),
        ["example"] => _ = part(all, "example", compare_example),
        ["lengths"] => _ = part(all, "lengths", lengths::long_lent),
        [name, from, count] => compare_seeds(all, name, seeds(from, count, USAGE)),
        _ => refuse(USAGE),
    }
}

fn main() {
    run(command)
}
