//! Times the call that makes a job of typed lines: the library's and the oracle's,
//! one after the other on the same text.  bench/run builds it.

#[allow(dead_code)]
mod fields;
#[path = "../tests/lines/library.rs"]
mod library;
#[allow(dead_code)]
mod times;

use fields::{job_of, made};
use oracle::checks::{part_input, Refusal, MAX_JOB_BYTES};
use oracle::draft::{not, Draft, Random};
use oracle::lines::{ended, job_of_lines, text_of_job};
use oracle::texts::{lines_of_made, make_longest_draft};
use times::{median_times_of, ratio, show_spread};

struct Text {
    name: String,
    bytes: Vec<u8>,
}

fn text_of(name: &str, draft: &Draft) -> Text {
    Text { name: name.to_string(), bytes: ended(&lines_of_made(draft)) }
}

/// All counts at their limits: A 4,096, M 6,144, L 16,384, T 32, Q 1,024.
fn longest() -> Draft {
    make_longest_draft(&mut Random::new("longest", 0))
}

/// Texts of large jobs in other shapes, and one that is refused in its last line.
fn large_texts() -> Vec<Text> {
    let (mut one_rule, mut no_bodies, mut unknown) = (Draft::new(4096, 32), Draft::new(4096, 32), longest());
    one_rule.rule(0, &[not(4095); 16_384]);
    (0..6144).rev().for_each(|rule| no_bodies.rule(rule * 2 / 3, &[]));
    unknown.questions[1023].1 = 4096;
    vec![
        text_of("longest", &longest()),
        text_of("one rule", &one_rule),
        text_of("no bodies", &no_bodies),
        text_of("refused by 15", &unknown),
    ]
}

/// The text of a made field.
fn made_text(kind: &str, seed: u64) -> Text {
    let bytes = text_of_job(&job_of(part_input(&made(kind, seed)).0)).expect("a field timed has no missing record");
    Text { name: format!("{kind} {seed}"), bytes }
}

const FIELDS: [(&str, u64); 7] =
    [("large", 0), ("large", 3), ("random", 1), ("strat", 1), ("negloop", 1), ("small", 1), ("tiny", 1)];

/// The oracle's call, with the library's way of answering.
fn call_oracle(text: &[u8], out: &mut [u8]) -> u64 {
    match job_of_lines(text, out.len()) {
        Ok(job) => {
            out[..job.len()].copy_from_slice(&job);
            job.len() as u64
        }
        Err(Refusal { number, place }) => (1 << 63) + (u64::from(number) << 56) + place as u64,
    }
}

/// Prints a row; the ratio.
fn measure(text: &Text) -> f64 {
    let (mut out, mut expected) = ([0; MAX_JOB_BYTES], [0; MAX_JOB_BYTES]);
    let codes = [library::job_of_lines(&text.bytes, &mut out), call_oracle(&text.bytes, &mut expected)];
    assert!(codes[0] == codes[1] && out == expected, "{}: the jobs differ", text.name);
    let call_ours: &mut dyn FnMut() = &mut || _ = library::job_of_lines(&text.bytes, &mut out);
    let [ours, oracle] = median_times_of([call_ours, &mut || _ = call_oracle(&text.bytes, &mut expected)]);
    let (length, against) = (text.bytes.len(), ratio(ours, oracle));
    println!("| {:13} | {length:6} | {:9.2} | {:9.2} | {against:>11} |", text.name, 1e6 * ours, 1e6 * oracle);
    ours / oracle
}

const HEADING: &str = "\
| text          |  bytes |   ours us | oracle us | ours/oracle |
|---------------|-------:|----------:|----------:|------------:|
";

fn main() {
    print!("{HEADING}");
    let made = FIELDS.iter().map(|&(kind, seed)| made_text(kind, seed));
    let ratios = large_texts().into_iter().chain(made).map(|text| measure(&text)).collect();
    println!();
    show_spread("ours / oracle", ratios, "texts");
}
