//! One input at a time: what the program writes beside what the oracle lists.

use std::process::{exit, Output};

use oracle::listing::listing;
use oracle::orders::Orders;

use crate::program::Program;
use crate::totals::Totals;

/// Where the input of a difference is kept.
const FOLDER: &str = "target/tests";

/// Lists an input and compares.  `name` is its kind and seed.
pub fn compare(totals: &mut Totals, program: &Program, name: &str, input: &[u8]) {
    let expected = listing(input, Orders::in_force(), false);
    totals.count(input, &expected);
    let answer = program.list(input).unwrap_or_else(|error| {
        eprintln!("listing: {} can't be run: {error}", program.path);
        exit(2);
    });
    if let Some(fault) = fault_of(&expected, &answer) {
        let path = format!("{FOLDER}/listing-{}.field", name.replace(' ', "-"));
        let kept = std::fs::write(&path, input).map_or_else(|error| error.to_string(), |()| "kept".to_string());
        totals.differ(name, &format!("{fault} ({path}: {kept})"));
    }
}

/// What is wrong with an answer, if anything is.
fn fault_of(expected: &str, answer: &Output) -> Option<String> {
    if !answer.status.success() {
        return Some(format!("it ended with {}", answer.status));
    }
    if answer.stdout != expected.as_bytes() {
        return Some(first_difference(expected, &String::from_utf8_lossy(&answer.stdout)));
    }
    let said = String::from_utf8_lossy(&answer.stderr);
    if words_fit(expected, &said) {
        None
    } else {
        Some(format!("on standard error it writes {said:?}"))
    }
}

/// The first line that differs, its end included.
fn first_difference(expected: &str, listed: &str) -> String {
    let (mut right, mut lines) = (expected.split_inclusive('\n'), listed.split_inclusive('\n'));
    let mut at = 0;
    loop {
        at += 1;
        match (lines.next(), right.next()) {
            (Some(line), Some(expected)) if line == expected => {}
            (Some(line), Some(expected)) => return format!("line {at} is {line:?}, expected {expected:?}"),
            (Some(line), None) => return format!("line {at} is {line:?}, expected no more"),
            (None, Some(expected)) => return format!("line {at} is missing, expected {expected:?}"),
            (None, None) => return "bytes that are no text differ".to_string(),
        }
    }
}

/// A refusal says on standard error, in one line of words, which place it means;
/// an accepted input says nothing there.
fn words_fit(expected: &str, said: &str) -> bool {
    let Some(refusal) = expected.strip_prefix("refused ") else { return said.is_empty() };
    let place = refusal.trim_end().split(' ').nth(1);
    let one_line = said.ends_with('\n') && said.lines().count() == 1;
    let mut numbers = said.split(|letter: char| !letter.is_ascii_digit());
    one_line && said.starts_with("verdicts: ") && numbers.any(|number| Some(number) == place)
}
