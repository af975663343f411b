//! The program makejob: its job and its words beside the oracle's job and refusal.

use std::fs::File;
use std::process::Stdio;

use oracle::checks::Refusal;
use oracle::lines::job_of_text;
use oracle::lines_sorts::sort_of;
use oracle::listing::listing;
use oracle::orders::Orders;

use crate::process::{fault_of_output, is_one_line, Programs};
use crate::totals::Totals;

/// The most that the program reads.
const MOST_TEXT: usize = 1_048_576;
/// Jobs of up to so many bytes are listed.
const SHORT_JOB: usize = 2_000;

/// The first number that is said to be a line's.
fn line_named(said: &str) -> Option<usize> {
    let numbers = said.split("line ").skip(1).map(|rest| rest.split(|letter: char| !letter.is_ascii_digit()).next());
    numbers.flatten().find(|digits| !digits.is_empty())?.parse().ok()
}

/// Whether a refusal is said with its line.
fn says(said: &str, refusal: &Refusal) -> bool {
    is_one_line("makejob", said) && line_named(said) == Some(refusal.place)
}

/// The listing of a short job that comes through a pipe.
fn compare_listing(totals: &mut Totals, programs: &Programs, name: &str, text: &[u8], job: &[u8]) {
    totals.listed += 1;
    let output = programs.list(text);
    let expected = listing(job, Orders::in_force(), false);
    if output.stdout != expected.as_bytes() || !output.stderr.is_empty() {
        let said = String::from_utf8_lossy(&output.stderr);
        totals.differ(name, text, &format!("piped into verdicts it gives another listing; {said:?}"));
    }
}

/// Runs the program on a text, and lists a short job.
pub fn compare(totals: &mut Totals, programs: &Programs, name: &str, text: &[u8]) {
    let answer = job_of_text(text);
    totals.count_text(text);
    totals.run[sort_of(text, &answer) as usize] += 1;
    if let Some(fault) = fault_of_output(&answer, &programs.run(text, Stdio::piped()), says) {
        totals.differ(name, text, &fault);
    } else if let Ok(job) = answer {
        if job.len() <= SHORT_JOB {
            compare_listing(totals, programs, name, text, &job);
        }
    }
}

/// A text of exactly so many bytes that fits: a claim of very many digits.
fn one_number(length: usize) -> Vec<u8> {
    let (before, behind) = ("claims 1 workers 1\n0 if ", ".\n");
    let digits = "7".repeat(length - before.len() - behind.len());
    [before, &digits, behind].concat().into_bytes()
}

/// Questions, of which too many fit into the length.
fn many_questions(length: usize) -> Vec<u8> {
    let questions = "ask 0 0\n".repeat(length / 8);
    let mut text = format!("claims 1 workers 1\n{questions}").into_bytes();
    text.truncate(length);
    text
}

/// Texts of the most bytes that are read, and longer ones: a line names that length.
pub fn compare_long_texts(totals: &mut Totals, programs: &Programs) {
    for (name, text) in [("long number", one_number as fn(usize) -> Vec<u8>), ("long questions", many_questions)] {
        compare(totals, programs, name, &text(MOST_TEXT - 1));
        compare(totals, programs, name, &text(MOST_TEXT));
        for length in [MOST_TEXT + 1, MOST_TEXT + 2, 2 * MOST_TEXT, 5 * MOST_TEXT + 7] {
            let text = text(length);
            let output = programs.run(&text, Stdio::piped());
            totals.count_text(&text);
            totals.too_long += 1;
            let said = String::from_utf8_lossy(&output.stderr);
            let right = is_one_line("makejob", &said) && said.replace(',', "").contains(&MOST_TEXT.to_string());
            if !output.stdout.is_empty() || !output.status.success() || !right {
                totals.differ(name, &text, &format!("{length} bytes: it says {said:?}"));
            }
        }
    }
}

/// An output that can't be written: a line says so.
pub fn compare_unwritten(totals: &mut Totals, programs: &Programs) {
    for text in ["claims 0 workers 1\n", "claims 2 workers 2\n0 if 1.\n1 if 0.\nask 0 0\n"] {
        let full = File::options().write(true).open("/dev/full").expect("/dev/full can be opened");
        let output = programs.run(text.as_bytes(), full);
        totals.count_text(text.as_bytes());
        totals.unwritten += 1;
        let said = String::from_utf8_lossy(&output.stderr);
        if !output.status.success() || !is_one_line("makejob", &said) || !said.contains("writ") {
            totals.differ("full", text.as_bytes(), &format!("to /dev/full it says {said:?}"));
        }
    }
}
