//! Order 1 in second ways: both readings of edge cases and made texts, texts whose
//! answer is known, and the way back from every job.

use std::ops::Range;

use crate::checks::{refuse, Job, Refusal, MAX_JOB_BYTES};
use crate::draft::Random;
use crate::lines::{check_counts, ended, fitting_lines, job_of_lines, text_of_job, Counts};
use crate::lines_again::job_of_lines_again;
use crate::lines_edges::lines_edges;
use crate::lines_sorts::{causes, sort_of, Met};
use crate::orders::Orders;
use crate::promises::ensure;
use crate::texts::{generate_text, huge_number, lines_of_made, make_text_draft, misfit, with_last_number};

/// At most so many faults are sought.
const MOST_FAULTS: usize = 20;

#[derive(Default, Debug)]
pub struct LinesTotals {
    pub texts: usize,
    pub accepted: usize,
    pub sorts: Met,
}

type Answer = Result<Vec<u8>, Refusal>;

/// An accepted job is accepted by 01's checks, and its lines give it again.
fn check_way_back(job: &[u8]) -> Result<(), String> {
    let read = Job::check(job, Orders::of(&[])).map_err(|refusal| format!("the job is refused: {refusal:?}"))?;
    let text = text_of_job(&read).ok_or("a missing record")?;
    ensure(job_of_lines(&text, job.len()).as_deref() == Ok(job), "its own lines give another job")
}

/// The causes are those by which check 15 goes: a line has one exactly where it is refused.
fn check_causes(text: &[u8]) -> Result<(), String> {
    let Ok(lines) = fitting_lines(text) else { return Ok(()) };
    let mut counts = Counts::default();
    let refused = lines.iter().position(|line| {
        counts.take(line);
        !causes(line, &counts).is_empty()
    });
    let place = check_counts(&lines).err().map(|refusal| refusal.place - 1);
    ensure(refused == place, "a line is refused for no cause, or has one and isn't")
}

fn check_text(text: &[u8], output: usize, totals: &mut LinesTotals) -> Result<Answer, String> {
    let answer = job_of_lines(text, output);
    ensure(answer == job_of_lines_again(text, output), "the two readings differ")?;
    totals.texts += 1;
    totals.sorts[sort_of(text, &answer) as usize] += 1;
    check_causes(text)?;
    if let Ok(job) = &answer {
        totals.accepted += 1;
        check_way_back(job)?;
    }
    Ok(answer)
}

fn expect(text: &[u8], output: usize, expected: Answer, totals: &mut LinesTotals) -> Result<(), String> {
    let answer = check_text(text, output, totals)?;
    ensure(answer == expected, &format!("not the known answer, {:?}", expected.map(|_| "a job")))
}

/// Texts made so that their answer is known.
fn check_known(random: &mut Random, totals: &mut LinesTotals) -> Result<(), String> {
    let draft = make_text_draft(random);
    let job = draft.job_bytes();
    let lines = lines_of_made(&draft);
    let whole = ended(&lines);
    expect(&whole, job.len(), Ok(job.clone()), totals)?;
    expect(&whole, random.below(job.len()), refuse(16, job.len()), totals)?;
    let (at, other) = (random.below(lines.len()), random.below(lines.len()));
    let mut unknown = lines.clone();
    unknown[at] = with_last_number(&lines[at], &huge_number(random));
    expect(&ended(&unknown), job.len(), refuse(15, at + 1), totals)?;
    let mut both = unknown;
    both[other] = misfit(random, &lines[other]);
    expect(&ended(&both), job.len(), refuse(14, other + 1), totals)?;
    expect(&whole[..whole.len() - 1], job.len(), refuse(14, lines.len()), totals)
}

/// A seed's texts: known ones, and its made one with any output.
fn check_seed(seed: u64, totals: &mut LinesTotals) -> Result<(), String> {
    let random = &mut Random::new("lines", seed);
    check_known(random, totals)?;
    let output = random.pick(&[MAX_JOB_BYTES, MAX_JOB_BYTES, MAX_JOB_BYTES, 60, 36, 0]);
    check_text(&generate_text(seed), output, totals).map(drop)
}

pub fn check_seeds(seeds: Range<u64>, totals: &mut LinesTotals) -> Vec<String> {
    let fault = |seed: u64| Some(format!("order 1, text {seed}: {}", check_seed(seed, totals).err()?));
    seeds.filter_map(fault).take(MOST_FAULTS).collect()
}

/// The edge cases.
pub fn check_edges(totals: &mut LinesTotals) -> Vec<String> {
    let mut faults = Vec::new();
    for edge in lines_edges() {
        let found = expect(&edge.call.text, edge.call.output, edge.expected, totals);
        faults.extend(found.err().map(|fault| format!("order 1, {}: {fault}", edge.name)));
    }
    faults
}
