//! Order 1: a job from rules typed as lines, and the lines of a job.

use crate::checks::{refuse, Job, Refusal, MAX_CLAIMS, MAX_LITERALS, MAX_QUESTIONS, MAX_RULES, MAX_WORKERS, NEGATED};
use crate::draft::{Body, Draft};

/// A number as typed: digits without leading zeros, as many as there are.
pub type Digits<'a> = &'a [u8];

/// A line that fits.
#[derive(Clone, Debug, PartialEq, Eq)]
pub enum Line<'a> {
    /// `claims A workers T`
    Counts(Digits<'a>, Digits<'a>),
    /// `H.` or `H if L, L.`; a literal is whether it is negated, and its claim.
    Rule(Digits<'a>, Vec<(bool, Digits<'a>)>),
    /// `ask W C`
    Ask(Digits<'a>, Digits<'a>),
}

fn number(word: &[u8]) -> Option<Digits<'_>> {
    let leading_zero = word.len() > 1 && word[0] == b'0';
    (!word.is_empty() && word.iter().all(u8::is_ascii_digit) && !leading_zero).then_some(word)
}

/// A number's value, or one past every limit where it is larger still.
pub fn value(digits: Digits) -> u64 {
    digits.iter().fold(0, |value: u64, digit| (10 * value + u64::from(digit - b'0')).min(1 << 32))
}

/// Literals parted by a comma and a single space, from their words.
fn literals<'a>(words: &[&'a [u8]]) -> Option<Vec<(bool, Digits<'a>)>> {
    let mut rest = words;
    let mut body = Vec::new();
    loop {
        let negated = *rest.first()? == b"not";
        let words_of_literal = if negated { 2 } else { 1 };
        let last = rest.len() == words_of_literal;
        let word = *rest.get(words_of_literal - 1)?;
        let claim = if last { word } else { word.strip_suffix(b",")? };
        body.push((negated, number(claim)?));
        if last {
            return Some(body);
        }
        rest = &rest[words_of_literal..];
    }
}

fn rule(line: &[u8]) -> Option<Line<'_>> {
    let words: Vec<&[u8]> = line.strip_suffix(b".")?.split(|&byte| byte == b' ').collect();
    match words.as_slice() {
        [head] => Some(Line::Rule(number(head)?, Vec::new())),
        [head, b"if", body @ ..] => Some(Line::Rule(number(head)?, literals(body)?)),
        _ => None,
    }
}

/// A line, without its line feed, by itself.
pub fn read_line(line: &[u8]) -> Option<Line<'_>> {
    let words: Vec<&[u8]> = line.split(|&byte| byte == b' ').collect();
    match words.as_slice() {
        [b"claims", claims, b"workers", workers] => Some(Line::Counts(number(claims)?, number(workers)?)),
        [b"ask", worker, claim] => Some(Line::Ask(number(worker)?, number(claim)?)),
        _ => rule(line),
    }
}

/// The lines of a text, each with whether a line feed ends it.
pub fn lines_of(text: &[u8]) -> impl Iterator<Item = (&[u8], bool)> {
    text.split_inclusive(|&byte| byte == b'\n').map(|line| match line.strip_suffix(b"\n") {
        Some(line) => (line, true),
        None => (line, false),
    })
}

/// Whether a line may follow the one before it: the counts, rules, questions.
fn may_follow(before: Option<&Line>, line: &Line) -> bool {
    match (before, line) {
        (None, Line::Counts(..)) => true,
        (None, _) | (_, Line::Counts(..)) => false,
        (Some(Line::Ask(..)), Line::Rule(..)) => false,
        _ => true,
    }
}

/// Check 14: the first line that doesn't fit, from 1; line 1 if there are none.
pub fn fitting_lines(text: &[u8]) -> Result<Vec<Line<'_>>, Refusal> {
    let mut lines: Vec<Line> = Vec::new();
    for (line, ended) in lines_of(text) {
        match read_line(line) {
            Some(line) if ended && may_follow(lines.last(), &line) => lines.push(line),
            _ => return refuse(14, lines.len() + 1),
        }
    }
    if lines.is_empty() {
        return refuse(14, 1);
    }
    Ok(lines)
}

/// The counts so far, as check 15 goes from line to line.
#[derive(Default)]
pub struct Counts {
    pub claims: u64,
    pub workers: u64,
    pub rules: u64,
    pub literals: u64,
    pub questions: u64,
}

impl Counts {
    /// Counts a line; whether check 15 finds nothing in it.
    pub fn take(&mut self, line: &Line) -> bool {
        match line {
            Line::Counts(claims, workers) => {
                (self.claims, self.workers) = (value(claims), value(workers));
                let workers_fit = 1 <= self.workers && self.workers <= u64::from(MAX_WORKERS);
                workers_fit && self.claims <= u64::from(MAX_CLAIMS)
            }
            Line::Rule(head, body) => {
                self.rules += 1;
                self.literals += body.len() as u64;
                let known = |claim: Digits| value(claim) < self.claims;
                let counts_fit = self.rules <= u64::from(MAX_RULES) && self.literals <= u64::from(MAX_LITERALS);
                counts_fit && known(head) && body.iter().all(|&(_, claim)| known(claim))
            }
            Line::Ask(worker, claim) => {
                self.questions += 1;
                let known = value(worker) < self.workers && value(claim) < self.claims;
                known && self.questions <= u64::from(MAX_QUESTIONS)
            }
        }
    }
}

/// Check 15: the first line with a count past its limit, T 0, or a claim or
/// worker not below its count.
pub fn check_counts(lines: &[Line]) -> Result<(), Refusal> {
    let mut counts = Counts::default();
    match lines.iter().position(|line| !counts.take(line)) {
        Some(position) => refuse(15, position + 1),
        None => Ok(()),
    }
}

/// The job of lines that passed 14 and 15, rules in line order.
fn draft_of_lines(lines: &[Line]) -> Draft {
    let mut draft = Draft::default();
    for line in lines {
        match line {
            Line::Counts(claims, workers) => draft = Draft::new(value(claims) as usize, value(workers) as usize),
            Line::Rule(head, body) => {
                let literal =
                    |&(negated, claim): &(bool, Digits)| value(claim) as u16 + if negated { NEGATED } else { 0 };
                let literals: Vec<u16> = body.iter().map(literal).collect();
                draft.rule(value(head) as usize, &literals);
            }
            Line::Ask(worker, claim) => draft.ask(value(worker) as usize, value(claim) as usize),
        }
    }
    draft
}

/// The job of a text, by checks 14 and 15.
pub fn job_of_text(text: &[u8]) -> Result<Vec<u8>, Refusal> {
    let lines = fitting_lines(text)?;
    check_counts(&lines)?;
    Ok(draft_of_lines(&lines).job_bytes())
}

/// Check 16: the job, if an output of that many bytes holds it.
pub fn held(job: &[u8], output: usize) -> Result<&[u8], Refusal> {
    if output < job.len() {
        return refuse(16, job.len());
    }
    Ok(job)
}

/// What the call writes to an output of that many bytes, from its first byte.
pub fn job_of_lines(text: &[u8], output: usize) -> Result<Vec<u8>, Refusal> {
    let job = job_of_text(text)?;
    held(&job, output)?;
    Ok(job)
}

pub fn literal_text(literal: u16) -> String {
    format!("{}{}", if literal & NEGATED != 0 { "not " } else { "" }, literal & !NEGATED)
}

/// A rule's line.  Order 1 has none for a missing record; this one is for reports.
fn rule_text(head: u16, body: &Body) -> String {
    let texts: Vec<String> = body.literals().iter().map(|&literal| literal_text(literal)).collect();
    match body {
        Body::Missing => format!("{head} missing."),
        Body::Literals(literals) if literals.is_empty() => format!("{head}."),
        Body::Literals(_) => format!("{head} if {}.", texts.join(", ")),
    }
}

fn all_lines(draft: &Draft) -> Vec<String> {
    let mut lines = vec![format!("claims {} workers {}", draft.claims, draft.workers)];
    lines.extend(draft.rules.iter().map(|(head, body)| rule_text(*head, body)));
    lines.extend(draft.questions.iter().map(|(worker, claim)| format!("ask {worker} {claim}")));
    lines
}

/// The way back: the lines of a draft, rules in the order they stand in.  None
/// where it has a missing record.
pub fn lines_of_draft(draft: &Draft) -> Option<Vec<String>> {
    let missing = draft.rules.iter().any(|(_, body)| *body == Body::Missing);
    (!missing).then(|| all_lines(draft))
}

/// Lines with their line feeds.
pub fn ended(lines: &[String]) -> Vec<u8> {
    lines.iter().flat_map(|line| line.bytes().chain([b'\n'])).collect()
}

/// The text of an accepted job; none where it has a missing record.
pub fn text_of_job(job: &Job) -> Option<Vec<u8>> {
    lines_of_draft(&Draft::of_job(job)).map(|lines| ended(&lines))
}

/// A job in one line, for reports.
pub fn in_words(job: &Job) -> String {
    all_lines(&Draft::of_job(job)).join("; ")
}
