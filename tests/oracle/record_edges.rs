//! Edge cases of order 11, worked out by hand: a call with all that it is lent, its
//! answer, and what it leaves.

use crate::checks::refuse;
use crate::draft::{plain, Draft};
use crate::edges::{with_half, with_words};
use crate::newest_edges::{pair, with, STARTED};
use crate::order_edges::field;
use crate::orders::Orders;
use crate::record::{perform, Answer, Call, Lent};
use crate::turns::Tally;

pub struct RecordEdge {
    pub name: String,
    pub call: Call,
    pub lent: Lent,
    pub answer: Answer,
    pub left: Lent,
}

impl RecordEdge {
    /// What the oracle's call gives instead.
    pub fn fault(&self, orders: Orders) -> Option<String> {
        let mut lent = self.lent.clone();
        let answer = perform(self.call, &mut lent, orders);
        let right = answer == self.answer && lent == self.left;
        (!right).then(|| format!("order 11, {}: {answer:?}, leaves {lent:?}", self.name))
    }
}

/// 01's ring of two: worker 0 opens 0, worker 1 opens 1, 0 waits, 1 takes over, completes
/// both and is answered, 0 wakes and is answered.
const TURNS: [u8; 8] = [0, 1, 0, 1, 1, 1, 0, 0];
const RECORD: [u8; 16] = [0, 2, 1, 2, 0, 3, 1, 4, 1, 6, 1, 7, 0, 1, 0, 7];
const WHOLE: Tally = [0, 1, 2, 1, 1, 0, 1, 2];
const NONE: Tally = [0; 8];

/// The words that each of these turns writes.
const WRITES: [&[(usize, u32)]; 8] = [
    &[(7, 1), (8, 1), (10, 1), (16, 1)],
    &[(7, 2), (11, 2), (13, 2), (19, 2)],
    &[(9, 1), (14, 2)],
    &[(8, 2), (12, 1), (16, 0)],
    &[(8, 257), (11, 257), (19, 0)],
    &[(18, 1), (21, 2)],
    &[(14, 0)],
    &[(15, 1), (20, 2)],
];

/// The ring's table after so many of its turns.
fn after(turns: usize) -> Vec<u32> {
    with(&STARTED, &WRITES[..turns].concat())
}

/// The ring's record with some bytes put to others.
fn altered(changes: &[(usize, u8)]) -> Vec<u8> {
    let mut record = RECORD.to_vec();
    changes.iter().for_each(|&(at, byte)| record[at] = byte);
    record
}

/// A recorded run on words that are no table, into bytes AA.
fn run(draft: &Draft, words: usize, schedule: &[u8], bytes: usize) -> Lent {
    Lent { job: draft.job_bytes(), table: vec![7; words], schedule: schedule.to_vec(), bytes: vec![0xAA; bytes] }
}

fn replay(draft: &Draft, words: usize, record: &[u8]) -> Lent {
    Lent { bytes: record.to_vec(), ..run(draft, words, &[], 0) }
}

#[derive(Default)]
struct Edges {
    cases: Vec<RecordEdge>,
}

impl Edges {
    fn add(&mut self, name: &str, call: Call, lent: Lent, answer: Answer, left: Lent) {
        self.cases.push(RecordEdge { name: name.to_string(), call, lent, answer, left });
    }

    /// Refused before any turn: nothing changes.
    fn refused(&mut self, name: &str, call: Call, lent: Lent, number: u32, place: usize) {
        let answer = Answer { check: refuse(number, place), tally: NONE };
        self.add(&format!("{number}: {name}"), call, lent.clone(), answer, lent);
    }

    fn recorded(&mut self, name: &str, lent: Lent, tally: Tally, table: &[u32], bytes: &[u8]) {
        let left = Lent { table: table.to_vec(), bytes: bytes.to_vec(), ..lent.clone() };
        self.add(name, Call::RecordedRun, lent, Answer { check: Ok(()), tally }, left);
    }

    fn replayed(&mut self, name: &str, lent: Lent, tally: Tally, table: &[u32]) {
        let left = Lent { table: table.to_vec(), ..lent.clone() };
        self.add(name, Call::Replay, lent, Answer { check: Ok(()), tally }, left);
    }

    /// Refused by 24 with this pair, before which the table holds the turns counted.
    fn false_at(&mut self, name: &str, lent: Lent, number: usize, tally: Tally, table: &[u32]) {
        let left = Lent { table: table.to_vec(), ..lent.clone() };
        self.add(&format!("24: {name}"), Call::Replay, lent, Answer { check: refuse(24, number), tally }, left);
    }
}

/// 0 if 0, which worker 0 asks for: the claim at 8, the worker at 11, the question at 14.
fn self_led() -> Draft {
    field(1, 1, &[(0, &[plain(0)])], &[(0, 0)])
}

/// A table of a job without claims and questions.
fn bare(workers: u32) -> Vec<u32> {
    let used = 8 + 3 * workers;
    let mut words = vec![used, 0, workers, 0, 8, 8, used, 0];
    words.resize(used as usize, 0);
    words
}

fn recorded_runs(edges: &mut Edges) {
    let ended = after(8);
    edges.recorded("the ring", run(&pair(), 22, &TURNS, 16), WHOLE, &ended, &RECORD);
    edges.recorded(
        "words past those used stay",
        run(&pair(), 24, &TURNS, 16),
        WHOLE,
        &[&ended[..], &[7, 7]].concat(),
        &RECORD,
    );
    let two = [0, 0, 2, 0, 0, 0, 0, 0];
    edges.recorded("bytes past it stay", run(&pair(), 22, &TURNS[..2], 5), two, &after(2), &[0, 2, 1, 2, 0xAA]);
    edges.recorded("no turn, no buffer", run(&pair(), 22, &[], 0), NONE, &STARTED, &[]);
    edges.recorded("no turn, a buffer", run(&pair(), 22, &[], 3), NONE, &STARTED, &[0xAA; 3]);
    let taken = Lent { table: after(5), ..run(&pair(), 22, &TURNS, 16) };
    edges.recorded("a table that turns made is started again", taken, WHOLE, &ended, &RECORD);
    let waiting = [1, 0, 2, 1, 0, 0, 0, 0];
    let idle = [0, 2, 1, 2, 0, 3, 0, 0];
    edges.recorded("an idle turn", run(&pair(), 22, &[0, 1, 0, 0], 8), waiting, &after(3), &idle);
    let passed = [15, 1, 1, 1, 8, 11, 14, 1, 257, 1, 1, 0, 1, 0, 2];
    let kinds = [0, 0, 1, 0, 0, 1, 1, 1];
    edges.recorded("0 if 0", run(&self_led(), 15, &[0; 4], 8), kinds, &passed, &[0, 2, 0, 5, 0, 6, 0, 7]);
    let turns = [2, 0, 0, 0, 0, 0, 0, 0];
    edges.recorded("worker 31", run(&Draft::new(0, 32), 104, &[31, 0], 4), turns, &bare(32), &[31, 0, 0, 0]);
}

fn refused_runs(edges: &mut Edges) {
    for (name, words, schedule, bytes, number, place) in [
        ("15 bytes of 16", 22, &TURNS[..], 15, 25, 16),
        ("8 bytes, one a turn", 22, &TURNS, 8, 25, 16),
        ("no buffer", 22, &[0], 0, 25, 2),
        ("1 byte", 22, &[1], 1, 25, 2),
        ("5 bytes of 6", 30, &[0, 0, 1], 5, 25, 6),
        ("worker T, before 25", 22, &[0, 2], 0, 11, 1),
        ("worker 255, the last", 22, &[0, 1, 1, 255], 8, 11, 3),
        ("the first of two", 22, &[0, 2, 3], 6, 11, 1),
        ("21 words, before 11 and 25", 21, &[0, 2], 0, 9, 22),
        ("no words", 0, &TURNS, 16, 9, 22),
    ] {
        edges.refused(name, Call::RecordedRun, run(&pair(), words, schedule, bytes), number, place);
    }
}

fn replays(edges: &mut Edges) {
    let ended = after(8);
    edges.replayed("the ring", replay(&pair(), 22, &RECORD), WHOLE, &ended);
    edges.replayed("words past stay", replay(&pair(), 24, &RECORD), WHOLE, &[&ended[..], &[7, 7]].concat());
    edges.replayed("an empty record", replay(&pair(), 22, &[]), NONE, &STARTED);
    edges.replayed("its first half", replay(&pair(), 22, &RECORD[..8]), [0, 0, 2, 1, 1, 0, 0, 0], &after(4));
    let taken = Lent { table: after(5), ..replay(&pair(), 22, &RECORD) };
    edges.replayed("a table that turns made is started again", taken, WHOLE, &ended);
    let longer = [&RECORD[..], &[1, 0, 0, 0, 1, 0]].concat();
    edges.replayed("idle turns after the day", replay(&pair(), 22, &longer), [3, 1, 2, 1, 1, 0, 1, 2], &ended);
    edges.replayed("worker 31", replay(&Draft::new(0, 32), 104, &[31, 0]), [1, 0, 0, 0, 0, 0, 0, 0], &bare(32));
}

fn refused_replays(edges: &mut Edges) {
    for (name, words, record, number, place) in [
        ("1 byte", 22, &RECORD[..1], 23, 1),
        ("15 bytes", 22, &RECORD[..15], 23, 15),
        ("a byte more", 30, &[&RECORD[..], &[0]].concat(), 23, 17),
        ("before 24", 22, &[9, 9, 9], 23, 3),
        ("21 words, before 23", 21, &RECORD[..15], 9, 22),
        ("21 words, before 24", 21, &[9, 9], 9, 22),
    ] {
        edges.refused(name, Call::Replay, replay(&pair(), words, record), number, place);
    }
}

/// Pairs of which the worker is none of the job's.
fn false_workers(edges: &mut Edges) {
    let six = [0, 0, 2, 1, 1, 0, 1, 1];
    let seven = [0, 1, 2, 1, 1, 0, 1, 1];
    for (name, changes, number, tally) in [
        ("worker T, the first pair", &[(0, 2)], 0, NONE),
        ("worker 255, the last pair", &[(14, 255)], 7, seven),
        ("worker 128, which is 0 in seven bits", &[(12, 128)], 6, six),
        ("worker 3, which is 1 in one bit", &[(2, 3)], 1, [0, 0, 1, 0, 0, 0, 0, 0]),
    ] {
        edges.false_at(name, replay(&pair(), 22, &altered(changes)), number, tally, &after(number));
    }
    edges.false_at(
        "worker T, idle",
        replay(&Draft::new(0, 32), 104, &[0, 0, 32, 0]),
        1,
        [1, 0, 0, 0, 0, 0, 0, 0],
        &bare(32),
    );
}

/// Pairs of which the kind isn't the turn's.
fn false_kinds(edges: &mut Edges) {
    let two = [0, 0, 2, 0, 0, 0, 0, 0];
    let three = [0, 0, 2, 1, 0, 0, 0, 0];
    let seven = [0, 1, 2, 1, 1, 0, 1, 1];
    let cases: [(&str, &[(usize, u8)], usize, Tally); 11] = [
        ("idle for opened, the first pair", &[(1, 0)], 0, NONE),
        ("kind 8", &[(5, 8)], 2, two),
        ("kind 11, which is 3 in three bits", &[(5, 11)], 2, two),
        ("kind 255, the last pair", &[(15, 255)], 7, seven),
        ("took for waits", &[(5, 4)], 2, two),
        ("waits for took", &[(7, 3)], 3, three),
        ("completed for answered, the last pair", &[(15, 6)], 7, seven),
        ("idle for woke", &[(13, 0)], 6, [0, 0, 2, 1, 1, 0, 1, 1]),
        ("another worker, whose kind differs", &[(6, 0)], 3, three),
        ("the first of two", &[(5, 4), (1, 7)], 0, NONE),
        ("a pair's bytes exchanged", &[(4, 3), (5, 0)], 2, two),
    ];
    for (name, changes, number, tally) in cases {
        edges.false_at(name, replay(&pair(), 22, &altered(changes)), number, tally, &after(number));
    }
    let longer = [&RECORD[..], &[0, 7]].concat();
    edges.false_at("behind the day's end", replay(&pair(), 22, &longer), 8, WHOLE, &after(8));
    let waits_again = [&RECORD[..6], &[0, 3]].concat();
    edges.false_at("a wait again", replay(&pair(), 22, &waits_again), 3, three, &after(3));
    let past = [&after(2)[..], &[7, 7]].concat();
    edges.false_at("words past those used stay", replay(&pair(), 24, &altered(&[(5, 4)])), 2, two, &past);
    let started = Lent { table: after(8), ..replay(&pair(), 22, &altered(&[(1, 6)])) };
    edges.false_at("a table that turns made is started", started, 0, NONE, &STARTED);
}

/// Jobs that are refused, by both calls, whatever else is lent.
fn rows_of_the_job(edges: &mut Edges) {
    let job = pair().job_bytes(); // 56 bytes.
    for (name, job, number, place) in [
        ("35 bytes", job[..35].to_vec(), 1, 35),
        ("no bytes", Vec::new(), 1, 0),
        ("the total", with_words(&job, &[(0, 57)]), 2, 0),
        ("A 4,097", with_words(&job, &[(1, 4097)]), 3, 4),
        ("an offset", with_words(&job, &[(8, 49)]), 4, 32),
        ("a head", with_half(&job, 40, 2), 5, 40),
        ("a body", with_half(&job, 42, 2), 6, 40),
        ("a literal", with_half(&job, 46, 2), 7, 46),
        ("a question", with_half(&job, 52, 2), 8, 52),
    ] {
        let lent = Lent { job, ..run(&pair(), 3, &[0, 9], 1) };
        edges.refused(&format!("{name}, a run"), Call::RecordedRun, lent.clone(), number, place);
        edges.refused(&format!("{name}, a replay"), Call::Replay, lent, number, place);
    }
}

/// The edge cases, with orders 2, 3 and 5 in force.
pub fn record_edges() -> Vec<RecordEdge> {
    let mut edges = Edges::default();
    recorded_runs(&mut edges);
    refused_runs(&mut edges);
    replays(&mut edges);
    refused_replays(&mut edges);
    false_workers(&mut edges);
    false_kinds(&mut edges);
    rows_of_the_job(&mut edges);
    edges.cases
}
