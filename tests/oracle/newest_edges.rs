//! Edge cases of order 3, with and without it in force, worked out by hand.

use crate::draft::{plain, Draft};
use crate::order_edges::{field, EdgeCall, OrderEdge};

/// Two claims, 0 if 1, 1 if 0; worker 0 asks 0, worker 1 asks 1.  With third
/// words: claims at 8 and 11, workers at 14 and 17, questions at 20 and 21.
pub fn pair() -> Draft {
    field(2, 2, &[(0, &[plain(1)]), (1, &[plain(0)])], &[(0, 0), (1, 1)])
}

pub const STARTED: [u32; 22] = [22, 2, 2, 2, 8, 14, 20, 0, 0, 0, 0, 0, 0, 0, 0, 0, 0, 0, 0, 0, 0, 0];

/// Each worker has opened its claim.
const OPENED: [u32; 22] = [22, 2, 2, 2, 8, 14, 20, 2, 1, 0, 1, 2, 0, 2, 0, 0, 1, 0, 0, 2, 0, 0];

pub fn with(words: &[u32], changes: &[(usize, u32)]) -> Vec<u32> {
    let mut words = words.to_vec();
    for &(at, word) in changes {
        words[at] = word;
    }
    words
}

/// A call on a table, its answer and the words it leaves.
fn edge(name: &str, draft: &Draft, call: EdgeCall, table: &[u32], answer: &str, leaves: &[u32]) -> OrderEdge {
    let (name, job, answer) = (format!("order 3, {name}"), draft.job_bytes(), answer.to_string());
    OrderEdge { name, job, table: table.to_vec(), call, answer, leaves: Some(leaves.to_vec()) }
}

fn refused(name: &str, draft: &Draft, call: EdgeCall, table: &[u32], number: u32, place: usize) -> OrderEdge {
    edge(&format!("{number}: {name}"), draft, call, table, &format!("refused {number} {place}"), table)
}

/// A job at all limits but those of rules and literals.
fn wide() -> Draft {
    let mut draft = Draft::new(4096, 32);
    (0..1024).for_each(|question| draft.ask(question % 32, question));
    draft
}

fn edges_of_lengths() -> Vec<OrderEdge> {
    let mut words = vec![13_416, 4096, 32, 1024, 8, 12_296, 12_392, 0];
    words.resize(13_416, 0);
    let none = Draft::new(0, 32);
    let mut bare = vec![104, 0, 32, 0, 8, 8, 104, 0];
    bare.resize(104, 0);
    vec![
        refused("21 words of 22", &pair(), EdgeCall::Start, &STARTED[..21], 9, 22),
        refused("21 words, a turn", &pair(), EdgeCall::Turn(0), &STARTED[..21], 9, 22),
        edge("started", &pair(), EdgeCall::Start, &[7; 22], "started", &STARTED),
        edge("starting skips 10", &pair(), EdgeCall::Start, &with(&OPENED, &[(16, 0), (0, 9)]), "started", &STARTED),
        refused("13,415 words at the limits", &wide(), EdgeCall::Start, &words[1..], 9, 13_416),
        edge("started at the limits", &wide(), EdgeCall::Start, &vec![7; 13_416], "started", &words),
        edge("no claim, 32 workers", &none, EdgeCall::Turn(31), &bare, "idle", &bare),
        refused("a third word of 1, no claim", &none, EdgeCall::Turn(31), &with(&bare, &[(103, 1)]), 10, 103),
    ]
}

/// Without order 3.
pub fn edges_before_newest() -> Vec<OrderEdge> {
    let mut words = vec![20, 2, 2, 2, 8, 14, 18, 0];
    words.resize(20, 0);
    vec![
        refused("not in force, 19 words of 20", &pair(), EdgeCall::Start, &words[1..], 9, 20),
        edge("not in force, started", &pair(), EdgeCall::Start, &[7; 20], "started", &words),
    ]
}

fn edges_from_start() -> Vec<OrderEdge> {
    let took = with(&OPENED, &[(8, 2), (9, 1), (12, 1), (14, 2), (16, 0), (19, 2)]);
    let ended = [22, 2, 2, 2, 8, 14, 20, 2, 257, 1, 1, 257, 1, 2, 0, 1, 0, 0, 1, 0, 2, 2];
    let run = |turns: &[u8]| EdgeCall::Run(turns.to_vec());
    // 0 if 1: one worker opens both and completes 1, then 0.
    let chain = field(2, 1, &[(0, &[plain(1)])], &[(0, 0)]);
    let started = with(&[0; 18], &[(0, 18), (1, 2), (2, 1), (3, 1), (4, 8), (5, 14), (6, 17)]);
    let both = with(&started, &[(7, 2), (8, 1), (9, 1), (10, 1), (11, 1), (13, 2), (16, 2)]);
    let older = with(&both, &[(11, 257), (16, 1)]);
    let none = with(&older, &[(8, 257), (16, 0)]);
    vec![
        edge("each opens its claim", &pair(), run(&[0, 1]), &STARTED, "tally 0 0 2 0 0 0 0 0", &OPENED),
        edge("takeover: loser 0", &pair(), run(&[0, 1, 0, 1]), &STARTED, "tally 0 0 2 1 1 0 0 0", &took),
        edge("completion: 0", &pair(), run(&[0, 1, 0, 1, 1, 1, 0, 0]), &STARTED, "tally 0 1 2 1 1 0 1 2", &ended),
        edge("the second claim opened", &chain, run(&[0, 0]), &started, "tally 0 0 2 0 0 0 0 0", &both),
        edge("completion: an older claim is the newest", &chain, EdgeCall::Turn(0), &both, "completed", &older),
        edge("completion: none is left", &chain, EdgeCall::Turn(0), &older, "completed", &none),
    ]
}

fn edges_of_refusals() -> Vec<OrderEdge> {
    let cases: [(&str, &[(usize, u32)], usize); 18] = [
        ("worker 0's third word 0", &[(16, 0)], 16),
        ("worker 0's third word the other's", &[(16, 2)], 16),
        ("worker 0's third word A + 1", &[(16, 3)], 16),
        ("worker 0's third word 257", &[(16, 257)], 16),
        ("worker 0's third word 65,537", &[(16, 65_537)], 16),
        ("worker 0's third word 4,294,967,295", &[(16, u32::MAX)], 16),
        ("worker 1's third word 0", &[(19, 0)], 19),
        ("both third words", &[(16, 0), (19, 0)], 16),
        ("a third word before the next awaited", &[(16, 0), (17, 3)], 16),
        ("an awaited word before its third", &[(14, 3), (16, 0)], 14),
        ("an answered word before its third", &[(15, 2), (16, 0)], 15),
        ("a third word before a question", &[(19, 0), (20, 4)], 19),
        ("a mark before a third word", &[(8, 3), (16, 0)], 8),
        ("the opened count before a third word", &[(7, 1), (16, 0)], 7),
        ("an opening number before a third word", &[(10, 3), (19, 0)], 10),
        ("a claim of another owner now", &[(8, 2)], 16),
        ("offset of questions as without order 3", &[(6, 18)], 6),
        ("words used as without order 3", &[(0, 20)], 0),
    ];
    let case = |&(name, changes, place): &(&str, &[(usize, u32)], usize)| {
        refused(name, &pair(), EdgeCall::Turn(0), &with(&OPENED, changes), 10, place)
    };
    let mut edges: Vec<OrderEdge> = cases.iter().map(case).collect();
    edges.push(refused("before 11", &pair(), EdgeCall::Turn(2), &with(&OPENED, &[(16, 0)]), 10, 16));
    edges.push(refused("third words are right", &pair(), EdgeCall::Turn(2), &OPENED, 11, 0));
    edges.push(refused("before 12", &pair(), EdgeCall::Read(2), &with(&OPENED, &[(19, 1)]), 10, 19));
    edges
}

/// Worker 0 owns both claims of the pair, with these opening numbers.
fn edges_of_ties() -> Vec<OrderEdge> {
    let both = |numbers: [u32; 2], word: u32| {
        with(&OPENED, &[(10, numbers[0]), (11, 1), (13, numbers[1]), (16, word), (19, 0)])
    };
    let turn = || EdgeCall::Turn(0);
    let passed = |name: &str, numbers: [u32; 2], word: u32| {
        // The newest claim passes its literal.
        let after = with(&both(numbers, word), &[(3 * word as usize + 6, 1)]);
        edge(name, &pair(), turn(), &both(numbers, word), "passed", &after)
    };
    let complete = with(&OPENED, &[(8, 258), (16, 1)]);
    let nothing = with(&complete, &[(16, 0)]);
    vec![
        passed("equal opening numbers: the highest claim", [1, 1], 2),
        refused("equal opening numbers: the lower claim", &pair(), turn(), &both([1, 1], 1), 10, 16),
        passed("the higher opening number before the higher claim", [2, 1], 1),
        refused("the higher claim of lower opening number", &pair(), turn(), &both([2, 1], 2), 10, 16),
        refused("a complete claim is nobody's newest", &pair(), turn(), &complete, 10, 16),
        refused("a complete claim leaves nothing", &pair(), turn(), &with(&complete, &[(16, 2)]), 10, 16),
        edge("0 with a claim complete", &pair(), EdgeCall::Read(0), &nothing, "258", &nothing),
    ]
}

/// Four claims and a worker, 1 if these; 1 is open with this number, 3 with 1, and
/// 2 are opened so far.  Claims at 8, 11, 14 and 17, the worker at 20.
fn past_the_count(body: &[u16], number: u32) -> (Draft, Vec<u32>) {
    let table = vec![23, 4, 1, 0, 8, 20, 23, 2, 0, 0, 0, 1, 0, number, 0, 0, 0, 1, 0, 1, 0, 0, 2];
    (field(4, 1, &[(1, body)], &[]), table)
}

/// A turn opens claim 0 or 2 with number 3, beside 1 with a number that the opened
/// count had not come to; on the table left, the next turn opens 2.
fn edges_of_openings() -> Vec<OrderEdge> {
    let opened = |name: &str, body: &[u16], number: u32, claim: usize, word: u32| {
        let (draft, table) = past_the_count(body, number);
        let after = with(&table, &[(7, 3), (12, 1), (8 + 3 * claim, 1), (10 + 3 * claim, 3), (22, word)]);
        edge(name, &draft, EdgeCall::Turn(0), &table, "opened", &after)
    };
    let (draft, table) = past_the_count(&[plain(0), plain(2)], 4);
    let third = with(&table, &[(7, 4), (8, 1), (10, 3), (12, 2), (14, 1), (16, 4), (22, 3)]);
    vec![
        opened("opening: the newest", &[plain(0)], 2, 0, 1),
        opened("opening: an older number is higher", &[plain(0)], 4, 0, 2),
        opened("opening: an older number is higher, though its claim is lower", &[plain(2)], 4, 2, 2),
        opened("opening: equal numbers, the claim opened is lower", &[plain(0)], 3, 0, 2),
        opened("opening: equal numbers, the claim opened is higher", &[plain(2)], 3, 2, 3),
        edge("two openings", &draft, EdgeCall::Run(vec![0, 0]), &table, "tally 0 0 2 0 0 0 0 0", &third),
    ]
}

/// Three in a ring, 0 if 1, 1 if 2, 2 if 0, and 3 if 1; workers 0, 1 and 2 ask 0, 3
/// and 2.  Claims at 8, 11, 14 and 17, workers at 20, 23 and 26, questions at 29.
fn ring() -> Draft {
    let rules: [(usize, &[u16]); 4] = [(0, &[plain(1)]), (1, &[plain(2)]), (2, &[plain(0)]), (3, &[plain(1)])];
    field(4, 3, &rules, &[(0, 0), (1, 3), (2, 2)])
}

/// Worker 1 opens 3 and 1 and awaits 2, worker 2 opens 2 and awaits 0, which is
/// worker 0's: that takes 1 and 2, and 3 stays.
fn edges_of_two_losers() -> Vec<OrderEdge> {
    let mut started = vec![32, 4, 3, 3, 8, 20, 29, 0];
    started.resize(32, 0);
    let claims = |words: [u32; 12]| (8..20).zip(words).collect::<Vec<(usize, u32)>>();
    let before = with(&started, &claims([1, 0, 2, 2, 1, 4, 3, 1, 3, 2, 1, 1]));
    let before = with(&before, &[(7, 4), (22, 1), (23, 3), (25, 2), (26, 1), (28, 3)]);
    let took = with(&before, &[(8, 1), (9, 1), (11, 1), (14, 1), (22, 2), (25, 4), (28, 0)]);
    let completed = with(&took, &[(8, 257), (11, 257), (14, 257), (22, 0)]);
    let ended = with(&completed, &[(17, 257), (23, 0), (25, 0)]);
    let run = |turns: &[u8]| EdgeCall::Run(turns.to_vec());
    vec![
        edge("before a takeover", &ring(), run(&[1, 0, 2, 1, 2, 1]), &started, "tally 0 0 4 2 0 0 0 0", &before),
        edge("takeover: losers with 0 and with an older claim", &ring(), EdgeCall::Turn(0), &before, "took", &took),
        edge("completion of what was taken", &ring(), EdgeCall::Turn(0), &took, "completed", &completed),
        edge("a loser wakes and completes", &ring(), run(&[1, 1]), &completed, "tally 0 1 0 0 0 0 1 0", &ended),
    ]
}

/// Tables in range that no run made, of four claims and two workers.  Claims at 8,
/// 11, 14 and 17, workers at 20 and 23.
fn of_four(changes: &[(usize, u32)]) -> Vec<u32> {
    let mut bare = vec![26, 4, 2, 0, 8, 20, 26, 0];
    bare.resize(26, 0);
    with(&bare, changes)
}

/// 0 if 1, 1 if 0: 0 is worker 0's; 1 (passed), 2 and 3 are worker 1's, which awaits
/// 0.  Worker 0 takes 1.  By the claims' opening numbers: worker 1's third word
/// before, then both workers'.
fn edges_of_what_is_taken() -> Vec<OrderEdge> {
    let draft = field(4, 2, &[(0, &[plain(1)]), (1, &[plain(0)])], &[]);
    let case = |&(name, numbers, word, left): &(&str, [u32; 4], u32, [u32; 2])| {
        let claims = of_four(&[(7, 4), (8, 1), (11, 2), (12, 1), (14, 2), (17, 2), (22, 1), (23, 1), (25, word)]);
        let before = with(&claims, &[(10, numbers[0]), (13, numbers[1]), (16, numbers[2]), (19, numbers[3])]);
        let took = with(&before, &[(9, 1), (11, 1), (22, left[0]), (25, left[1])]);
        edge(&format!("takeover: {name}"), &draft, EdgeCall::Turn(0), &before, "took", &took)
    };
    let cases = [
        ("newest claims stay", [4, 1, 2, 3], 4, [1, 4]),
        ("the higher number of two left", [1, 4, 3, 2], 2, [2, 3]),
        ("equal numbers left and taken", [4, 4, 2, 2], 2, [2, 4]),
        ("all numbers equal", [3, 3, 3, 3], 4, [2, 4]),
    ];
    cases.iter().map(case).collect()
}

/// Without a rule: worker 1 has claims 0, 2 and 3, and completes the newest.  By
/// their opening numbers: which that is, and the third word left.
fn edges_of_what_is_left() -> Vec<OrderEdge> {
    let case = |&(name, numbers, newest, left): &(&str, [u32; 3], usize, u32)| {
        let claims = of_four(&[(7, 3), (8, 2), (14, 2), (17, 2), (25, newest as u32 + 1)]);
        let before = with(&claims, &[(10, numbers[0]), (16, numbers[1]), (19, numbers[2])]);
        let after = with(&before, &[(8 + 3 * newest, 257), (25, left)]);
        edge(&format!("completion: {name}"), &field(4, 2, &[], &[]), EdgeCall::Turn(1), &before, "completed", &after)
    };
    let cases = [
        ("the higher number of two left", [3, 2, 1], 0, 3),
        ("the higher claim of two left with equal numbers", [3, 2, 2], 0, 4),
        ("the lower claim of equal numbers", [1, 4, 4], 3, 3),
        ("all numbers equal", [1, 1, 1], 3, 3),
    ];
    cases.iter().map(case).collect()
}

/// With order 3.
pub fn edges_of_newest() -> Vec<OrderEdge> {
    let parts = [
        edges_of_lengths(),
        edges_from_start(),
        edges_of_refusals(),
        edges_of_ties(),
        edges_of_openings(),
        edges_of_two_losers(),
        edges_of_what_is_taken(),
        edges_of_what_is_left(),
    ];
    parts.concat()
}
