//! Wrong readings of order 11, each as the answer that it gives and what it leaves.

use crate::checks::{refuse, Job, Refusal};
use crate::orders::Orders;
use crate::record::{false_pair, perform, started, workers_in, Answer, Call, Lent};
use crate::table::{Layout, Table};
use crate::turns::Kind;

pub type Reading = fn(Call, &mut Lent, Orders) -> Answer;

/// The number that refused a call, 0 for none.
fn number_of(answer: &Answer) -> u32 {
    answer.check.err().map_or(0, |refusal| refusal.number)
}

/// The right answer, changed where the call was refused by this number.
fn refused_by(
    number: u32,
    call: Call,
    lent: &mut Lent,
    orders: Orders,
    change: impl FnOnce(&mut Answer, &mut Lent, usize),
) -> Answer {
    let mut answer = perform(call, lent, orders);
    match answer.check {
        Err(refusal) if refusal.number == number => change(&mut answer, lent, refusal.place),
        _ => {}
    }
    answer
}

/// The right answer, what a recorded run wrote being changed.
fn written(call: Call, lent: &mut Lent, orders: Orders, change: impl FnOnce(&mut [u8], &mut [u8])) -> Answer {
    let answer = perform(call, lent, orders);
    if call == Call::RecordedRun && answer.check.is_ok() {
        let (record, behind) = lent.bytes.split_at_mut(2 * lent.schedule.len());
        change(record, behind);
    }
    answer
}

/// The answer to a replay of another record.
fn replay_of(call: Call, lent: &mut Lent, orders: Orders, record: impl FnOnce(&[u8]) -> Vec<u8>) -> Answer {
    if call == Call::RecordedRun {
        return perform(call, lent, orders);
    }
    let other = record(&lent.bytes);
    let kept = std::mem::replace(&mut lent.bytes, other);
    let answer = perform(call, lent, orders);
    lent.bytes = kept;
    answer
}

/// The words lent, started where they are enough.
fn start(lent: &mut Lent, orders: Orders) {
    if let Ok(job) = Job::check(&lent.job, orders) {
        if let Ok(table) = started(&job, orders, &lent.table) {
            lent.table = table.words;
        }
    }
}

fn goes_on(call: Call, lent: &mut Lent, orders: Orders) -> Answer {
    let before = lent.table.clone();
    let mut answer = perform(call, lent, orders);
    let Ok(job) = Job::check(&lent.job, orders) else { return answer };
    if let (Call::RecordedRun, Ok(()), Ok(mut table)) = (call, answer.check, Table::from_words(&job, orders, before)) {
        answer.tally = table.run(&lent.schedule);
        lent.table = table.words;
    }
    answer
}

fn started_though_refused(call: Call, lent: &mut Lent, orders: Orders) -> Answer {
    let answer = perform(call, lent, orders);
    if [11, 23, 25].contains(&number_of(&answer)) {
        start(lent, orders);
    }
    answer
}

fn false_turn_made(call: Call, lent: &mut Lent, orders: Orders) -> Answer {
    refused_by(24, call, lent, orders, |_, lent, place| {
        let (pair, known) = false_pair(lent, place, orders);
        if known.is_some() {
            let job = Job::check(&lent.job, orders).expect("the job was accepted");
            let mut table = Table::from_words(&job, orders, lent.table.clone()).expect("turns made the table");
            table.turn(u32::from(pair[0]));
            lent.table = table.words;
        }
    })
}

fn false_record_undone(call: Call, lent: &mut Lent, orders: Orders) -> Answer {
    let before = lent.table.clone();
    refused_by(24, call, lent, orders, |_, lent, _| lent.table = before)
}

fn false_record_started(call: Call, lent: &mut Lent, orders: Orders) -> Answer {
    refused_by(24, call, lent, orders, |_, lent, _| start(lent, orders))
}

fn no_tally_at_24(call: Call, lent: &mut Lent, orders: Orders) -> Answer {
    refused_by(24, call, lent, orders, |answer, _, _| answer.tally = [0; 8])
}

fn place_of_24_in_bytes(call: Call, lent: &mut Lent, orders: Orders) -> Answer {
    refused_by(24, call, lent, orders, |answer, _, place| answer.check = refuse(24, 2 * place))
}

fn bad_worker_by_11(call: Call, lent: &mut Lent, orders: Orders) -> Answer {
    refused_by(24, call, lent, orders, |answer, lent, place| {
        if false_pair(lent, place, orders).1.is_none() {
            answer.check = refuse(11, place);
        }
    })
}

fn place_of_25_in_turns(call: Call, lent: &mut Lent, orders: Orders) -> Answer {
    refused_by(25, call, lent, orders, |answer, _, place| answer.check = refuse(25, place / 2))
}

fn buffer_before_schedule(call: Call, lent: &mut Lent, orders: Orders) -> Answer {
    refused_by(11, call, lent, orders, |answer, lent, _| {
        let needed = 2 * lent.schedule.len();
        if call == Call::RecordedRun && lent.bytes.len() < needed {
            answer.check = refuse(25, needed);
        }
    })
}

fn buffer_of_that_length(call: Call, lent: &mut Lent, orders: Orders) -> Answer {
    let before = lent.clone();
    let answer = perform(call, lent, orders);
    let needed = 2 * lent.schedule.len();
    if call == Call::Replay || answer.check.is_err() || lent.bytes.len() == needed {
        return answer;
    }
    *lent = before;
    Answer { check: refuse(25, needed), tally: [0; 8] }
}

fn odd_before_table(call: Call, lent: &mut Lent, orders: Orders) -> Answer {
    refused_by(9, call, lent, orders, |answer, lent, _| {
        if call == Call::Replay && lent.bytes.len() % 2 == 1 {
            answer.check = refuse(23, lent.bytes.len());
        }
    })
}

fn even_part(record: &[u8]) -> Vec<u8> {
    record[..record.len() / 2 * 2].to_vec()
}

fn odd_byte_left_out(call: Call, lent: &mut Lent, orders: Orders) -> Answer {
    replay_of(call, lent, orders, even_part)
}

fn pairs_before_odd(call: Call, lent: &mut Lent, orders: Orders) -> Answer {
    let before = lent.clone();
    let answer = replay_of(call, lent, orders, even_part);
    if call == Call::Replay && before.bytes.len() % 2 == 1 && answer.check.is_ok() {
        *lent = before;
        return perform(call, lent, orders);
    }
    answer
}

fn kinds_of_three_bits(call: Call, lent: &mut Lent, orders: Orders) -> Answer {
    replay_of(call, lent, orders, |record| {
        let cut = |(at, byte): (usize, &u8)| if at % 2 == 1 { byte & 7 } else { *byte };
        record.iter().enumerate().map(cut).collect()
    })
}

fn kinds_not_looked_at(call: Call, lent: &mut Lent, orders: Orders) -> Answer {
    let mut run = Lent { schedule: workers_in(&lent.bytes), ..lent.clone() };
    let answer = perform(Call::RecordedRun, &mut run, orders);
    if call == Call::RecordedRun || lent.bytes.len() % 2 == 1 || answer.check.is_err() {
        return perform(call, lent, orders);
    }
    lent.table = run.table;
    answer
}

fn kind_before_worker(call: Call, lent: &mut Lent, orders: Orders) -> Answer {
    written(call, lent, orders, |record, _| record.chunks_exact_mut(2).for_each(|pair| pair.swap(0, 1)))
}

fn idle_turns_left_out(call: Call, lent: &mut Lent, orders: Orders) -> Answer {
    written(call, lent, orders, |record, _| {
        let changing: Vec<u8> =
            record.chunks_exact(2).filter(|pair| pair[1] != Kind::Idle as u8).flatten().copied().collect();
        record[..changing.len()].copy_from_slice(&changing);
    })
}

fn bytes_behind_cleared(call: Call, lent: &mut Lent, orders: Orders) -> Answer {
    written(call, lent, orders, |_, behind| behind.fill(0))
}

fn words_behind_cleared(call: Call, lent: &mut Lent, orders: Orders) -> Answer {
    let answer = perform(call, lent, orders);
    if let (Ok(()) | Err(Refusal { number: 24, .. }), Ok(job)) = (answer.check, Job::check(&lent.job, orders)) {
        lent.table[Layout::of_job(&job, orders).used..].fill(0);
    }
    answer
}

pub const RECORD_READINGS: [(&str, Reading); 20] = [
    ("a recorded run goes on from the lent table", goes_on),
    ("the table is started though 11, 23 or 25 refuses", started_though_refused),
    ("the false pair's turn is made", false_turn_made),
    ("a false record leaves the table as it was lent", false_record_undone),
    ("a false record leaves the table started", false_record_started),
    ("no tally at 24", no_tally_at_24),
    ("the place of 24 counts bytes", place_of_24_in_bytes),
    ("a worker past T in a record is 11", bad_worker_by_11),
    ("the place of 25 counts turns", place_of_25_in_turns),
    ("25 before 11", buffer_before_schedule),
    ("25 for a buffer too long", buffer_of_that_length),
    ("23 before 9", odd_before_table),
    ("24 before 23", pairs_before_odd),
    ("an odd byte is left out", odd_byte_left_out),
    ("kinds of three bits", kinds_of_three_bits),
    ("kinds are not looked at", kinds_not_looked_at),
    ("kind before worker", kind_before_worker),
    ("idle turns are not on record", idle_turns_left_out),
    ("bytes behind the record are cleared", bytes_behind_cleared),
    ("words past those used are cleared", words_behind_cleared),
];

/// How many calls show each wrong reading.
pub type Shown = [usize; RECORD_READINGS.len()];

/// Jobs and records or schedules of up to so many bytes are held to wrong readings.
const SHORT: usize = 400;

/// Counts the readings by which this call answers or leaves something else.
pub fn count_shown(call: Call, lent: &Lent, right: (&Answer, &Lent), orders: Orders, shown: &mut Shown) {
    if lent.job.len().max(lent.schedule.len()).max(lent.bytes.len()) > SHORT {
        return;
    }
    for (count, (_, reading)) in shown.iter_mut().zip(RECORD_READINGS) {
        let mut left = lent.clone();
        let answer = reading(call, &mut left, orders);
        *count += usize::from((&answer, &left) != right);
    }
}
