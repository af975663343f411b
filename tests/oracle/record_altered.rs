//! Records that were altered (order 11), each in one way.

use crate::draft::Random;

/// What a record is altered by: how many workers the job has, and another day's record.
pub struct With<'a> {
    pub workers: usize,
    pub other: &'a [u8],
}

pub type Alteration = fn(&mut Random, &mut Vec<u8>, &With);

/// The place of some pair's worker.
fn some_pair(random: &mut Random, record: &[u8]) -> Option<usize> {
    (record.len() > 1).then(|| 2 * random.below(record.len() / 2))
}

/// Changes some pair.
fn change_pair(random: &mut Random, record: &mut [u8], change: impl Fn(&mut Random, &mut [u8])) {
    if let Some(pair) = some_pair(random, record) {
        change(random, &mut record[pair..pair + 2]);
    }
}

fn another_kind(random: &mut Random, pair: &mut [u8]) {
    pair[1] = (pair[1] + random.within(1, 7) as u8) % 8;
}

fn exchange(record: &mut [u8], one: usize, other: usize) {
    for at in 0..2 {
        record.swap(one + at, other + at);
    }
}

pub const ALTERATIONS: [(&str, Alteration); 19] = [
    ("another worker", |random, record, with| {
        change_pair(random, record, |random, pair| pair[0] = random.below(with.workers) as u8)
    }),
    ("a worker past T", |random, record, with| {
        let workers = with.workers as u8;
        change_pair(random, record, |random, pair| {
            pair[0] = random.pick(&[workers, workers + 1, workers + pair[0], 128, 255])
        })
    }),
    ("another kind", |random, record, _| change_pair(random, record, another_kind)),
    ("the first kind", |random, record, _| {
        record.chunks_exact_mut(2).take(1).for_each(|pair| another_kind(random, pair))
    }),
    ("the last kind", |random, record, _| {
        record.chunks_exact_mut(2).last().into_iter().for_each(|pair| another_kind(random, pair))
    }),
    ("a byte that is no kind", |random, record, _| {
        change_pair(random, record, |random, pair| pair[1] |= 8 << random.below(5))
    }),
    ("a byte more", |random, record, _| record.push(random.below(8) as u8)),
    ("another kind, a byte more", |random, record, _| {
        change_pair(random, record, another_kind);
        record.push(0);
    }),
    ("a byte less", |_, record, _| _ = record.pop()),
    ("cut", |random, record, _| record.truncate(random.below(record.len() + 1))),
    ("cut to pairs", |random, record, _| record.truncate(2 * random.below(record.len() / 2 + 1))),
    ("a pair left out", |random, record, _| {
        if let Some(pair) = some_pair(random, record) {
            record.drain(pair..pair + 2);
        }
    }),
    ("a pair twice", |random, record, _| {
        if let Some(pair) = some_pair(random, record) {
            let twice = [record[pair], record[pair + 1]];
            record.splice(pair..pair, twice);
        }
    }),
    ("two pairs exchanged", |random, record, _| {
        if let (Some(one), Some(other)) = (some_pair(random, record), some_pair(random, record)) {
            exchange(record, one, other);
        }
    }),
    ("neighbours exchanged", |random, record, _| {
        if let Some(pair) = some_pair(random, record).filter(|pair| pair + 3 < record.len()) {
            exchange(record, pair, pair + 2);
        }
    }),
    ("kinds before workers", |_, record, _| record.chunks_exact_mut(2).for_each(|pair| pair.swap(0, 1))),
    ("turns more", |random, record, with| {
        for _ in 0..random.within(1, 3) {
            record.extend([random.below(with.workers) as u8, random.pick(&[0, 0, 0, 1, 2, 3, 4, 5, 6, 7])]);
        }
    }),
    ("another day's", |_, record, with| *record = with.other.to_vec()),
    ("any bytes", |random, record, _| record.iter_mut().for_each(|byte| *byte = random.below(10) as u8)),
];
