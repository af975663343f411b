//! Tables on which others' turns come between two turns of a worker on what its newest
//! claim reaches: one gathers something else, one adds to what is reached a claim that
//! is newer than the one that moved on last.

use crate::draft::{plain, signed, Draft, Random};
use crate::missing_jobs::{has_missing, insert_missing};
use crate::order_edges::table_of;
use crate::orders::Orders;

/// Claims of the skeleton, before they are renamed.
const TOP: usize = 0;
const LAST: usize = 1;
const NEWER: usize = 2;
const MEETS: usize = 3;
const LEADS: usize = 4;
const STUCK: usize = 5;
const FRESH: usize = 6;
const KNOWN: usize = 7;
const SKELETON: usize = 8;

/// `TOP`, passed, leads to `LAST`, whose literals are known, and to `MEETS`, another
/// worker's, which meets `LEADS`, its own, and so `NEWER`.  A third worker's `STUCK`
/// leads to `FRESH`.  Further claims have any rules.
fn make_draft(random: &mut Random, names: &[usize]) -> Draft {
    let mut draft = Draft::new(names.len(), random.within(3, 4));
    let known = |random: &mut Random| signed(random, names[KNOWN], 30);
    let mut top = [plain(names[LAST]), plain(names[MEETS])];
    random.shuffle(&mut top);
    draft.rule(names[TOP], &top);
    for head in [LAST, NEWER] {
        for _ in 0..random.within(2, 4) {
            let body = [known(random)];
            draft.rule(names[head], &body);
        }
    }
    let behind = random.below(2);
    let mut body: Vec<u16> = (0..behind).map(|_| plain(names[MEETS])).collect();
    body.push(plain(names[LEADS]));
    draft.rule(names[MEETS], &body);
    draft.rule(names[LEADS], &[plain(names[NEWER])]);
    draft.rule(names[STUCK], &[plain(names[FRESH])]);
    for &head in &names[SKELETON..] {
        let other = random.pick(names);
        let body = [signed(random, other, 30), known(random)];
        draft.rule(head, &body);
    }
    let asks = random.within(1, 6);
    draft.ask_randomly(random, asks);
    draft
}

/// The job and the words of such a table.
pub fn make_between(random: &mut Random, seed: u64, orders: Orders) -> Vec<u8> {
    let claims = SKELETON + random.within(0, 4);
    let mut names: Vec<usize> = (0..claims).collect();
    random.shuffle(&mut names);
    let mut draft = make_draft(random, &names);
    if has_missing(seed, orders) {
        draft.sort_by_head();
        let head = random.below(claims);
        insert_missing(&mut draft, random, head);
    }
    let mut workers: Vec<usize> = (1..=draft.workers).collect();
    random.shuffle(&mut workers);
    let low = random.within(1, claims - 1);
    let mut records = vec![
        (TOP, [workers[0], 2, claims]),
        (LAST, [workers[0], 0, low]),
        (NEWER, [workers[0], 0, random.within(low, claims - 1)]),
        (MEETS, [workers[1], 0, claims]),
        (LEADS, [workers[1], 1, random.within(1, claims - 1)]),
        (STUCK, [workers[2], 1, random.within(1, claims)]),
        (KNOWN, [random.within(256, 258), 0, random.within(1, claims)]),
    ];
    for claim in SKELETON..claims {
        let owner = random.within(1, draft.workers);
        records.push((claim, [owner, random.within(0, 2), random.within(1, claims - 1)]));
    }
    let record = |(claim, words): (usize, [usize; 3])| (names[claim] as u32, words.map(|word| word as u32));
    let words = table_of(orders, &draft, &records.into_iter().map(record).collect::<Vec<(u32, [u32; 3])>>(), &[]);
    let mut bytes = draft.job_bytes();
    bytes.extend(words.iter().flat_map(|word| word.to_le_bytes()));
    bytes
}
