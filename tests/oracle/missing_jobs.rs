//! Missing records in made jobs: every third of each kind has some.

use crate::checks::{MAX_INPUT_BYTES, MAX_RULES};
use crate::damage::put_half;
use crate::draft::{Body, Draft, Random};
use crate::missing::MISSING;
use crate::orders::{Missing, Orders};

/// Whether the made jobs of this seed have missing records.
pub fn has_missing(seed: u64, orders: Orders) -> bool {
    orders.missing != Missing::Off && seed % 3 == 2
}

/// Adds missing records if the made jobs of this seed have some.  A schedule that
/// no longer fits behind the job is cut.
pub fn add_missing(draft: &mut Draft, seed: u64, orders: Orders) {
    if has_missing(seed, orders) && draft.claims > 0 {
        add_missing_records(draft, &mut Random::new("missing", seed));
        draft.schedule.truncate(MAX_INPUT_BYTES - draft.job_bytes().len());
    }
}

/// Makes `head` missing by one more record, anywhere among its rules, which are
/// sorted by head.
pub fn insert_missing(draft: &mut Draft, random: &mut Random, head: usize) {
    let from = draft.rules.partition_point(|rule| usize::from(rule.0) < head);
    let to = draft.rules.partition_point(|rule| usize::from(rule.0) <= head);
    draft.rules.insert(random.within(from, to), (head as u16, Body::Missing));
}

/// Adds some missing records, and exchanges some rules for such, within the
/// limits; one at least.
fn add_missing_records(draft: &mut Draft, random: &mut Random) {
    draft.sort_by_head();
    let room = MAX_RULES as usize - draft.rules.len();
    let share = random.pick(&[0, 2, 10, 40]);
    let added = random.within(1, 2 + draft.claims * share / 100);
    for _ in 0..added.min(room) {
        let head = random.below(draft.claims);
        insert_missing(draft, random, head);
    }
    if room == 0 {
        let rule = random.below(draft.rules.len());
        draft.rules[rule].1 = Body::Missing;
    }
    let exchanged = random.pick(&[0, 0, 1, 5]);
    for rule in &mut draft.rules {
        if random.percent(exchanged) {
            rule.1 = Body::Missing;
        }
    }
}

/// Changes a 16-bit field behind the header to a value that bears on checks 5 to 8.
pub fn damage_field(random: &mut Random, bytes: &mut [u8]) {
    if bytes.len() >= 38 {
        let at = 36 + 2 * random.below((bytes.len() - 36) / 2);
        let value = random.pick(&[MISSING, MISSING, MISSING - 1, 0, 1, 2, 32_768, 32_767]);
        put_half(bytes, at, value);
    }
}
