//! The comparing call: byte strings beside the oracle's order, and the order's laws.

use std::ops::Range;

use oracle::canon::compare_forms;
use oracle::draft::Random;

use crate::lent::Input;
use crate::library::{code_of_order, compare_code};
use crate::totals::Totals;

/// The sorts of comparisons.
pub const COMPARED: [&str; 8] = [
    "both empty",
    "equal",
    "the first begins the second",
    "the second begins the first",
    "byte 0 differs",
    "a later byte differs",
    "a byte over 127 before one below",
    "a byte over 127 behind one below",
];

fn sort_of(s: &[u8], t: &[u8]) -> usize {
    let at = s.iter().zip(t).take_while(|(one, other)| one == other).count();
    match (s.get(at), t.get(at)) {
        (None, None) => usize::from(at > 0),
        (None, Some(_)) => 2,
        (Some(_), None) => 3,
        (Some(128..), Some(..128)) => 6,
        (Some(..128), Some(128..)) => 7,
        _ => 4 + usize::from(at > 0),
    }
}

/// One comparison; its code, or what is wrong with it.  Behind the first string stand
/// low bytes, behind the second high ones.
fn compare_pair(totals: &mut Totals, s: &[u8], t: &[u8]) -> Result<u64, String> {
    let (lent_s, lent_t) = (Input::between(&[255; 8], s, &[0; 8]), Input::between(&[0; 8], t, &[255; 8]));
    totals.calls += 1;
    totals.compared[sort_of(s, t)] += 1;
    let (code, right) = (compare_code(lent_s.bytes(), lent_t.bytes()), code_of_order(compare_forms(s, t)));
    if code != right {
        return Err(format!("compared, it answers {code}, expected {right}"));
    }
    if lent_s.altered() || lent_t.altered() {
        return Err("compared, a string was altered".to_string());
    }
    Ok(code)
}

/// Each of three strings with each, and the laws of an order among the answers.
fn fault_of_three(totals: &mut Totals, strings: [&[u8]; 3]) -> Result<(), String> {
    let mut codes = [[0; 3]; 3];
    for a in 0..3 {
        for b in 0..3 {
            codes[a][b] = compare_pair(totals, strings[a], strings[b])?;
        }
    }
    for a in 0..3 {
        for b in 0..3 {
            if (codes[a][b] == 1) != (strings[a] == strings[b]) || codes[a][b] + codes[b][a] != 2 {
                return Err("the order isn't the same both ways, or ties different strings".to_string());
            }
            if (0..3).any(|c| codes[a][b] <= 1 && codes[b][c] <= 1 && codes[a][c] > 1) {
                return Err("the order isn't transitive".to_string());
            }
        }
    }
    Ok(())
}

pub fn compare_three(totals: &mut Totals, name: &str, strings: [&[u8]; 3]) {
    if let Err(fault) = fault_of_three(totals, strings) {
        totals.differ(name, &strings.concat(), &fault);
    }
}

/// Bytes of a few values, at the edges of what a byte can be.
fn made_string(random: &mut Random, most: usize) -> Vec<u8> {
    (0..random.within(0, most)).map(|_| random.pick(&[0, 1, 127, 128, 255])).collect()
}

/// A string that differs from another in its end, in one byte, or not at all.
fn nearly(random: &mut Random, string: &[u8]) -> Vec<u8> {
    let mut near = string.to_vec();
    match random.below(4) {
        0 => near.truncate(random.within(0, string.len())),
        1 => near.extend(made_string(random, 3)),
        2 if !near.is_empty() => {
            let at = random.below(near.len());
            near[at] = random.below(256) as u8;
        }
        _ => {}
    }
    near
}

/// Made byte strings of any sort: short ones, and some of up to 100,000 bytes.
pub fn compare_strings(totals: &mut Totals, seeds: Range<u64>) {
    for seed in seeds {
        let random = &mut Random::new("strings", seed);
        let most = if seed % 100 == 0 { 100_000 } else { random.pick(&[0, 2, 8, 70]) };
        let one = made_string(random, most);
        let (two, three) = (nearly(random, &one), nearly(random, &one));
        compare_three(totals, &format!("strings {seed}"), [&one, &two, &three]);
    }
}

/// Every byte beside every other, alone and behind an equal one.
pub fn compare_bytes(totals: &mut Totals) {
    for pair in 0..=u16::MAX {
        let [one, other] = pair.to_le_bytes();
        for (s, t) in [(&[one][..], &[other][..]), (&[7, one], &[7, other]), (&[one, 255], &[other, 0])] {
            if let Err(fault) = compare_pair(totals, s, t) {
                totals.differ(&format!("bytes {one} {other}"), &[s, t].concat(), &fault);
            }
        }
    }
}
