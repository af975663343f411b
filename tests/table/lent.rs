//! The words lent to the library, between guards that nobody may change.

use std::hint::black_box;

const GUARD: usize = 16;

pub struct Lent {
    words: Vec<u32>,
}

/// A guard word: in range nowhere, and unlike its neighbours.
fn guard(at: usize) -> u32 {
    0xa500_0000 + (at as u32).wrapping_mul(40_503) % 0x10_0000
}

impl Lent {
    pub fn new(table: &[u32]) -> Lent {
        let mut words: Vec<u32> = (0..table.len() + 2 * GUARD).map(guard).collect();
        words[GUARD..GUARD + table.len()].copy_from_slice(table);
        Lent { words }
    }

    /// The table, or its first `length` words.
    pub fn table(&mut self, length: usize) -> &mut [u32] {
        &mut self.words[GUARD..GUARD + length]
    }

    /// The first word, guards included, that isn't as it must be.
    pub fn difference(&self, expected: &[u32]) -> Option<String> {
        let words = black_box(&self.words);
        let (before, rest) = words.split_at(GUARD);
        let (table, after) = rest.split_at(expected.len());
        let from_after = GUARD + expected.len();
        let guarded = |part: &[u32], from: usize| (0..GUARD).find(|&at| part[at] != guard(from + at));
        if table != expected {
            let at = (0..table.len()).find(|&at| table[at] != expected[at])?;
            return Some(format!("word {at} is {}, expected {}", table[at], expected[at]));
        }
        if let Some(at) = guarded(before, 0) {
            return Some(format!("the word {} before the table was changed", GUARD - at));
        }
        guarded(after, from_after).map(|at| format!("the word {} after the table was changed", at + 1))
    }
}
