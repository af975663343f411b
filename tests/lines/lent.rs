//! Lent memory between bytes that nobody may change.

use std::hint::black_box;
use std::ops::Range;

/// Bytes before and behind an output.
const GUARD: usize = 64;

/// Bytes lent for reading, with others around them.
pub struct Input {
    bytes: Vec<u8>,
    kept: Vec<u8>,
    lent: Range<usize>,
}

impl Input {
    pub fn between(before: &[u8], input: &[u8], behind: &[u8]) -> Input {
        let bytes = [before, input, behind].concat();
        Input { kept: bytes.clone(), bytes, lent: before.len()..before.len() + input.len() }
    }

    pub fn bytes(&self) -> &[u8] {
        &self.bytes[self.lent.clone()]
    }

    pub fn altered(&self) -> bool {
        *black_box(&self.bytes) != self.kept
    }
}

/// Memory for outputs, filled with a pattern in which neighbours differ.
pub struct Output {
    pattern: Vec<u8>,
    memory: Vec<u8>,
}

impl Output {
    /// For outputs of up to so many bytes.
    pub fn new(most: usize) -> Output {
        let pattern: Vec<u8> = (0..most + 2 * GUARD).map(|at| 0x80 | (at * 37 % 128) as u8).collect();
        Output { memory: pattern.clone(), pattern }
    }

    fn lent(length: usize) -> Range<usize> {
        GUARD..GUARD + length
    }

    /// An output of so many bytes, each as in the pattern.
    pub fn lend(&mut self, length: usize) -> &mut [u8] {
        let whole = ..length + 2 * GUARD;
        self.memory[whole].copy_from_slice(&self.pattern[whole]);
        &mut self.memory[Output::lent(length)]
    }

    /// What stands in an output.
    pub fn bytes(&self, length: usize) -> &[u8] {
        &black_box(&self.memory)[Output::lent(length)]
    }

    /// The first byte, by its place in an output of so many bytes, that isn't of
    /// what was to be written or, past that and around the output, of the pattern.
    pub fn difference(&self, length: usize, written: &[u8]) -> Option<String> {
        let memory = &black_box(&self.memory)[..length + 2 * GUARD];
        let end = GUARD + written.len();
        let parts = [(0, &self.pattern[..GUARD]), (GUARD, written), (end, &self.pattern[end..memory.len()])];
        let part = parts.into_iter().find(|(from, right)| memory[*from..from + right.len()] != **right);
        let (from, right) = part?;
        let at = (0..right.len()).find(|&at| memory[from + at] != right[at])?;
        let place = (from + at) as i64 - GUARD as i64;
        Some(format!("byte {place} is {}, expected {}", memory[from + at], right[at]))
    }
}
