//! A table of the oracle's and one lent to the library, moved on side by side.

use oracle::checks::{Job, Refusal};
use oracle::orders::Orders;
use oracle::table::Table;

use crate::calls::{Call, Given};
use crate::lent::Lent;
use crate::totals::Totals;

pub struct Beside<'a> {
    /// How to make the job again: its kind and seed.
    name: &'a str,
    bytes: &'a [u8],
    /// A copy of the job's bytes, which must stay as they are.
    kept: Vec<u8>,
    pub table: Table<'a>,
    lent: Lent,
    pub totals: &'a mut Totals,
    /// Calls made so far.
    step: usize,
    /// The two went apart, so nothing after that can be compared.
    pub apart: bool,
}

impl<'a> Beside<'a> {
    /// `words` are what the lent table holds before it is started, and enough.
    pub fn new(name: &'a str, bytes: &'a [u8], job: &'a Job, words: Vec<u32>, totals: &'a mut Totals) -> Beside<'a> {
        let mut table = Table::start(job, Orders::in_force(), false);
        let lent = Lent::new(&words);
        table.words = words;
        Beside { name, bytes, kept: bytes.to_vec(), table, lent, totals, step: 0, apart: false }
    }

    /// Both make a call on the table they have.
    pub fn make(&mut self, call: &Call) -> Given {
        let expected = call.by_oracle(&mut self.table, &mut self.totals.in_lists);
        let length = self.table.words.len();
        let given = call.by_library(self.bytes, self.lent.table(length));
        self.compare(call, "", expected, given);
        expected
    }

    /// A call on the first `length` words, too few.
    pub fn make_short(&mut self, call: &Call, length: usize) {
        let expected = Given::refused(Refusal { number: 9, place: self.table.layout.used });
        let given = call.by_library(self.bytes, self.lent.table(length));
        self.compare(call, &format!(" on {length} words"), expected, given);
    }

    /// A call with another job, which must be refused.
    pub fn make_with(&mut self, call: &Call, bytes: &[u8], refusal: Refusal) {
        let length = self.table.words.len();
        let given = call.by_library(bytes, self.lent.table(length));
        self.compare(call, " with a damaged job", Given::refused(refusal), given);
    }

    /// A call while a word is out of its range; none if the value is in range.
    pub fn make_damaged(&mut self, call: &Call, at: usize, value: u32) {
        let mut words = self.table.words.clone();
        words[at] = value;
        let Err(refusal) = Table::from_words(self.table.job, self.table.orders, words) else { return };
        let length = self.table.words.len();
        let kept = std::mem::replace(&mut self.table.words[at], value);
        self.lent.table(length)[at] = value;
        let given = call.by_library(self.bytes, self.lent.table(length));
        let expected = Given::refused(refusal);
        self.totals.count_bad_word(self.table.job, &self.table.words, &expected);
        self.compare(call, &format!(" with word {at} at {value}"), expected, given);
        self.table.words[at] = kept;
        self.lent.table(length)[at] = kept;
    }

    fn compare(&mut self, call: &Call, how: &str, expected: Given, given: Given) {
        self.totals.count(call, &expected, Some(&self.table.layout));
        if given != expected {
            self.differ(&format!("{call}{how} gives {given}, expected {expected}"));
        }
        if let Some(word) = self.lent.difference(&self.table.words) {
            self.differ(&format!("{call}{how}: {word}"));
        }
        self.step += 1;
    }

    pub fn differ(&mut self, what: &str) {
        self.apart = true;
        self.totals.differ(self.name, &format!("step {}: {what}", self.step));
    }

    /// The lent words, as the library left them.
    pub fn lent_words(&mut self) -> &[u32] {
        let length = self.table.words.len();
        self.lent.table(length)
    }

    /// To be called once in the end.
    pub fn expect_job_kept(&mut self) {
        if *std::hint::black_box(self.bytes) != self.kept[..] {
            self.differ("the job's bytes were changed");
        }
    }
}
