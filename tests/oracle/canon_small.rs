//! All small jobs of one sort, on which forms and keys must stand one to one
//! (order 7).

use std::collections::{BTreeSet, HashMap};

use crate::canon::Key;
use crate::draft::{not, plain, Body, Draft};
use crate::orders::{Missing, Orders};
use crate::promises::ensure;

/// All bodies of at most two literals over two claims, and a missing record.
fn all_records(orders: Orders) -> Vec<Body> {
    let literals = [plain(0), plain(1), not(0), not(1)];
    let mut records = vec![Body::Literals(Vec::new())];
    if orders.missing != Missing::Off {
        records.push(Body::Missing);
    }
    for one in literals {
        records.push(Body::Literals(vec![one]));
        records.extend(literals.iter().map(|&other| Body::Literals(vec![one, other])));
    }
    records
}

/// All lists of at most three such records for one head, and of at most one for
/// a second head beside at most two.
pub fn small_drafts(orders: Orders) -> impl Iterator<Item = Draft> {
    let records = all_records(orders);
    let choices: Vec<Option<Body>> = std::iter::once(None).chain(records.into_iter().map(Some)).collect();
    let count = choices.len();
    (0..2 * count * count * count).map(move |number| {
        let (place, heads) = (number / 2, [[0, 0, 0], [0, 0, 1]][number % 2]);
        let mut draft = Draft::new(2, 1);
        for (head, choice) in heads.into_iter().zip([place / count / count, place / count % count, place % count]) {
            draft.rules.extend(choices[choice].as_ref().map(|body| (head, body.clone())));
        }
        draft
    })
}

/// Forms met, each with its key, and all keys met.
#[derive(Default)]
pub struct OneToOne {
    key_of_form: HashMap<Vec<u8>, Key>,
    keys: BTreeSet<Key>,
}

impl OneToOne {
    /// A job's form; no form met before has another key.
    pub fn take(&mut self, draft: &Draft, form: Vec<u8>) -> Result<(), String> {
        let key = Key::of_draft(draft);
        let known = self.key_of_form.entry(form).or_insert_with(|| key.clone());
        let same = *known == key;
        self.keys.insert(key);
        ensure(same, "one form has two keys")
    }

    /// How many forms there are; no key has two.
    pub fn end(&self) -> Result<usize, String> {
        ensure(self.key_of_form.len() == self.keys.len(), "one key has two forms")?;
        Ok(self.keys.len())
    }
}
