//! The specification's worked fields, small enough to check by hand.

use crate::checks::NEGATED;
use crate::draft::{plain, Draft};
use crate::model::Verdict;

/// The worked fields P1 to P9: name, claims, rules, verdicts.
pub fn worked_fields() -> Vec<(&'static str, Draft, &'static str)> {
    let field = |claims: usize, rules: &[(usize, &[u16])]| {
        let mut draft = Draft::new(claims, 1);
        for &(head, body) in rules {
            draft.rule(head, body);
        }
        for claim in 0..claims {
            draft.ask(0, claim);
        }
        draft
    };
    let n = NEGATED;
    vec![
        ("P1", field(1, &[]), "f"),
        ("P2", field(1, &[(0, &[])]), "t"),
        ("P3", field(1, &[(0, &[0])]), "f"),
        ("P4", field(1, &[(0, &[n])]), "u"),
        ("P5", field(2, &[(0, &[1 + n]), (1, &[n])]), "uu"),
        ("P6", field(3, &[(0, &[1 + n]), (1, &[2 + n])]), "ftf"),
        ("P7", field(3, &[(0, &[1 + n]), (1, &[n]), (2, &[0]), (2, &[1])]), "uuu"),
        ("P8", field(2, &[(0, &[1 + n]), (0, &[]), (1, &[n])]), "tf"),
        ("P9", field(3, &[(0, &[1]), (1, &[0]), (2, &[n])]), "fft"),
    ]
}

/// Two claims, 0 if 1, 1 if 0: the specification's listing.
pub fn worked_listing() -> (Draft, &'static str) {
    let mut draft = Draft::new(2, 2);
    draft.rule(0, &[1]);
    draft.rule(1, &[0]);
    draft.ask(0, 0);
    draft.ask(1, 1);
    draft.schedule = vec![0, 1, 0, 1, 1, 1, 0, 0];
    let text = "claims 2\n0 false\n1 false\nquestions 2\n0 0 false\n1 1 false\ntally 0 1 2 1 1 0 1 2\n";
    (draft, text)
}

/// 0 if 1, 1 if 2, 2 if 0 with three workers.
pub fn worked_ring() -> Draft {
    let mut draft = Draft::new(3, 3);
    for claim in 0..3 {
        draft.rule(claim, &[plain((claim + 1) % 3)]);
        draft.ask(claim, claim);
    }
    draft.schedule = vec![0, 1, 2, 0, 1, 2, 2];
    draft
}

pub fn verdict_of_letter(letter: char) -> Verdict {
    match letter {
        't' => Verdict::True,
        'f' => Verdict::False,
        _ => Verdict::Undefined,
    }
}
