//! The model by the letter of its definition (Van Gelder, Ross and Schlipf 1991):
//! the greatest unfounded set is the union of all sets of atoms that are
//! unfounded, every set being looked at.  For programs of a few atoms.

use crate::checks::Literal;
use crate::model::{Program, Verdict};

/// A set of atoms: bit a for atom a.
type Atoms = u32;

fn has(set: Atoms, atom: u32) -> bool {
    set >> atom & 1 == 1
}

/// A partial interpretation: the atoms true in it and those false in it.
#[derive(Clone, Copy, Default, PartialEq, Eq)]
struct Interpretation {
    trues: Atoms,
    falses: Atoms,
}

impl Interpretation {
    fn is_true(self, literal: &Literal) -> bool {
        has(if literal.negated { self.falses } else { self.trues }, literal.claim)
    }

    fn is_false(self, literal: &Literal) -> bool {
        has(if literal.negated { self.trues } else { self.falses }, literal.claim)
    }
}

/// Each rule of each member has a literal false in I or a plain atom in the set.
fn is_unfounded(program: &Program, set: Atoms, i: Interpretation) -> bool {
    let witness = |literal: &Literal| i.is_false(literal) || (!literal.negated && has(set, literal.claim));
    let mut rules = (0..program.heads.len()).filter(|&rule| has(set, program.heads[rule]));
    rules.all(|rule| program.body(rule).iter().any(witness))
}

/// U(I).
fn greatest_unfounded(program: &Program, i: Interpretation) -> Atoms {
    let sets = 0..1 << program.atoms;
    sets.filter(|&set| is_unfounded(program, set, i)).fold(0, |union, set| union | set)
}

/// T(I): the heads of rules all of whose literals are true in I.
fn immediate(program: &Program, i: Interpretation) -> Atoms {
    let fits = |&rule: &usize| program.body(rule).iter().all(|literal| i.is_true(literal));
    (0..program.heads.len()).filter(fits).fold(0, |heads, rule| heads | 1 << program.heads[rule])
}

/// W(I) = T(I) + not U(I), iterated from the empty interpretation, for a program
/// without missing records.
pub fn well_founded_by_the_letter(program: &Program) -> Vec<Verdict> {
    let mut i = Interpretation::default();
    loop {
        let next = Interpretation { trues: immediate(program, i), falses: greatest_unfounded(program, i) };
        if next == i {
            break;
        }
        i = next;
    }
    let verdict = |atom: u32| match (has(i.trues, atom), has(i.falses, atom)) {
        (true, false) => Verdict::True,
        (false, true) => Verdict::False,
        (false, false) => Verdict::Undefined,
        (true, true) => panic!("W keeps I consistent"),
    };
    (0..program.atoms as u32).map(verdict).collect()
}
