//! Wrong readings of order 7, each as the form that it gives a job.

use crate::canon::{canonical_bodies, canonical_draft, canonical_literals, with_bodies};
use crate::checks::NEGATED;
use crate::draft::{Body, Draft};

pub type Reading = fn(&Draft) -> Draft;

/// Bodies with literals as `literals` has them, then as `place` has them, a missing
/// record last.
fn bodies_by<K: Ord>(bodies: &[&Body], literals: fn(&[u16]) -> Vec<u16>, place: fn(&Vec<u16>) -> K) -> Vec<Body> {
    let mut written: Vec<Vec<u16>> =
        bodies.iter().filter(|body| ***body != Body::Missing).map(|body| literals(body.literals())).collect();
    written.sort_by_key(place);
    written.dedup();
    let missing = bodies.iter().any(|body| **body == Body::Missing).then_some(Body::Missing);
    written.into_iter().map(Body::Literals).chain(missing).collect()
}

fn by_length(body: &Vec<u16>) -> (usize, Vec<u16>) {
    (body.len(), body.clone())
}

fn in_order_met(literals: &[u16]) -> Vec<u16> {
    let mut met = Vec::new();
    literals.iter().for_each(|literal| {
        if !met.contains(literal) {
            met.push(*literal);
        }
    });
    met
}

fn with_repeats(literals: &[u16]) -> Vec<u16> {
    let mut rising = literals.to_vec();
    rising.sort_unstable();
    rising
}

fn by_bytes(literals: &[u16]) -> Vec<u16> {
    let mut rising = canonical_literals(literals);
    rising.sort_by_key(|literal| literal.to_le_bytes());
    rising
}

fn by_claim(literals: &[u16]) -> Vec<u16> {
    let mut rising = canonical_literals(literals);
    rising.sort_by_key(|literal| (literal & !NEGATED, literal & NEGATED));
    rising
}

/// By the length in the job, repeats counted.
fn by_length_in_job(bodies: &[&Body]) -> Vec<Body> {
    let mut by_length = bodies.to_vec();
    by_length.sort_by_key(|body| (body.length_field(), canonical_literals(body.literals())));
    once_each(&by_length)
}

/// Bodies as they stand, each once, with literals as in the form.
fn once_each(bodies: &[&Body]) -> Vec<Body> {
    let mut met: Vec<Body> = Vec::new();
    for body in bodies {
        let written = canonical_bodies(&[*body]).remove(0);
        if !met.contains(&written) {
            met.push(written);
        }
    }
    met
}

fn in_file_order(bodies: &[&Body]) -> Vec<Body> {
    let (missing, others) = bodies.iter().copied().partition::<Vec<&Body>, _>(|body| **body == Body::Missing);
    once_each(&[others, missing].concat())
}

/// Equal bodies as often as they stand.
fn repeated(bodies: &[&Body]) -> Vec<Body> {
    let mut written: Vec<Body> = bodies.iter().map(|body| canonical_bodies(&[*body]).remove(0)).collect();
    written.sort_by_key(|body| (body.length_field(), body.literals().to_vec()));
    written.dedup_by(|one, other| *one == Body::Missing && one == other);
    written
}

fn missing_repeated(bodies: &[&Body]) -> Vec<Body> {
    let missing = bodies.iter().filter(|body| ***body == Body::Missing).count();
    let mut written = canonical_bodies(bodies);
    written.extend((1..missing).map(|_| Body::Missing));
    written
}

fn missing_first(bodies: &[&Body]) -> Vec<Body> {
    let mut written = canonical_bodies(bodies);
    if written.last() == Some(&Body::Missing) {
        written.rotate_right(1);
    }
    written
}

fn missing_alone(bodies: &[&Body]) -> Vec<Body> {
    let mut written = canonical_bodies(bodies);
    if written.len() > 1 && written.last() == Some(&Body::Missing) {
        written.pop();
    }
    written
}

/// Bodies that another one of the head implies are left out.
fn least_bodies(bodies: &[&Body]) -> Vec<Body> {
    let written = canonical_bodies(bodies);
    let holds = |body: &Body, other: &Body| other.literals().iter().all(|literal| body.literals().contains(literal));
    let implied =
        |body: &Body| written.iter().any(|other| other != body && *other != Body::Missing && holds(body, other));
    written.iter().filter(|body| **body == Body::Missing || !implied(body)).cloned().collect()
}

/// Bodies that can't hold are left out.
fn possible_bodies(bodies: &[&Body]) -> Vec<Body> {
    let mut written = canonical_bodies(bodies);
    written.retain(|body| !body.literals().iter().any(|literal| body.literals().contains(&(literal ^ NEGATED))));
    written
}

fn questions_sorted(draft: &Draft) -> Draft {
    let mut form = canonical_draft(draft);
    form.questions.sort_unstable();
    form
}

fn questions_once(draft: &Draft) -> Draft {
    let mut form = canonical_draft(draft);
    let mut met = Vec::new();
    form.questions.retain(|question| {
        let first = !met.contains(question);
        met.push(*question);
        first
    });
    form
}

pub const CANON_READINGS: [(&str, Reading); 15] = [
    ("literals in the order they stand", |draft| with_bodies(draft, |b| bodies_by(b, in_order_met, by_length))),
    ("literals with repeats", |draft| with_bodies(draft, |b| bodies_by(b, with_repeats, by_length))),
    ("literals by their bytes", |draft| with_bodies(draft, |b| bodies_by(b, by_bytes, by_length))),
    ("literals by claim", |draft| with_bodies(draft, |b| bodies_by(b, by_claim, by_length))),
    ("bodies by literals alone", |draft| with_bodies(draft, |b| bodies_by(b, canonical_literals, Vec::clone))),
    ("bodies by length in the job", |draft| with_bodies(draft, by_length_in_job)),
    ("bodies in file order", |draft| with_bodies(draft, in_file_order)),
    ("bodies with repeats", |draft| with_bodies(draft, repeated)),
    ("missing records first", |draft| with_bodies(draft, missing_first)),
    ("missing records with repeats", |draft| with_bodies(draft, missing_repeated)),
    ("missing records lost beside rules", |draft| with_bodies(draft, missing_alone)),
    ("implied bodies left out", |draft| with_bodies(draft, least_bodies)),
    ("bodies that can't hold left out", |draft| with_bodies(draft, possible_bodies)),
    ("questions sorted", questions_sorted),
    ("questions once each", questions_once),
];

/// How many jobs show each reading by other bytes than the form's.
pub type Shown = [usize; CANON_READINGS.len()];

/// Jobs of more claims or rules than this aren't held to the readings, which take long.
const MOST: usize = 320;

pub fn count_shown(draft: &Draft, form: &[u8], shown: &mut Shown) {
    if draft.claims.max(draft.rules.len()) <= MOST {
        for (count, (_, reading)) in shown.iter_mut().zip(CANON_READINGS) {
            *count += usize::from(reading(draft).job_bytes() != form);
        }
    }
}
