//! Times the call that writes a job's form: the library's, the oracle's, and a plain
//! program's, which sorts all rules at once; one after the other on the same job.
//! bench/run builds it.

#[allow(dead_code)]
mod fields;
#[path = "../tests/canon/library.rs"]
#[allow(dead_code)]
mod library;
#[allow(dead_code)]
mod times;

use fields::{evaluated_fields, job_of};
use oracle::canon::{canonical_form, canonical_literals};
use oracle::checks::{Job, Refusal, MAX_CLAIMS, MAX_JOB_BYTES, MAX_LITERALS, MAX_RULES, NEGATED};
use oracle::draft::{random_literal, Body, Draft, Random};
use oracle::orders::Orders;
use times::{median_times_of, ratio, show_spread};

const CLAIMS: usize = MAX_CLAIMS as usize;
const RULES: usize = MAX_RULES as usize;
const LITERALS: usize = MAX_LITERALS as usize;

struct Field {
    name: String,
    job: Vec<u8>,
}

/// A job, and the same with what is sorted in it falling and in any order.
fn three_orders(name: &str, rising: &Draft, falling: impl Fn(&mut Draft), mixed: impl Fn(&mut Draft)) -> [Field; 3] {
    let (mut down, mut any) = (rising.clone(), rising.clone());
    falling(&mut down);
    mixed(&mut any);
    [("rising", rising), ("falling", &down), ("random", &any)]
        .map(|(order, draft)| Field { name: format!("{name}, {order}"), job: draft.job_bytes() })
}

/// One body of so many literals, each of the 8,192 that there are as often.
fn one_body(literals: usize) -> [Field; 3] {
    let each = |at: usize| at * 2 * CLAIMS / literals;
    let literal = |at: usize| (each(at) % CLAIMS) as u16 | if each(at) < CLAIMS { 0 } else { NEGATED };
    let mut draft = Draft::new(CLAIMS, 1);
    draft.rule(0, &(0..literals).map(literal).collect::<Vec<u16>>());
    let body = |draft: &mut Draft, change: &dyn Fn(&mut [u16])| change(draft.rules[0].1.literals_mut());
    three_orders(
        &format!("{literals} literals"),
        &draft,
        |draft| body(draft, &|literals| literals.reverse()),
        |draft| body(draft, &|literals| Random::new("body", 0).shuffle(literals)),
    )
}

/// Rules of one head, their bodies of two or three literals.
fn one_head() -> [Field; 3] {
    let random = &mut Random::new("head", 0);
    let mut draft = Draft::new(CLAIMS, 1);
    for rule in 0..RULES {
        let body: Vec<u16> = (0..2 + rule % 2).map(|_| random_literal(random, CLAIMS, 40)).collect();
        draft.rule(0, &canonical_literals(&body));
    }
    draft.rules.sort_by_key(|(_, body)| (body.length_field(), body.literals().to_vec()));
    three_orders(
        "6144 rules, one head",
        &draft,
        |draft| draft.rules.reverse(),
        |draft| Random::new("rules", 0).shuffle(&mut draft.rules),
    )
}

/// Rules of all heads, one to three each.
fn many_heads() -> Field {
    let random = &mut Random::new("heads", 0);
    let mut draft = Draft::new(CLAIMS, 1);
    for head in 0..CLAIMS {
        for _ in 0..random.within(1, 3).min(RULES - draft.rules.len()) {
            let length = random.within(1, 4).min(LITERALS - draft.literal_sum());
            let body: Vec<u16> = (0..length).map(|_| random_literal(random, CLAIMS, 40)).collect();
            draft.rule(head, &body);
        }
    }
    Field { name: "1 to 3 rules a head".to_string(), job: draft.job_bytes() }
}

fn large_fields() -> Vec<Field> {
    [one_body(LITERALS), one_body(2 * CLAIMS), one_head()].into_iter().flatten().chain([many_heads()]).collect()
}

/// The form by sorting all rules at once.
fn sorted_form(bytes: &[u8]) -> Result<Vec<u8>, Refusal> {
    let mut form = Draft::of_job(&Job::check(bytes, Orders::in_force())?);
    for (_, body) in &mut form.rules {
        if let Body::Literals(literals) = body {
            literals.sort_unstable();
            literals.dedup();
        }
    }
    let place = |(head, body): &(u16, Body)| (*head, body.length_field());
    form.rules.sort_unstable_by(|one, other| {
        place(one).cmp(&place(other)).then_with(|| one.1.literals().cmp(other.1.literals()))
    });
    form.rules.dedup();
    Ok(form.job_bytes())
}

/// A Rust program's call, with the library's way of answering.
fn call(form: Result<Vec<u8>, Refusal>, out: &mut [u8]) -> u64 {
    let form = form.expect("a field timed is accepted");
    out[..form.len()].copy_from_slice(&form);
    form.len() as u64
}

fn call_oracle(job: &[u8], out: &mut [u8]) -> u64 {
    call(canonical_form(job, out.len(), Orders::in_force()), out)
}

fn call_sorted(job: &[u8], out: &mut [u8]) -> u64 {
    call(sorted_form(job), out)
}

/// Prints a row; the ratios to the oracle's time and to the plain program's.
fn measure(field: &Field) -> [f64; 2] {
    let (job, mut outs) = (&field.job, [[0; MAX_JOB_BYTES]; 3]);
    let [out, expected, sorted] = &mut outs;
    let codes = [library::form_of_job(job, out), call_oracle(job, expected), call_sorted(job, sorted)];
    assert!(codes[0] == codes[1] && out == expected, "{}: the forms differ", field.name);
    assert!(codes[1] == codes[2] && expected == sorted, "{}: the Rust programs differ", field.name);
    let mut ours = || _ = library::form_of_job(job, out);
    let mut oracle = || _ = call_oracle(job, expected);
    let mut plain = || _ = call_sorted(job, sorted);
    let [ours, oracle, plain] = median_times_of([&mut ours, &mut oracle, &mut plain]);
    let [us, oracle_us, plain_us] = [ours, oracle, plain].map(|seconds| 1e6 * seconds);
    let (to_oracle, to_plain, rules) = (ratio(ours, oracle), ratio(ours, plain), job_of(job).rules.len());
    println!(
        "| {:29} | {rules:5} | {:6} | {us:9.2} | {oracle_us:9.2} | {plain_us:9.2} | {to_oracle:>11} | {to_plain:>10} |",
        field.name,
        job.len()
    );
    [ours / oracle, ours / plain]
}

const HEADING: &str = "\
| job                           | rules |  bytes |   ours us | oracle us |  plain us | ours/oracle | ours/plain |
|-------------------------------|------:|-------:|----------:|----------:|----------:|------------:|-----------:|
";

fn main() {
    print!("{HEADING}");
    let made = evaluated_fields().map(|(kind, seed, job)| Field { name: format!("{kind} {seed}"), job });
    let ratios: Vec<[f64; 2]> = large_fields().into_iter().chain(made).map(|field| measure(&field)).collect();
    println!();
    show_spread("ours / oracle", ratios.iter().map(|ratio| ratio[0]).collect(), "jobs");
    show_spread("ours / plain", ratios.iter().map(|ratio| ratio[1]).collect(), "jobs");
}
