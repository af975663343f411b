//! Checks of order 12 in second ways: the rule sets as typed lines, their models by all
//! unfounded sets and step by step, their turns by the text; and wrong readings, each of
//! which must print another table.

use std::collections::BTreeSet;

use crate::census::{census, counts, line, line_text, outcomes, rule_set, table, Line, Outcome, SIZES};
use crate::census_readings::{Met, CENSUS_READINGS};
use crate::checks::{refuse, Job, MAX_JOB_BYTES};
use crate::lines::job_of_lines;
use crate::model::{well_founded_by_definition, Program};
use crate::orders::Orders;
use crate::promises::{check_end, check_values, ensure};
use crate::table::Table;
use crate::textbook::well_founded_by_the_letter;
use crate::turns::{run_listing, Kind, Tally};

/// The order's own numerals: how many rule sets each size has, and the line of one claim.
const SETS: [usize; 3] = [4, 100, 21_952];
const ONE_CLAIM: &str = "1 2 1 2 4\n";
/// Sizes that check 26 refuses.
const REFUSED: [usize; 5] = [0, 4, 5, 65_536, usize::MAX];

#[derive(Default, Debug)]
pub struct CensusTotals {
    pub sets: usize,
    /// All sets' turns.
    pub tally: Tally,
    /// The table that each wrong reading prints, in one line.
    pub printed: Vec<(&'static str, String)>,
    /// Of those, how many are not the right one.
    pub shown: usize,
}

/// All bodies, each by its literals as typed, the last claim turning fastest.
fn typed_bodies(size: usize) -> Vec<Vec<String>> {
    let mut bodies = vec![Vec::new()];
    for claim in 0..size {
        let mut longer = Vec::new();
        for body in &bodies {
            for literal in [None, Some(format!("{claim}")), Some(format!("not {claim}"))] {
                longer.push(body.iter().cloned().chain(literal).collect());
            }
        }
        bodies = longer;
    }
    bodies
}

/// A claim's choices as typed: no line, or one with each of the bodies.
fn typed_choices(claim: usize, size: usize) -> Vec<String> {
    let mut choices = vec![String::new()];
    for body in typed_bodies(size) {
        let behind = if body.is_empty() { String::new() } else { format!(" if {}", body.join(", ")) };
        choices.push(format!("{claim}{behind}.\n"));
    }
    choices
}

/// All rule sets as typed, the last claim's choice turning fastest.
fn typed_sets(size: usize) -> Vec<String> {
    let mut texts = vec![format!("claims {size} workers 1\n")];
    for claim in 0..size {
        let mut longer = Vec::new();
        for text in &texts {
            for choice in &typed_choices(claim, size) {
                longer.push(format!("{text}{choice}"));
            }
        }
        texts = longer;
    }
    let asked: String = (0..size).map(|claim| format!("ask 0 {claim}\n")).collect();
    texts.into_iter().map(|text| text + &asked).collect()
}

/// The sets by number are those as typed, one after the other, as many as the order says,
/// and no two are the same.
fn jobs_of_size(size: usize) -> Result<Vec<Vec<u8>>, String> {
    let typed: Result<Vec<Vec<u8>>, _> =
        typed_sets(size).iter().map(|text| job_of_lines(text.as_bytes(), MAX_JOB_BYTES)).collect();
    let jobs: Vec<Vec<u8>> = (0..SETS[size - 1]).map(|place| rule_set(place, size).job_bytes()).collect();
    ensure(typed.as_ref() == Ok(&jobs), "by number and as typed other sets are met")?;
    ensure(BTreeSet::from_iter(&jobs).len() == jobs.len(), "a set is met twice")?;
    Ok(jobs)
}

fn check_models(job: &Job, outcome: &Outcome) -> Result<(), String> {
    let program = Program::of_job(job);
    ensure(well_founded_by_the_letter(&program) == outcome.verdicts, "all unfounded sets give other verdicts")?;
    ensure(well_founded_by_definition(&program) == outcome.verdicts, "W step by step gives other verdicts")
}

/// One worker opens and answers every claim once and never waits; so many turns answer
/// all, and one fewer doesn't.
fn check_turns(job: &Job, outcome: &Outcome, orders: Orders) -> Result<Tally, String> {
    let (end, tally) = run_listing(job, orders, &[], true, |_, _, _| {});
    let (quick, quick_tally) = run_listing(job, orders, &[], false, |_, _, _| {});
    ensure(tally == quick_tally && end.words == quick.words, "turns by the text and with shortcuts differ")?;
    ensure(tally.iter().sum::<u64>() == outcome.turns, "the tally has other turns")?;
    let turns_of = |kind: Kind| tally[kind as usize] as usize;
    let alone = [Kind::Idle, Kind::Woke, Kind::Waits, Kind::Took].iter().all(|&kind| turns_of(kind) == 0);
    ensure(alone, "a worker alone is idle or meets another")?;
    let once = [Kind::Opened, Kind::Answered].iter().all(|&kind| turns_of(kind) == job.claims);
    ensure(once, "not every claim is opened and answered once")?;
    check_values(&end, &outcome.verdicts)?;
    check_end(&end, &job.asked_closure())?;
    let mut short = Table::start(job, orders, true);
    short.run(&vec![0; outcome.turns as usize - 1]);
    ensure(!short.all_answered(), "one turn fewer answers all")?;
    ensure(short.turn(0) == Kind::Answered && short.all_answered(), "the last turn doesn't answer")?;
    Ok(tally)
}

/// The first three numbers add up to all sets.  Renaming claims makes each set another of
/// the same size, so they are every claim's.
fn check_line(met: &Met, line: Line) -> Result<(), String> {
    ensure(line[..3].iter().sum::<u64>() == SETS[met.size - 1] as u64, "the counts don't add up to all sets")?;
    let same = (0..met.size).all(|claim| counts(&met.outcomes, claim) == line[..3]);
    ensure(same, "another claim has other counts")?;
    let at = |place: usize| met.outcomes[place].turns;
    let (first, most) = (line[3] as usize, line[4]);
    let fewer_before = (0..first).all(|place| at(place) < most);
    ensure(at(first) == most && fewer_before, "the place isn't the first of these turns")?;
    ensure((first..met.outcomes.len()).all(|place| at(place) <= most), "a later set needs more turns")
}

fn check_size(size: usize, orders: Orders, totals: &mut CensusTotals) -> Result<Met, String> {
    let (jobs, met) = (jobs_of_size(size)?, Met { size, orders, outcomes: outcomes(size, orders) });
    ensure(met.outcomes.len() == jobs.len(), "not all sets are run")?;
    for (place, (bytes, outcome)) in jobs.iter().zip(&met.outcomes).enumerate() {
        let job = Job::check(bytes, orders).expect("a small rule set is accepted");
        let tally = check_models(&job, outcome).and_then(|()| check_turns(&job, outcome, orders));
        let tally = tally.map_err(|fault| format!("set {place}: {fault}"))?;
        totals.tally.iter_mut().zip(tally).for_each(|(sum, count)| *sum += count);
    }
    totals.sets += jobs.len();
    check_line(&met, line(&met.outcomes))?;
    Ok(met)
}

/// The readings that print the right table.
fn unshown(met: &[Met], right: &str, totals: &mut CensusTotals) -> Vec<String> {
    let mut unshown = Vec::new();
    for (name, reading) in CENSUS_READINGS {
        let printed: String = met.iter().map(|met| line_text(reading(met))).collect();
        if printed == right {
            unshown.push(format!("a wrong reading of order 12 prints the right table: {name}"));
        }
        totals.printed.push((name, printed.trim_end().replace('\n', "; ")));
    }
    totals.shown += CENSUS_READINGS.len() - unshown.len();
    unshown
}

/// All of it; the faults.
pub fn check(orders: Orders, totals: &mut CensusTotals) -> Vec<String> {
    let in_words = |size: usize, fault: String| format!("order 12, size {size}: {fault}");
    let sizes: Result<Vec<Met>, String> =
        SIZES.map(|size| check_size(size, orders, totals).map_err(|fault| in_words(size, fault))).collect();
    let met = match sizes {
        Ok(met) => met,
        Err(fault) => return vec![fault],
    };
    let right: String = met.iter().map(|met| line_text(line(&met.outcomes))).collect();
    let mut faults = unshown(&met, &right, totals);
    let printed = table(orders);
    if printed != right || !printed.starts_with(ONE_CLAIM) {
        faults.push("order 12: the table isn't that of its sizes, or not the order's for one claim".to_string());
    }
    let accepted = REFUSED.into_iter().filter(|&size| census(size, orders) != refuse(26, size));
    faults.extend(accepted.map(|size| in_words(size, "it isn't refused by 26".to_string())));
    faults
}
