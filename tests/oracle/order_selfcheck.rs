//! Checks of what the change orders say.  Of the turns: edge cases, all schedules
//! of small jobs, shortcuts beside the text, and wrong readings that must be found.

use crate::canon_check::{self, CanonTotals};
use crate::canon_readings::CANON_READINGS;
use crate::census_check::{self, CensusTotals};
use crate::checks::{part_input, word_at, Job};
use crate::clear_check::{self, readings_shown, ClearTotals};
use crate::clear_sorts::sorts;
use crate::draft::{Draft, Random};
use crate::explore::{explore_job, turn_as_worded, Met, TurnOf};
use crate::family::{explore_family, family_size};
use crate::faulty::{awaited_only_taken, losers_woken, never_taken};
use crate::jobs::generate;
use crate::lines_check::{self, LinesTotals};
use crate::lines_sorts;
use crate::missing_check::{check_slice, MissingTotals};
use crate::missing_jobs::add_missing;
use crate::missing_sorts::SORTS;
use crate::order_edges::{edge_fault, order_edges};
use crate::orders::Orders;
use crate::partners_check::{self, PartnersTotals};
use crate::partners_readings::PARTNERS_READINGS;
use crate::promises::ensure;
use crate::readings::{shown_by_lists, shown_by_tables, worded, wrong_readings};
use crate::record_check::{self, RecordTotals};
use crate::record_readings::RECORD_READINGS;
use crate::shortcuts::{check_shortcuts, Lists};
use crate::small_fields::make_small_field;
use crate::table::Table;
use crate::turns::Kind;

/// At most so many tables of a job are gone through.
const MOST_TABLES: usize = 40_000;

/// The edge cases of these orders: how many, and the faults.
pub fn check_order_edges(orders: Orders) -> (usize, Vec<String>) {
    let edges = order_edges(orders);
    (edges.len(), edges.iter().filter_map(|edge| edge_fault(edge, orders)).collect())
}

/// A small field, as it is explored; every third has missing records.
fn small_field(random: &mut Random, seed: u64, size: (usize, usize), orders: Orders) -> Draft {
    let mut draft = make_small_field(random, size.0, size.1);
    add_missing(&mut draft, seed, orders);
    draft
}

/// Explores one small job under every schedule.
pub fn explore_one(seed: u64, size: (usize, usize), orders: Orders, turn: TurnOf, met: &mut Met) -> Result<(), String> {
    let bytes = small_field(&mut Random::new("explore", seed), seed, size, orders).job_bytes();
    explore_job(&bytes, orders, turn, MOST_TABLES, met)
}

/// Explores so many made jobs, and the family's jobs that are `apart` from each other.
pub fn explore_some(jobs: u64, apart: usize, orders: Orders, met: &mut Met) -> Result<(), String> {
    for seed in 0..jobs {
        explore_one(seed, (5, 3), orders, turn_as_worded, met).map_err(|fault| format!("made {seed}: {fault}"))?;
    }
    for number in (0..family_size(orders)).step_by(apart) {
        explore_family(number, orders, met).map_err(|fault| format!("family {number}: {fault}"))?;
    }
    Ok(())
}

/// The first of `jobs` seeds that shows a fault, and the fault in words.
pub fn seeded_fault(jobs: u64, orders: Orders, turn: TurnOf) -> Option<(u64, String)> {
    let mut met = Met::default();
    (0..jobs).find_map(|seed| Some((seed, explore_one(seed, (5, 3), orders, turn, &mut met).err()?)))
}

/// The wrong readings and the three engine faults that must be found.
pub fn seeded_faults(jobs: u64) -> Vec<(&'static str, Option<(u64, String)>)> {
    let engines: [(&str, TurnOf); 3] = [
        ("losers woken at takeover", losers_woken),
        ("awaited claims only taken", awaited_only_taken),
        ("never taken", never_taken),
    ];
    let readings = wrong_readings().into_iter().map(|(name, orders)| (name, orders, turn_as_worded as TurnOf));
    let faults = readings.chain(engines.map(|(name, turn)| (name, worded(), turn)));
    faults.map(|(name, orders, turn)| (name, seeded_fault(jobs, orders, turn))).collect()
}

/// Every worker's turn on a table in range that no run need have made: it
/// changes something exactly when it isn't idle, and leaves a table in range.
pub fn check_lent_turns(input: &[u8], orders: Orders) -> Result<(), String> {
    let (bytes, rest) = part_input(input);
    let job = Job::check(bytes, orders).map_err(|refusal| format!("a made job is refused: {refusal:?}"))?;
    let words: Vec<u32> = rest.chunks_exact(4).map(|word| word_at(word, 0)).collect();
    let Ok(table) = Table::from_words(&job, orders, words) else { return Ok(()) };
    for worker in table.workers() {
        let mut after = table.clone();
        let kind = after.turn(worker);
        let changed = after.words != table.words;
        ensure(changed == (kind != Kind::Idle), "a turn changes something exactly when it isn't idle")?;
        let again = Table::from_words(&job, orders, after.words);
        ensure(again.is_ok(), "a turn leaves a table out of range")?;
    }
    Ok(())
}

/// Kinds and how many jobs of each have a list by shortcuts beside the text.
const LISTS: [(&str, u64); 10] = [
    ("explored", 500),
    ("tiny", 200),
    ("small", 200),
    ("failing", 300),
    ("tower", 40),
    ("negloop", 20),
    ("strat", 6),
    ("cluster", 6),
    ("ring", 10),
    ("chain", 3),
];

/// What a slice of everything showed, in lines, and the faults.
pub struct Checked {
    pub lines: Vec<String>,
    pub faults: Vec<String>,
    /// Tables explored.
    pub tables: u64,
}

impl Checked {
    /// The edge cases of these orders, jobs explored, lists and tables; of these
    /// one part in `parts`.
    fn turns_under(&mut self, numbers: &[u32], parts: u64) {
        let (mut met, mut lists) = (Met::default(), Lists::default());
        let orders = Orders::of(numbers);
        let (edges, faults) = check_order_edges(orders);
        self.faults.extend(faults);
        self.faults.extend(explore_some(1200 / parts, 211 * parts as usize, orders, &mut met).err());
        let list = |&(kind, seeds): &(&str, u64)| check_kind(kind, 0, seeds / parts, orders, &mut lists).err();
        self.faults.extend(LISTS.iter().filter_map(list));
        let tables = (0..2000 / parts).filter_map(|seed| generate("table", seed, orders));
        self.faults.extend(tables.filter_map(|input| check_lent_turns(&input, orders).err()));
        self.tables += met.tables;
        self.lines.push(format!(
            "orders {numbers:?}: {edges} edge cases; {} jobs explored, {} with missing records, {} tables, {} turns, {} skips; \
             {} lists by text and shortcuts, {} with missing records, {} turns, {} skips",
            met.jobs,
            met.missing,
            met.tables,
            met.turns,
            met.skips,
            lists.lists,
            lists.missing,
            lists.turns,
            lists.skips
        ));
        if numbers.contains(&5) && (met.skips == 0 || lists.skips == 0) {
            self.faults.push("no turn passed the rest of a failed rule".to_string());
        }
        if numbers.contains(&2) && (met.missing == 0 || lists.missing == 0) {
            self.faults.push("no job had a missing record".to_string());
        }
    }

    /// What order 1 says, in second ways.
    fn lines_in_other_ways(&mut self) {
        let mut totals = LinesTotals::default();
        self.faults.extend(lines_check::check_edges(&mut totals));
        let edges = totals.texts;
        self.faults.extend(lines_check::check_seeds(0..6000, &mut totals));
        self.lines.push(format!(
            "order 1 in second ways: {edges} edge cases, {} texts by both readings, {} accepted and read back; by \
             sort {:?}",
            totals.texts, totals.accepted, totals.sorts
        ));
        let unmet = lines_sorts::SORTS.iter().zip(totals.sorts).filter(|(_, count)| *count == 0);
        self.faults.extend(unmet.map(|(sort, _)| format!("never met: {sort}")));
    }

    /// What order 2 says, in second ways.
    fn missing_in_other_ways(&mut self) {
        let mut totals = MissingTotals::default();
        self.faults.extend(check_slice(worded(), &mut totals));
        self.lines.push(format!(
            "order 2 in second ways: {} inputs, {} refused, {} missing records; {} beside the extended job, {} beside \
             the alternating sets, {} completions on tables; claims by sort {:?}",
            totals.inputs,
            totals.refused,
            totals.records,
            totals.extended_jobs,
            totals.alternating,
            totals.completions,
            totals.sorts
        ));
        let unmet = SORTS.iter().zip(totals.sorts).filter(|(_, count)| *count == 0);
        self.faults.extend(unmet.map(|(sort, _)| format!("never met: {sort}")));
    }

    /// What order 7 says, in second ways, and wrong readings of it.
    fn forms_in_other_ways(&mut self) {
        let mut totals = CanonTotals::default();
        self.faults.extend(canon_check::check_slice(worded(), &mut totals));
        self.lines.push(format!(
            "order 7 in second ways: {} edge cases, {} forms, {} shorter than the job; {} equal pairs, {} unequal ones, \
             {} triples; {} small jobs of {} forms; readings shown {:?}",
            totals.edges,
            totals.forms,
            totals.shortened,
            totals.equal_pairs,
            totals.unequal_pairs,
            totals.triples,
            totals.small,
            totals.small_forms,
            totals.shown
        ));
        let unshown = CANON_READINGS.iter().zip(totals.shown).filter(|(_, count)| *count == 0);
        self.faults.extend(unshown.map(|((name, _), _)| format!("no job shows a wrong reading of order 7: {name}")));
    }

    /// What order 8 says, in second ways, and wrong readings of it.
    fn partners_in_other_ways(&mut self) {
        let mut totals = PartnersTotals::default();
        self.faults.extend(partners_check::check_edges(worded(), &mut totals));
        self.faults.extend(partners_check::check_seeds(0..4000, worded(), &mut totals));
        self.lines.push(format!(
            "order 8 in second ways: {} edge cases, {} jobs forwards and backwards, {} admitted, {:?} refused; {} \
             pairs admitted and finished, {} answers equal, in {} another worker's differ; of {} pairs not admitted \
             answers differ in {}; readings shown {:?}",
            totals.edges,
            totals.jobs,
            totals.admitted,
            totals.refused,
            totals.pairs,
            totals.answers,
            totals.others_differ,
            totals.not_admitted,
            totals.leaked,
            totals.shown
        ));
        let unshown = PARTNERS_READINGS.iter().zip(totals.shown).filter(|(_, count)| *count == 0);
        self.faults.extend(unshown.map(|((name, _), _)| format!("no job shows a wrong reading of order 8: {name}")));
        if totals.others_differ == 0 {
            self.faults.push("no admitted pair in which another worker's answers differ".to_string());
        }
        if totals.leaked == 0 {
            self.faults.push("no pair that isn't admitted in which the worker's answers differ".to_string());
        }
    }

    /// What order 9 says, in second ways, and wrong readings of it.
    fn clear_in_other_ways(&mut self) {
        let mut totals = ClearTotals::default();
        self.faults.extend(clear_check::check_worked(worded()));
        self.faults.extend(clear_check::check_slice(worded(), &mut totals));
        self.lines.push(format!(
            "order 9 in second ways: {} jobs, {} with missing records; {} models by all unfounded sets, clear claims \
             of {} path by path; claims by sort {:?}",
            totals.jobs, totals.with_missing, totals.by_sets, totals.by_paths, totals.sorts
        ));
        let unmet = sorts(worded()).iter().zip(totals.sorts).filter(|(_, count)| *count == 0);
        self.faults.extend(unmet.map(|(sort, _)| format!("never met: {sort}")));
        for (name, job) in readings_shown(worded()) {
            match job {
                Some(job) => self.lines.push(format!("order 9, {name}: shown by {job}")),
                None => self.faults.push(format!("no job of the family shows a wrong reading of order 9: {name}")),
            }
        }
    }

    /// What order 11 says, in second ways, and wrong readings of it.
    fn records_in_other_ways(&mut self) {
        let mut totals = RecordTotals::default();
        self.faults.extend(record_check::check_edges(worded(), &mut totals));
        self.faults.extend(record_check::check_seeds(0..600, worded(), &mut totals));
        self.faults.extend(record_check::check_short_records(0..120, worded(), &mut totals));
        self.lines.push(format!(
            "order 11 in second ways: {} edge cases, {} days, {} calls, {} accepted, refused by number {:?}; {} short \
             records, {} accepted; readings shown {:?}",
            totals.edges,
            totals.days,
            totals.calls,
            totals.accepted,
            totals.refused,
            totals.short,
            totals.short_accepted,
            totals.shown
        ));
        let unshown = RECORD_READINGS.iter().zip(totals.shown).filter(|(_, count)| *count == 0);
        self.faults.extend(unshown.map(|((name, _), _)| format!("no call shows a wrong reading of order 11: {name}")));
    }

    /// What order 12 says, in second ways, and wrong readings of it.
    fn census_in_other_ways(&mut self) {
        let mut totals = CensusTotals::default();
        self.faults.extend(census_check::check(worded(), &mut totals));
        self.lines.push(format!(
            "order 12 in second ways: {} rule sets by number and as typed lines, their models by all unfounded sets \
             and step by step, turns by text and shortcuts {:?}; {} of {} readings print another table",
            totals.sets,
            totals.tally,
            totals.shown,
            totals.printed.len()
        ));
    }

    fn faults_found(&mut self) {
        for (name, found) in seeded_faults(3000) {
            match found {
                Some((seed, fault)) => self.lines.push(format!("{name}: shown by made job {seed}: {fault}")),
                None => self.faults.push(format!("no made job shows this fault: {name}")),
            }
        }
    }

    fn readings_told_apart(&mut self, kind: &str) {
        let counts = shown_by_lists(kind, 200);
        self.lines.push(format!("wrong readings shown by lists of 200 jobs, kind {kind}: {counts:?}"));
        if counts.contains(&0) {
            self.faults.push(format!("no list of kind {kind} shows a wrong reading"));
        }
    }

    fn readings_told_apart_by_tables(&mut self) {
        for (name, count) in shown_by_tables(2000) {
            self.lines.push(format!("{name}: shown by {count} of 2000 tables"));
            if count == 0 {
                self.faults.push(format!("no table shows this wrong reading: {name}"));
            }
        }
    }
}

/// A slice of everything.
pub fn check_orders() -> Checked {
    let mut checked = Checked { lines: Vec::new(), faults: Vec::new(), tables: 0 };
    checked.turns_under(&[2, 3, 5], 1);
    for numbers in [&[2, 5][..], &[2], &[3], &[5], &[]] {
        checked.turns_under(numbers, 4);
    }
    checked.lines_in_other_ways();
    checked.missing_in_other_ways();
    checked.forms_in_other_ways();
    checked.partners_in_other_ways();
    checked.clear_in_other_ways();
    checked.records_in_other_ways();
    checked.census_in_other_ways();
    checked.faults_found();
    for kind in ["tiny", "small", "failing"] {
        checked.readings_told_apart(kind);
    }
    checked.readings_told_apart_by_tables();
    checked
}

/// Lists by shortcuts beside the text of a kind's seeds; `explored` are jobs like
/// those explored, somewhat larger.
pub fn check_kind(kind: &str, from: u64, seeds: u64, orders: Orders, lists: &mut Lists) -> Result<(), String> {
    for seed in from..from + seeds {
        let random = &mut Random::new("shortcuts", seed);
        let input = match kind {
            "explored" => small_field(random, seed, (9, 5), orders).bytes(),
            _ => generate(kind, seed, orders).ok_or("no such kind")?,
        };
        check_shortcuts(&input, orders, random, lists).map_err(|fault| format!("{kind} {seed}: {fault}"))?;
    }
    Ok(())
}
