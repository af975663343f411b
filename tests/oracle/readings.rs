//! Wrong readings of the orders, and whether made jobs show them.

use crate::checks::{part_input, word_at, Job, Refusal};
use crate::jobs::generate;
use crate::model::{well_founded, Program, Verdict};
use crate::orders::{Missing, Newest, Orders, Skip, MISREADINGS};
use crate::table::Table;
use crate::turns::Kind;

/// The orders in which wrong readings are looked for.
pub fn worded() -> Orders {
    Orders::of(&[2, 3, 5])
}

/// The wrong readings that turns from a start can show.
pub fn wrong_readings() -> Vec<(&'static str, Orders)> {
    let skip = |skip: Skip| Orders { skip, ..worded() };
    let newest = |newest: Newest| Orders { newest, ..worded() };
    let mut readings = vec![
        ("losers' third words stay at takeover", newest(Newest::LosersKept)),
        ("third words stay at completion", newest(Newest::KeptAtCompletion)),
        ("literals behind a false one still lead", skip(Skip::StillLeading)),
        ("a negated literal of a false claim counts as false", skip(Skip::ByClaim)),
    ];
    readings.extend(MISREADINGS.map(|(name, missing)| (name, Orders { missing, ..worded() })));
    readings
}

/// Whether plain evaluation refuses the job under another reading, or gives it
/// other verdicts than its model.
pub fn evaluation_shows(bytes: &[u8], model: &[Verdict], reading: Orders) -> bool {
    Job::check(bytes, reading).map_or(true, |job| well_founded(&Program::of_job(&job)) != model)
}

/// A made job's schedule, then rounds, under another reading: is some turn or
/// table of the list another?
fn list_shows(input: &[u8], reading: Orders) -> bool {
    let (bytes, schedule) = part_input(input);
    let Ok(job) = Job::check(bytes, worded()) else { return false };
    let Ok(misread) = Job::check(bytes, reading) else { return true };
    let (mut table, mut other) = (Table::start(&job, worded(), true), Table::start(&misread, reading, true));
    let known = schedule.iter().map(|&byte| u32::from(byte)).filter(|&worker| (worker as usize) < job.workers);
    let rounds = (0..job.promised_rounds()).flat_map(|_| 0..job.workers as u32);
    for worker in known.chain(rounds) {
        if table.turn(worker) != other.turn(worker) || table.words != other.words {
            return true;
        }
        if table.all_answered() {
            break;
        }
    }
    false
}

/// How many of a kind's first seeds tell each wrong reading from the orders.
pub fn shown_by_lists(kind: &str, seeds: u64) -> Vec<u64> {
    let inputs: Vec<Vec<u8>> = (0..seeds).filter_map(|seed| generate(kind, seed, worded())).collect();
    let shown = |reading: Orders| inputs.iter().filter(|input| list_shows(input, reading)).count() as u64;
    wrong_readings().into_iter().map(|(_, reading)| shown(reading)).collect()
}

/// The wrong readings that tables which no run made can show alone.
pub fn wrong_on_tables() -> Vec<(&'static str, Orders)> {
    let newest = |newest: Newest| Orders { newest, ..worded() };
    vec![
        ("missing records stay at the exchange", Orders { missing: Missing::KeptAtExchange, ..worded() }),
        ("the claim opened is the newest", newest(Newest::LastOpened)),
        ("the lowest of equal opening numbers is the newest", newest(Newest::LowestOfEqual)),
        ("check 10 looks at a third word's range alone", newest(Newest::RangeOnly)),
    ]
}

/// What the turns of all workers, each alone, give on a table that no run need
/// have made: kinds and words, or the refusal.
fn turns_on(job: &Job, orders: Orders, words: &[u32]) -> Result<Vec<(Kind, Vec<u32>)>, Refusal> {
    let table = Table::from_words(job, orders, words.to_vec())?;
    let turn = |worker: u32| {
        let mut after = table.clone();
        (after.turn(worker), after.words)
    };
    Ok(table.workers().map(turn).collect())
}

/// How many of the first tables that no run made show each of these readings,
/// which turns from a start never do.
pub fn shown_by_tables(seeds: u64) -> Vec<(&'static str, u64)> {
    let shows = |input: &[u8], reading: Orders| {
        let (bytes, rest) = part_input(input);
        let words: Vec<u32> = rest.chunks_exact(4).map(|word| word_at(word, 0)).collect();
        let job = Job::check(bytes, worded()).expect("a job with a table is accepted");
        turns_on(&job, worded(), &words) != turns_on(&job, reading, &words)
    };
    let inputs: Vec<Vec<u8>> = (0..seeds).filter_map(|seed| generate("table", seed, worded())).collect();
    let count = |reading: Orders| inputs.iter().filter(|input| shows(input, reading)).count() as u64;
    wrong_on_tables().into_iter().map(|(name, reading)| (name, count(reading))).collect()
}
