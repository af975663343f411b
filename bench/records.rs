//! Times recorded runs and replays on made fields beside a start and a run of the same
//! turns, all by the library, one after the other.  bench/run builds it; kinds may be
//! named.

#[allow(dead_code)]
mod fields;
#[path = "../tests/records/library.rs"]
mod library;
#[path = "../tests/table/library.rs"]
#[allow(dead_code)]
mod table;
#[allow(dead_code)]
mod times;

use fields::{job_of, run_fields, Field};
use oracle::lines::job_of_text;
use oracle::orders::Orders;
use oracle::table::Layout;
use times::{median_times_of, ratio, show_spread};

/// The ring of three in examples/fields, with the first of the turns after its schedule.
fn three_claims() -> Field {
    let bytes = job_of_text(include_bytes!("../examples/fields/ring.rules")).expect("its lines fit");
    let schedule = [include_bytes!("../examples/fields/ring.schedule").as_slice(), &[0]].concat();
    Field { kind: "three", seed: 0, bytes, schedule }
}

/// A table, and how many turns of each kind it holds.
struct Ended {
    words: Vec<u32>,
    tally: [u64; 8],
}

impl Ended {
    fn new(field: &Field) -> Ended {
        let used = Layout::of_job(&job_of(&field.bytes), Orders::in_force()).used;
        Ended { words: vec![0; used], tally: [0; 8] }
    }

    fn start_and_run(&mut self, field: &Field) {
        let started = table::start(&field.bytes, &mut self.words);
        let run = table::run(&field.bytes, &mut self.words, &field.schedule, &mut self.tally);
        assert!(started == 0 && run == 0, "a made field is accepted");
    }

    fn record(&mut self, field: &Field, record: &mut [u8]) {
        let code = library::record(&field.bytes, &mut self.words, &field.schedule, record, &mut self.tally);
        assert!(code == 0, "a recorded run is accepted");
    }

    /// Whether the record is accepted.
    fn replay(&mut self, field: &Field, record: &[u8]) -> bool {
        library::replay(&field.bytes, &mut self.words, record, &mut self.tally) == 0
    }
}

/// The record with its last pair false, where it has one.
fn last_false(record: &[u8]) -> Vec<u8> {
    let mut record = record.to_vec();
    if let Some(kind) = record.last_mut() {
        *kind ^= 1;
    }
    record
}

/// A field's record; recorded run and replay end as start and run do.
fn record_of(field: &Field) -> Vec<u8> {
    let mut record = vec![0; 2 * field.schedule.len()];
    let [mut run, mut recorded, mut replayed] = [(); 3].map(|()| Ended::new(field));
    run.start_and_run(field);
    recorded.record(field, &mut record);
    assert!(replayed.replay(field, &record), "{} {}: the record is refused", field.kind, field.seed);
    for ended in [recorded, replayed] {
        assert!(ended.words == run.words && ended.tally == run.tally, "{} {}: the ends differ", field.kind, field.seed);
    }
    record
}

/// Prints a row; the times of a recorded run, a replay and a false replay to that of start
/// and run.
fn measure(field: &Field) -> [f64; 3] {
    let record = record_of(field);
    let (altered, mut buffer) = (last_false(&record), record.clone());
    let [mut one, mut two, mut three, mut four] = [(); 4].map(|()| Ended::new(field));
    let mut run = || one.start_and_run(field);
    let mut recorded = || two.record(field, &mut buffer);
    let mut replayed = || _ = three.replay(field, &record);
    let mut refused = || _ = four.replay(field, &altered);
    let [run, others @ ..] = median_times_of([&mut run, &mut recorded, &mut replayed, &mut refused]);
    let [recorded, replayed, refused] = others.map(|time| ratio(time, run));
    let (claims, turns, us) = (job_of(&field.bytes).claims, field.schedule.len(), 1e6 * run);
    println!(
        "| {:7} | {:4} | {claims:4} | {turns:6} | {us:16.2} | {recorded:>8} | {replayed:>6} | {refused:>15} |",
        field.kind, field.seed
    );
    others.map(|time| time / run)
}

const HEADING: &str = "\
| kind    | seed |    A |  turns | start and run us | recorded | replay | last pair false |
|---------|-----:|-----:|-------:|-----------------:|---------:|-------:|----------------:|
";

fn main() {
    let named: Vec<String> = std::env::args().skip(1).collect();
    let wanted = |kind: &str| named.is_empty() || named.iter().any(|name| name == kind);
    print!("{HEADING}");
    let three = Some(three_claims()).filter(|field| wanted(field.kind));
    let fields = three.into_iter().chain(run_fields(wanted));
    let ratios: Vec<[f64; 3]> = fields.map(|field| measure(&field)).collect();
    println!();
    for (at, name) in ["recorded run", "replay", "replay, last pair false"].into_iter().enumerate() {
        let ratios = ratios.iter().map(|ratio| ratio[at]).collect();
        show_spread(&format!("{name} / start and run"), ratios, "fields");
    }
}
