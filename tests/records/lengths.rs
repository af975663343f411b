//! Jobs, tables, schedules, buffers and records of 4 GiB and more, in memory of which a
//! few pages are touched.

use oracle::checks::{refuse, Refusal};
use oracle::newest_edges::pair;
use oracle::orders::Orders;
use oracle::record::{perform, Call, Lent};
use oracle::turns::Tally;

use crate::codes::{code_of_check, said};
use crate::library;
use crate::mapped::Mapped;
use crate::totals::Totals;

const FOUR_GIB: usize = 1 << 32;
const TURNS: [u8; 4] = [0, 1, 0, 1];
/// The words of a table of the ring.
const USED: usize = 22;

/// The ring of two after its first turns: the table, the record and the tally.
fn ended() -> (Vec<u32>, Vec<u8>, Tally) {
    let (job, table) = (pair().job_bytes(), vec![0; USED]);
    let mut lent = Lent { job, table, schedule: TURNS.to_vec(), bytes: vec![0; 2 * TURNS.len()] };
    let answer = perform(Call::RecordedRun, &mut lent, Orders::in_force());
    (lent.table, lent.bytes, answer.tally)
}

fn expect(totals: &mut Totals, name: &str, code: u64, check: Result<(), Refusal>, kept: bool) {
    let right = code_of_check(&check);
    totals.calls += 1;
    if code != right || !kept {
        let what = format!("{}, expected {}; what must stay stays: {kept}", said(code), said(right));
        totals.differ_day(name, &pair().job_bytes(), &what);
    }
}

fn zeros<T: PartialEq + Default>(part: &[T]) -> bool {
    part.iter().all(|item| *item == T::default())
}

/// Jobs so long that their length modulo 2^32 would be that of a good one.
pub fn long_jobs(totals: &mut Totals) {
    let job = pair().job_bytes();
    let length = FOUR_GIB + job.len();
    let mut mapped = Mapped::new(length);
    mapped.bytes()[..job.len()].copy_from_slice(&job);
    let (mut table, mut buffer, mut tally) = ([7; USED], [7; 8], [7; 8]);
    let code = library::record(mapped.bytes(), &mut table, &TURNS, &mut buffer, &mut tally);
    expect(totals, "a long job, a run", code, refuse(1, length), (table, buffer, tally) == ([7; USED], [7; 8], [0; 8]));
    let code = library::replay(mapped.bytes(), &mut table, &ended().1, &mut tally);
    expect(totals, "a long job, a replay", code, refuse(1, length), (table, tally) == ([7; USED], [0; 8]));
}

/// Tables and buffers so long that modulo 2^32 they would be too short.
pub fn long_outputs(totals: &mut Totals) {
    let (job, (words, record, right)) = (pair().job_bytes(), ended());
    let (mut mapped, mut mapped_buffer) = (Mapped::new(4 * FOUR_GIB + 20), Mapped::new(FOUR_GIB + 7));
    // SAFETY: every word may hold any bits; the mapping begins at a page.
    let table = unsafe { mapped.bytes().align_to_mut::<u32>().1 };
    let (buffer, mut tally) = (mapped_buffer.bytes(), [7; 8]);
    let last = table.len() - 1024;
    let left = |table: &[u32]| table[..USED] == words && zeros(&table[USED..2048]) && zeros(&table[last..]);
    let code = library::record(&job, table, &TURNS, buffer, &mut tally);
    let written = buffer[..8] == record && zeros(&buffer[8..8192]) && zeros(&buffer[FOUR_GIB - 4096..]);
    expect(totals, "a long table and buffer", code, Ok(()), left(table) && written && tally == right);
    table[..USED].fill(0);
    let code = library::replay(&job, table, &record, &mut tally);
    expect(totals, "a long table, a replay", code, Ok(()), left(table) && tally == right);
}

/// Schedules and records so long that modulo 2^32 twice their length would be short or
/// their length be another.
pub fn long_inputs(totals: &mut Totals) {
    let job = pair().job_bytes();
    let (mut table, mut buffer, mut tally) = ([7; USED], [7; 8], [7; 8]);
    let turns = FOUR_GIB / 2 + 2;
    let mut schedule = Mapped::new(turns);
    let code = library::record(&job, &mut table, schedule.bytes(), &mut buffer, &mut tally);
    let kept = (table, buffer, tally) == ([7; USED], [7; 8], [0; 8]);
    expect(totals, "a long schedule", code, refuse(25, 2 * turns), kept);
    let mut record = Mapped::new(FOUR_GIB + 1);
    let code = library::replay(&job, &mut table, record.bytes(), &mut tally);
    expect(totals, "a long odd record", code, refuse(23, FOUR_GIB + 1), (table, tally) == ([7; USED], [0; 8]));
    let code = library::replay(&job, &mut table, &record.bytes()[..FOUR_GIB], &mut tally);
    expect(totals, "a long record", code, refuse(24, 0), table[7..] == [0; 15] && tally == [0; 8]);
}
