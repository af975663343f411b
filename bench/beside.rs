//! Times an older library and the built one in one process, called in turn on the
//! same fields, and compares what they write: plain evaluation, or whole runs.
//! For libraries that make the same turns on tables of the same words; bench/run
//! makes both shared ones.
//!
//! usage: beside OLDER.so NEWER.so evaluation
//!        beside OLDER.so NEWER.so turns [KIND ..]

#[allow(dead_code)]
mod fields;
#[allow(dead_code)]
mod times;

use std::ffi::{c_char, c_int, c_void, CString};

use fields::{evaluated_fields, job_of, run_fields, Field};
use oracle::orders::Orders;
use oracle::table::Layout;
use times::{median_times_of, show_spread};

type Evaluate = unsafe extern "C" fn(*const u8, usize, *mut u8, usize) -> u64;
type Start = unsafe extern "C" fn(*const u8, usize, *mut u32, usize) -> u64;
type Run = unsafe extern "C" fn(*const u8, usize, *mut u32, usize, *const u8, usize, *mut u64, usize) -> u64;

extern "C" {
    fn dlopen(path: *const c_char, flags: c_int) -> *mut c_void;
    fn dlsym(library: *mut c_void, name: *const c_char) -> *mut c_void;
}

const RTLD_NOW: c_int = 2;

/// A function of a shared library, which is never closed.
fn function(path: &str, name: &str) -> *mut c_void {
    let [path_c, name_c] = [path, name].map(|text| CString::new(text).expect("no zero byte"));
    // SAFETY: both strings end in a zero byte.
    unsafe {
        let library = dlopen(path_c.as_ptr(), RTLD_NOW);
        assert!(!library.is_null(), "{path} can't be loaded");
        let symbol = dlsym(library, name_c.as_ptr());
        assert!(!symbol.is_null(), "{path} has no {name}");
        symbol
    }
}

/// Plain evaluation by the library of this path.
fn evaluator(path: &str) -> impl Fn(&[u8], &mut [u8]) -> u64 {
    // SAFETY: include/zestchintz.h has this type; slices are good for their lengths.
    let call = unsafe { std::mem::transmute::<*mut c_void, Evaluate>(function(path, "zestchintz_evaluate")) };
    move |job, out| unsafe { call(job.as_ptr(), job.len(), out.as_mut_ptr(), out.len()) }
}

/// Starting and a run by the library of this path; both must be accepted.
fn runner(path: &str) -> impl Fn(&Field, &mut [u32]) -> [u64; 8] {
    // SAFETY: tests/table/library.rs has these types; slices are good for their lengths.
    let start = unsafe { std::mem::transmute::<*mut c_void, Start>(function(path, "table_start")) };
    let run = unsafe { std::mem::transmute::<*mut c_void, Run>(function(path, "table_run")) };
    move |field, words| {
        let (job, schedule, mut tally) = (&field.bytes, &field.schedule, [0; 8]);
        let (table, length) = (words.as_mut_ptr(), words.len());
        let codes = unsafe {
            let started = start(job.as_ptr(), job.len(), table, length);
            let ran =
                run(job.as_ptr(), job.len(), table, length, schedule.as_ptr(), schedule.len(), tally.as_mut_ptr(), 8);
            [started, ran]
        };
        assert!(codes == [0, 0], "{} {}: refused", field.kind, field.seed);
        tally
    }
}

/// Prints a row; the ratio.
fn show(kind: &str, seed: u64, [before, after]: [f64; 2]) -> f64 {
    println!("| {kind:7} | {seed:4} | {:11.3} | {:11.3} | {:12.3} |", 1e6 * before, 1e6 * after, after / before);
    after / before
}

fn evaluation(older: &str, newer: &str) -> Vec<f64> {
    let (older, newer) = (evaluator(older), evaluator(newer));
    let measure = |(kind, seed, job): (&'static str, u64, Vec<u8>)| {
        let (mut expected, mut verdicts) = ([0; 4096], [0; 4096]);
        let codes = [older(&job, &mut expected), newer(&job, &mut verdicts)];
        assert!(codes[0] == codes[1] && expected == verdicts, "{kind} {seed}: the libraries differ");
        let calls: [&mut dyn FnMut(); 2] =
            [&mut || _ = older(&job, &mut expected), &mut || _ = newer(&job, &mut verdicts)];
        show(kind, seed, median_times_of(calls))
    };
    evaluated_fields().map(measure).collect()
}

fn turns(older: &str, newer: &str, kinds: &[String]) -> Vec<f64> {
    let (older, newer) = (runner(older), runner(newer));
    let measure = |field: Field| {
        let used = Layout::of_job(&job_of(&field.bytes), Orders::in_force()).used;
        let (mut expected, mut words) = (vec![0; used], vec![0; used]);
        let tallies = [older(&field, &mut expected), newer(&field, &mut words)];
        assert!(tallies[0] == tallies[1] && expected == words, "{} {}: the libraries differ", field.kind, field.seed);
        let calls: [&mut dyn FnMut(); 2] =
            [&mut || _ = older(&field, &mut expected), &mut || _ = newer(&field, &mut words)];
        show(field.kind, field.seed, median_times_of(calls))
    };
    run_fields(|kind| kinds.is_empty() || kinds.iter().any(|name| name == kind)).map(measure).collect()
}

fn main() {
    let words: Vec<String> = std::env::args().skip(1).collect();
    println!("| kind    | seed |   before us |    after us | after/before |");
    println!("|---------|-----:|------------:|------------:|-------------:|");
    let ratios = match words[2].as_str() {
        "turns" => turns(&words[0], &words[1], &words[3..]),
        _ => evaluation(&words[0], &words[1]),
    };
    println!();
    show_spread("after / before", ratios, "fields");
}
