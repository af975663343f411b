//! Times of calls made in turn, and their ratios.

use std::time::{Duration, Instant};

/// Calls are made in turn for so long, but at least and at most so often each.
const LONG_ENOUGH: Duration = Duration::from_millis(600);
const LEAST: usize = 5;
const OFTEN_ENOUGH: usize = 501;

fn go_on(rounds: usize, start: Instant) -> bool {
    rounds < LEAST || (rounds < OFTEN_ENOUGH && start.elapsed() < LONG_ENOUGH)
}

fn time(call: &mut dyn FnMut()) -> f64 {
    let start = Instant::now();
    call();
    start.elapsed().as_secs_f64()
}

/// Seconds that each of some calls takes: the medians of several, in turn, so
/// that what else the machine does meets all alike.
pub fn median_times<const N: usize>(mut calls: [&mut dyn FnMut(); N]) -> [f64; N] {
    let start = Instant::now();
    let mut times = [(); N].map(|()| Vec::new());
    while go_on(times[0].len(), start) {
        for (times, call) in times.iter_mut().zip(&mut calls) {
            times.push(time(call));
        }
    }
    times.map(median)
}

/// The same for calls that may be shorter than the clock can tell: each time is
/// that of as many calls as take some 20 microseconds.
pub fn median_times_of<const N: usize>(calls: [&mut dyn FnMut(); N]) -> [f64; N] {
    const LONG: f64 = 20e-6;
    let mut often = 1;
    let mut calls = calls;
    while often < 1 << 10 && time(&mut || (0..often).for_each(|_| calls[0]())) < LONG {
        often *= 2;
    }
    let mut many = calls.map(|call| move || (0..often).for_each(|_| call()));
    median_times(many.each_mut().map(|call| call as &mut dyn FnMut())).map(|seconds| seconds / f64::from(often))
}

/// The same for calls on words that are put back before each.
pub fn median_times_on<const N: usize>(words: &[u32], mut calls: [&mut dyn FnMut(&mut [u32]); N]) -> [f64; N] {
    let start = Instant::now();
    let mut lent = words.to_vec();
    let mut times = [(); N].map(|()| Vec::new());
    while go_on(times[0].len(), start) {
        for (times, call) in times.iter_mut().zip(&mut calls) {
            lent.copy_from_slice(words);
            times.push(time(&mut || call(&mut lent)));
        }
    }
    times.map(median)
}

pub fn median(mut values: Vec<f64>) -> f64 {
    values.sort_by(f64::total_cmp);
    values[values.len() / 2]
}

/// A ratio, with fewer places the larger it is.
pub fn ratio(over: f64, under: f64) -> String {
    match over / under {
        value if value < 0.1 => format!("{value:.4}"),
        value if value < 10.0 => format!("{value:.2}"),
        value => format!("{value:.0}"),
    }
}

/// Prints the median and the extremes of some ratios, and of how many things.
pub fn show_spread(name: &str, mut ratios: Vec<f64>, things: &str) {
    ratios.sort_by(f64::total_cmp);
    if let (Some(least), Some(most)) = (ratios.first(), ratios.last()) {
        let middle = ratios[ratios.len() / 2];
        println!("{name}: least {least:.2}, median {middle:.2}, most {most:.2} ({} {things})", ratios.len());
    }
}
