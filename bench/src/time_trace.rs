//! Times Trace, job by job: buffers cleared before timing, the rounds of the tracers taking turns.
//! Prints the best time of each a place, and the ratios of the proved one to the others.

use std::hint::black_box;
use std::time::{Duration, Instant};

use library::ffi::Library;
use reference::operations::Verdict;
use reference::product::Product;
use tracer::{careful, plain};

#[cfg(before)]
use crate::archives;

/// Places that a buffer holds: more than any curve of the bench has.
pub const SPACE: usize = 50_000;
const ROUNDS: usize = 30;
/// A round repeats a job until about this many places are written.
const PLACES_A_ROUND: usize = 20_000;

pub type Trace = fn(&[u8], &mut [u8]) -> Result<(Verdict, usize), u8>;

/// The proved one first: the others are what it is compared with.
pub const TRACERS: &[(&str, Trace)] = &[
    ("proved", |job, buffer| Library.trace(job, buffer)),
    ("plain", plain::trace),
    ("careful", careful::trace),
    #[cfg(before)]
    ("before", archives::trace_before),
];

/// A buffer for the places of a job.
pub fn buffer_for(job: &[u8], space: usize) -> Vec<u8> {
    vec![0; 3 * job[1] as usize * space]
}

/// Verdict and count of a job with so much space, after all tracers have been seen to write the
/// same.
pub fn agreed(name: &str, job: &[u8], space: usize) -> (Verdict, usize) {
    let written = |trace: Trace| {
        let mut buffer = buffer_for(job, space);
        (trace(job, &mut buffer), buffer)
    };
    let first = written(TRACERS[0].1);
    for &(tracer, trace) in &TRACERS[1..] {
        let other = written(trace);
        assert_eq!(other.0, first.0, "{tracer} on {name}");
        assert!(other.1 == first.1, "{tracer} on {name}: other places");
    }
    first.0.expect("no refusal")
}

/// One round: the shortest of its calls, each on a cleared buffer. Single calls are compared and
/// not whole rounds, since a round of the slower tracer is more often interrupted.
fn round(trace: Trace, job: &[u8], buffer: &mut [u8], repeats: usize) -> Duration {
    let mut best = Duration::MAX;
    for _ in 0..repeats {
        buffer.fill(0);
        let begun = Instant::now();
        let answer = trace(black_box(job), black_box(buffer));
        best = best.min(begun.elapsed());
        black_box(answer).expect("no refusal");
    }
    best
}

/// Nanoseconds of the shortest call of each tracer, for each of these spaces. The spaces take turns
/// as the tracers do, so that what else the machine does for a while is not all in one of them.
/// About as many places are written as there is space.
pub fn shortest(job: &[u8], spaces: &[usize], rounds: usize) -> Vec<Vec<f64>> {
    let mut buffers: Vec<_> = spaces.iter().map(|&space| buffer_for(job, space)).collect();
    let mut best = vec![vec![Duration::MAX; TRACERS.len()]; spaces.len()];
    for _ in 0..rounds {
        for ((&space, buffer), best) in spaces.iter().zip(&mut buffers).zip(&mut best) {
            let repeats = (PLACES_A_ROUND / space).max(1);
            for (best, (_, trace)) in best.iter_mut().zip(TRACERS) {
                *best = (*best).min(round(*trace, job, buffer, repeats));
            }
        }
    }
    let nanoseconds = |call: &Duration| call.as_nanos() as f64;
    best.iter().map(|calls| calls.iter().map(nanoseconds).collect()).collect()
}

/// The line of a job.
pub fn time(name: &str, job: &[u8]) {
    let (verdict, count) = agreed(name, job, SPACE);
    let calls = &shortest(job, &[count + 1], ROUNDS)[0];
    let times: Vec<f64> = calls.iter().map(|ns| ns / count as f64).collect();
    print!("{name:<28} {:>5} {count:>6}", verdict.word());
    times.iter().for_each(|ns| print!(" {ns:>9.1}"));
    times[1..].iter().for_each(|ns| print!(" {:>15.2}", times[0] / ns));
    println!();
}

pub fn head() {
    print!("{:<28} {:>12}", "best ns a place", "places");
    TRACERS.iter().for_each(|(name, _)| print!(" {name:>9}"));
    TRACERS[1..].iter().for_each(|(name, _)| print!(" {:>15}", format!("proved/{name}")));
    println!();
}

pub fn read(file: &str) -> Vec<u8> {
    std::fs::read(file).unwrap_or_else(|error| panic!("{file}: {error}"))
}

/// One tracer on one job with so much space, so many times; prints the places of one.
pub fn run(tracer: &str, file: &str, space: usize, times: &str) {
    let known = TRACERS.iter().find(|(name, _)| *name == tracer);
    let (_, trace) = known.unwrap_or_else(|| panic!("no tracer {tracer}"));
    let times: usize = times.parse().expect("how many times");
    let job = read(file);
    let mut buffer = buffer_for(&job, space);
    let mut count = 0;
    for _ in 0..times {
        count = black_box(trace(black_box(&job), black_box(&mut buffer))).expect("no refusal").1;
    }
    println!("{count}");
}
