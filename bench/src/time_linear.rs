//! Whether the time of Trace is linear in the places: one long curve of each dimension, traced with
//! space for more and more places. The terms, the box and the start are the same in all rows of a
//! curve, so that nothing but the places can make a row longer than the row before.

use reference::operations::Verdict;
use tracer::long_curves::{long_curves, spaces};

use crate::time_trace::{agreed, shortest, SPACE, TRACERS};

/// More rounds than for single jobs, since a difference of two times is less exact than a time.
const ROUNDS: usize = 100;

/// Times a place for each tracer, and for the proved one a place that the row has more than the row
/// before.
fn rows(name: &str, job: &[u8], places: usize) {
    let spaces: Vec<usize> = spaces(places).collect();
    let times = shortest(job, &spaces, ROUNDS);
    let mut row_before: Option<(usize, f64)> = None;
    for (&space, times) in spaces.iter().zip(&times) {
        let (verdict, count) = agreed(name, job, space);
        print!("{count:>14} {:>5}", verdict.word());
        times.iter().for_each(|ns| print!(" {:>9.1}", ns / count as f64));
        if let Some((fewer, before)) = row_before {
            print!(" {:>12.1}", (times[0] - before) / (count - fewer) as f64);
        }
        println!();
        row_before = Some((count, times[0]));
    }
}

pub fn all() {
    println!("best ns a place, and of the proved trace a place more than in the row before");
    print!("{:>14} {:>5}", "places", "");
    TRACERS.iter().for_each(|(name, _)| print!(" {name:>9}"));
    println!(" {:>12}", "proved, more");
    for (name, job) in long_curves() {
        let (verdict, places) = agreed(name, &job, SPACE);
        assert_eq!(verdict, Verdict::Loop, "{name} does not close");
        println!("{name}, a loop of {places} places");
        rows(name, &job, places);
    }
}
