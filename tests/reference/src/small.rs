//! Request 2.10, "The small bench cutter": two entries of its own. All the limits of the paper hold
//! besides its own two, so each opens the job as the full cutter does, and then tests 17.

use crate::job::{open, Job};
use crate::limits::{SMALL_COORDINATE, SMALL_TERMS};
use crate::operations::{trace, Verdict};

/// Whether a box end lies outside -64 to 64 or a polynomial has over 16 terms.
fn is_too_large(job: &Job) -> bool {
    let outside = |end: i64| !(-SMALL_COORDINATE..=SMALL_COORDINATE).contains(&end);
    job.ends.iter().any(|&(low, high)| outside(low) || outside(high))
        || job.polynomials.iter().any(|polynomial| polynomial.len() > SMALL_TERMS)
}

/// **Small open.** Open's refusals, 1 to 8, then 17; else what Open answers.
pub fn small_open(job: &[u8]) -> Result<Job, u8> {
    let opened = open(job)?;
    if is_too_large(&opened) {
        return Err(17);
    }
    Ok(opened)
}

/// **Small trace.** The refusals of small open, then Trace's 9, 10 and 11; else what Trace answers
/// and writes.
pub fn small_trace(job: &[u8], buffer: &mut [u8]) -> Result<(Verdict, usize), u8> {
    small_open(job)?;
    trace(job, buffer)
}
