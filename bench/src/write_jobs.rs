//! The jobs that are written, and how a job is taken apart into its loose bodies.

use reference::build::case_a;
use reference::job::open;
use reference::limits::{Limits, DIMENSIONS};

use crate::jobs::to_open;
use crate::write_plain::Loose;

/// Jobs in a row.
pub const JOBS: usize = 100;

/// Jobs of one length, by name.
pub struct WriteJobs {
    pub name: &'static str,
    pub jobs: Vec<Vec<u8>>,
}

/// Case A over and over, then any jobs with full bodies in each dimension.
pub fn write_jobs() -> Vec<WriteJobs> {
    let case_a = WriteJobs { name: "case_a", jobs: vec![case_a().bytes(); JOBS] };
    let names = ["full_2", "full_3", "full_4"];
    let full = names
        .into_iter()
        .zip(DIMENSIONS)
        .map(|(name, n)| WriteJobs { name, jobs: to_open(n, Limits::of(n).terms, JOBS) });
    [case_a].into_iter().chain(full).collect()
}

/// The loose bodies of a job that opens.
pub fn taken_apart(job: &[u8]) -> Loose<'_> {
    let opened = open(job).expect("a job that opens");
    let body = |k: usize| {
        let (offset, length) = opened.bodies[k];
        &job[offset..offset + length]
    };
    let n = opened.n;
    let mut polynomials = [&job[..0]; 3];
    for k in 1..n {
        polynomials[k - 1] = body(k);
    }
    Loose { n: n as u64, bias: opened.bias, ends: body(0), polynomials, start: body(n) }
}
