//! The writers of jobs in Rust against what the request says: the job is put together, opened by the
//! reference, and laid over the buffer.

use reference::build::{assemble, case_a, case_c};
use reference::generate::{valid, Random};
use reference::job::open;
use reference::limits::{Limits, DIMENSIONS};
use reference::tally::Tally;

use crate::write_jobs::{taken_apart, write_jobs, JOBS};
use crate::write_plain::{write_job, write_job_carefully, Loose};

/// Loose bodies to be changed: box, three polynomials, start.
#[derive(Clone, Debug)]
struct Drawing {
    n: u64,
    bias: u8,
    bodies: [Vec<u8>; 5],
}

impl Drawing {
    fn of(job: &[u8]) -> Drawing {
        let Loose { n, bias, ends, polynomials: [first, second, third], start } = taken_apart(job);
        Drawing { n, bias, bodies: [ends, first, second, third, start].map(|body| body.to_vec()) }
    }

    fn loose(&self) -> Loose<'_> {
        let [ends, first, second, third, start] = &self.bodies;
        Loose { n: self.n, bias: self.bias, ends, polynomials: [first, second, third], start }
    }

    /// The job, or the number of the refusal that opening it would give. The reference cuts n and the
    /// lengths to their fields, so those that are too large are tested here.
    fn job(&self) -> Result<Vec<u8>, u8> {
        let Some(n) = DIMENSIONS.into_iter().find(|&n| n as u64 == self.n) else { return Err(3) };
        let bodies = [&self.bodies[..n], &self.bodies[4..]].concat();
        if bodies.iter().any(|body| body.len() > u16::MAX as usize) {
            return Err(5);
        }
        let job = assemble(n, self.bias, &bodies);
        open(&job).map(|_| job)
    }
}

/// At the limits of masks, sides, exponents, and the low and high bytes of a number.
const BYTES: [u8; 9] = [0, 1, 2, 3, 4, 5, 16, 128, 255];

/// Compares answers and buffers of that length with the request; gives the answer.
fn compared(r: &mut Random, drawing: &Drawing, length: usize) -> Result<usize, u8> {
    let noise = r.bytes(length);
    let mut wanted_buffer = noise.clone();
    let wanted = drawing.job().and_then(|job| {
        wanted_buffer.get_mut(..job.len()).ok_or(16)?.copy_from_slice(&job);
        Ok(job.len())
    });
    for write in [write_job, write_job_carefully] {
        let mut buffer = noise.clone();
        assert_eq!(write(&drawing.loose(), &mut buffer), wanted, "{drawing:?}");
        assert!(buffer == wanted_buffer, "{drawing:?}");
    }
    wanted
}

/// Changes the length or a byte of a body that is read. 65,536 bytes more are the same length in 16
/// bits.
fn change(r: &mut Random, n: usize, drawing: &mut Drawing) {
    let body = &mut drawing.bodies[r.pick(&[0, 1, n - 1, 4])];
    let at = r.index(body.len() + 1);
    match r.below(6) {
        0 => body.truncate(at),
        1 => body.extend_from_within(at..),
        2 => body.resize(body.len() + 65_536, 0),
        _ => body.iter_mut().skip(at).take(1).for_each(|byte| *byte = r.pick(&BYTES)),
    }
}

#[test]
fn both_write_what_the_request_says() {
    let mut r = Random::new(61);
    let mut met = Tally::default();
    for _ in 0..60_000 {
        let (_, parts) = valid(&mut r);
        let (job, n) = (parts.bytes(), parts.n);
        let mut drawing = Drawing::of(&job);
        for _ in 0..r.pick(&[0, 1, 1, 2]) {
            change(&mut r, n, &mut drawing);
        }
        // What is not read may be anything.
        for body in &mut drawing.bodies[n..4] {
            let length = r.index(30);
            *body = r.bytes(length);
        }
        if r.once_in(12) {
            drawing.n = r.pick(&[0, 1, 5, 258, (1 << 32) + 3, u64::MAX]);
        }
        let length = job.len() + r.pick(&[0, 0, 1, 8, 100]) - r.pick(&[0, 0, 1, 9, job.len()]);
        met.count(n, compared(&mut r, &drawing, length).map(|_| "written"));
    }
    met.assert_met(
        &[3, 5, 6, 7, 8, 16].map(Err).into_iter().chain([Ok("written")]).collect::<Vec<_>>(),
    );
}

/// Every byte of every body at each of its values, in a buffer of the job's length and in one that is
/// a byte shorter.
#[test]
fn at_every_byte() {
    let mut r = Random::new(62);
    for parts in [case_a(), case_c(3), case_c(4)] {
        let job = parts.bytes();
        let drawing = Drawing::of(&job);
        for k in 0..5 {
            for at in 0..drawing.bodies[k].len() {
                let mut changed = drawing.clone();
                for byte in 0..=255 {
                    changed.bodies[k][at] = byte;
                    _ = compared(&mut r, &changed, job.len());
                    _ = compared(&mut r, &changed, job.len() - 1);
                }
            }
        }
    }
}

/// Every dimension up to 300 with the bodies of each.
#[test]
fn at_every_dimension() {
    let mut r = Random::new(63);
    for parts in [case_a(), case_c(3), case_c(4)] {
        let mut drawing = Drawing::of(&parts.bytes());
        for n in 0..=300 {
            drawing.n = n;
            _ = compared(&mut r, &drawing, 200);
        }
    }
}

/// Of each name so many jobs, of these lengths, each written again from its own bodies. The last is
/// the largest that there is: contents, box, three polynomials of 70 terms, start.
#[test]
fn timed_jobs_are_written_again() {
    let mut r = Random::new(64);
    let mut found = Vec::new();
    for timed in write_jobs() {
        assert_eq!(timed.jobs.len(), JOBS);
        for job in &timed.jobs {
            assert_eq!(job.len(), timed.jobs[0].len());
            assert_eq!(Drawing::of(job).job().as_ref(), Ok(job));
            assert_eq!(compared(&mut r, &Drawing::of(job), job.len()), Ok(job.len()));
        }
        found.push((timed.name, timed.jobs[0].len()));
    }
    assert_eq!(found, [("case_a", 54), ("full_2", 150), ("full_3", 601), ("full_4", 1_732)]);
    assert_eq!(24 + 16 + 3 * 8 * Limits::of(4).terms + 12, 1_732);
}
