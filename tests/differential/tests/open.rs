//! Open against the reference.

use library::ffi::Library;
use reference::build::{assemble, case_a, case_c, exponents, Parts};
use reference::generate::{any_job, JobTally, Random};
use reference::limits::{Limits, DIMENSIONS};
use reference::product::{Product, Reference};
use reference::tally::{Answer, Tally};

/// Compares the two answers; gives what they are.
fn compare(job: &[u8]) -> Answer {
    let wanted = Reference.open(job);
    assert_eq!(Library.open(job), wanted, "{job:?}");
    wanted.map(|_| "opens")
}

#[test]
fn open_is_the_reference() {
    let mut r = Random::new(11);
    let (mut made, mut answers) = (JobTally::default(), Tally::default());
    for _ in 0..300_000 {
        let job = any_job(&mut r);
        answers.count(job.n(), compare(&job.bytes));
        made.count(&job);
    }
    made.assert_all();
    answers.assert_met(&(1..=8).map(Err).chain([Ok("opens")]).collect::<Vec<_>>());
}

/// Every length of a valid job's beginning, and every single byte of it at each of its values.
#[test]
fn every_cut_and_every_byte() {
    for parts in [case_a(), case_c(3), case_c(4)] {
        let job = parts.bytes();
        for cut in 0..job.len() {
            _ = compare(&job[..cut]);
        }
        for at in 0..job.len() {
            let mut changed = job.clone();
            for byte in 0..=255 {
                changed[at] = byte;
                _ = compare(&changed);
            }
        }
    }
}

/// Refusal 2 is for byte 0 alone: a job opens at every bias, to the same answer.
#[test]
fn every_bias() {
    for parts in [case_a(), case_c(3), case_c(4)] {
        let wanted = Reference.open(&parts.bytes());
        assert!(wanted.is_ok());
        for bias in 0..=255 {
            let job = Parts { bias, ..parts.clone() }.bytes();
            assert_eq!(job[3], bias);
            assert_eq!(compare(&job), Ok("opens"));
            assert_eq!(Library.open(&job), wanted, "bias {bias}");
        }
    }
}

/// Every count of terms up to one more than any dimension has, in each polynomial.
#[test]
fn every_count_of_terms() {
    for n in DIMENSIONS {
        for k in 1..n {
            for count in 0..=71 {
                let mut bodies = case_c(n).bodies();
                let terms = exponents(n).iter().cycle().take(count);
                bodies[k] = terms.flat_map(|e| [[1, 0, 0, 0], *e].concat()).collect();
                let opens = (1..=Limits::of(n).terms).contains(&count);
                let wanted = if opens { Ok("opens") } else { Err(5) };
                assert_eq!(compare(&assemble(n, 0, &bodies)), wanted, "{count} terms");
            }
        }
    }
}
