//! Body against the reference.

use library::ffi::Library;
use reference::build::{case_a, case_c, Parts};
use reference::generate::{any_job, JobTally, Random};
use reference::limits::DIMENSIONS;
use reference::product::{Product, Reference};
use reference::tally::Tally;

#[test]
fn body_is_the_reference() {
    let mut r = Random::new(12);
    let (mut made, mut answers) = (JobTally::default(), Tally::default());
    for _ in 0..300_000 {
        let job = any_job(&mut r);
        let index = r.pick(&[0, 1, 2, 3, 3, 4, 4, 5, 6, 255, 256, 1 << 32, u64::MAX]);
        let wanted = Reference.body(&job.bytes, index);
        assert_eq!(Library.body(&job.bytes, index), wanted, "{index} of {:?}", job.bytes);
        if let Ok((offset, length)) = wanted {
            assert!(length > 0 && offset + length <= job.bytes.len());
        }
        answers.count(job.n(), wanted.map(|_| index));
        made.count(&job);
    }
    made.assert_all();
    // Box, polynomials and start; 1 to 8 of Open, and Body's own 12.
    for n in DIMENSIONS {
        let indices = (0..=n as u64).map(Ok);
        answers.assert_met_in(n, &indices.chain((1..=8).chain([12]).map(Err)).collect::<Vec<_>>());
    }
}

/// A body is the same part of the job at every bias.
#[test]
fn every_bias() {
    for parts in [case_a(), case_c(3), case_c(4)] {
        for index in 0..=parts.n as u64 + 1 {
            let wanted = Reference.body(&parts.bytes(), index);
            assert_eq!(wanted.is_ok(), index <= parts.n as u64);
            for bias in 0..=255 {
                let job = Parts { bias, ..parts.clone() }.bytes();
                assert_eq!(Reference.body(&job, index), wanted, "bias {bias}");
                assert_eq!(Library.body(&job, index), wanted, "bias {bias}");
            }
        }
    }
}
