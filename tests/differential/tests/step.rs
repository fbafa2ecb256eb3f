//! Step against the reference.

use library::ffi::Library;
use library::on_places::OnPlaces;
use reference::operations::Step;
use reference::product::{Product, Reference};

const STEP: OnPlaces<Step> = OnPlaces {
    library: |job, place| Library.step(job, place),
    reference: |job, place| Reference.step(job, place),
    name: |step| match step {
        Step::Next(next) => match (next.facet.is_flat(), next.side) {
            (true, 0) => "flat, side 0",
            (true, _) => "flat, side 1",
            (false, 0) => "bent, side 0",
            (false, _) => "bent, side 1",
        },
        Step::Edge => "edge",
        Step::Limit => "limit",
    },
    own: &[
        Err(13),
        Err(9),
        Err(10),
        Err(11),
        Ok("flat, side 0"),
        Ok("flat, side 1"),
        Ok("bent, side 0"),
        Ok("bent, side 1"),
        Ok("edge"),
        Ok("limit"),
    ],
    changed: &[
        (Ok("flat, side 0"), Ok("bent, side 0")),
        (Ok("bent, side 1"), Ok("flat, side 1")),
        (Ok("flat, side 0"), Err(11)),
        (Err(11), Ok("flat, side 0")),
        (Err(11), Ok("edge")),
        (Err(11), Ok("limit")),
    ],
};

#[test]
fn step_is_the_reference() {
    STEP.valid_jobs(17, 30_000, 6);
}

/// The job is opened first, whatever the place.
#[test]
fn step_opens_first() {
    STEP.any_jobs(18, 20_000);
}
