//! Judge against the reference.

use library::ffi::Library;
use library::on_places::OnPlaces;
use reference::product::{Product, Reference};

const JUDGE: OnPlaces<bool> = OnPlaces {
    library: |job, place| Library.judge(job, place),
    reference: |job, place| Reference.judge(job, place),
    name: |&crossed| if crossed { "crossed" } else { "not crossed" },
    own: &[Err(13), Err(9), Err(10), Ok("crossed"), Ok("not crossed")],
    changed: &[(Ok("crossed"), Ok("not crossed")), (Ok("not crossed"), Ok("crossed"))],
};

#[test]
fn judge_is_the_reference() {
    JUDGE.valid_jobs(13, 25_000, 8);
}

/// The job is opened first, whatever the place.
#[test]
fn judge_opens_first() {
    JUDGE.any_jobs(14, 20_000);
}
