//! The list of seams against the reference, and against the library's own Judge and Trace.

use library::ffi::Library;
use reference::seams_checks::{self as checks, Least};

/// Jobs in small boxes with any start.
#[test]
fn small_boxes() {
    let least = Least {
        listed: [100, 500, 1_400],
        runs: [70, 70, 450],
        standing: [50, 180, 1_200],
        orders: [3_000, 500, 900],
        chains: [1_200, 190, 40],
        lies: [170, 55, 55],
        starts: 1_200,
    };
    checks::small_boxes(&Library, 80, 200_000, least);
}

#[test]
fn every_space() {
    checks::every_space(&Library, 81, 20_000, [20, 80, 250]);
}

#[test]
fn any_start() {
    checks::any_start(&Library, 82, 5_000, 150);
}

#[test]
fn goes_by_the_bias() {
    checks::goes_by_the_bias(&Library, 83, 20_000, [400; 3]);
}

#[test]
fn any_jobs() {
    checks::any_jobs(&Library, 84, 60_000);
}

#[test]
fn least_number_is_answered() {
    checks::least_number_is_answered(&Library);
}

#[test]
fn larger_boxes() {
    checks::larger_boxes(&Library, 85, [1_000, 600, 400]);
}

#[test]
fn long_boxes() {
    checks::long_boxes(&Library, 86, 24);
}

#[test]
fn long_seam() {
    checks::long_seam(&Library);
}

#[test]
fn all_signs() {
    checks::all_signs(&Library);
}

#[test]
fn with_many_seams() {
    checks::with_many_seams(&Library);
}

#[test]
fn each_facet_in_one_seam() {
    checks::each_facet_in_one_seam(&Library, 87, [10_000, 6_000, 3_000]);
}
