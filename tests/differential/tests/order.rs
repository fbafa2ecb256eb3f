//! The order of cutting against the reference, and against the library's own Point and Trace.

use library::ffi::Library;
use reference::order_checks::{self as checks, Least};

/// Jobs with several loops, and lists of every kind.
#[test]
fn any_lists() {
    let least = Least {
        answers: 1_500,
        positions: 5_000,
        faults: 50,
        two_refusals: 40,
        inner: 250,
        others: 1_000,
    };
    checks::any_lists(&Library, 100, 10_500, least);
}

#[test]
fn every_order() {
    checks::every_order(&Library, 101, 1_200, 100);
}

#[test]
fn every_place() {
    checks::every_place(&Library, 102, 200);
}

#[test]
fn as_trace_says() {
    checks::as_trace_says(&Library, 103, 3_000);
}

#[test]
fn goes_by_the_bias() {
    checks::goes_by_the_bias(&Library, 104, 2_000, 150);
}

#[test]
fn any_jobs() {
    checks::any_jobs(&Library, 105, 20_000);
}

#[test]
fn least_number_is_answered() {
    checks::least_number_is_answered(&Library);
}

#[test]
fn long_lists() {
    checks::long_lists(&Library);
}

#[test]
fn long_loop() {
    checks::long_loop(&Library);
}
