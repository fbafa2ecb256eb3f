//! Open of the small cutter against the reference, and against the full cutter: Open, Body, and at
//! the start Judge, Point and Step.

use library::ffi::Library;
use reference::small_checks::{self as checks, SmallOpen};

#[test]
fn each_end() {
    checks::each_end(&mut SmallOpen(&Library));
}

#[test]
fn each_count_of_terms() {
    checks::each_count_of_terms(&mut SmallOpen(&Library));
}

#[test]
fn breaches_by_two() {
    checks::breaches_by_two(&mut SmallOpen(&Library));
}

#[test]
fn least_number_is_answered() {
    checks::least_number_is_answered(&mut SmallOpen(&Library));
}

#[test]
fn before_the_start() {
    checks::small_open_before_the_start(&Library);
}

#[test]
fn far_starts() {
    checks::far_starts(&mut SmallOpen(&Library), Ok(()));
}

#[test]
fn any_jobs() {
    checks::any_jobs_open(&Library, 57, 300_000);
}

#[test]
fn small_jobs() {
    checks::small_jobs_open(&Library, 58, 100_000);
}
