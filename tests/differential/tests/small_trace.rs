//! Trace of the small cutter against the reference, and against the full cutter's Trace.

use library::ffi::Library;
use reference::small_checks::{self as checks, SmallTrace};

#[test]
fn each_end() {
    checks::each_end(&mut SmallTrace::new(&Library));
}

#[test]
fn each_count_of_terms() {
    checks::each_count_of_terms(&mut SmallTrace::new(&Library));
}

#[test]
fn breaches_by_two() {
    checks::breaches_by_two(&mut SmallTrace::new(&Library));
}

#[test]
fn least_number_is_answered() {
    checks::least_number_is_answered(&mut SmallTrace::new(&Library));
}

#[test]
fn before_the_start() {
    checks::small_trace_before_the_start(&Library);
}

#[test]
fn far_starts() {
    checks::far_starts(&mut SmallTrace::new(&Library), Err(9));
}

#[test]
fn whole_axes() {
    checks::whole_axes(&Library);
}

#[test]
fn any_jobs() {
    checks::any_jobs_trace(&Library, 59, 100_000);
}

#[test]
fn valid_jobs() {
    checks::valid_jobs_trace(&Library, 60, 20_000);
}

#[test]
fn small_jobs() {
    checks::small_jobs_trace(&Library, 61, 40_000, 400);
}
