//! The small cutter of the reference.

use reference::product::Reference;
use reference::small_checks::{self as checks, SmallOpen, SmallTrace};

#[test]
fn open_each_end() {
    checks::each_end(&mut SmallOpen(&Reference));
}

#[test]
fn trace_each_end() {
    checks::each_end(&mut SmallTrace::new(&Reference));
}

#[test]
fn open_each_count_of_terms() {
    checks::each_count_of_terms(&mut SmallOpen(&Reference));
}

#[test]
fn trace_each_count_of_terms() {
    checks::each_count_of_terms(&mut SmallTrace::new(&Reference));
}

#[test]
fn open_breaches_by_two() {
    checks::breaches_by_two(&mut SmallOpen(&Reference));
}

#[test]
fn trace_breaches_by_two() {
    checks::breaches_by_two(&mut SmallTrace::new(&Reference));
}

#[test]
fn open_least_number_is_answered() {
    checks::least_number_is_answered(&mut SmallOpen(&Reference));
}

#[test]
fn trace_least_number_is_answered() {
    checks::least_number_is_answered(&mut SmallTrace::new(&Reference));
}

#[test]
fn open_before_the_start() {
    checks::small_open_before_the_start(&Reference);
}

#[test]
fn trace_before_the_start() {
    checks::small_trace_before_the_start(&Reference);
}

#[test]
fn far_starts() {
    checks::far_starts(&mut SmallOpen(&Reference), Ok(()));
    checks::far_starts(&mut SmallTrace::new(&Reference), Err(9));
}

#[test]
fn open_any_jobs() {
    checks::any_jobs_open(&Reference, 51, 60_000);
}

#[test]
fn open_small_jobs() {
    checks::small_jobs_open(&Reference, 52, 30_000);
}

#[test]
fn trace_any_jobs() {
    checks::any_jobs_trace(&Reference, 53, 60_000);
}

#[test]
fn trace_valid_jobs() {
    checks::valid_jobs_trace(&Reference, 54, 10_000);
}

#[test]
fn trace_small_jobs() {
    checks::small_jobs_trace(&Reference, 55, 10_000, 100);
}

#[test]
fn trace_whole_axes() {
    checks::whole_axes(&Reference);
}
