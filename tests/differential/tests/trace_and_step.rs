//! Trace of the proved library against its Step.

use library::ffi::Library;
use reference::trace_and_step::{self as checks, Least};

#[test]
fn any_traces() {
    checks::any_traces(&Library, 39, 30_000, Least { verdicts: 30, steps: 30_000 });
}

#[test]
fn long_traces() {
    checks::long_traces(&Library, 44, 500, 50_000, Least { verdicts: 30, steps: 250_000 });
}
