//! The reference's Trace against its Step.

use reference::product::Reference;
use reference::trace_and_step::{self as checks, Least};

#[test]
fn any_traces() {
    checks::any_traces(&Reference, 37, 8_000, Least { verdicts: 10, steps: 5_000 });
}

#[test]
fn long_traces() {
    checks::long_traces(&Reference, 38, 40, 1_000, Least { verdicts: 1, steps: 10_000 });
}
