//! The paper in plain Rust: every definition and every operation, in the order and words of the
//! paper and the requests, with the readings that `docs/DECISIONS.md` states. It shares no code
//! with the proved library and is no faster than the definitions allow: the differential tests
//! compare the library with it.
//!
//! It is over any dimension up to `limits::MOST`: what differs from one to another stands in the
//! table of `limits`. All sums are taken in 128 bits, determinants by Laplace's expansion,
//! neighbours and sides by searching the simplices around a facet for those that have it.

pub mod bad_terms;
pub mod build;
pub mod cartesian;
pub mod crossed;
pub mod curve;
pub mod formula;
pub mod formula_checks;
pub mod formula_examples;
pub mod formula_grammar;
pub mod formula_met;
pub mod generate;
pub mod grid;
pub mod ground;
pub mod grounds_met;
pub mod job;
pub mod limits;
pub mod listing;
pub mod long_curves;
pub mod many_seams;
pub mod marked;
pub mod operations;
pub mod order;
pub mod order_checks;
pub mod order_lists;
pub mod order_met;
pub mod product;
pub mod roundings_met;
pub mod seams;
pub mod seams_checks;
pub mod seams_listing;
pub mod seams_met;
pub mod small;
pub mod small_checks;
pub mod sums_met;
pub mod tally;
pub mod term_checks;
pub mod trace_and_step;
pub mod transitions_met;
pub mod writing;
pub mod writing_checks;
pub mod writing_met;
