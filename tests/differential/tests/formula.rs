//! Formulas against the reference and the second reading, and against the library's own writer, Open,
//! Body and running sums.

use library::ffi::Library;
use reference::formula_checks as checks;

#[test]
fn facts() {
    checks::facts(&Library);
}

#[test]
fn all_short_texts() {
    checks::all_short_texts(&Library);
}

#[test]
fn every_byte() {
    checks::every_byte(&Library);
}

#[test]
fn every_way_out() {
    checks::every_way_out(&Library);
}

#[test]
fn every_depth() {
    checks::every_depth(&Library);
}

#[test]
fn every_coefficient() {
    checks::every_coefficient(&Library);
}

#[test]
fn every_degree() {
    checks::every_degree(&Library);
}

#[test]
fn typed_lists() {
    checks::typed_lists(&Library, 250, 40);
}

#[test]
fn examples() {
    checks::examples(&Library);
}

#[test]
fn every_number() {
    checks::every_number(&Library);
}

#[test]
fn any_formulas() {
    checks::any_formulas(&Library, 252, 300_000, 40);
}

#[test]
fn more_parentheses() {
    checks::more_parentheses(&Library, 254, 30_000, 300);
}

#[test]
fn long_texts() {
    checks::long_texts(&Library);
}

#[test]
fn into_a_job() {
    checks::into_a_job(&Library, 256, 10_000);
}
