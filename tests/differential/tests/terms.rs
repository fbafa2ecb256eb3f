//! Open's term check on the proved library, against the reference and the list of all bad terms.

use library::ffi::Library;
use reference::term_checks as checks;

#[test]
fn good_coefficients() {
    checks::good_coefficients(&Library);
}

#[test]
fn coefficients_around_powers() {
    checks::coefficients_around_powers(&Library);
}

#[test]
fn each_limit_at_each_term() {
    checks::each_limit_at_each_term(&Library);
}

#[test]
fn each_order_at_each_term() {
    checks::each_order_at_each_term(&Library);
}

#[test]
fn limit_and_order_in_one_term() {
    checks::limit_and_order_in_one_term(&Library);
}

#[test]
fn every_count() {
    checks::every_count(&Library);
}

#[test]
fn all_pairs() {
    checks::all_pairs(&Library);
}

#[test]
fn all_fours() {
    checks::all_fours(&Library);
}

#[test]
fn all_triples() {
    checks::all_triples(&Library);
}

#[test]
fn every_byte() {
    checks::every_byte(&Library);
}

#[test]
fn random_bodies() {
    checks::random_bodies(&Library, 33, 500_000, 2_000);
}

#[test]
fn least_number_is_answered() {
    checks::least_number_is_answered(&Library);
}
