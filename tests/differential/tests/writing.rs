//! Writing jobs against the reference, and against the library's own Open and Body.

use library::ffi::Library;
use reference::writing_checks as checks;

#[test]
fn every_length() {
    checks::every_length(&Library);
}

#[test]
fn lengths_together() {
    checks::lengths_together(&Library);
}

#[test]
fn long_lengths() {
    checks::long_lengths(&Library);
}

#[test]
fn each_fault() {
    checks::each_fault(&Library);
}

#[test]
fn two_faults() {
    checks::two_faults(&Library);
}

#[test]
fn least_number_is_answered() {
    checks::least_number_is_answered(&Library);
}

#[test]
fn every_space() {
    checks::every_space(&Library);
}

#[test]
fn every_byte() {
    checks::every_byte(&Library);
}

#[test]
fn every_bias() {
    checks::every_bias(&Library);
}

#[test]
fn every_number() {
    checks::every_number(&Library);
}

#[test]
fn not_read() {
    checks::not_read(&Library);
}

#[test]
fn any_loose_bodies() {
    checks::any_loose_bodies(&Library, 150, 300_000, 250);
}

#[test]
fn any_terms() {
    checks::any_terms(&Library, 152, 100_000, 400);
}

#[test]
fn written_again() {
    checks::written_again(&Library, 154, 200_000, [22_000, 22_000, 30_000]);
}

#[test]
fn another_start() {
    checks::another_start(&Library, 156, 20_000, 250);
}
