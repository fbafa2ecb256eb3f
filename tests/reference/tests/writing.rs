//! The writer of the reference. What it is compared with here is the list of all that is wrong, how
//! loose bodies were made, and the jobs that the tests build elsewhere.

use reference::product::Reference;
use reference::writing_checks as checks;

#[test]
fn every_length() {
    checks::every_length(&Reference);
}

#[test]
fn lengths_together() {
    checks::lengths_together(&Reference);
}

#[test]
fn long_lengths() {
    checks::long_lengths(&Reference);
}

#[test]
fn each_fault() {
    checks::each_fault(&Reference);
}

#[test]
fn two_faults() {
    checks::two_faults(&Reference);
}

#[test]
fn least_number_is_answered() {
    checks::least_number_is_answered(&Reference);
}

#[test]
fn every_space() {
    checks::every_space(&Reference);
}

#[test]
fn every_byte() {
    checks::every_byte(&Reference);
}

#[test]
fn every_bias() {
    checks::every_bias(&Reference);
}

#[test]
fn every_number() {
    checks::every_number(&Reference);
}

#[test]
fn not_read() {
    checks::not_read(&Reference);
}

#[test]
fn any_loose_bodies() {
    checks::any_loose_bodies(&Reference, 130, 40_000, 25);
}

#[test]
fn any_terms() {
    checks::any_terms(&Reference, 132, 20_000, 80);
}

#[test]
fn written_again() {
    checks::written_again(&Reference, 134, 30_000, [3_000, 3_000, 4_000]);
}

#[test]
fn another_start() {
    checks::another_start(&Reference, 136, 5_000, 60);
}
