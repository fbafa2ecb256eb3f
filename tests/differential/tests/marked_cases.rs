//! Cases A to J, their like in dimension 4 and at a bias, running sums, halves of a step, grounds,
//! the small cutter, the list of seams, the order of cutting, the writer, and the wrong turns on the
//! proved library.

use library::ffi::Library;
use reference::marked;

#[test]
fn cases_a_to_j() {
    marked::cases(&Library);
}

#[test]
fn dimension_4() {
    marked::dimension_4(&Library);
}

#[test]
fn bias() {
    marked::bias(&Library);
}

#[test]
fn running_sums() {
    marked::running_sums(&Library);
}

#[test]
fn nearest_step() {
    marked::nearest_step(&Library);
}

#[test]
fn grounds() {
    marked::grounds(&Library);
}

#[test]
fn small_cutter() {
    marked::small_cutter(&Library);
}

#[test]
fn seams() {
    marked::seams(&Library);
}

#[test]
fn order() {
    marked::order(&Library);
}

#[test]
fn writing() {
    marked::writing(&Library);
}

#[test]
fn wrong_turns() {
    marked::wrong_turns(&Library);
}
