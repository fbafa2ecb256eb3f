//! Cases A to J, their like in dimension 4 and at a bias, running sums, halves of a step, grounds,
//! the small cutter, the list of seams, the order of cutting, the writer, and the wrong turns on the
//! reference.

use reference::build::{case_a, case_c};
use reference::listing::listing;
use reference::marked::{self, upright, CASE_A_LISTING, CASE_C_4_LISTING, UPRIGHT_LISTINGS};
use reference::product::Reference;
use reference::seams_listing::seams_listing;

#[test]
fn cases_a_to_j() {
    marked::cases(&Reference);
}

#[test]
fn dimension_4() {
    marked::dimension_4(&Reference);
}

#[test]
fn bias() {
    marked::bias(&Reference);
}

#[test]
fn running_sums() {
    marked::running_sums(&Reference);
}

#[test]
fn nearest_step() {
    marked::nearest_step(&Reference);
}

#[test]
fn grounds() {
    marked::grounds(&Reference);
}

#[test]
fn small_cutter() {
    marked::small_cutter(&Reference);
}

#[test]
fn seams() {
    marked::seams(&Reference);
}

#[test]
fn order() {
    marked::order(&Reference);
}

#[test]
fn writing() {
    marked::writing(&Reference);
}

#[test]
fn wrong_turns() {
    marked::wrong_turns(&Reference);
}

#[test]
fn listings() {
    assert_eq!(listing(&case_a().bytes()), CASE_A_LISTING);
    assert_eq!(listing(&case_c(4).bytes()), CASE_C_4_LISTING);
    for (counts, text) in UPRIGHT_LISTINGS {
        for turned in (0..counts.len()).map(Some).chain([None]) {
            assert_eq!(listing(&upright(counts, turned).bytes()), text);
        }
    }
    assert_eq!(listing(&[]), "refused 1\n");
    assert_eq!(listing(&[0; 2048]), "refused 2\n");
    assert_eq!(listing(&[0; 2049]), "refused 5\n");
}

#[test]
fn listings_of_seams() {
    for (parts, text) in marked::seams_listings() {
        assert_eq!(seams_listing(&parts.bytes()), text);
    }
    assert_eq!(seams_listing(&[]), "refused 1\n");
    assert_eq!(seams_listing(&[0; 2048]), "refused 2\n");
    assert_eq!(seams_listing(&[0; 2049]), "refused 5\n");
}
