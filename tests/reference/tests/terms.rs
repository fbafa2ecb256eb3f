//! The reference's term check against the list of all bad terms, and each body by itself.

use reference::bad_terms::{bad_terms, Bad};
use reference::generate::{any_bodies, Random};
use reference::job::read_polynomial;
use reference::limits::{DIMENSIONS, MOST};
use reference::product::Reference;
use reference::tally::{Named, Tally};
use reference::term_checks as checks;

/// A body is read exactly if its list of bad terms is empty, and then to the terms that are in it.
#[test]
fn each_body_by_itself() {
    let mut r = Random::new(31);
    let (mut why, mut read) = (Tally::default(), Tally::default());
    for _ in 0..300_000 {
        let parts = any_bodies(&mut r).parts;
        for (terms, body) in parts.polynomials.iter().zip(&parts.bodies()[1..]) {
            let bad = bad_terms(parts.n, body);
            let found = read_polynomial(parts.n, body);
            assert_eq!(found.as_ref(), bad.is_empty().then_some(terms), "{bad:?} in {body:?}");
            bad.iter().flat_map(|term| &term.why).for_each(|&bad| why.count(parts.n, bad));
            read.count(parts.n, found.is_some());
        }
    }
    read.assert_often(10_000, &[true, false]);
    for n in DIMENSIONS {
        let each = Bad::all().into_iter().filter(|&bad| bad != Bad::AboveN || n < MOST);
        why.assert_often_in(n, 1_000, &each.collect::<Vec<_>>());
    }
}

#[test]
fn good_coefficients() {
    checks::good_coefficients(&Reference);
}

#[test]
fn coefficients_around_powers() {
    checks::coefficients_around_powers(&Reference);
}

#[test]
fn each_limit_at_each_term() {
    checks::each_limit_at_each_term(&Reference);
}

#[test]
fn each_order_at_each_term() {
    checks::each_order_at_each_term(&Reference);
}

#[test]
fn limit_and_order_in_one_term() {
    checks::limit_and_order_in_one_term(&Reference);
}

#[test]
fn every_count() {
    checks::every_count(&Reference);
}

#[test]
fn all_pairs() {
    checks::all_pairs(&Reference);
}

#[test]
fn all_fours() {
    checks::all_fours(&Reference);
}

#[test]
fn all_triples() {
    checks::all_triples(&Reference);
}

#[test]
fn every_byte() {
    checks::every_byte(&Reference);
}

#[test]
fn random_bodies() {
    checks::random_bodies(&Reference, 32, 300_000, 1_000);
}

#[test]
fn least_number_is_answered() {
    checks::least_number_is_answered(&Reference);
}
