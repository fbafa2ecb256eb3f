//! Formulas of the reference. What it is compared with here is the second reading, the grammar's
//! rules, how formulas were made, and what they come to without polynomials.

use std::collections::HashSet;

use reference::formula::read;
use reference::formula_checks as checks;
use reference::formula_grammar::{readings, words};
use reference::formula_met::decide;
use reference::generate::{any_formula, Random};
use reference::product::Reference;

#[test]
fn facts() {
    checks::facts(&Reference);
}

#[test]
fn all_short_texts() {
    checks::all_short_texts(&Reference);
}

#[test]
fn every_byte() {
    checks::every_byte(&Reference);
}

#[test]
fn every_way_out() {
    checks::every_way_out(&Reference);
}

#[test]
fn every_depth() {
    checks::every_depth(&Reference);
}

#[test]
fn every_coefficient() {
    checks::every_coefficient(&Reference);
}

#[test]
fn every_degree() {
    checks::every_degree(&Reference);
}

#[test]
fn typed_lists() {
    checks::typed_lists(&Reference, 230, 10);
}

#[test]
fn examples() {
    checks::examples(&Reference);
}

#[test]
fn every_number() {
    checks::every_number(&Reference);
}

#[test]
fn any_formulas() {
    checks::any_formulas(&Reference, 232, 60_000, 4);
}

#[test]
fn more_parentheses() {
    checks::more_parentheses(&Reference, 234, 10_000, 100);
}

#[test]
fn long_texts() {
    checks::long_texts(&Reference);
}

#[test]
fn into_a_job() {
    checks::into_a_job(&Reference, 236, 2_000);
}

/// All short texts are in the language exactly if the rules derive them, and they derive none in two
/// ways.
#[test]
fn as_the_rules_derive() {
    for (n, alphabet, largest, wanted) in checks::SHORT {
        let derived: Vec<Vec<u8>> = words(n, alphabet, largest).concat();
        let inside: HashSet<&[u8]> = derived.iter().map(|word| &word[..]).collect();
        assert_eq!(inside.len(), derived.len(), "each text has one reading");
        assert_eq!(inside.len() as u64, wanted[0] + wanted[2]);
        for text in checks::all_texts(alphabet, largest) {
            let is_inside = inside.contains(&text[..]);
            assert_eq!(read(n, &text).is_some(), is_inside, "{}", text.escape_ascii());
            assert_eq!(decide(n, &text).is_ok(), is_inside, "{}", text.escape_ascii());
        }
    }
}

/// Longer texts of every kind and change have one reading by the rules, or none.
#[test]
fn as_many_readings() {
    let mut r = Random::new(238);
    let mut met = [0; 2];
    while met.iter().sum::<usize>() < 20_000 {
        let any = any_formula(&mut r);
        let n = any.n as usize;
        if any.text.len() > 60 || !(2..=4).contains(&any.n) {
            continue;
        }
        let count = readings(n, &any.text);
        assert!(count < 2, "{}", any.text.escape_ascii());
        assert_eq!(read(n, &any.text).is_some(), count == 1, "{}", any.text.escape_ascii());
        assert_eq!(decide(n, &any.text).is_ok(), count == 1, "{}", any.text.escape_ascii());
        met[count as usize] += 1;
    }
    assert!(met.into_iter().all(|count| count > 6_000), "{met:?}");
}
