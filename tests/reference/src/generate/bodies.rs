//! Jobs whose polynomials may have bad terms; everything else of them is good.

use std::collections::BTreeSet;

use super::kinds::any_dimension;
use super::random::Random;
use super::term_faults::{any_good, terms_of, with_fault, LimitFault};
use crate::build::{case_c, exponents, Parts};
use crate::crossed::Term;
use crate::limits::{Limits, MOST};
use crate::named;

named! {
    /// How the polynomials of a job were made.
    BodyKind {
        /// Good terms, then up to three changes.
        Changed: 3,
        /// Each term a little above the one before, but for some slips.
        Walk: 2,
    }
}

named! {
    /// A change of a term, so that it or the next is bad, or may be.
    TermChange {
        /// Its coefficient breaks a limit, as `LimitFault` has them.
        Coefficient: 4,
        /// Its exponents break a limit, as `LimitFault` has them.
        Exponents: 6,
        /// It takes any exponents that a term may have.
        AnyExponents: 3,
        /// It takes the exponents of the one before.
        Repeated: 2,
        /// It is exchanged with the one before.
        Exchanged: 2,
        /// An exponent becomes 1 more or less, modulo 256.
        ExponentNearby: 2,
        /// One of its 8 bytes becomes any other.
        AnyByte: 2,
    }
}

/// A change that was made, and the name of the limit that it breaks.
type Changed = (TermChange, Option<&'static str>);

/// A job with polynomials of that kind, and the changes that were made.
pub struct AnyBodies {
    pub parts: Parts,
    pub kind: BodyKind,
    pub changes: Vec<Changed>,
}

/// One of the 8 bytes becomes any other.
fn change_byte(r: &mut Random, term: &mut Term) {
    let mut low = (term.coefficient as i32).to_le_bytes();
    match r.index(8) {
        k if k < 4 => low[k] = r.byte(),
        k => term.exponents[k - 4] = r.byte(),
    }
    term.coefficient = i32::from_le_bytes(low) as i64;
}

/// Any fault of a limit, of the coefficient or of the exponents; each name as often as the others.
fn any_fault(r: &mut Random, n: usize, of_coefficient: bool) -> LimitFault {
    let mut all = LimitFault::all(n);
    all.retain(|fault| matches!(fault, LimitFault::Coefficient(_)) == of_coefficient);
    let names: BTreeSet<&str> = all.iter().map(|fault| fault.name()).collect();
    let name = r.pick(&names.into_iter().collect::<Vec<_>>());
    all.retain(|fault| fault.name() == name);
    r.pick(&all)
}

/// Changes a term of a polynomial. Gives the name of the limit that it breaks.
fn change(
    r: &mut Random,
    n: usize,
    terms: &mut Vec<Term>,
    at: usize,
    change: TermChange,
) -> Option<&'static str> {
    match change {
        TermChange::Coefficient | TermChange::Exponents => {
            let fault = any_fault(r, n, change == TermChange::Coefficient);
            *terms = with_fault(terms, at, fault, r.named());
            return Some(fault.name());
        }
        TermChange::AnyExponents => terms[at].exponents = r.pick(exponents(n)),
        TermChange::Repeated => terms[at].exponents = terms[at.saturating_sub(1)].exponents,
        TermChange::Exchanged => terms.swap(at.saturating_sub(1), at),
        TermChange::ExponentNearby => {
            let e = &mut terms[at].exponents[r.index(n)];
            *e = e.wrapping_add(r.pick(&[1, 255]));
        }
        TermChange::AnyByte => change_byte(r, &mut terms[at]),
    }
    None
}

/// A polynomial and one of its terms: the first, the last or any.
fn any_term(r: &mut Random, polynomials: &[Vec<Term>]) -> (usize, usize) {
    let polynomial = r.index(polynomials.len());
    let count = polynomials[polynomial].len();
    let any = r.index(count);
    (polynomial, r.pick(&[0, count - 1, any, any]))
}

/// Changes so many terms; some are changed again.
fn change_some(r: &mut Random, parts: &mut Parts, count: u64) -> Vec<Changed> {
    let mut changes = Vec::new();
    let mut at = any_term(r, &parts.polynomials);
    for _ in 0..count {
        let name = r.named();
        let polynomial = &mut parts.polynomials[at.0];
        changes.push((name, change(r, parts.n, polynomial, at.1, name)));
        if !r.once_in(3) {
            at = any_term(r, &parts.polynomials);
        }
    }
    changes
}

/// The exponents after these by a slip: the same, those before in the order, or 1 more or less on
/// an axis, modulo 256.
fn slip(r: &mut Random, n: usize, from: [u8; MOST]) -> [u8; MOST] {
    let mut to = from;
    match r.below(4) {
        0 => {}
        1 => {
            let below = exponents(n).iter().rfind(|&e| *e < from);
            to = below.copied().unwrap_or(from);
        }
        _ => {
            let e = &mut to[r.index(n)];
            *e = e.wrapping_add(r.pick(&[1, 255]));
        }
    }
    to
}

/// Each term is one to three places above the one before, but for slips: none, few or many.
fn walk(r: &mut Random, n: usize) -> Vec<Term> {
    let (all, most) = (exponents(n), Limits::of(n).terms);
    let slips_once_in = r.pick(&[u64::MAX, 40, 12, 4]);
    let longest = r.pick(&[1, 1, 2, 3]);
    let mut here = all[r.index(3)];
    let mut walked = vec![here];
    while walked.len() < most && !r.once_in(30) {
        let next = all.iter().filter(|&e| *e > here).nth(r.index(longest));
        here = match next {
            Some(&next) if !r.once_in(slips_once_in) => next,
            _ if slips_once_in == u64::MAX => break,
            _ => slip(r, n, here),
        };
        walked.push(here);
    }
    terms_of(walked)
}

/// A job with polynomials of either kind.
pub fn any_bodies(r: &mut Random) -> AnyBodies {
    let (n, kind) = (any_dimension(r), r.named());
    let polynomial = |r: &mut Random| match kind {
        BodyKind::Changed => any_good(r, n),
        BodyKind::Walk => walk(r, n),
    };
    let polynomials = (1..n).map(|_| polynomial(r)).collect();
    let mut parts = Parts { polynomials, bias: r.byte(), ..case_c(n) };
    let count = if kind == BodyKind::Changed { r.below(4) } else { 0 };
    let changes = change_some(r, &mut parts, count);
    AnyBodies { parts, kind, changes }
}

#[cfg(test)]
mod tests {
    use super::*;
    use crate::job::open;
    use crate::tally::{Named, Tally};

    /// Good terms open; what Open answers to each change of one of them.
    #[test]
    fn each_change_reaches_its_answers() {
        for kind in TermChange::all() {
            let mut r = Random::new(30);
            let mut met = Tally::default();
            for _ in 0..9_000 {
                let n = any_dimension(&mut r);
                let polynomials = (1..n).map(|_| any_good(&mut r, n)).collect();
                let mut parts = Parts { polynomials, ..case_c(n) };
                open(&parts.bytes()).expect("good terms");
                let (polynomial, at) = any_term(&mut r, &parts.polynomials);
                change(&mut r, n, &mut parts.polynomials[polynomial], at, kind);
                met.count(n, open(&parts.bytes()).err());
            }
            println!("{kind:?}");
            met.assert_met(match kind {
                TermChange::Coefficient | TermChange::Exponents => &[Some(7)],
                _ => &[None, Some(7)],
            });
        }
    }

    /// Some walks open and some do not; some are full bodies that open.
    #[test]
    fn walks_reach_their_answers() {
        let mut r = Random::new(34);
        let mut met = Tally::default();
        for _ in 0..9_000 {
            let n = any_dimension(&mut r);
            let polynomials: Vec<Vec<Term>> = (1..n).map(|_| walk(&mut r, n)).collect();
            let full = polynomials.iter().any(|terms| terms.len() == Limits::of(n).terms);
            let parts = Parts { polynomials, ..case_c(n) };
            met.count(n, (open(&parts.bytes()).err(), full));
        }
        met.assert_includes(&[(None, false), (None, true), (Some(7), false), (Some(7), true)]);
    }
}
