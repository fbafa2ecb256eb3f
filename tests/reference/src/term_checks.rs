//! The term check as checks of any product: Open refuses a job with 7 exactly if some term of a
//! polynomial breaks a limit or does not rise over the one before it, by `bad_terms`; it answers as
//! the reference does, and refusals 1 to 6 come before 7, 8 after it.

use std::cmp::Ordering;
use std::collections::BTreeSet;

use crate::bad_terms::{bad_terms, Bad, BadTerm};
use crate::build::{assemble, case_c, exponents, Parts};
use crate::cartesian::cartesian;
use crate::crossed::Term;
use crate::generate::{
    any_bodies, every_second, full, short, terms_of, with_fault, AnyBodies, Behind, BodyKind,
    LimitFault, Random, TermChange, GOOD_COEFFICIENTS,
};
use crate::limits::{Limits, DIMENSIONS, MOST};
use crate::named;
use crate::product::{Product, Reference};
use crate::tally::{Named, Tally};

/// Opens a job of these bodies, of which box and start are good. Gives the bad terms of each
/// polynomial.
fn check_bodies(
    product: &impl Product,
    n: usize,
    bias: u8,
    bodies: &[Vec<u8>],
) -> Vec<Vec<BadTerm>> {
    let job = assemble(n, bias, bodies);
    let found = product.open(&job);
    assert_eq!(found, Reference.open(&job), "{job:?}");
    let polynomials = &bodies[1..n];
    let bad: Vec<Vec<BadTerm>> = polynomials.iter().map(|body| bad_terms(n, body)).collect();
    let opens = bad.iter().all(|terms| terms.is_empty());
    let counts = || polynomials.iter().map(|body| body.len() / 8).collect();
    let wanted = if opens { Ok((n, counts())) } else { Err(7) };
    assert_eq!(found, wanted, "{bad:?} in {job:?}");
    bad
}

fn check(product: &impl Product, parts: &Parts) -> Vec<Vec<BadTerm>> {
    check_bodies(product, parts.n, parts.bias, &parts.bodies())
}

named! {
    /// What the other polynomials of a job are like.
    Others {
        /// They have one term each.
        OneTerm: 1,
        /// They have all terms: the first is under the last of the polynomial before.
        Full: 1,
    }
}

/// A job with these terms in a polynomial, numbered from 1.
fn job_with(n: usize, polynomial: usize, others: Others, terms: Vec<Term>) -> Parts {
    let mut parts = case_c(n);
    if others == Others::Full {
        parts.polynomials = vec![full(n); n - 1];
    }
    parts.polynomials[polynomial - 1] = terms;
    parts
}

/// Opens that job; gives the bad terms of that polynomial. The others have none.
fn check_terms(
    product: &impl Product,
    n: usize,
    polynomial: usize,
    others: Others,
    terms: Vec<Term>,
) -> Vec<BadTerm> {
    let mut bad = check(product, &job_with(n, polynomial, others, terms));
    let found = bad.swap_remove(polynomial - 1);
    assert!(bad.iter().all(|terms| terms.is_empty()));
    found
}

/// Good bodies into which faults are put, by name.
fn good_bodies(n: usize) -> Vec<(&'static str, Vec<Term>)> {
    let mut all = vec![("full", full(n)), ("every second", every_second(n))];
    for (count, names) in [
        (1, ["first 1", "last 1", "spread 1"]),
        (2, ["first 2", "last 2", "spread 2"]),
        (3, ["first 3", "last 3", "spread 3"]),
    ] {
        all.extend(names.into_iter().zip(short(n, count)));
    }
    all
}

/// Each polynomial, with each kind of others and each good body.
fn each_body(n: usize) -> Vec<(usize, Others, &'static str, Vec<Term>)> {
    let mut all = Vec::new();
    for polynomial in 1..n {
        for others in Others::all() {
            let bodies = good_bodies(n).into_iter();
            all.extend(bodies.map(|(name, terms)| (polynomial, others, name, terms)));
        }
    }
    all
}

/// A good body opens, with each coefficient at the limits in each of its terms.
pub fn good_coefficients(product: &impl Product) {
    for n in DIMENSIONS {
        let mut opened = 0;
        for (polynomial, others, _, terms) in each_body(n) {
            for index in 0..terms.len() {
                for coefficient in GOOD_COEFFICIENTS {
                    let mut terms = terms.clone();
                    terms[index].coefficient = coefficient;
                    assert_eq!(check_terms(product, n, polynomial, others, terms), []);
                    opened += 1;
                }
            }
        }
        println!("{n}: {opened} good bodies");
        assert_eq!(opened, each_index(n) * GOOD_COEFFICIENTS.len());
    }
}

/// Every power of two that 32 bits hold, 1 more and 1 less, and minus these, in each term of a full
/// body: those from 1 to 1,048,576 in size open.
pub fn coefficients_around_powers(product: &impl Product) {
    let sizes = (0..=31).flat_map(|k| [(1i64 << k) - 1, 1 << k, (1 << k) + 1]);
    let all: BTreeSet<i64> = sizes.flat_map(|size| [size, -size]).collect();
    let all: Vec<i64> = all.into_iter().filter(|&c| i32::try_from(c).is_ok()).collect();
    for n in DIMENSIONS {
        let mut opened = 0;
        for polynomial in 1..n {
            for index in 0..Limits::of(n).terms {
                for &coefficient in &all {
                    let mut terms = full(n);
                    terms[index].coefficient = coefficient;
                    let bad = check_terms(product, n, polynomial, Others::OneTerm, terms);
                    let opens = coefficient != 0 && coefficient.abs() <= 1 << 20;
                    assert_eq!(bad.is_empty(), opens, "{coefficient}");
                    opened += opens as usize;
                }
            }
        }
        println!("{n}: {} coefficients in each term, {opened} jobs open", all.len());
        // 58 sizes: 1 to 5, three around each power from the third to the 19th, two of the 20th.
        assert_eq!(opened, 2 * 58 * (n - 1) * Limits::of(n).terms);
    }
}

/// How many terms the good bodies have, by the paper's number of terms: 18 in the short ones. Each
/// is tried in n - 1 polynomials with two kinds of others.
fn each_index(n: usize) -> usize {
    let most = Limits::of(n).terms;
    2 * (n - 1) * (most + most / 2 + 18)
}

/// How many faults of a limit there are: 7 coefficients, 2 of each axis above n, 4 of each other
/// axis, 12 of ordered pairs of all axes, 6 of pairs without order, one of all axes.
fn limit_faults(n: usize) -> usize {
    7 + 2 * (MOST - n) + 4 * n + 12 + 6 + 1
}

/// Each limit broken by each term of each good body, with the terms behind it as they were, and
/// with those of them that rise over it: then it alone is bad.
pub fn each_limit_at_each_term(product: &impl Product) {
    for n in DIMENSIONS {
        let mut met = BTreeSet::new();
        for (polynomial, others, name, terms) in each_body(n) {
            for (index, before) in terms.iter().enumerate() {
                for fault in LimitFault::all(n) {
                    for behind in Behind::all() {
                        let body = with_fault(&terms, index, fault, behind);
                        let bad = check_terms(product, n, polynomial, others, body);
                        let wanted = BadTerm { index, why: fault.breaks(n, before) };
                        assert_eq!(bad[0], wanted);
                        let next = BadTerm { index: index + 1, why: vec![Bad::Lower] };
                        let behind_is_good = behind == Behind::ThoseThatRise;
                        assert!(bad.len() == 1 || !behind_is_good && bad[1..] == [next]);
                        met.insert((polynomial, others, name, bad[0].index, fault, behind));
                    }
                }
            }
        }
        println!("{n}: {} faults of a limit", met.len());
        assert_eq!(met.len(), each_index(n) * limit_faults(n) * Behind::all().len());
    }
}

named! {
    /// How a term does not rise over the one before.
    Fall {
        /// It is equal to it.
        Equal: 1,
        /// It is the second, under the first.
        SecondUnderFirst: 1,
        /// It is under it, but above the one before that.
        AboveBeforeLast: 1,
        /// It is under it, and equal to the one before that.
        EqualToBeforeLast: 1,
        /// It is under both, but above the first.
        AboveFirst: 1,
        /// It is under both, and equal to the first.
        EqualToFirst: 1,
        /// It is under both and the first.
        UnderFirst: 1,
    }
}

/// How the term of this index, which is not the first, does not rise.
fn fall(terms: &[Term], index: usize) -> Fall {
    let to = |other: usize| terms[index].exponents.cmp(&terms[other].exponents);
    if to(index - 1) == Ordering::Equal {
        return Fall::Equal;
    }
    if index == 1 {
        return Fall::SecondUnderFirst;
    }
    match (to(index - 2), to(0)) {
        (Ordering::Greater, _) => Fall::AboveBeforeLast,
        (Ordering::Equal, _) => Fall::EqualToBeforeLast,
        (_, Ordering::Greater) => Fall::AboveFirst,
        (_, Ordering::Equal) => Fall::EqualToFirst,
        (_, Ordering::Less) => Fall::UnderFirst,
    }
}

/// The falls that one change can bring about at this index in a full body, which has nothing
/// between two neighbours and nothing under the first, or in a body of every second term.
fn falls(name: &str, index: usize) -> Vec<Fall> {
    use Fall::*;
    match (name, index) {
        (_, 1) => vec![Equal, SecondUnderFirst],
        ("full", 2) => vec![Equal, AboveBeforeLast, EqualToBeforeLast],
        ("full", 3) => vec![Equal, AboveBeforeLast, EqualToBeforeLast, EqualToFirst],
        ("full", _) => vec![Equal, AboveBeforeLast, EqualToBeforeLast, AboveFirst, EqualToFirst],
        (_, 2) => vec![Equal, AboveBeforeLast, EqualToBeforeLast, UnderFirst],
        _ => {
            vec![Equal, AboveBeforeLast, EqualToBeforeLast, AboveFirst, EqualToFirst, UnderFirst]
        }
    }
}

/// The bodies in which a term takes any exponents that a term may have, or is exchanged with any
/// behind it.
fn reordered(n: usize, terms: &[Term], index: usize) -> Vec<Vec<Term>> {
    let mut all = vec![terms.to_vec(); exponents(n).len()];
    for (body, &e) in all.iter_mut().zip(exponents(n)) {
        body[index].exponents = e;
    }
    for other in index + 1..terms.len() {
        let mut body = terms.to_vec();
        body.swap(index, other);
        all.push(body);
    }
    all
}

/// The indices at which the places in the list of all exponents do not rise.
fn wrong_places(n: usize, terms: &[Term]) -> Vec<usize> {
    let place = |t: &Term| exponents(n).iter().position(|e| *e == t.exponents).expect("a place");
    let places: Vec<usize> = terms.iter().map(place).collect();
    (1..places.len()).filter(|&k| places[k] <= places[k - 1]).collect()
}

/// Each term of each good body with any exponents that a term may have, and exchanged with any
/// other; every way not to rise comes up at every index of a full body and of every second term.
pub fn each_order_at_each_term(product: &impl Product) {
    for n in DIMENSIONS {
        let (mut met, mut wanted) = (BTreeSet::new(), BTreeSet::new());
        let (mut jobs, mut refused) = (0, 0);
        for (polynomial, others, name, terms) in each_body(n) {
            let is_long = terms.len() > 3;
            for index in 0..terms.len() {
                for body in reordered(n, &terms, index) {
                    let bad = check_terms(product, n, polynomial, others, body.clone());
                    let indices: Vec<usize> = bad.iter().map(|term| term.index).collect();
                    assert_eq!(indices, wrong_places(n, &body));
                    if let Some(&first) = indices.first().filter(|_| is_long) {
                        met.insert((polynomial, others, name, first, fall(&body, first)));
                    }
                    jobs += 1;
                    refused += !bad.is_empty() as u32;
                }
                if is_long && index > 0 {
                    let falls = falls(name, index).into_iter();
                    wanted.extend(falls.map(|fall| (polynomial, others, name, index, fall)));
                }
            }
        }
        println!("{n}: {jobs} orders, {refused} refused, {} falls", met.len());
        assert_eq!(met, wanted);
        let (most, pairs) = (Limits::of(n).terms, |count: usize| count * (count - 1) / 2);
        let exchanges = 2 * (n - 1) * (pairs(most) + pairs(most / 2) + 12);
        assert_eq!(jobs, each_index(n) * most + exchanges);
    }
}

/// What may be wrong with a term of this index that breaks a limit and does not rise either, if
/// it has the exponents of the first term or of the one before, but for the fault.
fn two_faults(n: usize, name: &str, index: usize) -> Vec<(Bad, Bad)> {
    let mut all = vec![(Bad::Zero, Bad::Equal), (Bad::Large, Bad::Equal)];
    if index > 1 {
        all.extend([(Bad::Zero, Bad::Lower), (Bad::Large, Bad::Lower)]);
    }
    if index > 1 && n < MOST {
        all.extend([(Bad::AboveN, Bad::Lower), (Bad::Degree, Bad::Lower)]);
    }
    // In dimension 4 the least exponents with the sum 5 are above five good ones.
    if n == MOST && index >= if name == "full" { 6 } else { 3 } {
        all.push((Bad::Degree, Bad::Lower));
    }
    all
}

/// Each limit broken by each term of the long bodies that has the exponents of the first or of the
/// one before: each limit that can be broken together with the order comes up so at each index.
pub fn limit_and_order_in_one_term(product: &impl Product) {
    for n in DIMENSIONS {
        let (mut met, mut wanted, mut jobs) = (BTreeSet::new(), BTreeSet::new(), 0);
        let long = each_body(n).into_iter().filter(|(_, _, _, terms)| terms.len() > 3);
        for (polynomial, others, name, terms) in long {
            for index in 1..terms.len() {
                let faults = LimitFault::all(n).into_iter();
                for (fault, from) in faults.flat_map(|fault| [(fault, 0), (fault, index - 1)]) {
                    let mut body = terms.clone();
                    body[index].exponents = terms[from].exponents;
                    fault.put(&mut body[index]);
                    let bad = check_terms(product, n, polynomial, others, body);
                    assert_eq!(bad[0].index, index);
                    // Order comes last in the list; where it is none, the last is left out below.
                    let (&last, limits) = bad[0].why.split_last().expect("something wrong");
                    met.extend(
                        limits.iter().map(|&bad| (polynomial, others, name, index, bad, last)),
                    );
                    jobs += 1;
                }
                let both = two_faults(n, name, index).into_iter();
                wanted
                    .extend(both.map(|(bad, order)| (polynomial, others, name, index, bad, order)));
            }
        }
        met.retain(|&(.., last)| last == Bad::Equal || last == Bad::Lower);
        println!("{n}: {jobs} limits with order, {} ways", met.len());
        assert_eq!(met, wanted);
        let most = Limits::of(n).terms;
        assert_eq!(jobs, 4 * (n - 1) * (most + most / 2 - 2) * limit_faults(n));
    }
}

/// Bodies of every count of terms, the first ones and the last ones, with each of their terms bad
/// in turn: the coefficient 0, the coefficient too large, the term before repeated.
pub fn every_count(product: &impl Product) {
    for n in DIMENSIONS {
        let most = Limits::of(n).terms;
        let mut refused = 0;
        for count in 1..=most {
            let [first, last, _] = short(n, count);
            for (polynomial, terms) in (1..n).flat_map(|k| [(k, &first), (k, &last)]) {
                for index in 0..count {
                    let mut bodies = vec![terms.clone(); 3];
                    bodies[0][index].coefficient = 0;
                    bodies[1][index].coefficient = 1_048_577;
                    bodies[2][index].exponents = terms[index.max(1) - 1].exponents;
                    for body in bodies.into_iter().take(if index == 0 { 2 } else { 3 }) {
                        let bad = check_terms(product, n, polynomial, Others::OneTerm, body);
                        assert!(bad.len() == 1 && bad[0].index == index);
                        refused += 1;
                    }
                }
            }
        }
        println!("{n}: {refused} bodies of every count");
        // Three of each term, but two of each first.
        assert_eq!(refused, 2 * (n - 1) * (3 * most * (most + 1) / 2 - most));
    }
}

/// Exponents that a term may not have: 1, 5, 128 and 255 in each byte of three good ones where
/// that breaks a limit, and sums that wrap in 8 bits.
fn bad_exponents(n: usize) -> BTreeSet<[u8; MOST]> {
    let (good, mut all) = (exponents(n), BTreeSet::new());
    for from in [good[0], good[1], good[good.len() - 1]] {
        for byte in 0..MOST {
            for power in [1, 5, 128, 255] {
                let mut e = from;
                e[byte] = power;
                all.insert(e);
            }
        }
        for fault in LimitFault::all(n) {
            let mut term = Term { coefficient: 1, exponents: from };
            fault.put(&mut term);
            all.insert(term.exponents);
        }
    }
    all.retain(|e| !good.contains(e));
    all
}

/// Bodies of one term and of two, of any good and bad exponents: they open exactly if all are in
/// the list of those that a term may have, the second behind the first.
pub fn all_pairs(product: &impl Product) {
    for n in DIMENSIONS {
        let good = exponents(n);
        let places = good.iter().enumerate().map(|(place, &e)| (Some(place), e));
        let bad = bad_exponents(n).into_iter().map(|e| (None, e));
        let all: Vec<(Option<usize>, [u8; MOST])> = places.chain(bad).collect();
        let bodies = all.len() * (all.len() + 1);
        println!("{n}: {} exponents, {} good, {bodies} bodies", all.len(), good.len());
        for polynomial in 1..n {
            let opens = |exponents: &[[u8; MOST]]| {
                let terms = terms_of(exponents.iter().copied());
                check_terms(product, n, polynomial, Others::OneTerm, terms).is_empty()
            };
            let mut opened = 0;
            for &(first, e) in &all {
                assert_eq!(opens(&[e]), first.is_some());
                for &(second, f) in &all {
                    let wanted = first.is_some() && second.is_some() && first < second;
                    assert_eq!(opens(&[e, f]), wanted, "{e:?} {f:?}");
                    opened += wanted as usize;
                }
            }
            assert_eq!(opened, good.len() * (good.len() - 1) / 2);
        }
    }
}

/// Values of an exponent: good ones, and those of which two, three or four sum to 256 or beside it.
const POWERS: [u8; 18] = [0, 1, 2, 3, 4, 5, 63, 64, 65, 85, 86, 127, 128, 129, 252, 253, 254, 255];

/// Bodies of one term, of every four of these values, in the last polynomial: as many open as there
/// are exponents that a term may have.
pub fn all_fours(product: &impl Product) {
    let fours: Vec<[u8; MOST]> = cartesian(&vec![POWERS.to_vec(); MOST]);
    for n in DIMENSIONS {
        let mut bodies = case_c(n).bodies();
        let mut opened = 0;
        for exponents in &fours {
            bodies[n - 1][4..].copy_from_slice(exponents);
            opened += check_bodies(product, n, 0, &bodies)[n - 2].is_empty() as usize;
        }
        println!("{n}: {} fours, {opened} open", fours.len());
        assert_eq!(opened, Limits::of(n).terms);
    }
}

/// Bodies of three terms, of any exponents that a term may have, in the last polynomial: they open
/// exactly if they rise.
pub fn all_triples(product: &impl Product) {
    for n in DIMENSIONS {
        let good = exponents(n);
        let count = good.len();
        let mut opened = 0;
        let mut bodies = case_c(n).bodies();
        bodies[n - 1] = [[1, 0, 0, 0]; 6].concat();
        for (i, e) in good.iter().enumerate() {
            for (j, f) in good.iter().enumerate() {
                for (k, g) in good.iter().enumerate() {
                    for (term, exponents) in bodies[n - 1].chunks_exact_mut(8).zip([e, f, g]) {
                        term[4..].copy_from_slice(exponents);
                    }
                    let bad = check_bodies(product, n, 0, &bodies);
                    assert_eq!(bad[n - 2].is_empty(), i < j && j < k);
                    opened += bad[n - 2].is_empty() as usize;
                }
            }
        }
        println!("{n}: {} triples, {opened} open", count.pow(3));
        assert_eq!(opened, count * (count - 1) * (count - 2) / 6);
    }
}

/// Every byte of a full body at each of its values, in the last polynomial.
pub fn every_byte(product: &impl Product) {
    for n in DIMENSIONS {
        let most = Limits::of(n).terms;
        let parts = job_with(n, n - 1, Others::OneTerm, full(n));
        let mut bodies = parts.bodies();
        // By the byte of a term: how often the job opens.
        let mut opened = [0; 8];
        for at in 0..8 * most {
            let good = bodies[n - 1][at];
            for byte in 0..=255 {
                bodies[n - 1][at] = byte;
                let bad = check_bodies(product, n, 0, &bodies);
                assert!(byte != good || bad[n - 2].is_empty());
                opened[at % 8] += bad[n - 2].is_empty() as usize;
            }
            bodies[n - 1][at] = good;
        }
        println!("{n}: {} jobs, by byte these open: {opened:?}", 8 * most * 256);
        // Nothing lies between two neighbours of a full body: an exponent has one good value.
        assert_eq!(opened[4..], [most; MOST]);
        assert!(opened[..4].iter().all(|&count| count >= most));
    }
}

/// Counts of what random bodies had.
#[derive(Default)]
struct Met {
    kinds: Tally<BodyKind>,
    changes: Tally<TermChange>,
    /// How many changes were made.
    changed: Tally<usize>,
    limits: Tally<&'static str>,
    /// How many bad terms there were in all polynomials; 4 stands for more.
    bad: Tally<usize>,
    /// Everything that was wrong with the first bad term, and whether nothing else was.
    why: Tally<(Bad, bool)>,
    /// Where the first bad term stands.
    first: Tally<&'static str>,
    /// The polynomial in which it stands.
    polynomials: Tally<usize>,
}

/// Where a term stands.
const PLACES: [&str; 4] = ["beginning", "middle", "last", "only term"];

fn place(index: usize, count: usize) -> &'static str {
    match (index, count) {
        (0, 1) => PLACES[3],
        (0, _) => PLACES[0],
        _ if index == count - 1 => PLACES[2],
        _ => PLACES[1],
    }
}

impl Met {
    fn count(&mut self, made: &AnyBodies, bad: &[Vec<BadTerm>]) {
        let n = made.parts.n;
        self.kinds.count(n, made.kind);
        if made.kind == BodyKind::Changed {
            self.changed.count(n, made.changes.len());
        }
        for &(change, limit) in &made.changes {
            self.changes.count(n, change);
            limit.into_iter().for_each(|name| self.limits.count(n, name));
        }
        self.bad.count(n, bad.iter().map(|terms| terms.len()).sum::<usize>().min(4));
        let Some(k) = bad.iter().position(|terms| !terms.is_empty()) else { return };
        let BadTerm { index, why } = &bad[k][0];
        self.first.count(n, place(*index, made.parts.polynomials[k].len()));
        self.polynomials.count(n, k + 1);
        why.iter().for_each(|&bad| self.why.count(n, (bad, why.len() == 1)));
    }

    /// Fails unless each was met at least so often in each dimension in which it can be, and each
    /// that was wrong a fifth as often, alone and with another.
    fn assert_often(&self, least: u64) {
        self.kinds.assert_often(least, &BodyKind::all());
        self.changes.assert_often(least, &TermChange::all());
        self.changed.assert_often(least, &[0, 1, 2, 3]);
        self.bad.assert_often(least, &[0, 1, 2, 3, 4]);
        self.first.assert_often(least, &PLACES);
        for n in DIMENSIONS {
            let limits = LimitFault::all(n).into_iter().map(LimitFault::name);
            self.limits.assert_often_in(n, least, &limits.collect::<Vec<_>>());
            self.polynomials.assert_often_in(n, least, &(1..n).collect::<Vec<_>>());
            let each = Bad::all().into_iter().filter(|&bad| bad != Bad::AboveN || n < MOST);
            let alone = each.flat_map(|bad| [(bad, true), (bad, false)]);
            self.why.assert_often_in(n, least / 5, &alone.collect::<Vec<_>>());
        }
    }
}

/// So many jobs with any bodies.
pub fn random_bodies(product: &impl Product, seed: u64, jobs: usize, least: u64) {
    let mut r = Random::new(seed);
    let mut met = Met::default();
    for _ in 0..jobs {
        let made = any_bodies(&mut r);
        met.count(&made, &check(product, &made.parts));
    }
    met.assert_often(least);
}

/// The refusals that may come with 7 in one job, and how many ways there are to each.
pub const OTHER_REFUSALS: [(u8, usize); 6] = [(2, 3), (3, 4), (4, 3), (5, 6), (6, 4), (8, 3)];

/// A way to a refusal that a body leads to.
fn spoil_body(n: usize, polynomial: usize, refusal: u8, way: usize, bodies: &mut [Vec<u8>]) {
    match (refusal, way) {
        // A byte more, a term more than a body may hold.
        (5, 0) => bodies[polynomial].push(0),
        (5, 1) => bodies[polynomial].resize(8 * (Limits::of(n).terms + 1), 0),
        (5, 2) => bodies[n].push(0),
        // Low equal to high on the first and on the last axis, an end out of its limits.
        (6, 0) => bodies[0].copy_within(2..4, 0),
        (6, 1) => bodies[0].copy_within(4 * n - 2..4 * n, 4 * n - 4),
        (6, 2) => bodies[0][..2].copy_from_slice(&(-257i16).to_le_bytes()),
        (6, 3) => bodies[0][4 * n - 2..].copy_from_slice(&257i16.to_le_bytes()),
        // The side, and the first mask.
        (8, 0) => bodies[n][3 * n - 1] = 2,
        (8, 1) => bodies[n][2 * n] = 0,
        (8, 2) => bodies[n][2 * n] = 16,
        _ => {}
    }
}

/// A way to a refusal that other bytes lead to.
fn spoil_contents(n: usize, refusal: u8, way: usize, job: &mut Vec<u8>) {
    match (refusal, way) {
        (2, _) => job[0] = [0, 2, 255][way],
        (3, _) => job[1] = [0, 1, 5, 255][way],
        (4, _) => job[2] = [0, n as u8, n as u8 + 2][way],
        // A byte more, a byte less, another offset.
        (5, 3) => job.push(0),
        (5, 4) => job.truncate(job.len() - 1),
        (5, 5) => job[4] += 1,
        _ => {}
    }
}

/// The job of these parts, spoiled in these ways.
pub fn spoiled(parts: &Parts, polynomial: usize, ways: &[(u8, usize)]) -> Vec<u8> {
    let mut bodies = parts.bodies();
    for &(refusal, way) in ways {
        spoil_body(parts.n, polynomial, refusal, way, &mut bodies);
    }
    let mut job = assemble(parts.n, parts.bias, &bodies);
    for &(refusal, way) in ways {
        spoil_contents(parts.n, refusal, way, &mut job);
    }
    job
}

/// Which refusal was answered, by which of its ways, and whether a term was bad too.
type Refused = Tally<(u8, usize, bool)>;

/// Every choice of the other refusals, each by one of its ways, with a bad term or without one:
/// the least number is the answer.
fn check_least(
    product: &impl Product,
    (parts, polynomial): (&Parts, usize),
    bad: bool,
    turn: usize,
    met: &mut Refused,
) {
    for choice in 0..1 << OTHER_REFUSALS.len() {
        let chosen = OTHER_REFUSALS.iter().enumerate().filter(|(k, _)| choice >> k & 1 == 1);
        let ways: Vec<(u8, usize)> =
            chosen.map(|(_, &(refusal, count))| (refusal, turn % count)).collect();
        let seven = bad.then_some((7, 0));
        let least = ways.iter().copied().chain(seven).min();
        let job = spoiled(parts, polynomial, &ways);
        let found = product.open(&job);
        assert_eq!(found, Reference.open(&job), "{job:?}");
        assert_eq!(found.err(), least.map(|(refusal, _)| refusal), "{ways:?} in {job:?}");
        let (refusal, way) = least.unwrap_or((0, 0));
        met.count(parts.n, (refusal, way, bad));
        for cut in 0..4 {
            assert_eq!(product.open(&job[..cut]), Err(1));
        }
    }
}

/// Bodies with a bad term at this index: each limit broken, and the term before repeated.
fn bad_bodies(n: usize, index: usize) -> Vec<Vec<Term>> {
    let with = |fault| with_fault(&full(n), index, fault, Behind::ThoseThatRise);
    let mut all: Vec<Vec<Term>> = LimitFault::all(n).into_iter().map(with).collect();
    if index > 0 {
        let mut repeated = full(n);
        repeated[index].exponents = repeated[index - 1].exponents;
        all.push(repeated);
    }
    all
}

/// A bad term at the first, a middle and the last index of each polynomial together with other
/// faults of the job, and those faults without it.
pub fn least_number_is_answered(product: &impl Product) {
    let mut met = Refused::default();
    for n in DIMENSIONS {
        let most = Limits::of(n).terms;
        let mut turn = 0;
        for polynomial in 1..n {
            // In 12 turns each way comes up with each choice.
            let good = job_with(n, polynomial, Others::Full, full(n));
            (0..12).for_each(|k| check_least(product, (&good, polynomial), false, k, &mut met));
            for terms in [0, most / 2, most - 1].into_iter().flat_map(|at| bad_bodies(n, at)) {
                let parts = job_with(n, polynomial, Others::Full, terms);
                assert_eq!(check(product, &parts)[polynomial - 1].len(), 1);
                check_least(product, (&parts, polynomial), true, turn, &mut met);
                turn += 1;
            }
        }
        assert_eq!(turn, (n - 1) * (3 * limit_faults(n) + 2));
    }
    let ways = |&(refusal, count): &(u8, usize)| (0..count).map(move |way| (refusal, way));
    let ways: Vec<(u8, usize)> = OTHER_REFUSALS.iter().flat_map(ways).collect();
    let without = ways.iter().chain(&[(0, 0)]).map(|&(refusal, way)| (refusal, way, false));
    let before = ways.iter().filter(|(refusal, _)| *refusal < 7);
    let with = before.chain(&[(7, 0)]).map(|&(refusal, way)| (refusal, way, true));
    met.assert_met(&without.chain(with).collect::<Vec<_>>());
}
