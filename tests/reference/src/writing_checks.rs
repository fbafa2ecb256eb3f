//! Request 2.2, writing jobs, as checks of any product. Answer and buffer must be the reference's;
//! the refusal must be the least of all that is wrong by `writing_met`, and where loose bodies were
//! made to be refused, the number that they were made for; a job that is written must be the one
//! that the tests build elsewhere, and opens to its bodies.

use crate::bad_terms::bad_terms;
use crate::build::{assemble, case_c, Parts};
use crate::generate::{
    any_bodies, any_job, any_loose, any_place, resize, short, valid_of_any, with_loose_faults,
    BodyKind, Change, LooseFault, LooseKind, LooseTally, PlaceTally, Random, Unread,
};
use crate::grid::{vertex, Facet, Place};
use crate::limits::{Limits, DIMENSIONS, MOST};
use crate::named;
use crate::operations::with_start;
use crate::product::{Product, Reference};
use crate::tally::{ByDimension, Named, Tally};
use crate::writing::{Loose, Which};
use crate::writing_met::{answers, dimension_of, length_of, Way, WritingMet};

/// So many bytes lie in front of a buffer and behind it that no call may touch.
const MARGIN: usize = 16;

/// A buffer longer than this is handed over in `long_lengths` alone.
const LONG: usize = 4_000;

/// A product, the noise for its buffers, and counts of what it was asked for.
struct Asked<'a, P> {
    product: &'a P,
    r: Random,
    met: WritingMet,
}

impl<'a, P: Product> Asked<'a, P> {
    fn new(product: &'a P, seed: u64) -> Self {
        Asked { product, r: Random::new(seed), met: WritingMet::default() }
    }

    /// Writes to a buffer of noise. If n is no dimension, the loose bodies were made in the other.
    /// Gives the answer and the buffer.
    fn ask(&mut self, loose: &Loose, other: usize, space: usize) -> (Result<usize, u8>, Vec<u8>) {
        let before = self.r.bytes(MARGIN + space + MARGIN);
        let (mut found, mut wanted) = (before.clone(), before.clone());
        let own = MARGIN..MARGIN + space;
        let answer = self.product.write_job(loose, &mut found[own.clone()]);
        let by_reference = Reference.write_job(loose, &mut wanted[own.clone()]);
        assert_eq!(answer, by_reference, "space {space} for {loose:?}");
        assert!(found == wanted, "other bytes: space {space} for {loose:?}");
        assert!(answer.is_ok() || found == before, "a refusal that writes: {loose:?}");
        let least = self.met.count(loose, other, space);
        assert_eq!(answer.err(), least, "space {space} for {loose:?}");
        if answer.is_ok() {
            let job = laid(loose, other);
            assert_eq!(answer, Ok(job.len()), "{loose:?}");
            let behind = MARGIN + job.len();
            assert!(found[MARGIN..behind] == job, "another job: {loose:?}");
            assert!(found[behind..] == before[behind..], "bytes behind the job: {loose:?}");
        }
        (answer, found[own].to_vec())
    }

    /// Asks with each space. Without this refusal it is 16 or none.
    fn ask_each_space(&mut self, loose: &Loose, other: usize, refusal: Option<u8>) {
        let length = length_of(dimension_of(loose, other), loose);
        for space in spaces(length) {
            let wanted = refusal.or((space < length).then_some(16));
            let (answer, _) = self.ask(loose, other, space);
            assert_eq!(answer, wanted.map_or(Ok(length), Err), "space {space} for {loose:?}");
        }
    }
}

/// The job of loose bodies as the tests build it elsewhere; its numbers are cut to 16 bits.
fn laid(loose: &Loose, other: usize) -> Vec<u8> {
    let n = dimension_of(loose, other);
    let bodies = Which::of(n).into_iter().map(|which| loose.body(which).to_vec());
    assemble(n, loose.bias, &bodies.collect::<Vec<_>>())
}

/// Spaces for a job of this length: none, one byte short, exactly as long, one byte more, longer.
/// For one that is much too long: none, its length in 16 bits, which may be right, and more.
fn spaces(length: usize) -> Vec<usize> {
    if length > LONG {
        return vec![0, length % 65_536, LONG];
    }
    vec![0, length - 1, length, length + 1, length + 40]
}

/// Right loose bodies of which no two are alike, with so many terms in each polynomial.
fn right(n: usize, bias: u8, terms: usize) -> Loose {
    let chosen = short(n, terms);
    let polynomial = |k: usize| {
        let mut terms = chosen[k % 3].clone();
        (1..).zip(&mut terms).for_each(|(index, t)| t.coefficient = 1_000 * k as i64 + index);
        terms
    };
    let start = case_c(n).start;
    let lowest = vertex(&[-7, 300, 0x1234, -2][..n]);
    Loose::of(&Parts {
        bias,
        ends: (0..n as i64).map(|k| (-10 - k, 20 + k)).collect(),
        polynomials: (1..n).map(polynomial).collect(),
        start: Place { facet: Facet { lowest, ..start.facet }, side: 1 },
        ..case_c(n)
    })
}

/// Right loose bodies of few terms and of all, without a bias and with one.
fn some_right(n: usize) -> [Loose; 3] {
    let most = Limits::of(n).terms;
    [right(n, 0, 2), right(n, 200, most), right(n, 1, most / 2)]
}

/// Whether a body of this length is right, by the paper's numbers.
fn fits(n: usize, which: Which, length: usize) -> bool {
    match which {
        Which::Box => length == 4 * n,
        Which::Polynomial(k) if k >= n => true,
        Which::Polynomial(_) => (1..=[15, 35, 70][n - 2]).any(|terms| length == 8 * terms),
        Which::Start => length == 3 * n,
    }
}

/// Every length of each body around its limits: up to 20 bytes of a box, 16 of a start, 600 of a
/// polynomial, those too that are not read. The terms are right as far as there are any.
pub fn every_length(product: &impl Product) {
    let mut asked = Asked::new(product, 110);
    for n in DIMENSIONS {
        let full = right(n, 3, Limits::of(n).terms);
        for base in [right(n, 0, 1), full.clone()] {
            for which in Which::of(MOST) {
                let most = match which {
                    Which::Box => 20,
                    Which::Polynomial(_) => 600,
                    Which::Start => 16,
                };
                for length in 0..=most {
                    let mut loose = base.clone();
                    *loose.body_mut(which) = full.body(which).to_vec();
                    resize(loose.body_mut(which), length);
                    let refusal = (!fits(n, which, length)).then_some(5);
                    asked.ask_each_space(&loose, n, refusal);
                }
            }
        }
    }
    asked.met.answers.assert_met(&[None, Some(5), Some(16)]);
    asked.met.answers.assert_totals([2 * 5 * (21 + 17 + 3 * 601); 3]);
}

/// Every two lengths of box and start, and lengths of all polynomials at their limits together.
pub fn lengths_together(product: &impl Product) {
    let mut asked = Asked::new(product, 111);
    for n in DIMENSIONS {
        let most = 8 * Limits::of(n).terms;
        let full = right(n, 9, Limits::of(n).terms);
        for (ends, start) in (0..=20).flat_map(|ends| (0..=16).map(move |start| (ends, start))) {
            let mut loose = right(n, 9, 1);
            resize(&mut loose.ends, ends);
            resize(&mut loose.start, start);
            let fit = fits(n, Which::Box, ends) && fits(n, Which::Start, start);
            asked.ask_each_space(&loose, n, (!fit).then_some(5));
        }
        let lengths = [0, 1, 7, 8, 9, most - 8, most - 1, most, most + 1, most + 8];
        for choice in 0..lengths.len().pow(n as u32 - 1) {
            let mut loose = full.clone();
            let mut fit = true;
            for k in 1..n {
                let length = lengths[choice / lengths.len().pow(k as u32 - 1) % lengths.len()];
                resize(&mut loose.polynomials[k - 1], length);
                fit &= fits(n, Which::Polynomial(k), length);
            }
            asked.ask_each_space(&loose, n, (!fit).then_some(5));
        }
    }
    asked.met.answers.assert_met(&[None, Some(5), Some(16)]);
    asked.met.answers.assert_totals([10, 100, 1_000].map(|triples| 5 * (21 * 17 + triples)));
}

/// The lengths of a body around the most that its entry holds, and lengths that are right ones in
/// 8, 16 or 24 bits, but are not right themselves.
fn long_lengths_of(n: usize, which: Which) -> Vec<usize> {
    let most = 8 * Limits::of(n).terms;
    let right = match which {
        Which::Box => vec![4 * n],
        Which::Polynomial(_) => vec![8, 16, most - 8, most],
        Which::Start => vec![3 * n],
    };
    let mut all: Vec<usize> = (65_527..=65_545).collect();
    all.push(16_777_216 + right[0]);
    for length in right {
        let more = [256, 512, 768, 4_096, 32_768, 65_536, 131_072, 196_608];
        all.extend(more.map(|more| more + length));
        all.extend([65_536 + length - 1, 65_536 + length + 1]);
    }
    all.retain(|&length| !matches!(which, Which::Polynomial(k) if k < n && fits(n, which, length)));
    all
}

/// Each body in turn much too long, alone and two at a time: 5, whatever the buffer holds. Too long
/// and not read, it changes nothing.
pub fn long_lengths(product: &impl Product) {
    let mut asked = Asked::new(product, 112);
    for n in DIMENSIONS {
        let base = right(n, 255, 2);
        for which in Which::of(MOST) {
            for length in long_lengths_of(n, which) {
                let mut loose = base.clone();
                resize(loose.body_mut(which), length);
                let (cut, whole) = (laid(&base, n).len(), length_of(n, &loose));
                let many = [0, cut - 1, cut, cut + 1, cut + 5_000, whole - 1, whole, whole + 1];
                for space in many.into_iter().filter(|&space| space < 1 << 20) {
                    let (answer, _) = asked.ask(&loose, n, space);
                    let unread = fits(n, which, length);
                    let wanted = if space < whole { Err(16) } else { Ok(whole) };
                    assert_eq!(answer, if unread { wanted } else { Err(5) });
                }
                // Another body too long too, by a number that is 0 in 16 bits.
                for other in Which::of(n).into_iter().filter(|&other| other != which) {
                    let mut two = loose.clone();
                    let length = base.body(other).len() + 65_536;
                    resize(two.body_mut(other), length);
                    assert_eq!(asked.ask(&two, n, cut).0, Err(5));
                }
            }
        }
    }
    asked.met.answers.assert_met_in(4, &[Some(5)]);
    (2..=3).for_each(|n| asked.met.answers.assert_met_in(n, &[None, Some(5), Some(16)]));
    asked.met.answers.assert_totals([2_511, 2_644, 2_721]);
}

/// Each fault by itself in some right loose bodies, four times: what is in a term is anywhere.
pub fn each_fault(product: &impl Product) {
    let mut asked = Asked::new(product, 113);
    let mut r = Random::new(114);
    for n in DIMENSIONS {
        for base in some_right(n) {
            asked.ask_each_space(&base, n, None);
            for fault in LooseFault::all(n).into_iter().flat_map(|fault| [fault; 4]) {
                let unread: Unread = r.named();
                let right = base.clone().with_unread(&mut r, n, unread);
                let loose = with_loose_faults(&mut r, n, &right, &[fault]);
                asked.ask_each_space(&loose, n, Some(fault.refusal()));
            }
        }
    }
    asked.met.answers.assert_met(&answers());
    asked.met.answers.assert_totals([3_687, 5_271, 6_555]);
    for n in DIMENSIONS {
        let of_bodies = Way::all(n).into_iter().filter(|way| way.refusal() != 16);
        asked.met.ways.assert_often_in(n, 12, &of_bodies.collect::<Vec<_>>());
    }
}

/// Every two faults, in one body or in two, with each space: the lesser number is the answer, and
/// 16 comes after them all.
pub fn two_faults(product: &impl Product) {
    let mut asked = Asked::new(product, 115);
    let mut r = Random::new(116);
    let mut two = Tally::default();
    for n in DIMENSIONS {
        let all = LooseFault::all(n);
        let bases = some_right(n);
        for (k, &one) in all.iter().enumerate() {
            for &other in &all[k + 1..] {
                let base = &bases[r.index(bases.len())];
                let loose = with_loose_faults(&mut r, n, base, &[one, other]);
                let refusals = [one.refusal(), other.refusal()];
                asked.ask_each_space(&loose, n, refusals.into_iter().min());
                two.count(n, (refusals[0], refusals[1]));
            }
        }
    }
    let of_bodies = [3, 5, 6, 7, 8];
    let pairs = of_bodies.iter().enumerate().flat_map(|(k, &one)| {
        let behind = of_bodies[k..].iter();
        behind.map(move |&other| (one, other))
    });
    two.assert_met(&pairs.collect::<Vec<_>>());
    // Of 66, 94 and 117 faults.
    two.assert_totals([2_145, 4_371, 6_786]);
}

/// Every choice of the refusals 3 and 5 to 8, each by one of its faults in turn, with each space:
/// the least number is the answer.
pub fn least_number_is_answered(product: &impl Product) {
    let mut asked = Asked::new(product, 117);
    let mut r = Random::new(118);
    for n in DIMENSIONS {
        let of = |refusal: u8| {
            let all = LooseFault::all(n).into_iter();
            all.filter(|fault| fault.refusal() == refusal).collect::<Vec<_>>()
        };
        let groups = [3, 5, 6, 7, 8].map(of);
        let turns = groups.iter().map(|group| group.len()).max().expect("a group");
        for (turn, choice) in (0..turns).flat_map(|turn| (0..1 << 5).map(move |c| (turn, c))) {
            let chosen = groups.iter().enumerate().filter(|(k, _)| choice >> k & 1 == 1);
            let faults: Vec<LooseFault> =
                chosen.map(|(_, group)| group[turn % group.len()]).collect();
            let base = &some_right(n)[turn % 3];
            let loose = with_loose_faults(&mut r, n, base, &faults);
            asked.ask_each_space(&loose, n, faults.iter().map(|fault| fault.refusal()).min());
        }
    }
    asked.met.answers.assert_often(50, &answers());
    asked.met.answers.assert_totals([3_936, 5_248, 6_560]);
}

/// Every space from none to 40 bytes more than the job, for jobs of one term and of all.
pub fn every_space(product: &impl Product) {
    let mut asked = Asked::new(product, 119);
    for n in DIMENSIONS {
        for loose in [right(n, 0, 1), right(n, 17, 3), right(n, 255, Limits::of(n).terms)] {
            let length = length_of(n, &loose);
            for space in 0..=length + 40 {
                let (answer, _) = asked.ask(&loose, n, space);
                assert_eq!(answer, if space < length { Err(16) } else { Ok(length) });
            }
        }
    }
    asked.met.answers.assert_met(&[None, Some(16)]);
    // Jobs of 38, 54 and 150 bytes; of 57, 89 and 601; of 76, 124 and 1,732.
    asked.met.answers.assert_totals([242, 747, 1_932].map(|bytes| bytes + 3 * 41));
}

/// Every byte of every body at each of its values, in a buffer of exactly the job's length and in
/// one that is a byte short.
pub fn every_byte(product: &impl Product) {
    let mut asked = Asked::new(product, 120);
    for n in DIMENSIONS {
        let base = right(n, 5, 2);
        let length = length_of(n, &base);
        for which in Which::of(n) {
            for at in 0..base.body(which).len() {
                let mut loose = base.clone();
                for byte in 0..=255 {
                    loose.body_mut(which)[at] = byte;
                    let answer = asked.ask(&loose, n, length).0;
                    let short = asked.ask(&loose, n, length - 1).0;
                    assert_eq!(short, answer.and(Err(16)));
                    // As opening the result has it.
                    assert_eq!(answer.err(), product.open(&laid(&loose, n)).err());
                }
            }
        }
    }
    asked.met.answers.assert_met(&[None, Some(6), Some(7), Some(8), Some(16)]);
    asked.met.answers.assert_totals([30, 53, 76].map(|bytes| 512 * bytes));
}

/// Every bias: it is byte 3 of the job, and changes nothing else of it and no refusal.
pub fn every_bias(product: &impl Product) {
    let mut asked = Asked::new(product, 121);
    let mut r = Random::new(122);
    for n in DIMENSIONS {
        for base in some_right(n) {
            let length = length_of(n, &base);
            let at_zero = asked.ask(&Loose { bias: 0, ..base.clone() }, n, length).1;
            for bias in 0..=255 {
                let loose = Loose { bias, ..base.clone() };
                asked.ask_each_space(&loose, n, None);
                let (answer, job) = asked.ask(&loose, n, length);
                assert_eq!(answer, Ok(length));
                assert_eq!(job[3], bias);
                assert!(job[..3] == at_zero[..3] && job[4..] == at_zero[4..]);
                for fault in LooseFault::all(n).into_iter().step_by(7) {
                    let spoiled = with_loose_faults(&mut r, n, &loose, &[fault]);
                    assert_eq!(asked.ask(&spoiled, n, length).0, Err(fault.refusal()));
                }
            }
        }
    }
    asked.met.answers.assert_met(&answers());
    asked.met.answers.assert_totals([12_291, 15_363, 17_667]);
}

/// Numbers above 300 of which some low bits are a dimension, or few are set.
pub fn large_numbers() -> Vec<u64> {
    let mut all = vec![u64::MAX, u64::MAX - 1, i64::MAX as u64];
    for shift in 9..64 {
        all.extend([0, 1, 2, 3, 4, 5].map(|low| (1 << shift) + low));
    }
    // Below 0 for who reads a sign, with a dimension in the low bits.
    all.extend([2, 3, 4].map(|low| u64::MAX << 8 | low));
    all.extend([2, 3, 4].map(|low| u64::MAX << 32 | low));
    all
}

/// Every n from 0 to 300, and large ones: of loose bodies made for each dimension, right ones,
/// spoiled ones and none at all. 3 but for the three dimensions, of which two do not fit.
pub fn every_number(product: &impl Product) {
    let mut asked = Asked::new(product, 123);
    let mut r = Random::new(124);
    for made_in in DIMENSIONS {
        let mut bases = vec![(right(made_in, 0, 2), None), (right(made_in, 66, 1), None)];
        for refusal in [5, 6, 7, 8] {
            let all = LooseFault::all(made_in).into_iter();
            let fault = all.filter(|fault| fault.refusal() == refusal).nth(2).expect("a fault");
            let spoiled = with_loose_faults(&mut r, made_in, &right(made_in, 0, 2), &[fault]);
            bases.push((spoiled, Some(refusal)));
        }
        let empty = Loose {
            ends: vec![],
            polynomials: Default::default(),
            start: vec![],
            ..bases[0].0.clone()
        };
        bases.push((empty, Some(5)));
        for (n, (base, own)) in
            (0..=300).chain(large_numbers()).flat_map(|n| bases.iter().map(move |base| (n, base)))
        {
            let loose = Loose { n, ..base.clone() };
            let refusal = match n {
                _ if n == made_in as u64 => *own,
                2..=4 => Some(5),
                _ => Some(3),
            };
            asked.ask_each_space(&loose, made_in, refusal);
        }
    }
    asked.met.answers.assert_met(&answers());
    asked.met.answers.assert_totals([22_400; 3]);
}

/// The polynomials that are not read changed in every way, one of them or all, in right loose
/// bodies and with every fault: the same answer and the same bytes.
pub fn not_read(product: &impl Product) {
    let mut asked = Asked::new(product, 125);
    let mut r = Random::new(126);
    for n in DIMENSIONS.into_iter().filter(|&n| n < MOST) {
        for base in some_right(n) {
            for fault in LooseFault::all(n).into_iter().map(Some).chain([None]) {
                let faults: Vec<LooseFault> = fault.into_iter().collect();
                let loose = with_loose_faults(&mut r, n, &base, &faults);
                let length = length_of(n, &base);
                for space in [0, length - 1, length, length + 9] {
                    check_not_read(&mut asked, &mut r, (n, &loose), space);
                }
            }
        }
        asked.met.answers.assert_met_in(n, &answers());
        asked.met.answers.assert_often_in(n, 30, &answers());
    }
}

/// Asks for a job of dimension n with nothing for the polynomials that are not read, and then with
/// something of every kind for each choice of them.
fn check_not_read(
    asked: &mut Asked<impl Product>,
    r: &mut Random,
    (n, loose): (usize, &Loose),
    space: usize,
) {
    let (answer, job) = asked.ask(loose, n, space);
    let written = answer.unwrap_or(0);
    let first = right(n, 0, 2).polynomials[0].clone();
    for (kind, choice) in Unread::all().into_iter().flat_map(|kind| {
        let choices = 1..1 << (MOST - n);
        choices.map(move |choice| (kind, choice))
    }) {
        let mut other = loose.clone();
        for k in (n..MOST).filter(|k| choice >> (k - n) & 1 == 1) {
            other.polynomials[k - 1] = kind.body(r, &first);
        }
        let (same, buffer) = asked.ask(&other, n, space);
        assert_eq!(same, answer, "{kind:?} for {other:?}");
        assert!(buffer[..written] == job[..written], "{kind:?} for {other:?}");
    }
}

named! {
    /// The space of a buffer.
    SpaceKind {
        /// None.
        Empty: 1,
        /// Less than the contents.
        UnderContents: 1,
        /// Less than the job.
        Under: 2,
        /// One byte less.
        OneShort: 3,
        /// As long as the job.
        Exact: 4,
        /// One byte more.
        OneMore: 3,
        /// Up to 60 bytes more.
        More: 4,
    }
}

/// The space of a kind for a job of this length; for one that is much too long, for its length in
/// 16 bits.
fn space_of(r: &mut Random, kind: SpaceKind, n: usize, length: usize) -> usize {
    let length = if length > LONG { length % 65_536 } else { length };
    match kind {
        SpaceKind::Empty => 0,
        SpaceKind::UnderContents => 1 + r.index(4 * n + 7),
        SpaceKind::Under => r.index(length),
        SpaceKind::OneShort => length - 1,
        SpaceKind::Exact => length,
        SpaceKind::OneMore => length + 1,
        SpaceKind::More => length + 2 + r.index(60),
    }
}

/// So many loose bodies of every kind, in a buffer of any kind. The refusal is that of opening the
/// result, by Open of the same product, and then 16.
pub fn any_loose_bodies(product: &impl Product, seed: u64, count: usize, least: u64) {
    let mut r = Random::new(seed);
    let mut asked = Asked::new(product, seed + 1);
    let mut made = LooseTally::default();
    let (mut kinds, mut by_space) = (Tally::default(), Tally::default());
    for _ in 0..count {
        let any = any_loose(&mut r);
        let n = dimension_of(&any.loose, any.made_in);
        let (kind, length) = (r.named(), length_of(n, &any.loose));
        let space = space_of(&mut r, kind, n, length);
        let (answer, _) = asked.ask(&any.loose, any.made_in, space);
        let of_faults = any.faults.iter().map(|fault| fault.refusal()).min();
        assert!(of_faults.is_none() || answer.err() == of_faults, "{:?}", any.faults);
        check_as_open_says(product, &any.loose, answer);
        made.count(&any);
        kinds.count(any.made_in, (any.kind, answer.is_ok()));
        by_space.count(any.made_in, (kind, answer.is_ok()));
    }
    made.assert_all();
    asked.met.assert_often(least);
    // Few of other numbers are a dimension, and noise is no job.
    let may_be = [LooseKind::Right, LooseKind::AnyBytes, LooseKind::OtherLength];
    let written = may_be.into_iter().chain([LooseKind::OtherDimension, LooseKind::Exchanged]);
    let refused = LooseKind::all().into_iter().map(|kind| (kind, false));
    let wanted: Vec<_> = refused.chain(written.map(|kind| (kind, true))).collect();
    kinds.assert_often(least, &wanted);
    let holds = [SpaceKind::Exact, SpaceKind::OneMore, SpaceKind::More].map(|kind| (kind, true));
    let each = SpaceKind::all().into_iter().map(|kind| (kind, false));
    by_space.assert_met(&each.chain(holds).collect::<Vec<_>>());
}

/// If the entries hold the lengths and n is a dimension, the refusal is what Open of the same
/// product gives for the job, or 16 or none if it opens.
fn check_as_open_says(product: &impl Product, loose: &Loose, answer: Result<usize, u8>) {
    let Some(n) = DIMENSIONS.into_iter().find(|&n| n as u64 == loose.n) else { return };
    if Which::of(n).into_iter().any(|which| loose.body(which).len() > 65_535) {
        return;
    }
    match product.open(&laid(loose, n)) {
        Err(refusal) => assert_eq!(answer, Err(refusal), "{loose:?}"),
        Ok(_) => assert!(matches!(answer, Ok(_) | Err(16)), "{answer:?} for {loose:?}"),
    }
}

/// So many loose bodies whose polynomials may have bad terms: 7 exactly if one is bad.
pub fn any_terms(product: &impl Product, seed: u64, count: usize, least: u64) {
    let mut r = Random::new(seed);
    let mut asked = Asked::new(product, seed + 1);
    let mut kinds = Tally::default();
    for _ in 0..count {
        let made = any_bodies(&mut r);
        let n = made.parts.n;
        let loose = Loose::of(&made.parts);
        let is_bad = (1..n).any(|k| !bad_terms(n, loose.body(Which::Polynomial(k))).is_empty());
        let length = length_of(n, &loose);
        let space = length - r.pick(&[0, 0, 0, 1]);
        let (answer, _) = asked.ask(&loose, n, space);
        let of_space = if space < length { Err(16) } else { Ok(length) };
        assert_eq!(answer, if is_bad { Err(7) } else { of_space }, "{loose:?}");
        kinds.count(n, (made.kind, answer.err()));
    }
    let with_each = |kind| [None, Some(7), Some(16)].map(|answer| (kind, answer));
    let wanted: Vec<_> = BodyKind::all().into_iter().flat_map(with_each).collect();
    kinds.assert_met(&wanted);
    kinds.assert_often(least, &wanted);
}

/// The part of a job that holds a body, by Body of the product.
fn part<'a>(product: &impl Product, job: &'a [u8], index: usize) -> &'a [u8] {
    let (offset, length) = product.body(job, index as u64).expect("a body");
    &job[offset..offset + length]
}

/// The bodies of a job that opens, by Body of the product; noise for those that are not read.
fn taken_apart(product: &impl Product, r: &mut Random, job: &[u8]) -> Loose {
    let n = job[1] as usize;
    let polynomial = |index: usize| match index {
        k if k < n => part(product, job, k).to_vec(),
        _ => r.bytes(5),
    };
    let polynomials: [Vec<u8>; MOST - 1] = [1, 2, 3].map(polynomial);
    Loose {
        n: n as u64,
        bias: job[3],
        ends: part(product, job, 0).to_vec(),
        polynomials,
        start: part(product, job, n).to_vec(),
    }
}

/// What is written opens to the same bodies, dimension and bias, by Open and Body of the product.
fn check_opens_to(product: &impl Product, job: &[u8], loose: &Loose) {
    let n = loose.n as usize;
    let (dimension, counts) = product.open(job).expect("a job that opens");
    assert_eq!((dimension, job[3]), (n, loose.bias), "{job:?}");
    for (index, which) in Which::of(n).into_iter().enumerate() {
        assert!(part(product, job, index) == loose.body(which), "{which:?} of {job:?}");
    }
    let terms = (1..n).map(|k| loose.polynomials[k - 1].len() / 8);
    assert_eq!(counts, terms.collect::<Vec<_>>(), "{job:?}");
    assert_eq!(product.body(job, n as u64 + 1), Err(12), "{job:?}");
}

/// Of so many jobs of every kind, bias, change and damage those that open, taken apart and written
/// again: byte by byte the same job.
pub fn written_again(product: &impl Product, seed: u64, jobs: usize, least: ByDimension) {
    let mut r = Random::new(seed);
    let mut asked = Asked::new(product, seed + 1);
    let (mut made, mut changes) = (Tally::default(), Tally::default());
    for _ in 0..jobs {
        let job = any_job(&mut r);
        if product.open(&job.bytes).is_err() {
            continue;
        }
        let loose = taken_apart(product, &mut r, &job.bytes);
        let (n, length) = (loose.n as usize, job.bytes.len());
        let space = length + r.pick(&[0, 0, 1, 2, 33]);
        let (answer, buffer) = asked.ask(&loose, n, space);
        assert_eq!(answer, Ok(length), "{:?}", job.bytes);
        assert!(buffer[..length] == job.bytes, "another job than {:?}", job.bytes);
        check_opens_to(product, &buffer[..length], &loose);
        made.count(job.made_in, job.made);
        changes.count(job.made_in, job.change);
    }
    made.assert_all();
    let may_open =
        [Change::Untouched, Change::DamagedOnce, Change::DamagedMore, Change::OtherTermCount];
    changes.assert_includes(&may_open);
    for (n, least) in DIMENSIONS.into_iter().zip(least) {
        asked.met.answers.assert_often_in(n, least, &[None]);
    }
}

/// The bodies of so many jobs with any place in place of the start: the same job with another start
/// as it is built elsewhere, or 5 for its length and 8 for its form.
pub fn another_start(product: &impl Product, seed: u64, jobs: usize, least: u64) {
    let mut r = Random::new(seed);
    let mut asked = Asked::new(product, seed + 1);
    let mut places = PlaceTally::default();
    for _ in 0..jobs {
        let (_, parts) = valid_of_any(&mut r, true);
        let (job, n) = (parts.bytes(), parts.n);
        let place = any_place(&mut r, &parts);
        let start = place.bytes.clone();
        let loose = Loose { start: start.clone(), ..taken_apart(product, &mut r, &job) };
        let space = length_of(n, &loose) + r.index(3);
        let (answer, buffer) = asked.ask(&loose, n, space);
        match Place::read(n, &start) {
            Some(place) => {
                let wanted = with_start(&job, &place);
                assert_eq!(answer, Ok(wanted.len()), "{loose:?}");
                assert!(buffer[..wanted.len()] == wanted, "another job than {wanted:?}");
                check_opens_to(product, &wanted, &loose);
            }
            None => assert_eq!(answer, Err(if start.len() == 3 * n { 8 } else { 5 }), "{loose:?}"),
        }
        places.count(&place);
    }
    places.assert_all();
    asked.met.answers.assert_met(&[None, Some(5), Some(8)]);
    asked.met.answers.assert_often(least, &[None, Some(5), Some(8)]);
}
