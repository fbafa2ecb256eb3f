//! Good bodies, and faults to put into one of their terms.

use super::random::Random;
use crate::bad_terms::Bad;
use crate::build::exponents;
use crate::crossed::Term;
use crate::limits::MOST;
use crate::named;

/// Coefficients that a term may have: at the limits, and with a low byte or two that are 0.
pub const GOOD_COEFFICIENTS: [i64; 8] =
    [1, -1, 1_048_576, -1_048_576, 1_048_575, -1_048_575, 256, 65_536];

/// Coefficients that it may not have. The last two are 1 if only the low three bytes are read.
const BAD_COEFFICIENTS: [i64; 7] =
    [0, 1_048_577, -1_048_577, i32::MIN as i64, i32::MAX as i64, 16_777_217, -16_777_215];

/// The sum of a term's exponents.
fn degree(exponents: &[u8; MOST]) -> u32 {
    exponents.iter().map(|&e| e as u32).sum()
}

/// A change of one term, good before, that breaks a limit. No exponent becomes smaller, so that
/// the term still rises over the one before.
#[derive(Clone, Copy, PartialEq, Eq, PartialOrd, Ord, Debug)]
pub enum LimitFault {
    /// The coefficient is this.
    Coefficient(i64),
    /// The exponent of this axis, above n, is this.
    Above(usize, u8),
    /// The exponent of this axis is so much larger that the sum is 5.
    SumFive(usize),
    /// The exponent of this axis is this.
    Power(usize, u8),
    /// The exponent of one axis, up to n or above, is 255, and that of the other 1 if no other
    /// exponent is above 0: the sum is 256 to 259, in 8 bits 0 to 3.
    Around256(usize, usize),
    /// The exponents of both axes, up to n or above, are 128 larger: the sum is the same in 8 bits.
    Twice128(usize, usize),
    /// All four exponents are 64 larger: the sum is the same in 8 bits.
    FourTimes64,
}

impl LimitFault {
    /// Every one that there is in a dimension.
    pub fn all(n: usize) -> Vec<LimitFault> {
        let mut all = BAD_COEFFICIENTS.map(LimitFault::Coefficient).to_vec();
        for axis in n + 1..=MOST {
            all.extend([1, 255].map(|power| LimitFault::Above(axis, power)));
        }
        for axis in 1..=n {
            all.push(LimitFault::SumFive(axis));
            all.extend([5, 128, 255].map(|power| LimitFault::Power(axis, power)));
        }
        for axis in 1..=MOST {
            let others = (1..=MOST).filter(|&other| other != axis);
            all.extend(others.map(|other| LimitFault::Around256(axis, other)));
            all.extend((axis + 1..=MOST).map(|other| LimitFault::Twice128(axis, other)));
        }
        all.push(LimitFault::FourTimes64);
        all
    }

    /// For counting.
    pub fn name(self) -> &'static str {
        match self {
            LimitFault::Coefficient(_) => "coefficient",
            LimitFault::Above(..) => "above n",
            LimitFault::SumFive(_) => "sum 5",
            LimitFault::Power(..) => "power",
            LimitFault::Around256(..) => "around 256",
            LimitFault::Twice128(..) => "twice 128",
            LimitFault::FourTimes64 => "four times 64",
        }
    }

    /// Puts it into a term. One that is bad already may become any other.
    pub fn put(self, term: &mut Term) {
        let e = &mut term.exponents;
        match self {
            LimitFault::Coefficient(coefficient) => term.coefficient = coefficient,
            LimitFault::Above(axis, power) | LimitFault::Power(axis, power) => e[axis - 1] = power,
            LimitFault::SumFive(axis) => e[axis - 1] += 5u32.saturating_sub(degree(e)) as u8,
            LimitFault::Around256(axis, other) => {
                e[axis - 1] = 255;
                if degree(e) == 255 {
                    e[other - 1] = 1;
                }
            }
            LimitFault::Twice128(axis, other) => {
                for k in [axis, other] {
                    e[k - 1] = e[k - 1].wrapping_add(128);
                }
            }
            LimitFault::FourTimes64 => *e = e.map(|power| power.wrapping_add(64)),
        }
    }

    /// The limits that it breaks in a term that was good before.
    pub fn breaks(self, n: usize, before: &Term) -> Vec<Bad> {
        let (e, sum) = (before.exponents, degree(&before.exponents));
        let above = match self {
            LimitFault::Coefficient(0) => return vec![Bad::Zero],
            LimitFault::Coefficient(_) => return vec![Bad::Large],
            LimitFault::Above(_, 1) if sum < 4 => return vec![Bad::AboveN],
            LimitFault::Above(..) => true,
            LimitFault::SumFive(_) | LimitFault::Power(..) => false,
            // The other axis stays as it is if there is another exponent besides this one's.
            LimitFault::Around256(axis, other) => {
                axis > n || other > n && sum == e[axis - 1] as u32
            }
            LimitFault::Twice128(axis, other) => axis.max(other) > n,
            LimitFault::FourTimes64 => n < MOST,
        };
        if above {
            vec![Bad::AboveN, Bad::Degree]
        } else {
            vec![Bad::Degree]
        }
    }
}

named! {
    /// Which terms follow one with a fault.
    Behind {
        /// Those that did: the next may not rise any more.
        AllThatDid: 1,
        /// Those of them that rise over it: it alone is bad.
        ThoseThatRise: 1,
    }
}

/// The terms with a fault in one of them.
pub fn with_fault(terms: &[Term], index: usize, fault: LimitFault, behind: Behind) -> Vec<Term> {
    let (front, rest) = terms.split_at(index + 1);
    let mut terms = front.to_vec();
    fault.put(&mut terms[index]);
    let here = terms[index].exponents;
    let follows = |t: &&Term| behind == Behind::AllThatDid || t.exponents > here;
    terms.extend(rest.iter().filter(follows));
    terms
}

/// Terms of these exponents, with good coefficients in turn.
pub fn terms_of(exponents: impl IntoIterator<Item = [u8; MOST]>) -> Vec<Term> {
    let coefficients = GOOD_COEFFICIENTS.iter().cycle();
    let term = |(exponents, &coefficient)| Term { coefficient, exponents };
    exponents.into_iter().zip(coefficients).map(term).collect()
}

/// Every term that a body may hold.
pub fn full(n: usize) -> Vec<Term> {
    terms_of(exponents(n).iter().copied())
}

/// The second of them, the fourth and so on: some exponents lie under the first, and some between
/// any two neighbours.
pub fn every_second(n: usize) -> Vec<Term> {
    terms_of(exponents(n).iter().copied().skip(1).step_by(2))
}

/// So many terms: the first ones, the last ones, and some with others between them.
pub fn short(n: usize, count: usize) -> [Vec<Term>; 3] {
    let all = exponents(n);
    let spread = (1..=count).map(|k| all[k * all.len() / (count + 1)]);
    [
        terms_of(all[..count].iter().copied()),
        terms_of(all[all.len() - count..].iter().copied()),
        terms_of(spread),
    ]
}

/// Good terms, from one to a full body.
pub fn any_good(r: &mut Random, n: usize) -> Vec<Term> {
    let all = exponents(n);
    let any = 1 + r.index(all.len());
    let count = r.pick(&[1, 2, 3, any, any, all.len()]);
    let mut places: Vec<usize> = (0..all.len()).collect();
    r.shuffle(&mut places);
    places.truncate(count);
    places.sort();
    let mut terms = terms_of(places.into_iter().map(|place| all[place]));
    for term in &mut terms {
        let any = r.between(-1_048_576, 1_048_576);
        let nearby = r.pick(&GOOD_COEFFICIENTS);
        term.coefficient = if any == 0 || r.once_in(2) { nearby } else { any };
    }
    terms
}
