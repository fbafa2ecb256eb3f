//! Counts of the grounds that come up, and the list of those that can.

use std::fmt::{Debug, Formatter, Result};

use crate::cartesian::cartesian;
use crate::ground::{Coefficients, Ground};
use crate::limits::{DIMENSIONS, MOST};
use crate::tally::{ByDimension, Tally};

/// A ground with the sign of D. Powers behind those of the dimension are 0.
#[derive(Clone, Copy, PartialEq, Eq, PartialOrd, Ord)]
pub enum SignedGround {
    ZeroDeterminant,
    Against { vertex: u64, power: u64, d: i128 },
    Crossed { powers: [u64; MOST], d: i128 },
}

/// Short, for the lists of what was met.
impl Debug for SignedGround {
    fn fmt(&self, f: &mut Formatter) -> Result {
        match self {
            SignedGround::ZeroDeterminant => write!(f, "D 0"),
            SignedGround::Against { vertex, power, d } => write!(f, "D {d} not {vertex}^{power}"),
            SignedGround::Crossed { powers, d } => write!(f, "D {d} by {powers:?}"),
        }
    }
}

impl SignedGround {
    pub fn of(ground: &Ground, d: i128) -> SignedGround {
        let d = d.signum();
        match ground {
            Ground::ZeroDeterminant => SignedGround::ZeroDeterminant,
            &Ground::Against { vertex, power } => SignedGround::Against { vertex, power, d },
            Ground::Crossed { powers } => {
                let mut all = [0; MOST];
                all[..powers.len()].copy_from_slice(powers);
                SignedGround::Crossed { powers: all, d }
            }
        }
    }
}

/// Every vertex with every power and both signs of D. But in dimension 2 the coefficient of power 1
/// is -1 at vertex 0 and 1 at vertex 1, whatever the values: it is against D if D is above 0 at
/// vertex 0, and below 0 at vertex 1.
pub fn each_against(n: usize) -> Vec<SignedGround> {
    let mut all = Vec::new();
    for vertex in 0..n as u64 {
        for power in 0..n as u64 {
            let signs: &[i128] = match (n, vertex, power) {
                (2, 0, 1) => &[1],
                (2, 1, 1) => &[-1],
                _ => &[-1, 1],
            };
            all.extend(signs.iter().map(|&d| SignedGround::Against { vertex, power, d }));
        }
    }
    all
}

/// Whether at most n - k of the powers are k or above, for every k. With D not 0 the coefficients
/// are an invertible matrix, its rows by vertex: rows that begin with k zeros are independent in
/// the n - k entries behind.
fn can_be_named(powers: &[u64]) -> bool {
    let n = powers.len();
    (0..n).all(|k| powers.iter().filter(|&&power| power >= k as u64).count() <= n - k)
}

/// Whether an even number of pairs stand in falling order.
fn is_even(powers: &[u64]) -> bool {
    let under = |k: usize| powers[k + 1..].iter().filter(move |&&later| later < powers[k]);
    (0..powers.len()).map(|k| under(k).count()).sum::<usize>() % 2 == 0
}

/// Every list of powers that can be named, with both signs of D. But if all powers differ, the
/// matrix of the coefficients divided by D, which is the inverse of that of D, has rows that begin
/// at each column once and with a number above 0: D is above 0 exactly if they stand in an even
/// order. If two are alike, exchanging the two rows gives D the other sign.
pub fn each_crossed(n: usize) -> Vec<SignedGround> {
    let mut lists: Vec<[u64; MOST]> = cartesian(&vec![(0..n as u64).collect(); n]);
    lists.retain(|powers| can_be_named(&powers[..n]));
    let mut all = Vec::new();
    for powers in lists {
        let all_differ = (0..n).all(|k| !powers[..k].contains(&powers[k]));
        let signs: &[i128] = match (all_differ, is_even(&powers[..n])) {
            (false, _) => &[-1, 1],
            (true, true) => &[1],
            (true, false) => &[-1],
        };
        all.extend(signs.iter().map(|&d| SignedGround::Crossed { powers, d }));
    }
    all
}

/// Counts of grounds, each with whether the bias is above 0.
#[derive(Default)]
pub struct GroundsMet(Tally<(SignedGround, bool)>);

impl GroundsMet {
    pub fn count(&mut self, bias: u8, ground: &Ground, facet: &Coefficients) {
        let met = SignedGround::of(ground, facet.d);
        self.0.count(facet.by_vertex.len(), (met, bias > 0));
    }

    /// Fails unless each of these was met at least so often, at bias 0 and above.
    fn assert_each(&self, each: fn(usize) -> Vec<SignedGround>, least: ByDimension) {
        for (n, least) in DIMENSIONS.into_iter().zip(least) {
            let at_both = each(n).into_iter().flat_map(|ground| [(ground, false), (ground, true)]);
            self.0.assert_often_in(n, least, &at_both.collect::<Vec<_>>());
        }
    }

    /// Fails unless D was 0 at least so often.
    pub fn assert_zero(&self, least: ByDimension) {
        self.assert_each(|_| vec![SignedGround::ZeroDeterminant], least);
    }

    /// Fails unless each vertex was against D at least so often by each power.
    pub fn assert_against(&self, least: ByDimension) {
        self.assert_each(each_against, least);
    }

    /// Fails unless each list of powers was named at least so often.
    pub fn assert_crossed(&self, least: ByDimension) {
        self.assert_each(each_crossed, least);
    }

    /// Fails if a ground was met that is not in the lists.
    pub fn assert_no_other(&self) {
        for n in DIMENSIONS {
            let mut all = vec![SignedGround::ZeroDeterminant];
            all.extend(each_against(n).into_iter().chain(each_crossed(n)));
            let at_both = all.into_iter().flat_map(|ground| [(ground, false), (ground, true)]);
            self.0.assert_met_in(n, &at_both.collect::<Vec<_>>());
        }
    }
}
