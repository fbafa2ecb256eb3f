//! Counts of what a test met, so that it can say that it met each in each dimension.

use std::collections::BTreeMap;
use std::fmt::Debug;

use crate::limits::DIMENSIONS;

/// An enum whose cases can be listed.
pub trait Named: Ord + Copy + Debug + 'static {
    /// Every case, in the order of the enum, with its weight: how often it is tried.
    const WEIGHTS: &'static [(Self, u64)];

    /// Every case.
    fn all() -> Vec<Self> {
        Self::WEIGHTS.iter().map(|(case, _)| *case).collect()
    }
}

/// Declares an enum without fields, each case with its weight.
#[macro_export]
macro_rules! named {
    ($(#[$about:meta])* $name:ident { $($(#[$line:meta])* $case:ident: $weight:literal,)* }) => {
        $(#[$about])*
        #[derive(Clone, Copy, PartialEq, Eq, PartialOrd, Ord, Debug)]
        pub enum $name {
            $($(#[$line])* $case,)*
        }
        impl $crate::tally::Named for $name {
            const WEIGHTS: &'static [($name, u64)] = &[$(($name::$case, $weight),)*];
        }
    };
}

/// A refusal's number, or another answer's name.
pub type Answer = Result<&'static str, u8>;

/// A number for each dimension.
pub type ByDimension = [u64; DIMENSIONS.len()];

/// How often each was met, by dimension.
pub struct Tally<T>(BTreeMap<usize, BTreeMap<T, u64>>);

impl<T: Ord + Copy + Debug> Default for Tally<T> {
    fn default() -> Tally<T> {
        Tally(BTreeMap::new())
    }
}

impl<T: Ord + Copy + Debug> Tally<T> {
    pub fn count(&mut self, n: usize, met: T) {
        *self.0.entry(n).or_default().entry(met).or_default() += 1;
    }

    /// How often each was met in a dimension.
    fn of(&self, n: usize) -> &BTreeMap<T, u64> {
        let counts = self.0.get(&n).unwrap_or_else(|| panic!("nothing in dimension {n}"));
        println!("{n}: {} {counts:?}", counts.values().sum::<u64>());
        counts
    }

    /// Fails unless exactly these were met in a dimension.
    pub fn assert_met_in(&self, n: usize, wanted: &[T]) {
        let mut wanted = wanted.to_vec();
        wanted.sort();
        let met: Vec<T> = self.of(n).keys().copied().collect();
        assert_eq!(met, wanted, "in dimension {n}");
    }

    /// Fails unless so many were met in each dimension, all together.
    pub fn assert_totals(&self, wanted: ByDimension) {
        assert_eq!(DIMENSIONS.map(|n| self.of(n).values().sum::<u64>()), wanted);
    }

    /// Fails unless exactly these were met in each dimension.
    pub fn assert_met(&self, wanted: &[T]) {
        DIMENSIONS.into_iter().for_each(|n| self.assert_met_in(n, wanted));
    }

    /// Fails unless each of these was met in each dimension.
    pub fn assert_includes(&self, wanted: &[T]) {
        for n in DIMENSIONS {
            let counts = self.of(n);
            for case in wanted {
                assert!(counts.contains_key(case), "{case:?} was not met in dimension {n}");
            }
        }
    }

    /// Fails unless each of these was met at least so often in a dimension.
    pub fn assert_often_in(&self, n: usize, least: u64, wanted: &[T]) {
        let counts = self.of(n);
        for case in wanted {
            let count = counts.get(case).copied().unwrap_or(0);
            assert!(count >= least, "{case:?} was met {count} times in dimension {n}");
        }
    }

    /// Fails unless each of these was met at least so often in each dimension.
    pub fn assert_often(&self, least: u64, wanted: &[T]) {
        DIMENSIONS.into_iter().for_each(|n| self.assert_often_in(n, least, wanted));
    }

    /// Fails unless as many were met in the largest dimension as in each other.
    pub fn assert_most_in_largest(&self) {
        let totals = self.0.iter().map(|(&n, counts)| (counts.values().sum::<u64>(), n));
        let (_, n) = totals.max().expect("something that was met");
        assert_eq!(Some(n), DIMENSIONS.into_iter().max());
    }
}

impl<T: Named> Tally<T> {
    /// Fails unless each case of the enum was met in each dimension, and as many in the largest
    /// dimension as in each other.
    pub fn assert_all(&self) {
        self.assert_most_in_largest();
        self.assert_met(&T::all());
    }
}
