//! Counts of where the exact coordinates of points lie between two step counts, and of those that
//! another rule of rounding would give another count.

use std::cmp::Ordering;

use crate::crossed::Fraction;
use crate::grid::Facet;
use crate::job::Job;
use crate::operations::exact_point;
use crate::tally::Tally;

/// What an exact coordinate is: where it lies between two step counts, its sign, and that of D.
pub type Exact = (&'static str, i128, i128);

/// Where it can lie if it is not whole: a half by the parity of the count below it.
const BETWEEN: [&str; 4] = ["nearer below", "half over even", "half over odd", "nearer above"];
const WHOLE: &str = "whole";

/// Coordinates that are easy to round wrongly: below 0 but answered 0, and as close to a half as an
/// odd denominator allows, in lowest terms.
const CLOSE: [&str; 4] = ["-1/2, to 0", "over -1/2, to 0", "1 under a half", "1 over a half"];

/// Other rules of rounding.
const OTHER_RULES: [&str; 10] = [
    "down",
    "up",
    "toward 0",
    "away from 0",
    "half down",
    "half up",
    "half toward 0",
    "half away from 0",
    "half to odd",
    "down below 0",
];

/// What is left over the count below, as a part of the denominator: twice that is compared with
/// the whole denominator.
fn side_of_half(coordinate: &Fraction) -> Ordering {
    let left = coordinate.numerator - coordinate.below() * coordinate.denominator;
    (2 * left.abs()).cmp(&coordinate.denominator.abs())
}

fn is_whole(coordinate: &Fraction) -> bool {
    coordinate.numerator % coordinate.denominator == 0
}

fn exact(coordinate: &Fraction) -> Exact {
    let [nearer_below, over_even, over_odd, nearer_above] = BETWEEN;
    let lies = match side_of_half(coordinate) {
        _ if is_whole(coordinate) => WHOLE,
        Ordering::Less => nearer_below,
        Ordering::Equal if coordinate.below() % 2 == 0 => over_even,
        Ordering::Equal => over_odd,
        Ordering::Greater => nearer_above,
    };
    let d = coordinate.denominator.signum();
    (lies, coordinate.numerator.signum() * d, d)
}

/// Every one that a coordinate can be.
fn each_exact() -> Vec<Exact> {
    let mut all: Vec<Exact> = Vec::new();
    for d in [-1, 1] {
        for sign in [-1, 1] {
            all.extend(BETWEEN.map(|lies| (lies, sign, d)));
        }
        all.extend([-1, 0, 1].map(|sign| (WHOLE, sign, d)));
    }
    all
}

fn greatest_common_divisor(a: i128, b: i128) -> i128 {
    if b == 0 {
        a.abs()
    } else {
        greatest_common_divisor(b, a % b)
    }
}

/// Which of `CLOSE` the coordinate is.
fn close(coordinate: &Fraction, answered: i128) -> Vec<&'static str> {
    let Fraction { numerator, denominator } = *coordinate;
    let is_half = side_of_half(coordinate) == Ordering::Equal;
    let to_0 = coordinate.below() < 0 && answered == 0;
    let unit = greatest_common_divisor(numerator, denominator);
    let left = (numerator - coordinate.below() * denominator).abs();
    let over = 2 * left - denominator.abs();
    // Whole counts and thirds are 1 from a half too, but not close to it.
    let is_close = denominator.abs() > 3 * unit;
    let holds =
        [to_0 && is_half, to_0 && !is_half, is_close && over == -unit, is_close && over == unit];
    CLOSE.into_iter().zip(holds).filter(|(_, holds)| *holds).map(|(name, _)| name).collect()
}

/// What each of the other rules gives, in their order.
fn by_other_rules(coordinate: &Fraction) -> [i128; OTHER_RULES.len()] {
    let down = coordinate.below();
    let up = if is_whole(coordinate) { down } else { down + 1 };
    let (toward_0, away_from_0) = if down < 0 { (up, down) } else { (down, up) };
    let odd = if down % 2 == 0 { up } else { down };
    let with_half = |at_half: i128| match side_of_half(coordinate) {
        Ordering::Less => down,
        Ordering::Equal => at_half,
        Ordering::Greater => up,
    };
    let even = down + up - odd;
    [
        down,
        up,
        toward_0,
        away_from_0,
        with_half(down),
        with_half(up),
        with_half(toward_0),
        with_half(away_from_0),
        with_half(odd),
        if down < 0 { down } else { with_half(even) },
    ]
}

/// Counts of the coordinates of answered points.
#[derive(Default)]
pub struct RoundingsMet {
    exact: Tally<Exact>,
    close: Tally<&'static str>,
    /// The other rules that give another count.
    otherwise: Tally<&'static str>,
}

impl RoundingsMet {
    /// Counts the coordinates that were answered for a crossed facet, in steps from axis 1 on.
    pub fn count(&mut self, job: &Job, facet: &Facet, answered: &[i64]) {
        let coordinates = exact_point(job, facet).expect("a crossed facet");
        for (coordinate, &steps) in coordinates.iter().zip(answered) {
            let steps = steps as i128;
            self.exact.count(job.n, exact(coordinate));
            for name in close(coordinate, steps) {
                self.close.count(job.n, name);
            }
            let named = OTHER_RULES.into_iter().zip(by_other_rules(coordinate));
            for (name, _) in named.filter(|(_, other)| *other != steps) {
                self.otherwise.count(job.n, name);
            }
        }
    }

    /// Fails unless halves over even and over odd counts were met at least so often in each
    /// dimension, with each sign of the coordinate and of D.
    pub fn assert_halves(&self, least: u64) {
        let halves = each_exact().into_iter().filter(|(lies, ..)| BETWEEN[1..3].contains(lies));
        self.exact.assert_often(least, &halves.collect::<Vec<_>>());
    }

    /// Fails unless coordinates 1 under and 1 over a half were met at least so often in each
    /// dimension.
    pub fn assert_close_to_half(&self, least: u64) {
        self.close.assert_often(least, &CLOSE[2..]);
    }

    /// Fails unless each of all these was met at least so often in each dimension.
    pub fn assert_often(&self, least: u64) {
        self.exact.assert_often(least, &each_exact());
        self.close.assert_often(least, &CLOSE);
        self.otherwise.assert_often(least, &OTHER_RULES);
    }
}

#[cfg(test)]
mod tests {
    use super::*;

    /// Fractions with the same value, with either sign of the denominator.
    fn both(numerator: i128, denominator: i128) -> [Fraction; 2] {
        [1, -1]
            .map(|sign| Fraction { numerator: sign * numerator, denominator: sign * denominator })
    }

    #[test]
    fn coordinates_are_named() {
        for (numerator, denominator, lies, sign) in [
            (1, 2, "half over even", 1),
            (3, 2, "half over odd", 1),
            (-1, 2, "half over odd", -1),
            (-3, 2, "half over even", -1),
            (-3, 10, "nearer above", -1),
            (3, 10, "nearer below", 1),
            (-7, 10, "nearer below", -1),
            (7, 10, "nearer above", 1),
            (0, 5, "whole", 0),
            (-10, 5, "whole", -1),
        ] {
            for coordinate in both(numerator, denominator) {
                let d = coordinate.denominator.signum();
                assert_eq!(exact(&coordinate), (lies, sign, d), "{coordinate:?}");
                assert!(each_exact().contains(&exact(&coordinate)));
            }
        }
    }

    #[test]
    fn close_coordinates_are_named() {
        for (numerator, denominator, wanted) in [
            (-1, 2, vec!["-1/2, to 0"]),
            (-3, 10, vec!["over -1/2, to 0"]),
            (3, 7, vec!["1 under a half"]),
            (8, 14, vec!["1 over a half"]),
            (-3, 7, vec!["over -1/2, to 0", "1 over a half"]),
            (-4, 7, vec!["1 under a half"]),
            (1, 3, vec![]),
            (4, 4, vec![]),
        ] {
            for coordinate in both(numerator, denominator) {
                assert_eq!(close(&coordinate, coordinate.nearest()), wanted, "{coordinate:?}");
            }
        }
    }

    /// What the other rules give for -1.5, -0.5, -0.3, 0.5, 1.5, 1.7 and 2.
    #[test]
    fn other_rules_give() {
        let coordinates = [(-3, 2), (-1, 2), (-3, 10), (1, 2), (3, 2), (17, 10), (4, 2)];
        let wanted = [
            ("down", [-2, -1, -1, 0, 1, 1, 2]),
            ("up", [-1, 0, 0, 1, 2, 2, 2]),
            ("toward 0", [-1, 0, 0, 0, 1, 1, 2]),
            ("away from 0", [-2, -1, -1, 1, 2, 2, 2]),
            ("half down", [-2, -1, 0, 0, 1, 2, 2]),
            ("half up", [-1, 0, 0, 1, 2, 2, 2]),
            ("half toward 0", [-1, 0, 0, 0, 1, 2, 2]),
            ("half away from 0", [-2, -1, 0, 1, 2, 2, 2]),
            ("half to odd", [-1, -1, 0, 1, 1, 2, 2]),
            ("down below 0", [-2, -1, -1, 0, 2, 2, 2]),
        ];
        assert_eq!(wanted.map(|(name, _)| name), OTHER_RULES);
        for (k, (numerator, denominator)) in coordinates.into_iter().enumerate() {
            for coordinate in both(numerator, denominator) {
                let given = wanted.map(|(_, counts)| counts[k]);
                assert_eq!(by_other_rules(&coordinate), given, "{coordinate:?}");
            }
        }
    }
}
