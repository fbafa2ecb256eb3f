//! "Crossed": values, readable, the bias, the determinant, the tie rule, the point, over any n.

use std::cmp::Ordering;

use crate::grid::{has, vertex, Facet, Vertex};
use crate::limits::{Limits, MOST};

/// A term: coefficient and exponents for axes 1 to 4.
#[derive(Clone, Copy, PartialEq, Eq, Debug)]
pub struct Term {
    pub coefficient: i64,
    pub exponents: [u8; MOST],
}

impl Term {
    /// The term's product at a vertex; 0 to the power 0 is 1.
    fn at(&self, v: &Vertex) -> i128 {
        let mut product = self.coefficient as i128;
        for (&x, &e) in v.iter().zip(&self.exponents) {
            for _ in 0..e {
                product *= x as i128;
            }
        }
        product
    }
}

/// The polynomial's exact sum at a vertex.
pub fn sum(polynomial: &[Term], v: &Vertex) -> i128 {
    polynomial.iter().map(|term| term.at(v)).sum()
}

/// The running sums after 0, 1, .. and all terms, from the last term to the first, as the
/// controller people sum.
pub fn running_sums(polynomial: &[Term], v: &Vertex) -> Vec<i128> {
    let mut sums = vec![0];
    for term in polynomial.iter().rev() {
        sums.push(sums[sums.len() - 1] + term.at(v));
    }
    sums
}

/// What a readable sum counts as: 0 if it is no larger in size than the bias.
pub fn value(bias: u8, sum: i128) -> i128 {
    if sum.abs() <= bias as i128 {
        0
    } else {
        sum
    }
}

/// A column of the determinant D: 1, f1(w), .., f(n-1)(w) (the first n entries).
pub type Column = [i128; MOST];

/// The column of a vertex; none if a sum there is not readable, which is tested before the bias.
pub fn column(polynomials: &[Vec<Term>], bias: u8, v: &Vertex) -> Option<Column> {
    let limits = Limits::of(polynomials.len() + 1);
    let mut column = [0; MOST];
    column[0] = 1;
    for (entry, polynomial) in column[1..].iter_mut().zip(polynomials) {
        let sum = sum(polynomial, v);
        if !limits.is_readable(sum) {
            return None;
        }
        *entry = value(bias, sum);
    }
    Some(column)
}

/// The determinant of a matrix of n columns, of the rows from `row` on and the columns not yet
/// taken, by Laplace's expansion along the first of these rows. `entry` is by column and row.
fn expanded(n: usize, entry: &impl Fn(usize, usize) -> i128, row: usize, taken: u8) -> i128 {
    let mut sum = 0;
    let mut odd = false;
    for i in (0..n).filter(|i| taken >> i & 1 == 0) {
        let factor = if odd { -entry(i, row) } else { entry(i, row) };
        if row == n - 1 {
            return factor;
        }
        if factor != 0 {
            sum += factor * expanded(n, entry, row + 1, taken | 1 << i);
        }
        odd = !odd;
    }
    sum
}

/// The determinant of n columns.
pub fn determinant(columns: &[Column]) -> i128 {
    expanded(columns.len(), &|i, row| columns[i][row], 0, 0)
}

/// With (1, e, .., e to the n-1) in place of column i, the determinant's coefficient of a
/// power of e: column i is 1 in the row of the power and 0 in the others.
pub fn coefficient(columns: &[Column], i: usize, power: usize) -> i128 {
    let entry =
        |k: usize, row: usize| if k == i { (row == power) as i128 } else { columns[k][row] };
    expanded(columns.len(), &entry, 0, 0)
}

/// D is not 0 and, for every i, the first non-zero coefficient in rising powers has the
/// sign of D.
pub fn is_crossed(columns: &[Column]) -> bool {
    let n = columns.len();
    let d = determinant(columns);
    d != 0
        && (0..n).all(|i| {
            let first = (0..n).map(|power| coefficient(columns, i, power)).find(|&a| a != 0);
            first.is_some_and(|a| a.signum() == d.signum())
        })
}

/// An exact fraction. Its denominator is not 0; both numbers may have either sign.
#[derive(Clone, Copy, Debug)]
pub struct Fraction {
    pub numerator: i128,
    pub denominator: i128,
}

impl Fraction {
    /// The largest whole number that is not above it.
    pub fn below(&self) -> i128 {
        (self.numerator * self.denominator.signum()).div_euclid(self.denominator.abs())
    }

    /// The nearest whole number; a half goes to the even one of its two.
    pub fn nearest(&self) -> i128 {
        let below = self.below();
        let left = self.numerator - below * self.denominator;
        match (2 * left.abs()).cmp(&self.denominator.abs()) {
            Ordering::Less => below,
            Ordering::Greater => below + 1,
            Ordering::Equal => below + below.rem_euclid(2),
        }
    }
}

/// The steps in a unit.
const STEPS: i128 = 1024;

/// The coordinates of a crossed facet's point, exact, in steps of 1/1024: the lowest vertex's, and
/// the weights of those vertices whose mask has the axis.
pub fn exact_point(facet: &Facet, columns: &[Column]) -> Vec<Fraction> {
    let d = determinant(columns);
    let coordinate = |axis: usize| {
        let above = (0..facet.n).filter(|&i| has(facet.mask(i), axis));
        let weights: i128 = above.map(|i| coefficient(columns, i, 0)).sum();
        let lowest = facet.lowest[axis - 1] as i128;
        Fraction { numerator: STEPS * (lowest * d + weights), denominator: d }
    };
    (1..=facet.n).map(coordinate).collect()
}

/// The point of a crossed facet, in steps of 1/1024; 0 for axes above n.
pub fn point(facet: &Facet, columns: &[Column]) -> Vertex {
    let exact = exact_point(facet, columns);
    vertex(&exact.iter().map(|coordinate| coordinate.nearest() as i64).collect::<Vec<_>>())
}

#[cfg(test)]
mod tests {
    use super::*;
    use crate::cartesian::cartesian;
    use crate::limits::DIMENSIONS;
    use std::collections::BTreeSet;

    /// The request's values and the wrong turn's, each with both signs of the denominator.
    #[test]
    fn rounding_goes_to_the_nearest() {
        let of_a_unit = [(1, 2048, 0), (3, 2048, 2), (-1, 2048, 0), (-3, 2048, -2)];
        let in_steps = of_a_unit.map(|(above, under, wanted)| (STEPS * above, under, wanted));
        for (numerator, denominator, wanted) in in_steps.into_iter().chain([(-3, 10, 0)]) {
            let fraction = Fraction { numerator, denominator };
            let turned = Fraction { numerator: -numerator, denominator: -denominator };
            assert_eq!([fraction.nearest(), turned.nearest()], [wanted; 2], "{fraction:?}");
        }
    }

    /// The whole numbers that may be the answer: none is farther away by size, and of two that are
    /// equally near it is the even one. Found by looking at each candidate.
    fn nearest_by_search(fraction: &Fraction, candidates: &[i128]) -> Vec<i128> {
        let distance = |k: i128| (fraction.numerator - k * fraction.denominator).abs();
        let least = candidates.iter().map(|&k| distance(k)).min().expect("a candidate");
        let mut nearest = candidates.to_vec();
        nearest.retain(|&k| distance(k) == least);
        if nearest.len() > 1 {
            nearest.retain(|k| k % 2 == 0);
        }
        nearest
    }

    /// There is exactly one such number, for every small fraction, and halves come up over even
    /// and over odd numbers of both signs.
    #[test]
    fn one_nearest_number() {
        let candidates: Vec<i128> = (-122..=122).collect();
        let mut halves = BTreeSet::new();
        for numerator in -120..=120 {
            for denominator in (-40..=40).filter(|&d| d != 0) {
                let fraction = Fraction { numerator, denominator };
                let found = nearest_by_search(&fraction, &candidates);
                assert_eq!(found, [fraction.nearest()], "{fraction:?}");
                if 2 * numerator % denominator == 0 && numerator % denominator != 0 {
                    let below = fraction.below();
                    halves.insert((below % 2 == 0, below < 0, denominator < 0));
                }
            }
        }
        assert_eq!(halves.len(), 8);
    }

    /// The largest whole number that is not above a fraction.
    #[test]
    fn below_is_the_largest() {
        for numerator in -60..=60 {
            for denominator in (-20..=20).filter(|&d| d != 0) {
                let below = Fraction { numerator, denominator }.below();
                let is_above = |k: i128| k * denominator * denominator > numerator * denominator;
                assert!(!is_above(below) && is_above(below + 1), "{numerator}/{denominator}");
            }
        }
    }

    /// At each bias: its size counts as 0 on both sides, 1 more does not.
    #[test]
    fn values_by_the_bias() {
        for bias in 0..=255 {
            let size = bias as i128;
            for sum in -300..=300 {
                let counts = sum < -size || size < sum;
                assert_eq!(value(bias, sum), if counts { sum } else { 0 }, "{sum} at {bias}");
            }
        }
    }

    /// The readable limit is for the sum, at each bias; 1 past it there is no column.
    #[test]
    fn readable_before_the_bias() {
        for n in DIMENSIONS {
            let limit = Limits::of(n).readable;
            for constant in [limit, limit + 1, -limit, -limit - 1, 255, -256] {
                let term = Term { coefficient: constant as i64, exponents: [0; MOST] };
                for bias in [0, 1, 255] {
                    let found = column(&vec![vec![term]; n - 1], bias, &[0; MOST]);
                    let values = found.map(|column| column[1..n].to_vec());
                    let readable = constant.abs() <= limit;
                    assert_eq!(values, readable.then(|| vec![value(bias, constant); n - 1]));
                }
            }
        }
    }

    /// Every column of dimension n whose values are from -size to size.
    fn small_columns(n: usize, size: i128) -> Vec<Column> {
        let mut rows = vec![(-size..=size).collect(); n];
        rows[0] = vec![1];
        cartesian(&rows)
    }

    /// Some columns of dimension n, no two alike.
    fn some_columns(n: usize) -> Vec<Column> {
        let columns: [Column; MOST] = [[1, 7, -2, 5], [1, -3, 4, 0], [1, 2, 6, -8], [1, 0, -1, 3]];
        columns[..n]
            .iter()
            .map(|column| std::array::from_fn(|k| if k < n { column[k] } else { 0 }))
            .collect()
    }

    /// The product of the differences, for columns of powers; another sign if two columns
    /// are exchanged.
    #[test]
    fn determinants() {
        for n in DIMENSIONS {
            let at = [2, 3, 5, -1];
            let powers = |x: i128| std::array::from_fn(|k| x.pow(k as u32));
            let mut columns: Vec<Column> = at[..n].iter().map(|&x| powers(x)).collect();
            let pairs = (0..n).flat_map(|k| (0..k).map(move |i| at[k] - at[i]));
            let product: i128 = pairs.product();
            assert_eq!(determinant(&columns), product);
            columns.swap(0, n - 1);
            assert_eq!(determinant(&columns), -product);
            assert_eq!(determinant(&vec![columns[0]; n]), 0);
        }
    }

    /// The coefficients, each times its power, sum to the determinant with the powers of e in
    /// place of the column; and for each e all of these sum to D.
    #[test]
    fn coefficients_of_powers() {
        for n in DIMENSIONS {
            let columns = some_columns(n);
            for e in [-3i128, 0, 1, 2, 10] {
                let power = |k: usize| e.pow(k as u32);
                let sums: Vec<i128> = (0..n)
                    .map(|i| (0..n).map(|k| coefficient(&columns, i, k) * power(k)).sum())
                    .collect();
                for i in 0..n {
                    let mut replaced = columns.clone();
                    replaced[i] = std::array::from_fn(power);
                    assert_eq!(determinant(&replaced), sums[i]);
                }
                assert_eq!(sums.iter().sum::<i128>(), determinant(&columns));
            }
        }
    }

    /// For n = 2: one value is above 0 and the other is 0 or below.
    #[test]
    fn crossed_in_dimension_two() {
        for a in small_columns(2, 3) {
            for b in small_columns(2, 3) {
                assert_eq!(is_crossed(&[a, b]), (a[1] > 0) != (b[1] > 0), "{a:?} {b:?}");
            }
        }
    }

    /// Crossed does not depend on the order of the columns: enough to exchange neighbours.
    #[test]
    fn crossed_in_any_order() {
        for n in DIMENSIONS {
            let some: Vec<Column> = small_columns(n, 1).into_iter().step_by(n - 1).collect();
            let lists: Vec<[Column; MOST]> = cartesian(&vec![some; n]);
            for list in lists {
                for i in 1..n {
                    let mut exchanged = list;
                    exchanged.swap(i - 1, i);
                    assert_eq!(is_crossed(&list[..n]), is_crossed(&exchanged[..n]));
                }
            }
        }
    }

    /// A simplex has no crossed facet or exactly two, for all values from -1 to 1 (in
    /// dimension 2 from -3 to 3), exact zeros included. The order of the vertices does not
    /// matter, so each set of columns is looked at once.
    #[test]
    fn crossed_facets_of_a_simplex() {
        for (n, size) in DIMENSIONS.into_iter().zip([3, 1, 1]) {
            let columns = small_columns(n, size);
            let mut chosen = vec![0; n + 1];
            let mut with_two = 0;
            loop {
                let all: Vec<Column> = chosen.iter().map(|&k| columns[k]).collect();
                let without = |i: usize| [&all[..i], &all[i + 1..]].concat();
                let crossed = (0..=n).filter(|&i| is_crossed(&without(i))).count();
                assert!(crossed == 0 || crossed == 2, "{all:?}");
                with_two += (crossed == 2) as u32;
                // The next choice that does not fall from one vertex to the next.
                let Some(at) = chosen.iter().rposition(|&k| k + 1 < columns.len()) else { break };
                let next = chosen[at] + 1;
                chosen[at..].fill(next);
            }
            assert!(with_two > 0);
        }
    }
}
