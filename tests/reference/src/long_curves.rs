//! Long closed curves, one in each dimension, all in the largest box. That in dimension 2 is
//! shorter: facets lie on 513 rows, 513 columns and 1,023 diagonals of the box, and a polynomial
//! changes its sign at most four times along each, so that no curve has more than 8,196.

use crate::build::{gathered, place, power_of, product, term, Parts};
use crate::crossed::Term;
use crate::grid::Place;
use crate::limits::LARGEST_COORDINATE;

/// 4 (p^2 + y - 245)^2 = (b + y)(d - y) + 128 p, where p is the sum of y and another coordinate:
/// around the parabola y = 245 - p^2, close to a diagonal of the box, along it four times.
fn around_parabola(axis: usize, b: i64, d: i64) -> Vec<Term> {
    let (y, one) = (term(1, &[0, 1]), |coefficient| term(coefficient, &[]));
    let p = [Term { coefficient: 1, exponents: power_of(axis, 1) }, y];
    let parabola = [&product(&p, &p)[..], &[y, one(-245)]].concat();
    let twice = product(&[one(2)], &parabola);
    let ends = product(&[y, one(b)], &[y, one(-d)]);
    gathered(&[product(&twice, &twice), ends, product(&[one(-128)], &p)].concat())
}

/// x^2 + y^2 = 250^2.
fn circle() -> Vec<Term> {
    vec![term(-62_500, &[]), term(1, &[0, 2]), term(1, &[2])]
}

/// Where a coordinate is 250 cos t another is 250 cos 3t: cos 3t = 4 cos^3 t - 3 cos t, times
/// 250^3 / 4.
fn three_times_the_angle(axis: usize, another: usize) -> Vec<Term> {
    let power = |coefficient, axis, e| Term { coefficient, exponents: power_of(axis, e) };
    gathered(&[power(1, axis, 3), power(-46_875, axis, 1), power(-15_625, another, 1)])
}

fn in_largest_box(polynomials: Vec<Vec<Term>>, start: Place) -> Parts {
    let n = start.facet.n;
    let ends = vec![(-LARGEST_COORDINATE, LARGEST_COORDINATE); n];
    Parts { n, bias: 0, ends, polynomials, start }
}

/// Each of them, with how many places it has.
pub fn long_curves() -> [(Parts, usize); 3] {
    let one = around_parabola(1, 224, 249);
    // The four ways along the one surface times the four along the other, all on one curve.
    let two = vec![one.clone(), around_parabola(3, 232, 246)];
    // Once around the circle axis 3 goes up and down three times and axis 4 nine times.
    let angles = vec![circle(), three_times_the_angle(1, 3), three_times_the_angle(3, 4)];
    [
        (in_largest_box(vec![one], place(&[-22, 2], &[3], 0)), 6_658),
        (in_largest_box(two, place(&[-22, 2, -22], &[1, 7], 0)), 46_520),
        (in_largest_box(angles, place(&[249, 3, 249, 247], &[1, 5, 15], 0)), 48_876),
    ]
}

#[cfg(test)]
mod tests {
    use super::*;
    use crate::limits::DIMENSIONS;
    use crate::operations::{trace_places, Verdict};

    /// Each is a loop of so many places, above dimension 2 of more than 40,000.
    #[test]
    fn curves_are_long() {
        for ((parts, count), n) in long_curves().into_iter().zip(DIMENSIONS) {
            let (verdict, places) = trace_places(&parts.opened(), count).expect("a trace");
            assert_eq!((parts.n, verdict, places.len()), (n, Verdict::Loop, count));
            assert!(n == 2 || count > 40_000);
        }
    }
}
