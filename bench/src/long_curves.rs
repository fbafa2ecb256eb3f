//! Long closed curves, one in each dimension, for seeing whether the time of a trace is linear in
//! its places: each is traced with space for more and more places, so that nothing but the space
//! grows. Found by trying; the tests of `lib.rs` have how long they are.
//!
//! In dimension 2 no curve has 40,000 places. The facets lie on 513 rows, 513 columns and 1,023
//! diagonals of the box, a polynomial changes sign at most four times along each, and a trace
//! repeats no facet: at most 8,196 places.

use reference::build::{gathered, place, power_of, product, term};
use reference::crossed::Term;

use crate::jobs::{job, job_from, sphere};

/// The spaces that a curve is traced with, as far as it has so many places.
const SPACES: [usize; 6] = [100, 400, 1_600, 6_400, 25_600, 40_000];

/// 4(p² + y - 245)² = (b + y)(d - y) + 128p, where p is the sum of y and another coordinate. Both
/// sides of the parabola y = 245 - p², joined at its bend and at its two ends: the curve goes along
/// the diagonal of the box four times, and there a unit along y passes the most facets.
fn around_parabola(axis: usize, b: i64, d: i64) -> Vec<Term> {
    let (y, one) = (term(1, &[0, 1]), |coefficient| term(coefficient, &[]));
    let p = [Term { coefficient: 1, exponents: power_of(axis, 1) }, y];
    let parabola = [&product(&p, &p)[..], &[y, one(-245)]].concat();
    let twice = product(&[one(2)], &parabola);
    let ends = product(&[y, one(b)], &[y, one(-d)]);
    gathered(&[product(&twice, &twice), ends, product(&[one(-128)], &p)].concat())
}

/// Where a coordinate is r cos t, another is r cos 3t. This is cos 3t = 4 cos³ t - 3 cos t multiplied
/// by r³/4, for a quarter of the square of r.
pub(crate) fn three_times_the_angle(axis: usize, another: usize, quarter: i64) -> Vec<Term> {
    let power = |coefficient, axis, e| Term { coefficient, exponents: power_of(axis, e) };
    gathered(&[power(1, axis, 3), power(-3 * quarter, axis, 1), power(-quarter, another, 1)])
}

/// Name and bytes of each long curve.
pub fn long_curves() -> Vec<(&'static str, Vec<u8>)> {
    // Four sides of one surface times four of the other, 16 ways along the diagonal. The ends of
    // the two take turns, and the bends of one lie between those of the other: so the ways are
    // one curve.
    let surfaces = vec![around_parabola(1, 224, 249), around_parabola(3, 232, 246)];
    // Round a circle once, z goes up and down three times and w nine times.
    let quarter = 15_625;
    let angles = vec![
        sphere(2, 4 * quarter),
        three_times_the_angle(1, 3, quarter),
        three_times_the_angle(3, 4, quarter),
    ];
    let all = [
        ("around_parabola_14", job(256, vec![around_parabola(1, 224, 249)])),
        ("around_parabolas_14_14", job_from(256, surfaces, place(&[-22, 2, -22], &[1, 7], 0))),
        ("angles_3_3_3", job_from(256, angles, place(&[249, 3, 249, 247], &[1, 5, 15], 0))),
    ];
    all.into_iter().map(|(name, parts)| (name, parts.bytes())).collect()
}

/// The spaces for a curve of so many places.
pub fn spaces(places: usize) -> impl Iterator<Item = usize> {
    SPACES.into_iter().filter(move |&space| space <= places)
}
