//! Polynomials whose points lie halfway between two steps, or as close to that as an odd D allows.

use super::kinds::{along_axis_1, own_axes, random_box, readable_to_16, scale, Ends};
use super::random::Random;
use crate::build::{gathered, power_of, term, within_limits};
use crate::crossed::{sum, Term};
use crate::grid::Vertex;
use crate::limits::LARGEST_COORDINATE;

/// The half steps in a unit: an odd count of them is a half.
const HALF_STEPS: i64 = 2048;

/// An odd count of half steps within a unit of 0, often a small one.
fn odd(r: &mut Random) -> i64 {
    let reach = r.pick(&[4, HALF_STEPS / 2]);
    2 * r.between(-reach, reach - 1) + 1
}

/// The terms times a factor, with a constant.
fn times_and(terms: &[Term], factor: i64, constant: i64) -> Vec<Term> {
    let mut all = vec![term(constant, &[])];
    all.extend(terms.iter().map(|t| Term { coefficient: factor * t.coefficient, ..*t }));
    gathered(&all)
}

/// A form with 2,048 times its own axis, and others if it is to lean.
fn form(r: &mut Random, n: usize, own: usize, leans: bool) -> Vec<Term> {
    let mut terms = Vec::new();
    for axis in 1..=n {
        let size = if axis == own {
            r.pick(&[1, -1])
        } else if leans {
            r.pick(&[0, 0, 0, 1, -1])
        } else {
            0
        };
        terms.push(Term { coefficient: HALF_STEPS * size, exponents: power_of(axis, 1) });
    }
    gathered(&terms)
}

/// Linear forms, at times with a sum of squares for the first; `halfway` adds the constants.
pub fn halves(r: &mut Random, n: usize) -> (Ends, Vec<Vec<Term>>) {
    let (reach, longest) = scale(n).small;
    let (is_round, is_far) = r.pick(&[(true, false), (false, true), (false, false)]);
    let axes = own_axes(r, n);
    // Far from the origin the constant of a form that leans may pass its limit.
    let mut polynomials: Vec<_> = axes.iter().map(|&own| form(r, n, own, !is_far)).collect();
    let mut ends = random_box(r, n, if is_far { LARGEST_COORDINATE } else { reach }, longest);
    if is_round {
        ends = vec![(-r.between(1, 2), r.between(1, 2)); n];
        let squares = (1..=n).map(|axis| power_of(axis, 2));
        polynomials[0] = squares.map(|e| Term { coefficient: HALF_STEPS, exponents: e }).collect();
    }
    (ends, polynomials)
}

/// Such a polynomial times any factor, moved so that it is 0 about an odd count of half steps from
/// a vertex; at times a part of a half step, or any count.
pub fn halfway(r: &mut Random, terms: &[Term], at: &Vertex) -> Vec<Term> {
    let here = sum(terms, at) as i64;
    let parts = r.pick(&[1, 1, 1, 3, 5]);
    let half = parts * odd(r);
    let (small, any) = (r.between(-4, 4), r.between(-HALF_STEPS, HALF_STEPS));
    let off = r.pick(&[half, half, half, small, small, any]);
    let factor = r.pick(&[1, 1, -1, -1, 2, 3, -5, 16]);
    let moved = times_and(terms, factor * parts, -factor * (parts * here + off));
    if within_limits(&moved) {
        moved
    } else {
        times_and(terms, factor.signum(), -factor.signum() * (here + odd(r)))
    }
}

/// Polynomial k is x^2 (s axis - c), c being mostly an odd count of half steps of s: it is 0 close
/// to axis 1, and beside it readable up to x = 16.
pub fn large_halves(r: &mut Random, n: usize) -> (Ends, Vec<Vec<Term>>) {
    let ends = along_axis_1(r, n);
    let largest = readable_to_16(n) / HALF_STEPS;
    let along = |axis: usize| {
        let factor = r.pick(&[largest, -largest, 1, -1]);
        let mut exponents = power_of(axis, 1);
        exponents[0] = 2;
        let own = Term { coefficient: factor * HALF_STEPS, exponents };
        // At times less than a half step from axis 1.
        let reach = r.pick(&[2, 2, largest]);
        let slight = r.between(-reach, reach);
        let off = if r.once_in(3) { slight } else { factor * odd(r) };
        gathered(&[own, term(-off, &[2])])
    };
    (ends, (2..=n).map(along).collect())
}

/// An odd number times an axis, one for each polynomial, or for all but one a power of 2, which
/// leaves D odd but for powers of 2; `almost_halfway` adds the constants.
pub fn almost_halves(r: &mut Random, n: usize) -> (Ends, Vec<Vec<Term>>) {
    let (reach, longest) = scale(n).small;
    let ends = random_box(r, n, reach, longest);
    let axes = own_axes(r, n);
    let (all_odd, kept) = (r.once_in(2), r.index(n - 1));
    let times_axis = |(k, &axis): (usize, &usize)| {
        let largest = r.pick(&[20, 2_000, 30_000]);
        let odd = 2 * r.between(2, largest) + 1;
        let size = if all_odd || k == kept { odd } else { r.pick(&[1, 512]) };
        vec![Term { coefficient: r.pick(&[size, -size]), exponents: power_of(axis, 1) }]
    };
    (ends, axes.iter().enumerate().map(times_axis).collect())
}

/// x for which 1024 x leaves that much modulo an odd number.
fn divided_by_1024(left: i64, modulus: i64) -> i64 {
    (0..10).fold(left, |x, _| if x % 2 == 0 { x / 2 } else { (x + modulus) / 2 })
}

/// Such a polynomial, moved so that next to a vertex it is 0 one part of its odd number from a
/// half, or at the vertex if it has a power of 2.
pub fn almost_halfway(r: &mut Random, terms: &[Term], at: &Vertex) -> Vec<Term> {
    let size = terms[0].coefficient.abs();
    let here = sum(terms, at) as i64;
    if size % 2 == 0 || size == 1 {
        return times_and(terms, 1, -here);
    }
    let left = (size + r.pick(&[1, -1])) / 2;
    let off = divided_by_1024(left, size) - r.pick(&[0, size]);
    times_and(terms, 1, -here - off)
}

#[cfg(test)]
mod tests {
    use super::*;
    use crate::generate::kinds::{valid_of, Kind};
    use crate::limits::DIMENSIONS;
    use crate::operations::{point, trace_places};
    use crate::roundings_met::RoundingsMet;

    /// The points of traces of that kind.
    fn met_along(kind: Kind) -> RoundingsMet {
        let mut met = RoundingsMet::default();
        for n in DIMENSIONS {
            let mut r = Random::new(9);
            for _ in 0..1_000 {
                let (_, parts) = valid_of(&mut r, n, kind, true);
                let job = parts.opened();
                let traced = trace_places(&job, 20).map_or(Vec::new(), |(_, places)| places);
                for place in traced {
                    let steps = point(&parts.bytes(), &place.bytes()).expect("a point");
                    met.count(&job, &place.facet, &steps);
                }
            }
        }
        met
    }

    /// Halves of both parities and signs, with D of both signs, and what is close to them.
    #[test]
    fn each_kind_reaches_its_coordinates() {
        for kind in [Kind::Halves, Kind::LargeHalves] {
            println!("{kind:?}");
            met_along(kind).assert_halves(200);
        }
        met_along(Kind::AlmostHalves).assert_close_to_half(200);
    }

    /// The remainder is the one asked for.
    #[test]
    fn remainders_are_reached() {
        for modulus in [3, 5, 41, 2_047, 60_001] {
            for left in [(modulus - 1) / 2, (modulus + 1) / 2] {
                assert_eq!(1024 * divided_by_1024(left, modulus) % modulus, left);
            }
        }
    }
}
