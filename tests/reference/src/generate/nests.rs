//! Jobs for the order of cutting: several loops in a box of dimension 2, side by side or one in
//! another.
//!
//! Along a row a polynomial changes its sign at most four times, and a loop takes two changes of
//! each row that a vertex inside it lies on. So no vertex is inside three loops: there are no
//! deeper nests than a loop with loops in it. Of these there may be many, since a narrow strip has
//! vertices that lie apart, each with a loop around it.

use super::directions::any_bias;
use super::kinds::{polynomial, vertex_in, Ends, Shape};
use super::random::Random;
use super::small_cutter::squares;
use crate::build::{gathered, power_of, product, term, within_limits, Parts};
use crate::crossed::{sum, Term};
use crate::grid::{chains, vertex, Facet, Place, Vertex};
use crate::limits::{LARGEST_COEFFICIENT, LARGEST_COORDINATE};
use crate::named;

named! {
    /// The kinds of jobs for the order of cutting.
    Nest {
        /// The product of two ellipses: one in the other, side by side, or such as meet.
        Rounds: 3,
        /// A quartic in x and one in y: up to four wells, which a higher level makes one with a
        /// hole.
        Wells: 3,
        /// An ellipse times a narrow strip through it: vertices of the strip lie apart, and the
        /// loops around them are in that of the ellipse.
        Studded: 4,
        /// The same with a strip that has only single vertices, close to each other: many loops in
        /// one, and more outside it.
        Row: 4,
        /// Two narrow strips, which cross or lie side by side.
        Strips: 2,
        /// Sums chosen at the 15 vertices of a triangle, which give a polynomial.
        Chosen: 2,
        /// Any terms up to degree 4.
        AnyTerms: 1,
        /// An ellipse, two or a narrow strip in a box up to the largest coordinates.
        Far: 2,
        /// An ellipse times a narrow strip, not readable farther away.
        IntoLimit: 2,
        /// A small round times two lines, not readable farther away: curves along the lines end
        /// there.
        BesideLimit: 3,
    }
}

/// A box with sides up to a length, with its middle close to the origin.
fn box_around_origin(r: &mut Random, longest: i64) -> Ends {
    let side = |_| {
        let length = r.between(longest - longest / 3, longest);
        let low = r.between(-2, 2) - length / 2;
        (low, low + length)
    };
    (0..2).map(side).collect()
}

/// The vertices of the box that are not at its ends.
fn inner(ends: &Ends) -> Ends {
    ends.iter().map(|&(low, high)| (low + 1, high - 1)).collect()
}

/// A vertex in the middle of the box, or beside it.
fn middle(r: &mut Random, ends: &Ends) -> Vertex {
    let mut at = vertex(&[(ends[0].0 + ends[0].1) / 2, (ends[1].0 + ends[1].1) / 2]);
    if r.once_in(3) {
        at[r.index(2)] += r.pick(&[1, -1]);
    }
    at
}

/// Half of the shorter side of the box.
fn half(ends: &Ends) -> i64 {
    ends.iter().map(|(low, high)| high - low).min().expect("an axis") / 2
}

/// The polynomial with a constant more.
fn and(terms: &[Term], constant: i64) -> Vec<Term> {
    gathered(&[terms, &[term(constant, &[])]].concat())
}

/// The polynomial with such a constant that its sum at a vertex is as wanted.
fn with_sum(terms: &[Term], at: &Vertex, wanted: i64) -> Vec<Term> {
    and(terms, wanted - sum(terms, at) as i64)
}

/// An axis less a coordinate.
fn counted_from(axis: usize, from: i64) -> Vec<Term> {
    gathered(&[Term { coefficient: 1, exponents: power_of(axis, 1) }, term(-from, &[])])
}

fn times(factor: i64, terms: &[Term]) -> Vec<Term> {
    product(&[term(factor, &[])], terms)
}

/// An ellipse around a vertex, below 0 inside, with a radius between these or so.
fn ellipse(r: &mut Random, center: &Vertex, least: i64, most: i64) -> Vec<Term> {
    let factors = r.pick(&[[1, 1], [1, 1], [1, 1], [1, 2], [2, 1], [2, 3]]);
    let radius = r.between(least.max(1), most.max(least).max(1));
    let reach = factors[0].min(factors[1]) * (radius * radius + r.between(0, radius));
    and(&squares(&[(factors[0], center[0]), (factors[1], center[1])]), -reach)
}

/// A constant less a square of a form that is 0 at a vertex: above 0 close to the line through it.
/// Mostly above 0 on the line alone, and this not along the edges of the grid.
fn strip(r: &mut Random, at: &Vertex) -> Vec<Term> {
    let (a, b) = loop {
        let (a, b) = (r.between(-4, 4), r.between(0, 4));
        let is_along_edges = a == 0 || b == 0 || a == -b;
        if (a, b) != (0, 0) && (!is_along_edges || r.once_in(20)) {
            break (a, b);
        }
    };
    let form = gathered(&[term(a, &[1]), term(b, &[0, 1])]);
    let form = with_sum(&form, at, 0);
    let (factor, constant) =
        r.pick(&[(-2, 1), (-2, 1), (-2, 1), (-3, 2), (-1, 1), (-1, 4), (-1, 9)]);
    and(&times(factor, &product(&form, &form)), constant)
}

fn rounds(r: &mut Random, ends: &Ends) -> Vec<Term> {
    let half = half(ends);
    if r.once_in(2) {
        let center = middle(r, ends);
        let outer = ellipse(r, &center, half - 2, half - 1);
        return product(&outer, &ellipse(r, &center, 1, half - 3));
    }
    let centers = [vertex_in(r, &inner(ends)), vertex_in(r, &inner(ends))];
    let one = ellipse(r, &centers[0], 1, half / 2);
    product(&one, &ellipse(r, &centers[1], 1, half / 2))
}

/// a (x^2 - p)^2 + b (y^2 - q)^2 less a constant, counted from the middle of the box: four wells,
/// two, or one around a hill.
fn wells(r: &mut Random, ends: &Ends) -> Vec<Term> {
    let center = middle(r, ends);
    let mut all = Vec::new();
    let mut hills = Vec::new();
    for (axis, (low, high)) in (1..).zip(ends) {
        let factor = r.between(1, 3);
        let reach = (high - low) / 2 - 2;
        let apart = r.between(1, (reach * reach).max(1));
        let own = counted_from(axis, center[axis - 1]);
        let square = and(&product(&own, &own), -apart);
        all.extend(times(factor, &product(&square, &square)));
        hills.push(factor * apart * apart);
    }
    hills.sort();
    let level = match r.below(3) {
        0 => r.between(1, hills[0]),
        1 => r.between(hills[1], hills[0] + hills[1] - 1),
        _ => r.between(1, hills[0] + hills[1]),
    };
    and(&gathered(&all), -level)
}

fn studded(r: &mut Random, ends: &Ends) -> Vec<Term> {
    let half = half(ends);
    let center = middle(r, ends);
    let on_line = middle(r, ends);
    let round = ellipse(r, &center, half - 2, half - 1);
    product(&round, &strip(r, &on_line))
}

fn row(r: &mut Random, ends: &Ends) -> Vec<Term> {
    let center = middle(r, ends);
    let (a, b) = r.pick(&[(1, 1), (1, 1), (1, 1), (1, 2), (2, 1), (-1, 2), (-2, 1)]);
    let form = with_sum(&[term(a, &[1]), term(b, &[0, 1])], &center, 0);
    let line = and(&times(-2, &product(&form, &form)), 1);
    let radius = half(ends) - r.between(1, 2);
    let reach = radius * radius + r.between(0, radius);
    product(&and(&squares(&[(1, center[0]), (1, center[1])]), -reach), &line)
}

fn strips(r: &mut Random, ends: &Ends) -> Vec<Term> {
    let at = [vertex_in(r, &inner(ends)), vertex_in(r, &inner(ends))];
    let one = strip(r, &at[0]);
    if r.once_in(3) {
        return one;
    }
    product(&one, &strip(r, &at[1]))
}

/// x (x - 1) .. with so many factors, counted from a coordinate of an axis.
fn falling(axis: usize, from: i64, count: usize) -> Vec<Term> {
    let factors = (0..count as i64).map(|less| counted_from(axis, from + less));
    factors.fold(vec![term(1, &[])], |all, next| product(&all, &next))
}

/// 24 times the polynomial with the sums given, by x and y above a vertex, where x + y is at most
/// 4: Newton's, by its differences.
fn through_triangle(corner: &Vertex, sums: &[[i64; 5]; 5]) -> Vec<Term> {
    let choose =
        |n: usize, k: usize| (0..k).fold(1, |all, i| all * (n - i) as i64 / (i as i64 + 1));
    let sign = |k: usize| if k % 2 == 0 { 1 } else { -1 };
    let factorial = |k: usize| (1..=k as i64).product::<i64>();
    let mut all = Vec::new();
    for i in 0..=4 {
        for j in 0..=4 - i {
            let below = (0..=i).flat_map(|k| (0..=j).map(move |l| (k, l)));
            let difference: i64 = below
                .map(|(k, l)| sign(i - k + j - l) * choose(i, k) * choose(j, l) * sums[k][l])
                .sum();
            let factor = term(24 / (factorial(i) * factorial(j)) * difference, &[]);
            let base = product(&falling(1, corner[0], i), &falling(2, corner[1], j));
            all.extend(product(&[factor], &base));
        }
    }
    gathered(&all)
}

fn chosen(r: &mut Random, ends: &Ends) -> Vec<Term> {
    let mut corner = [0; 4];
    for (x, &(low, high)) in corner.iter_mut().zip(ends) {
        *x = r.between(low, high - 4);
    }
    let mut sums = [[0; 5]; 5];
    sums.iter_mut().flatten().for_each(|sum| *sum = r.pick(&[1, 1, 2, -1, -1, -2, 0]));
    through_triangle(&corner, &sums)
}

fn any_terms(r: &mut Random) -> Vec<Term> {
    let axis = 1 + r.index(2);
    polynomial(r, 2, axis, Shape { most: 8, degree: 4, size: 5 })
}

/// A box that ends at the largest coordinate of an axis or two, with an ellipse, a strip or two
/// wells beside each other in it.
fn far(r: &mut Random) -> (Ends, Vec<Term>) {
    let most = LARGEST_COORDINATE;
    let side = |_| {
        let length = r.between(4, 12);
        let low = r.pick(&[-most, most - length, -length / 2]);
        (low, low + length)
    };
    let ends: Ends = (0..2).map(side).collect();
    let center = middle(r, &ends);
    let terms = match r.below(3) {
        0 => ellipse(r, &center, 1, half(&ends)),
        1 => strip(r, &center),
        _ => {
            // The quartic is for the axis that is not far out.
            let is_far = ends[0].1 == most || ends[0].0 == -most;
            let (axis, other) = if is_far { (2, 1) } else { (1, 2) };
            let along = counted_from(axis, center[axis - 1]);
            let across = counted_from(other, center[other - 1]);
            let apart = r.between(1, 5);
            let square = and(&product(&along, &along), -apart);
            let wells = [product(&square, &square), product(&across, &across)].concat();
            and(&gathered(&wells), -r.between(1, apart * apart + 2))
        }
    };
    (ends, terms)
}

/// The box with more at some of its ends, up to this.
fn longer(r: &mut Random, ends: &mut Ends, most: i64) {
    for (low, high) in ends.iter_mut() {
        *low -= r.pick(&[0, most / 2, most]);
        *high += r.pick(&[0, most / 2, most]);
    }
}

/// The polynomial times as large a factor as there can be, or half of it.
fn enlarged(r: &mut Random, terms: &[Term]) -> Vec<Term> {
    let largest = terms.iter().map(|t| t.coefficient.abs()).max().expect("a term");
    let factor = (LARGEST_COEFFICIENT - 300) / largest;
    times(r.pick(&[factor, factor, factor / 2]).max(1), terms)
}

fn into_limit(r: &mut Random, ends: &mut Ends) -> Vec<Term> {
    let terms = studded(r, ends);
    longer(r, ends, 8);
    enlarged(r, &terms)
}

/// A small round times two lines, which may cut it into pieces.
fn beside_limit(r: &mut Random, ends: &mut Ends) -> Vec<Term> {
    let at = middle(r, ends);
    let round = squares(&[(2, at[0]), (2, at[1])]);
    let mut terms = and(&round, -r.pick(&[1, 3, 9, 17, 19, 33, 51]));
    let reach = r.pick(&[0, 1, 3]);
    for _ in 0..2 {
        let beside = |r: &mut Random, k: usize| at[k] + r.between(-reach, reach);
        let on_line = vertex(&[beside(r, 0), beside(r, 1)]);
        let (a, b) = r.pick(&[(1, 0), (0, 1), (1, 1), (1, -1), (2, 1), (1, 2)]);
        let form = gathered(&[term(a, &[1]), term(b, &[0, 1])]);
        terms = product(&terms, &with_sum(&form, &on_line, 0));
    }
    longer(r, ends, 8);
    enlarged(r, &terms)
}

/// A job of a kind.
pub fn nest_of(r: &mut Random, kind: Nest) -> Parts {
    loop {
        let longest = if kind == Nest::Row { 16 } else { r.pick(&[8, 12, 12, 14]) };
        let mut ends = box_around_origin(r, longest);
        let terms = match kind {
            Nest::Rounds => rounds(r, &ends),
            Nest::Wells => wells(r, &ends),
            Nest::Studded => studded(r, &ends),
            Nest::Row => row(r, &ends),
            Nest::Strips => strips(r, &ends),
            Nest::Chosen => chosen(r, &ends),
            Nest::AnyTerms => any_terms(r),
            Nest::Far => {
                let made = far(r);
                ends = made.0;
                made.1
            }
            Nest::IntoLimit => into_limit(r, &mut ends),
            Nest::BesideLimit => beside_limit(r, &mut ends),
        };
        let bias = any_bias(r);
        // Above the bias where it was above 0 or so; or where it was above the bias.
        let is_large = matches!(kind, Nest::IntoLimit | Nest::BesideLimit);
        let factor = r.pick(&[1, -1]) * if is_large { 1 } else { r.pick(&[1, bias as i64 + 1]) };
        let terms = and(&times(factor, &terms), r.pick(&[0, bias as i64]));
        if within_limits(&terms) {
            let facet = Facet { n: 2, lowest: vertex_in(r, &ends), masks: r.pick(chains(2)) };
            let start = Place { facet, side: r.below(2) as u8 };
            return Parts { n: 2, bias, ends, polynomials: vec![terms], start };
        }
    }
}

#[cfg(test)]
mod tests {
    use super::*;
    use crate::job::open;
    use crate::tally::Named;

    /// Jobs of each kind open.
    #[test]
    fn nests_open() {
        let mut r = Random::new(90);
        for kind in Nest::all() {
            for _ in 0..500 {
                assert!(open(&nest_of(&mut r, kind).bytes()).is_ok());
            }
        }
    }

    /// 24 times the sums that were chosen.
    #[test]
    fn sums_in_the_triangle() {
        let mut r = Random::new(91);
        for _ in 0..200 {
            let corner = vertex(&[r.between(-9, 9), r.between(-9, 9)]);
            let mut sums = [[0; 5]; 5];
            sums.iter_mut().flatten().for_each(|sum| *sum = r.between(-9, 9));
            let terms = through_triangle(&corner, &sums);
            for (i, j) in (0..=4).flat_map(|i| (0..=4 - i).map(move |j| (i, j))) {
                let there = vertex(&[corner[0] + i as i64, corner[1] + j as i64]);
                assert_eq!(sum(&terms, &there), 24 * sums[i][j] as i128);
            }
        }
    }
}
