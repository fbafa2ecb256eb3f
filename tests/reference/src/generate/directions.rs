//! Jobs for how traces go from one simplex to the next and where they end, and for ties.

use super::kinds::{choose_start, through, valid_of, vertex_in, Ends, Kind};
use super::random::Random;
use crate::build::{gathered, power_of, product, term, within_limits, Parts};
use crate::crossed::Term;
use crate::grid::{chains, orders, Facet, Place, Simplex, Vertex};
use crate::job::Job;
use crate::limits::{Limits, LARGEST_COEFFICIENT, MOST};
use crate::named;
use crate::operations::{facet_is_crossed, trace_places};

named! {
    /// The courses of curves.
    Course {
        /// Values chosen at all vertices of a cube: by every way through its simplices, and with
        /// every tie.
        InCube: 30,
        /// Far around the origin, through hundreds of simplices in every direction.
        FarAround: 1,
        /// Out of the readable values, in every direction.
        IntoLimit: 6,
    }
}

/// A bias, often 0.
pub fn any_bias(r: &mut Random) -> u8 {
    let small = r.between(2, 20) as u8;
    r.pick(&[0, 0, 0, 1, small, 255])
}

/// How the sums at the vertices of a cube are chosen.
struct Chosen {
    /// Their sizes are taken from one of these lists, in which a size may repeat.
    sizes: &'static [&'static [i64]],
    /// Once in so many times one is at the readable limit or past it.
    at_limit: u64,
}

/// For the ways through simplices.
const FOR_WAYS: Chosen =
    Chosen { sizes: &[&[0, 1], &[0, 1, 1], &[0, 1, 1, 2, 2], &[0, 1, 2, 3, 4]], at_limit: 3 };

/// For ties: most are -1, 0 or 1, about half of them 0.
const FOR_TIES: Chosen = Chosen { sizes: &[&[0, 1], &[0, 0, 1], &[0, 0, 1, 1, 2]], at_limit: 40 };

/// Sums at the vertices of a cube, by the masks of these; many are 0 or count as 0. Now and then
/// one is at the readable limit or past it, where a coefficient can be as large.
fn some_sums(r: &mut Random, n: usize, bias: u8, chosen: &Chosen) -> Vec<i64> {
    let bias = bias as i64;
    let sizes = r.pick(chosen.sizes);
    let is_multiple = r.once_in(2);
    let sum = |r: &mut Random| match r.pick(sizes) * r.pick(&[1, -1]) {
        0 => r.between(-bias, bias),
        small if is_multiple => small * (bias + 1),
        small => small + small.signum() * bias,
    };
    let mut sums: Vec<i64> = (0..1 << n).map(|_| sum(r)).collect();
    let limit = Limits::of(n).readable as i64;
    if limit < LARGEST_COEFFICIENT && r.once_in(chosen.at_limit) {
        sums[r.index(1 << n)] = r.pick(&[limit, limit + 1, -limit - 1]);
    }
    sums
}

/// The polynomial with these sums at the vertices of the cube above a corner: a sum of products of
/// different axes, each counted from the corner.
pub fn through_cube(corner: &Vertex, sums: &[i64]) -> Vec<Term> {
    let mut terms = Vec::new();
    for mask in 0..sums.len() {
        // By how much the sum there is over what the products of fewer axes give.
        let parts = (0..sums.len()).filter(|part| part & mask == *part);
        let sign = |part: usize| if (mask ^ part).count_ones() % 2 == 0 { 1 } else { -1 };
        let mut all = vec![term(parts.map(|part| sign(part) * sums[part]).sum(), &[])];
        for axis in (1..=MOST).filter(|axis| mask >> (axis - 1) & 1 == 1) {
            let own = Term { coefficient: 1, exponents: power_of(axis, 1) };
            all = product(&all, &[own, term(-corner[axis - 1], &[])]);
        }
        terms.extend(all);
    }
    gathered(&terms)
}

/// A crossed facet of a simplex of the cube, with the side of the simplex; none if it is not found
/// soon.
fn crossed_in_cube(r: &mut Random, parts: &Parts, corner: &Vertex) -> Option<Place> {
    let (job, all) = (parts.opened(), orders(parts.n));
    let mut place = || {
        let simplex = Simplex { corner: *corner, order: &all[r.index(all.len())] };
        Place::out_of(&simplex, r.index(parts.n + 1)).turned()
    };
    (0..40).map(|_| place()).find(|place| facet_is_crossed(&job, &place.facet))
}

/// Some places before another on its curve.
fn before(r: &mut Random, parts: &Parts, place: &Place) -> Place {
    let back = Job { start: place.turned(), ..parts.opened() };
    let (_, places) = trace_places(&back, 1 + r.index(12)).expect("a crossed facet");
    places[places.len() - 1].turned()
}

/// Chosen values in a cube, in a box that is not much larger; and the corner of the cube. The start
/// is any facet of it.
fn with_chosen_values(r: &mut Random, n: usize, chosen: &Chosen) -> (Vertex, Parts) {
    loop {
        let (corner, bias) = (vertex_in(r, &vec![(-2, 1); n]), any_bias(r));
        let polynomials: Vec<Vec<Term>> =
            (1..n).map(|_| through_cube(&corner, &some_sums(r, n, bias, chosen))).collect();
        let mut around = |low: i64| (low - r.pick(&[0, 1, 1, 2]), low + r.pick(&[1, 2, 2, 3]));
        let ends = corner[..n].iter().map(|&low| around(low)).collect();
        if polynomials.iter().all(|terms| within_limits(terms)) {
            let start = Place { facet: Facet { n, lowest: corner, masks: chains(n)[0] }, side: 0 };
            return (corner, Parts { n, bias, ends, polynomials, start });
        }
    }
}

/// A job with many ties at the vertices of a unit cube, and the cube's lowest vertex.
pub fn with_many_ties(r: &mut Random, n: usize) -> (Vertex, Parts) {
    with_chosen_values(r, n, &FOR_TIES)
}

/// The like for the ways through simplices.
pub fn for_ways(r: &mut Random, n: usize) -> (Vertex, Parts) {
    with_chosen_values(r, n, &FOR_WAYS)
}

/// Such a job with a start on a curve through the cube.
fn in_cube(r: &mut Random, n: usize) -> Parts {
    loop {
        let (corner, mut parts) = for_ways(r, n);
        if let Some(place) = crossed_in_cube(r, &parts, &corner) {
            parts.start = if r.once_in(4) { place } else { before(r, &parts, &place) };
            return parts;
        }
    }
}

/// An ellipsoid around the origin, cut by planes.
fn far_around(r: &mut Random, n: usize) -> Parts {
    loop {
        let reach = r.between(20, 240 / (n as i64 - 1));
        let near = vertex_in(r, &vec![(-reach / 2, reach / 2); n]);
        let bias = any_bias(r);
        let mut form = |power: u8, low: i64, high: i64| -> Vec<Term> {
            let exponents = (1..=n).map(|axis| power_of(axis, power));
            exponents
                .map(|exponents| Term { coefficient: r.between(low, high), exponents })
                .collect()
        };
        let mut polynomials = vec![form(2, 1, 3)];
        polynomials.extend((2..n).map(|_| gathered(&form(1, -3, 3))));
        let polynomials = polynomials.iter().map(|terms| through(r, terms, &near, bias)).collect();
        let any = Place { facet: Facet { n, lowest: near, masks: chains(n)[0] }, side: 0 };
        let mut parts = Parts { n, bias, ends: vec![(-reach, reach); n], polynomials, start: any };
        choose_start(r, &mut parts, &near);
        if facet_is_crossed(&parts.opened(), &parts.start.facet) {
            return parts;
        }
    }
}

/// The facet of these vertices, in any order.
fn facet_of(n: usize, mut vertices: Vec<Vertex>) -> Facet {
    vertices.sort_by_key(|v| v.iter().sum::<i64>());
    let lowest = vertices[0];
    let mut masks = [0; MOST - 1];
    for (mask, v) in masks.iter_mut().zip(&vertices[1..]) {
        *mask = (0..n).filter(|&k| v[k] > lowest[k]).map(|k| 1 << k).sum();
    }
    Facet { n, lowest, masks }
}

/// The job with axis k in the place of the k-th of these axes and, for sign -1, every coordinate
/// with the other sign: the grid stays the same. The side of the start is any.
fn moved(r: &mut Random, parts: &Parts, axes: &[usize], sign: i64) -> Parts {
    let n = parts.n;
    let mut ends: Ends = vec![(0, 0); n];
    for (&axis, &(low, high)) in axes.iter().zip(&parts.ends) {
        ends[axis - 1] = if sign < 0 { (-high, -low) } else { (low, high) };
    }
    let at = |v: &Vertex| {
        let mut there = [0; MOST];
        axes.iter().zip(v).for_each(|(&axis, x)| there[axis - 1] = sign * x);
        there
    };
    let term = |t: &Term| {
        let mut exponents = [0; MOST];
        axes.iter().zip(t.exponents).for_each(|(&axis, e)| exponents[axis - 1] = e);
        let degree: u8 = exponents.iter().sum();
        Term { coefficient: sign.pow(degree as u32) * t.coefficient, exponents }
    };
    let polynomial = |terms: &Vec<Term>| gathered(&terms.iter().map(term).collect::<Vec<_>>());
    let facet = facet_of(n, parts.start.facet.vertices()[..n].iter().map(at).collect());
    let start = Place { facet, side: r.below(2) as u8 };
    let polynomials = parts.polynomials.iter().map(polynomial).collect();
    Parts { n, bias: parts.bias, ends, polynomials, start }
}

/// A curve along an axis, either way.
fn into_limit(r: &mut Random, n: usize) -> Parts {
    let (_, parts) = valid_of(r, n, Kind::IntoReadableLimit, true);
    let (all, sign) = (orders(n), r.pick(&[1, -1]));
    let axes = &all[r.index(all.len())];
    moved(r, &parts, axes, sign)
}

/// A job of that course and of dimension n.
pub fn of_course(r: &mut Random, n: usize, course: Course) -> Parts {
    match course {
        Course::InCube => in_cube(r, n),
        Course::FarAround => far_around(r, n),
        Course::IntoLimit => into_limit(r, n),
    }
}

/// A job of any course and dimension: most often of a dimension in which the course has most ways
/// to go.
pub fn of_any_course(r: &mut Random) -> (Course, Parts) {
    let course = r.named();
    let n = r.weighted(match course {
        Course::InCube => &[(2, 1), (3, 4), (4, 7)],
        Course::FarAround => &[(2, 1), (3, 1), (4, 1)],
        Course::IntoLimit => &[(2, 1), (3, 4), (4, 1)],
    });
    (course, of_course(r, n, course))
}

#[cfg(test)]
mod tests {
    use super::*;
    use crate::crossed::sum;
    use crate::generate::kinds::valid_in;
    use crate::grid::{above, facets_of_cube};
    use crate::job::open;
    use crate::limits::DIMENSIONS;
    use crate::operations::{facet_columns, Verdict};
    use crate::tally::{Named, Tally};

    /// The polynomial has the sums at all vertices of the cube.
    #[test]
    fn cubes_have_their_sums() {
        for n in DIMENSIONS {
            let mut r = Random::new(40);
            for bias in 0..=255 {
                let corner = vertex_in(&mut r, &vec![(-5, 5); n]);
                for chosen in [FOR_WAYS, FOR_TIES] {
                    let sums = some_sums(&mut r, n, bias, &chosen);
                    let terms = through_cube(&corner, &sums);
                    for (mask, &wanted) in sums.iter().enumerate() {
                        assert_eq!(sum(&terms, &above(&corner, mask as u8)), wanted as i128);
                    }
                }
            }
        }
    }

    /// Jobs with many ties open, and the cube lies in the box: of its facets none is refused but
    /// for values that are not readable. Values that are not 0 are mostly -1 and 1 at bias 0.
    #[test]
    fn cubes_have_many_ties() {
        let (mut answers, mut values) = (Tally::default(), Tally::default());
        for n in DIMENSIONS {
            let mut r = Random::new(48);
            for _ in 0..300 {
                let (corner, parts) = with_many_ties(&mut r, n);
                let job = open(&parts.bytes()).expect("a valid job");
                for facet in facets_of_cube(n, &corner) {
                    answers.count(n, facet_columns(&job, &facet).map(|_| ()));
                }
                let at = (0..1 << n).filter(|_| job.bias == 0).map(|mask| above(&corner, mask));
                let sums = at.flat_map(|v| job.polynomials.iter().map(move |p| sum(p, &v).abs()));
                sums.for_each(|size| values.count(n, size.min(2)));
            }
        }
        answers.assert_met_in(2, &[Ok(())]);
        answers.assert_met_in(3, &[Ok(())]);
        answers.assert_met_in(4, &[Ok(()), Err(10)]);
        values.assert_met(&[0, 1, 2]);
        values.assert_often_in(2, 200, &[0, 1]);
        values.assert_often_in(3, 1_000, &[0, 1]);
        values.assert_often_in(4, 3_000, &[0, 1]);
    }

    /// What Trace answers from the two sides of the start, without the places.
    fn from_both_sides(parts: &Parts) -> [Result<(Verdict, usize), u8>; 2] {
        let from = |side| Job { start: Place { side, ..parts.start }, ..parts.opened() };
        let traced = |side| trace_places(&from(side), 100);
        let mut both = [0, 1].map(|side| traced(side).map(|(verdict, all)| (verdict, all.len())));
        both.sort();
        both
    }

    /// A job that is moved has the curve of the job.
    #[test]
    fn moved_jobs_keep_their_curves() {
        for n in DIMENSIONS {
            let mut r = Random::new(41);
            for axes in orders(n) {
                for k in 0..20 {
                    let (_, parts) = valid_in(&mut r, n);
                    let there = moved(&mut r, &parts, axes, [1, -1][k % 2]);
                    assert_eq!(from_both_sides(&there), from_both_sides(&parts));
                }
            }
        }
    }

    /// Jobs of each course open, and most of their traces end as the course is meant to.
    #[test]
    fn each_course_reaches_its_aim() {
        for course in Course::all() {
            let mut met = Tally::default();
            for n in DIMENSIONS {
                let mut r = Random::new(42);
                for _ in 0..300 {
                    let parts = of_course(&mut r, n, course);
                    open(&parts.bytes()).expect("a valid job");
                    met.count(n, trace_places(&parts.opened(), 100).map(|(verdict, _)| verdict));
                }
            }
            println!("{course:?}");
            match course {
                Course::InCube => met.assert_often(200, &[Ok(Verdict::Edge)]),
                Course::FarAround => met.assert_often(200, &[Ok(Verdict::Full)]),
                Course::IntoLimit => met.assert_often(30, &[Ok(Verdict::Limit)]),
            }
        }
    }
}
