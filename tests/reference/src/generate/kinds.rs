//! Jobs that open, by kind.

use super::biases::{scaled, Bias};
use super::halves::{almost_halfway, almost_halves, halfway, halves, large_halves};
use super::random::Random;
use crate::build::{exponents, gathered, power_of, product, term, within_limits, Parts};
use crate::crossed::{sum, value, Term};
use crate::grid::{above, chains, orders, vertex, Facet, Place, Vertex};
use crate::job::Job;
use crate::limits::{Limits, LARGEST_COEFFICIENT, LARGEST_COORDINATE, MOST};
use crate::named;
use crate::operations::facet_is_crossed;
use crate::tally::{Named, Tally};

named! {
    /// The kinds of jobs that open.
    Kind {
        /// A small box and small coefficients.
        Small: 2,
        /// Products of linear forms: 0 at many grid points.
        ManyZeros: 3,
        /// Few large terms: values below, at and above the readable limit.
        AroundReadableLimit: 2,
        /// A curve along axis 1 out of the readable values: the trace ends at the limit.
        IntoReadableLimit: 3,
        /// A box up to the largest.
        LargeBox: 3,
        /// Each term that a body may hold, with coefficients up to the largest.
        AllTerms: 1,
        /// An ellipse, or an ellipsoid cut by other surfaces: mostly closed.
        Closed: 2,
        /// Two sheets that almost touch at the origin, cut by planes: a bias may join them.
        AlmostTouching: 2,
        /// Planes, at times with a ball: points at odd counts of half steps.
        Halves: 2,
        /// The like along axis 1 out of the readable values: D is large.
        LargeHalves: 1,
        /// Planes with points one part of an odd number from a half.
        AlmostHalves: 1,
    }
}

/// The kinds that are for how points are rounded.
const FOR_ROUNDING: [Kind; 3] = [Kind::Halves, Kind::LargeHalves, Kind::AlmostHalves];

/// By which names a job that opens was made.
#[derive(Clone, Copy, PartialEq, Eq, PartialOrd, Ord)]
pub struct Made {
    pub kind: Kind,
    pub bias: Bias,
}

/// Short, for the lists of what was met.
impl std::fmt::Debug for Made {
    fn fmt(&self, f: &mut std::fmt::Formatter) -> std::fmt::Result {
        write!(f, "{:?} {:?}", self.kind, self.bias)
    }
}

impl Tally<Made> {
    /// Fails unless each kind was met with each bias in each dimension, and as many in the largest
    /// dimension as in each other.
    pub fn assert_all(&self) {
        self.assert_most_in_largest();
        let with_each = |kind| Bias::all().into_iter().map(move |bias| Made { kind, bias });
        self.assert_met(&Kind::all().into_iter().flat_map(with_each).collect::<Vec<_>>());
    }
}

/// How large jobs are, so that a search for a start and a trace take not much longer in one
/// dimension than in another.
pub struct Scale {
    n: usize,
    /// How often a job is of this dimension: most often of the largest.
    weight: u64,
    /// Reach and longest side of a small box.
    pub small: (i64, i64),
    /// The most linear forms in a product.
    forms: u64,
    /// Reach and longest side of a box around the readable limit.
    around_limit: (i64, i64),
    /// The most that a box around axis 1 reaches below and above it.
    beside_axis: (i64, i64),
    /// The reach of a large box is one of these.
    large: [i64; 3],
    /// The reach of a box for all terms.
    all_terms: i64,
    /// A size of their coefficients at which most values of that box are readable.
    coefficient: i64,
    /// The largest radius of a closed curve.
    pub radius: i64,
    /// How many vertices of the box are tried for a crossed start.
    tries: usize,
}

const SCALES: [Scale; 3] = [
    Scale {
        n: 2,
        weight: 3,
        small: (8, 8),
        forms: 4,
        around_limit: (18, 20),
        beside_axis: (2, 3),
        large: [12, 40, LARGEST_COORDINATE],
        all_terms: 6,
        coefficient: 1000,
        radius: 12,
        tries: 10,
    },
    Scale {
        n: 3,
        weight: 3,
        small: (4, 4),
        forms: 2,
        around_limit: (17, 5),
        beside_axis: (2, 3),
        large: [8, 20, LARGEST_COORDINATE],
        all_terms: 3,
        coefficient: 1000,
        radius: 5,
        tries: 20,
    },
    Scale {
        n: 4,
        weight: 4,
        small: (3, 4),
        forms: 2,
        around_limit: (17, 2),
        beside_axis: (1, 2),
        large: [4, 8, LARGEST_COORDINATE],
        all_terms: 2,
        coefficient: 100,
        radius: 2,
        tries: 30,
    },
];

pub fn scale(n: usize) -> &'static Scale {
    SCALES.iter().find(|row| row.n == n).expect("a dimension of the table")
}

/// The dimension of a job.
pub fn any_dimension(r: &mut Random) -> usize {
    r.weighted(&SCALES.each_ref().map(|row| (row.n, row.weight)))
}

/// The box: per axis the low and high end.
pub type Ends = Vec<(i64, i64)>;

/// A box within `reach` of the origin, no side longer than `longest`.
pub fn random_box(r: &mut Random, n: usize, reach: i64, longest: i64) -> Ends {
    (0..n)
        .map(|_| {
            let low = r.between(-reach, reach - 1);
            (low, (low + r.between(1, longest)).min(reach))
        })
        .collect()
}

/// A vertex of the box.
pub fn vertex_in(r: &mut Random, ends: &[(i64, i64)]) -> Vertex {
    let mut v = [0; MOST];
    for (x, &(low, high)) in v.iter_mut().zip(ends) {
        *x = r.between(low, high);
    }
    v
}

/// A vertex of the box, not on a face of it where a side is longer than 1.
fn inner_vertex(r: &mut Random, ends: &[(i64, i64)]) -> Vertex {
    let inner = |&(low, high): &(i64, i64)| {
        if high - low > 1 {
            (low + 1, high - 1)
        } else {
            (low, high)
        }
    };
    vertex_in(r, &ends.iter().map(inner).collect::<Vec<_>>())
}

/// The polynomial, or one of the axes where it has no term.
fn nonempty(r: &mut Random, n: usize, terms: Vec<Term>) -> Vec<Term> {
    if !terms.is_empty() {
        return terms;
    }
    let exponents = power_of(1 + r.index(n), 1);
    vec![Term { coefficient: r.pick(&[1, -1]), exponents }]
}

/// An axis for each polynomial, all different: with a linear term of its own each, the
/// polynomials mostly have a common curve.
pub fn own_axes(r: &mut Random, n: usize) -> &'static [usize] {
    let all = orders(n);
    &all[r.index(all.len())][..n - 1]
}

/// Coefficients and degree of a polynomial.
pub struct Shape {
    /// The most terms besides the linear one.
    pub most: u64,
    pub degree: u8,
    /// The largest coefficient.
    pub size: i64,
}

/// A polynomial of that shape, mostly with a linear term of the axis.
pub fn polynomial(r: &mut Random, n: usize, axis: usize, shape: Shape) -> Vec<Term> {
    let low_degree: Vec<[u8; MOST]> =
        exponents(n).iter().copied().filter(|e| e.iter().sum::<u8>() <= shape.degree).collect();
    let any = |r: &mut Random| r.between(-shape.size, shape.size);
    let mut terms = Vec::new();
    if !r.once_in(4) {
        terms.push(Term { coefficient: any(r), exponents: power_of(axis, 1) });
    }
    for _ in 0..1 + r.below(shape.most) {
        terms.push(Term { coefficient: any(r), exponents: r.pick(&low_degree) });
    }
    nonempty(r, n, gathered(&terms))
}

/// A linear form with small coefficients, mostly with the axis if there is one; it may be 0.
pub fn linear_form(r: &mut Random, n: usize, axis: Option<usize>) -> Vec<Term> {
    let mut form = vec![term(r.between(-2, 2), &[])];
    for other in 1..=n {
        form.push(Term { coefficient: r.between(-1, 1), exponents: power_of(other, 1) });
    }
    if let Some(axis) = axis {
        form.push(Term { coefficient: r.pick(&[2, -2, 1]), exponents: power_of(axis, 1) });
    }
    gathered(&form)
}

/// A product of up to `most` linear forms, the first mostly with the axis: 0 at many grid points.
pub fn linear_product(r: &mut Random, n: usize, axis: usize, most: u64) -> Vec<Term> {
    let mut all = vec![term(r.pick(&[1, -1, 1, 2]), &[])];
    for k in 0..1 + r.below(most) {
        let form = linear_form(r, n, (k == 0).then_some(axis));
        if !form.is_empty() {
            all = product(&all, &form);
        }
    }
    nonempty(r, n, all)
}

/// Moves the polynomial's zero set, or the border of what the bias makes 0, close to a vertex, by
/// its constant term, where the coefficients stay within their limit.
pub fn through(r: &mut Random, terms: &[Term], at: &Vertex, bias: u8) -> Vec<Term> {
    let bias = bias as i128;
    let wanted = r.pick(&[0, 0, 1, -1, 2, -3, bias, -bias, bias + 1, -bias - 1]);
    let constant = wanted - sum(terms, at);
    if constant.abs() > 1 << 30 {
        return terms.to_vec();
    }
    let moved = gathered(&[terms, &[term(constant as i64, &[])]].concat());
    if within_limits(&moved) {
        moved
    } else {
        terms.to_vec()
    }
}

/// The coefficient c for which c x^2 is readable up to x = 16.
pub fn readable_to_16(n: usize) -> i64 {
    (Limits::of(n).readable / 256) as i64
}

fn around_readable_limit(r: &mut Random, n: usize) -> (Ends, Vec<Vec<Term>>) {
    let (reach, longest) = scale(n).around_limit;
    let mut ends = random_box(r, n, reach, longest);
    if r.once_in(2) {
        ends[0] = (r.between(10, 16), r.between(17, 20));
    }
    let size = readable_to_16(n);
    let sizes = [size, -size, size - 1, size / 2, size / 16, 3, -1, 1];
    let large_terms = |r: &mut Random, axis: usize| {
        let mut terms = polynomial(r, n, axis, Shape { most: 4, degree: 2, size: 1 });
        for t in &mut terms {
            t.coefficient = r.pick(&sizes);
        }
        terms
    };
    (ends, own_axes(r, n).iter().map(|&axis| large_terms(r, axis)).collect())
}

/// A box around axis 1, from below x = 16 to above it.
pub fn along_axis_1(r: &mut Random, n: usize) -> Ends {
    let mut ends = vec![(r.between(-3, 14), r.between(15, 20))];
    let (below, above) = scale(n).beside_axis;
    ends.extend((1..n).map(|_| (-r.between(1, below), r.between(1, above))));
    ends
}

/// Polynomial k is c x^2 times axis k + 1, about: it is 0 along axis 1, and beside it readable
/// up to x = 16, where it may be at the limit or pass it by one. All but the first may be
/// a product of linear forms instead.
fn into_readable_limit(r: &mut Random, n: usize) -> (Ends, Vec<Vec<Term>>) {
    let ends = along_axis_1(r, n);
    let full = readable_to_16(n);
    let size = r.pick(&[full, full, full, -full, full - 1, full / 4]);
    let mut polynomials = Vec::new();
    for axis in 2..=n {
        let mut exponents = power_of(axis, 1);
        exponents[0] = 2;
        let constant = r.pick(&[0, 1, 1, -1, -1, 9]);
        let mut terms = vec![Term { coefficient: size, exponents }, term(constant, &[])];
        if axis == 2 {
            terms.push(term(r.pick(&[0, 0, 0, 1, -3]), &[1, 1]));
        } else if r.once_in(3) {
            terms = linear_product(r, n, axis, 2);
        }
        polynomials.push(gathered(&terms));
    }
    (ends, polynomials)
}

fn all_terms(r: &mut Random, n: usize) -> (Ends, Vec<Vec<Term>>) {
    let ends = random_box(r, n, scale(n).all_terms, 6);
    let size = r.pick(&[2, scale(n).coefficient, LARGEST_COEFFICIENT]);
    let with_largest = r.once_in(2);
    let full = |r: &mut Random| {
        let coefficient = |r: &mut Random| {
            let largest = with_largest && r.once_in(8);
            let c = if largest { LARGEST_COEFFICIENT } else { r.between(1, size) };
            c * r.pick(&[1, -1])
        };
        let terms = exponents(n).iter();
        terms.map(|&exponents| Term { coefficient: coefficient(r), exponents }).collect()
    };
    (ends, (1..n).map(|_| full(r)).collect())
}

fn closed(r: &mut Random, n: usize) -> (Ends, Vec<Vec<Term>>) {
    let radius = r.between(1, scale(n).radius);
    let reach = radius + r.between(0, 1);
    let mut round = vec![term(-radius * radius + r.between(-1, 1), &[])];
    for axis in 1..=n {
        let coefficient = if axis <= 2 { r.between(1, 3) } else { 1 };
        round.push(Term { coefficient, exponents: power_of(axis, 2) });
    }
    let mut polynomials = vec![gathered(&round)];
    for &axis in &own_axes(r, n)[1..] {
        let cut = r.once_in(2);
        let curved = Shape { most: 4, degree: 2, size: 2 };
        polynomials.push(if cut {
            linear_product(r, n, axis, 1)
        } else {
            polynomial(r, n, axis, curved)
        });
    }
    (vec![(-reach, reach); n], polynomials)
}

/// A ball around a vertex of axis 1 whose sum at the origin is `outside`.
fn ball(n: usize, center: i64, outside: i64) -> Vec<Term> {
    let mut terms = vec![term(outside, &[]), term(-2 * center, &[1])];
    terms.extend((1..=n).map(|axis| Term { coefficient: 1, exponents: power_of(axis, 2) }));
    gathered(&terms)
}

/// A product of two linear forms or of two balls on both sides of the origin, off by a constant;
/// the other polynomials are linear.
fn almost_touching(r: &mut Random, n: usize) -> (Ends, Vec<Vec<Term>>) {
    let (reach, _) = scale(n).small;
    let ends = (0..n).map(|_| (-r.between(1, reach), r.between(1, reach))).collect();
    let axes = own_axes(r, n);
    let balls = r.once_in(2);
    let sheets = if balls {
        let one = ball(n, -r.between(1, reach / 2), r.between(-1, 2));
        product(&one, &ball(n, r.between(1, reach / 2), r.between(-1, 2)))
    } else {
        let one = linear_form(r, n, Some(axes[0]));
        product(&one, &linear_form(r, n, Some(axes[0] % n + 1)))
    };
    let off = gathered(&[&sheets[..], &[term(r.between(-3, 3), &[])]].concat());
    let mut polynomials = vec![nonempty(r, n, off)];
    polynomials.extend(axes[1..].iter().map(|&axis| linear_product(r, n, axis, 1)));
    (ends, polynomials)
}

/// Box and polynomials of a kind.
fn surfaces(r: &mut Random, n: usize, kind: Kind) -> (Ends, Vec<Vec<Term>>) {
    let s = scale(n);
    match kind {
        Kind::Small => {
            let degree = r.pick(&[1, 2, 2, 3, 4]);
            let ends = random_box(r, n, s.small.0, s.small.1);
            let small = |r: &mut Random, axis: usize| {
                polynomial(r, n, axis, Shape { most: 5, degree, size: 3 })
            };
            (ends, own_axes(r, n).iter().map(|&axis| small(r, axis)).collect())
        }
        Kind::ManyZeros => {
            let ends = random_box(r, n, s.small.0, s.small.1);
            let axes = own_axes(r, n).iter();
            (ends, axes.map(|&axis| linear_product(r, n, axis, s.forms)).collect())
        }
        Kind::AroundReadableLimit => around_readable_limit(r, n),
        Kind::IntoReadableLimit => into_readable_limit(r, n),
        Kind::LargeBox => {
            let reach = r.pick(&s.large);
            let ends = random_box(r, n, reach, 2 * reach);
            let degree = r.pick(&[1, 2, 3]);
            let large = |r: &mut Random, axis: usize| {
                polynomial(r, n, axis, Shape { most: 6, degree, size: 9 })
            };
            (ends, own_axes(r, n).iter().map(|&axis| large(r, axis)).collect())
        }
        Kind::AllTerms => all_terms(r, n),
        Kind::Closed => closed(r, n),
        Kind::AlmostTouching => almost_touching(r, n),
        Kind::Halves => halves(r, n),
        Kind::LargeHalves => large_halves(r, n),
        Kind::AlmostHalves => almost_halves(r, n),
    }
}

/// The facet moved so that its vertices lie in the box.
fn into_box(facet: Facet, ends: &[(i64, i64)]) -> Facet {
    let mut moved = facet;
    for (k, &(low, high)) in ends.iter().enumerate() {
        let reach = facet.mask(facet.n - 1) >> k & 1;
        moved.lowest[k] = facet.lowest[k].clamp(low, high - reach as i64);
    }
    moved
}

/// A facet whose lowest vertex is at most 1 away from a vertex.
pub fn facet_near(r: &mut Random, n: usize, near: &Vertex) -> Facet {
    let mut lowest = *near;
    for x in &mut lowest[..n] {
        *x += r.between(-1, 1);
    }
    Facet { n, lowest, masks: r.pick(chains(n)) }
}

/// A vertex of the box at most 1 away from another.
pub fn vertex_near(r: &mut Random, ends: &Ends, near: &Vertex) -> Vertex {
    let mut v = *near;
    for (x, &(low, high)) in v.iter_mut().zip(ends) {
        *x = (*x + r.between(-1, 1)).clamp(low, high);
    }
    v
}

/// Whether these values of a polynomial are all above 0, all 0 or all below: then no facet of the
/// vertices is crossed.
fn has_one_sign(values: impl Iterator<Item = i128>) -> bool {
    let mut signs = values.map(|value| value.signum());
    let first = signs.next();
    signs.all(|sign| Some(sign) == first)
}

/// A crossed facet of that lowest vertex, if there is one.
fn crossed_at(r: &mut Random, job: &Job, lowest: &Vertex) -> Option<Facet> {
    let n = job.n;
    // By polynomial, the values at the vertices of the cube by their masks.
    let mut cube: Vec<Vec<i128>> = Vec::new();
    for polynomial in &job.polynomials {
        let at = |mask| value(job.bias, sum(polynomial, &above(lowest, mask)));
        let values: Vec<i128> = (0..1 << n).map(at).collect();
        if has_one_sign(values.iter().copied()) {
            return None;
        }
        cube.push(values);
    }
    let may_be_crossed = |facet: &Facet| {
        let at = |values: &Vec<i128>, i: usize| values[facet.mask(i) as usize];
        !cube.iter().any(|values| has_one_sign((0..n).map(|i| at(values, i))))
    };
    let facets = chains(n).iter().map(|&masks| Facet { n, lowest: *lowest, masks });
    let crossed: Vec<Facet> =
        facets.filter(|facet| may_be_crossed(facet) && facet_is_crossed(job, facet)).collect();
    (!crossed.is_empty()).then(|| r.pick(&crossed))
}

/// Looks for a crossed facet in the cubes around a vertex and then anywhere in the box, and
/// makes it the start; any facet of the box is the start if none is found soon.
pub fn choose_start(r: &mut Random, parts: &mut Parts, near: &Vertex) {
    let job = parts.opened();
    let cubes = 1 << parts.n;
    let first = r.index(cubes);
    for k in 0..cubes + scale(parts.n).tries {
        let mut lowest = vertex_in(r, &parts.ends);
        if k < cubes {
            lowest = *near;
            for (axis, x) in lowest[..parts.n].iter_mut().enumerate() {
                *x -= ((first ^ k) >> axis & 1) as i64;
            }
        }
        if let Some(facet) = crossed_at(r, &job, &lowest) {
            parts.start = Place { facet, side: r.below(2) as u8 };
            return;
        }
    }
    parts.start.facet = into_box(parts.start.facet, &parts.ends);
}

/// A vertex that is to be close to the curve.
fn near_curve(r: &mut Random, kind: Kind, ends: &Ends) -> Vertex {
    match kind {
        Kind::IntoReadableLimit | Kind::LargeHalves => {
            vertex(&[r.between(ends[0].0, 15).max(r.between(0, 15))])
        }
        Kind::AlmostTouching => vertex(&[]),
        // Coordinates around 0, of both signs.
        Kind::Halves if r.once_in(2) => {
            vertex(&ends.iter().map(|&(low, high)| 0.clamp(low, high)).collect::<Vec<_>>())
        }
        _ if r.once_in(4) => vertex_in(r, ends),
        _ => inner_vertex(r, ends),
    }
}

/// Whether the polynomials of a kind keep their size, and whether they stay where they are meant to
/// be.
fn keeps(kind: Kind) -> (bool, bool) {
    match kind {
        Kind::AroundReadableLimit | Kind::LargeBox | Kind::AllTerms => (true, false),
        Kind::Closed => (false, true),
        Kind::IntoReadableLimit | Kind::Halves | Kind::LargeHalves | Kind::AlmostHalves => {
            (true, true)
        }
        Kind::Small | Kind::ManyZeros | Kind::AlmostTouching => (false, false),
    }
}

/// Chooses the bias, and moves and scales the polynomials of a kind so that sums around the bias
/// stand close to a vertex.
fn choose_bias(r: &mut Random, kind: Kind, parts: &mut Parts, near: &Vertex) -> Bias {
    let bias: Bias = r.named();
    let number = bias.number(r);
    let (keeps_size, stays) = keeps(kind);
    let moves = !stays && !r.once_in(4);
    for p in &mut parts.polynomials {
        if !keeps_size {
            *p = scaled(r, p, number.unwrap_or(0));
        }
        if moves {
            *p = through(r, p, near, number.unwrap_or(0));
        }
    }
    if let Some(number) = number {
        parts.bias = number;
        return bias;
    }
    let mut at = vec![*near];
    at.extend([0; 3].map(|_| vertex_near(r, &parts.ends, near)));
    let (bias, number) = Bias::at_a_sum(r, &parts.polynomials, &at);
    parts.bias = number;
    bias
}

/// A job of a kind; its start is searched for or left as it comes.
pub fn valid_of(r: &mut Random, n: usize, kind: Kind, search: bool) -> (Made, Parts) {
    let (ends, mut polynomials) = surfaces(r, n, kind);
    let near = near_curve(r, kind, &ends);
    for p in &mut polynomials {
        match kind {
            Kind::Halves => *p = halfway(r, p, &near),
            Kind::AlmostHalves => *p = almost_halfway(r, p, &near),
            _ => {}
        }
    }
    let facet = Facet { n, lowest: near, masks: r.pick(chains(n)) };
    let start = Place { facet, side: r.below(2) as u8 };
    let mut parts = Parts { n, bias: 0, ends, polynomials, start };
    let bias = choose_bias(r, kind, &mut parts, &near);
    if search && !r.once_in(12) {
        choose_start(r, &mut parts, &near);
    }
    (Made { kind, bias }, parts)
}

/// A job of any kind and any dimension.
pub fn valid_of_any(r: &mut Random, search: bool) -> (Made, Parts) {
    let (n, kind) = (any_dimension(r), r.named());
    valid_of(r, n, kind, search)
}

/// A job of dimension n, mostly with a crossed start.
pub fn valid_in(r: &mut Random, n: usize) -> (Made, Parts) {
    loop {
        let kind = r.named();
        let (made, parts) = valid_of(r, n, kind, true);
        if facet_is_crossed(&parts.opened(), &parts.start.facet) || r.once_in(3) {
            return (made, parts);
        }
    }
}

/// A job of any dimension, mostly with a crossed start.
pub fn valid(r: &mut Random) -> (Made, Parts) {
    let n = any_dimension(r);
    valid_in(r, n)
}

/// A job of dimension n in a box small enough to be looked at whole, for what facets are joined.
/// Rounding has no part in that, so the kinds that are for it are left out.
pub fn valid_small(r: &mut Random, n: usize) -> (Made, Parts) {
    loop {
        let kind = r.named();
        let is_large = matches!(kind, Kind::LargeBox | Kind::AllTerms);
        if !is_large && !FOR_ROUNDING.contains(&kind) {
            return valid_of(r, n, kind, true);
        }
    }
}

/// A job of any dimension and of a kind that is for rounding.
pub fn valid_for_rounding(r: &mut Random) -> (Made, Parts) {
    let (n, kind) = (any_dimension(r), r.pick(&FOR_ROUNDING));
    valid_of(r, n, kind, true)
}

#[cfg(test)]
mod tests {
    use super::*;
    use crate::job::open;
    use crate::limits::DIMENSIONS;
    use crate::operations::{trace_places, Verdict};
    use std::collections::BTreeMap;

    /// Every verdict of Trace.
    const VERDICTS: [Verdict; 4] = [Verdict::Loop, Verdict::Edge, Verdict::Limit, Verdict::Full];

    /// What Trace answers, without the places.
    fn traced(parts: &Parts) -> Result<Verdict, u8> {
        trace_places(&parts.opened(), 300).map(|(verdict, _)| verdict)
    }

    /// Valid jobs open, most of their starts are crossed, and every answer comes up, the verdicts
    /// with each bias.
    #[test]
    fn valid_jobs_are_worth_tracing() {
        let (mut all_made, mut answers) = (Tally::default(), Tally::default());
        let mut by_bias: BTreeMap<Bias, Tally<Result<Verdict, u8>>> = BTreeMap::new();
        for n in DIMENSIONS {
            let mut r = Random::new(1);
            let mut refused = 0;
            let count = 9_000;
            for _ in 0..count {
                let (made, parts) = valid_in(&mut r, n);
                open(&parts.bytes()).expect("a valid job");
                let answer = traced(&parts);
                all_made.count(n, made);
                answers.count(n, answer);
                by_bias.entry(made.bias).or_default().count(n, answer);
                refused += answer.is_err() as u32;
            }
            assert!(refused < count / 2, "in dimension {n}");
        }
        all_made.assert_all();
        answers.assert_met(&[&VERDICTS.map(Ok)[..], &[Err(9), Err(10), Err(11)]].concat());
        for (bias, met) in by_bias {
            println!("{bias:?}");
            met.assert_includes(&VERDICTS.map(Ok));
        }
    }

    /// Jobs of each kind open in each dimension and reach what the kind is for.
    #[test]
    fn each_kind_reaches_its_aim() {
        for kind in Kind::all() {
            let mut met = Tally::default();
            for n in DIMENSIONS {
                let mut r = Random::new(2);
                for _ in 0..300 {
                    let (_, parts) = valid_of(&mut r, n, kind, true);
                    open(&parts.bytes()).expect("a valid job");
                    met.count(n, traced(&parts));
                }
            }
            println!("{kind:?}");
            met.assert_includes(match kind {
                Kind::Small => &[Ok(Verdict::Edge)],
                Kind::ManyZeros => &[Ok(Verdict::Edge)],
                Kind::AroundReadableLimit => &[Err(10), Ok(Verdict::Edge)],
                Kind::IntoReadableLimit => &[Ok(Verdict::Limit)],
                Kind::LargeBox => &[Ok(Verdict::Full)],
                Kind::AllTerms => &[Ok(Verdict::Edge)],
                Kind::Closed => &[Ok(Verdict::Loop)],
                Kind::AlmostTouching => &[Ok(Verdict::Loop), Ok(Verdict::Edge)],
                Kind::Halves => &[Ok(Verdict::Loop), Ok(Verdict::Edge)],
                Kind::LargeHalves => &[Ok(Verdict::Limit)],
                Kind::AlmostHalves => &[Ok(Verdict::Edge)],
            });
        }
    }
}
