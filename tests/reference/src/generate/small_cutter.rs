//! Jobs at the limits of the small cutter.

use super::biases::scaled;
use super::kinds::{any_dimension, choose_start, scale, through, vertex_in, Ends};
use super::random::Random;
use crate::build::{exponents, gathered, power_of, product, term, within_limits, Parts};
use crate::crossed::Term;
use crate::grid::{chains, vertex, Facet, Place, Vertex};
use crate::limits::{Limits, MOST, SMALL_COORDINATE, SMALL_TERMS};
use crate::named;
use crate::operations::facet_is_crossed;

named! {
    /// The kinds of jobs for the small cutter; most of their boxes reach to its limit.
    SmallKind {
        /// An ellipsoid cut by planes, few terms, mostly at the faces of the box.
        FewTerms: 3,
        /// Polynomials of up to 16 terms, all of degree 2 and some of degree 3.
        ManyTerms: 2,
        /// A ball cut by planes, in a box that just holds it: often closed.
        Closed: 2,
        /// Along an axis out of the readable values: the trace ends at the limit.
        IntoReadableLimit: 2,
        /// One of the first two, with one or two box ends or counts of terms up to 2 from a limit,
        /// within it or past it.
        AroundLimits: 3,
    }
}

/// The low and high end of one axis: short sides at a limit or anywhere, and long ones.
fn side(r: &mut Random, n: usize) -> (i64, i64) {
    let most = SMALL_COORDINATE;
    let length = r.between(1, scale(n).small.1 + 2);
    let low = r.between(1 - most, most - length);
    let long = (r.pick(&[-most, -most, 1 - most, low - 1]), r.pick(&[most, most, most - 1]));
    r.pick(&[(most - length, most), (-most, length - most), (low, low + length), long])
}

/// A vertex of the box; every second coordinate is at an end or 1 from it.
fn vertex_at_faces(r: &mut Random, ends: &[(i64, i64)]) -> Vertex {
    let mut v = vertex_in(r, ends);
    for (x, &(low, high)) in v.iter_mut().zip(ends) {
        if r.once_in(2) {
            *x = r.pick(&[low, high, low + 1, high - 1]);
        }
    }
    v
}

/// The sum of a (x - c)^2 over the axes, by a factor a and a coordinate c of the centre for each.
pub fn squares(of_axes: &[(i64, i64)]) -> Vec<Term> {
    let mut terms = Vec::new();
    for (k, (a, c)) in of_axes.iter().enumerate() {
        let power = |coefficient, e| Term { coefficient, exponents: power_of(k + 1, e) };
        terms.extend([power(*a, 2), power(-2 * a * c, 1), term(a * c * c, &[])]);
    }
    gathered(&terms)
}

/// An ellipsoid around a centre near a vertex.
pub fn ellipsoid(r: &mut Random, n: usize, near: &Vertex) -> Vec<Term> {
    let radius = scale(n).radius;
    let of_axis = |x: &i64| (r.between(1, 2), x + r.between(-radius, radius));
    squares(&near[..n].iter().map(of_axis).collect::<Vec<_>>())
}

/// A linear form, mostly with each axis; 1 if it has none.
fn plane(r: &mut Random, n: usize) -> Vec<Term> {
    let own = |axis| Term { coefficient: r.between(-2, 2), exponents: power_of(axis, 1) };
    let form = gathered(&(1..=n).map(own).collect::<Vec<_>>());
    if form.is_empty() {
        return vec![term(1, &[])];
    }
    form
}

/// The product of the powers of the axes, each counted from a vertex.
fn shifted(n: usize, exponents: &[u8; MOST], from: &Vertex) -> Vec<Term> {
    let mut all = vec![term(1, &[])];
    for axis in 1..=n {
        let own = Term { coefficient: 1, exponents: power_of(axis, 1) };
        let form = gathered(&[own, term(-from[axis - 1], &[])]);
        for _ in 0..exponents[axis - 1] {
            all = product(&all, &form);
        }
    }
    all
}

/// All products of up to two axes, counted from a vertex, and some of three, every second time as
/// many as 16 terms leave; fewer terms may come of it where a coordinate of the vertex is 0.
fn many_terms(r: &mut Random, n: usize, from: &Vertex) -> Vec<Term> {
    let of_degree =
        |degree: u8| exponents(n).iter().filter(move |e| e.iter().sum::<u8>() == degree);
    loop {
        let mut some: Vec<&[u8; MOST]> = (0..=2).flat_map(of_degree).collect();
        let mut cubic: Vec<&[u8; MOST]> = of_degree(3).collect();
        r.shuffle(&mut cubic);
        let room = SMALL_TERMS - some.len();
        let any = r.index(room + 1);
        some.extend(cubic.into_iter().take(r.pick(&[any, room])));
        let mut terms = Vec::new();
        for e in some {
            let factor = term(r.between(1, 3) * r.pick(&[1, -1]), &[]);
            terms.extend(product(&[factor], &shifted(n, e, from)));
        }
        let terms = gathered(&terms);
        if within_limits(&terms) {
            return terms;
        }
    }
}

/// Box and polynomials, and a vertex close to the curve.
type Surfaces = (Ends, Vec<Vec<Term>>, Vertex);

/// In a box that reaches to the limits, sums around the bias close to a vertex.
fn at_faces(r: &mut Random, n: usize, bias: u8, many: bool) -> Surfaces {
    let ends: Ends = (0..n).map(|_| side(r, n)).collect();
    let near = vertex_at_faces(r, &ends);
    let mut polynomials = Vec::new();
    for k in 1..n {
        let p = match (many, k) {
            (true, _) => many_terms(r, n, &near),
            (false, 1) => ellipsoid(r, n, &near),
            (false, _) => plane(r, n),
        };
        let p = scaled(r, &p, bias);
        polynomials.push(through(r, &p, &near, bias));
    }
    (ends, polynomials, near)
}

/// A ball that the box just holds, cut by planes through a vertex of its surface. On each axis the
/// box ends at a limit or lies anywhere.
fn closed(r: &mut Random, n: usize, bias: u8) -> Surfaces {
    let (most, radius) = (SMALL_COORDINATE, r.between(1, scale(n).radius));
    let farthest = most - radius;
    let mut center = vertex(&[]);
    for c in &mut center[..n] {
        let any = r.between(-farthest, farthest);
        *c = r.pick(&[farthest, -farthest, any]);
    }
    let ends = center[..n].iter().map(|c| (c - radius, c + radius)).collect();
    let size = term(r.between(0, 1) - radius * radius, &[]);
    let mut ball = squares(&center[..n].iter().map(|&c| (1, c)).collect::<Vec<_>>());
    ball.push(size);
    let mut near = center;
    near[r.index(n)] += radius * r.pick(&[1, -1]);
    let mut polynomials = vec![scaled(r, &gathered(&ball), bias)];
    for _ in 2..n {
        let p = plane(r, n);
        let p = scaled(r, &p, bias);
        polynomials.push(through(r, &p, &near, bias));
    }
    (ends, polynomials, near)
}

/// Along an axis, which is long, out of the readable values before the box ends: each polynomial is
/// c x^2 times another axis, where x is the long one.
fn into_readable_limit(r: &mut Random, n: usize) -> Surfaces {
    let (most, long) = (SMALL_COORDINATE, r.index(n));
    let readable_to = r.between(16, most - 1);
    let size = Limits::of(n).readable as i64 / (readable_to * readable_to);
    let sign = r.pick(&[1, -1]);
    let mut ends: Ends = (0..n).map(|_| (-r.between(1, 2), r.between(1, 2))).collect();
    let close = r.between(-most, readable_to - 8);
    ends[long] = if sign == 1 { (close, most) } else { (-most, -close) };
    let mut near = vertex(&[]);
    near[long] = sign * (readable_to - r.between(0, 6));
    let mut polynomials = Vec::new();
    for other in (0..n).filter(|&other| other != long) {
        let mut exponents = power_of(other + 1, 1);
        exponents[long] = 2;
        let constant = term(r.between(-1, 1), &[]);
        polynomials.push(gathered(&[Term { coefficient: size, exponents }, constant]));
    }
    (ends, polynomials, near)
}

/// One box end becomes 62 to 66 in size, with the other end as it was or on the other side of it.
fn end_around_limit(r: &mut Random, ends: &mut Ends) {
    let k = r.index(ends.len());
    let (size, length) = (SMALL_COORDINATE + r.between(-2, 2), r.between(1, 3));
    let (low, high) = ends[k];
    ends[k] = r.pick(&[
        (-size, high.max(1 - size)),
        (low.min(size - 1), size),
        (-size - length, -size),
        (size, size + length),
    ]);
}

/// One polynomial gets or loses terms until it has 14 to 18 of them, or as many as there are.
fn terms_around_limit(r: &mut Random, n: usize, polynomials: &mut [Vec<Term>]) {
    let polynomial = &mut polynomials[r.index(n - 1)];
    let count = (SMALL_TERMS as i64 + r.between(-2, 2)) as usize;
    let mut more = exponents(n).to_vec();
    more.retain(|e| polynomial.iter().all(|t| t.exponents != *e));
    r.shuffle(&mut more);
    let more = more.into_iter().take(count.saturating_sub(polynomial.len()));
    polynomial.extend(more.map(|exponents| Term { coefficient: r.pick(&[1, -1]), exponents }));
    r.shuffle(polynomial);
    polynomial.truncate(count);
    polynomial.sort_by_key(|t| t.exponents);
}

/// A job of a kind for the small cutter, and a vertex close to its curve; every second has a bias.
fn of_kind(r: &mut Random, n: usize, kind: SmallKind) -> (Parts, Vertex) {
    let any = r.between(1, 255) as u8;
    let bias = r.pick(&[0, 0, 0, 1, any, 255]);
    let many = r.once_in(2);
    let (mut ends, mut polynomials, near) = match kind {
        SmallKind::FewTerms => at_faces(r, n, bias, false),
        SmallKind::ManyTerms => at_faces(r, n, bias, true),
        SmallKind::Closed => closed(r, n, bias),
        SmallKind::IntoReadableLimit => into_readable_limit(r, n),
        SmallKind::AroundLimits => at_faces(r, n, bias, many),
    };
    if kind == SmallKind::AroundLimits {
        for _ in 0..1 + r.below(2) {
            if r.once_in(2) {
                end_around_limit(r, &mut ends);
            } else {
                terms_around_limit(r, n, &mut polynomials);
            }
        }
    }
    let facet = Facet { n, lowest: vertex_in(r, &ends), masks: r.pick(chains(n)) };
    let start = Place { facet, side: r.below(2) as u8 };
    (Parts { n, bias, ends, polynomials, start }, near)
}

/// A job for the small cutter, of any dimension, its start at any vertex of the box.
pub fn for_small_cutter(r: &mut Random) -> (SmallKind, Parts) {
    let (n, kind) = (any_dimension(r), r.named());
    (kind, of_kind(r, n, kind).0)
}

/// The like, mostly with a crossed start.
pub fn for_small_trace(r: &mut Random) -> (SmallKind, Parts) {
    let (n, kind) = (any_dimension(r), r.named());
    loop {
        let (mut parts, near) = of_kind(r, n, kind);
        if !r.once_in(8) {
            choose_start(r, &mut parts, &near);
        }
        if facet_is_crossed(&parts.opened(), &parts.start.facet) || r.once_in(3) {
            return (kind, parts);
        }
    }
}

#[cfg(test)]
mod tests {
    use super::*;
    use crate::operations::{trace_places, Verdict};
    use crate::small::small_open;
    use crate::tally::{Answer, Tally};

    /// Jobs open on the small cutter, but for those made around its limits, some of which it turns
    /// away. More than half of the starts are crossed, and each kind reaches what it is for.
    #[test]
    fn each_kind_reaches_its_aim() {
        let mut r = Random::new(56);
        let (mut opened, mut verdicts) = (Tally::default(), Tally::default());
        let mut crossed = 0;
        for _ in 0..10_000 {
            let (kind, parts) = for_small_trace(&mut r);
            let answer: Answer = small_open(&parts.bytes()).map(|_| "opens");
            opened.count(parts.n, (kind, answer));
            if let Ok((verdict, _)) = trace_places(&parts.opened(), 80) {
                verdicts.count(parts.n, (kind, verdict));
                crossed += 1;
            }
        }
        opened.assert_met(&[
            (SmallKind::FewTerms, Ok("opens")),
            (SmallKind::ManyTerms, Ok("opens")),
            (SmallKind::Closed, Ok("opens")),
            (SmallKind::IntoReadableLimit, Ok("opens")),
            (SmallKind::AroundLimits, Ok("opens")),
            (SmallKind::AroundLimits, Err(17)),
        ]);
        println!("{crossed} starts are crossed");
        assert!(crossed > 5_000);
        verdicts.assert_often(
            50,
            &[
                (SmallKind::FewTerms, Verdict::Edge),
                (SmallKind::Closed, Verdict::Loop),
                (SmallKind::ManyTerms, Verdict::Edge),
                (SmallKind::IntoReadableLimit, Verdict::Limit),
                (SmallKind::AroundLimits, Verdict::Edge),
            ],
        );
    }
}
