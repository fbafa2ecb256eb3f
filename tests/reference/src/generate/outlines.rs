//! Jobs for the list of seams: several outlines in a box that is small enough to be looked at whole,
//! and facets that stand by themselves. Their starts are any.

use super::biases::scaled;
use super::changes::{any_change, AnyJob};
use super::directions::{any_bias, for_ways, with_many_ties};
use super::kinds::{
    any_dimension, linear_form, linear_product, own_axes, polynomial, through, valid_of,
    valid_of_any, vertex_in, vertex_near, Ends, Kind, Shape,
};
use super::random::Random;
use super::small_cutter::{ellipsoid, squares};
use crate::build::{gathered, power_of, product, term, within_limits, Parts};
use crate::crossed::{sum, Term};
use crate::grid::{chains, has, Facet, Masks, Place, Vertex};
use crate::limits::{LARGEST_COEFFICIENT, LARGEST_COORDINATE, MOST};
use crate::named;

named! {
    /// The kinds of jobs for the list of seams.
    Outline {
        /// Chosen values at all vertices of a cube, with many ties.
        ManyTies: 3,
        /// Chosen values with fewer ties; in dimension 4 at times not readable at a vertex.
        InCube: 4,
        /// Products of linear forms: several sheets in each polynomial.
        Planes: 3,
        /// The product of two ellipsoids, cut by planes.
        Rounds: 2,
        /// Balls around one vertex or two, cut by planes: the shortest seams that close.
        AroundVertices: 3,
        /// A constant less the square of a form that is large beside a plane: 0 or above at vertices
        /// that lie apart, and a seam around each.
        Ridge: 4,
        /// Polynomials that differ by constants, at a large bias: where it is passed changes from
        /// vertex to vertex, and seams are many and short. In dimension 2 there is only one.
        Ragged: 2,
        /// Any terms up to degree 4.
        AnyTerms: 1,
        /// Readable on a few planes of the grid and not beside them.
        Sheets: 4,
        /// The like, and a facet of such a plane is crossed: mostly by itself.
        Alone: 4,
        /// Along axis 1 out of the readable values.
        IntoLimit: 1,
        /// Values below, at and above the readable limit.
        AroundLimit: 1,
        /// Planes in a box up to the largest coordinates.
        Far: 3,
    }
}

/// The longest sides of boxes in a dimension, so that each takes little time.
struct Sides {
    n: usize,
    small: i64,
    large: i64,
}

const SIDES: [Sides; 3] = [
    Sides { n: 2, small: 6, large: 16 },
    Sides { n: 3, small: 3, large: 8 },
    Sides { n: 4, small: 2, large: 4 },
];

/// How large a box is to be.
#[derive(Clone, Copy, PartialEq, Eq, Debug)]
pub enum Size {
    /// Of up to 49, 64 or 81 vertices.
    Small,
    /// Of up to 289, 729 or 625 vertices.
    Large,
}

/// The length of a side.
fn length(r: &mut Random, n: usize, size: Size) -> i64 {
    let sides = SIDES.iter().find(|row| row.n == n).expect("a dimension of the table");
    match size {
        Size::Small => r.between(1, sides.small),
        Size::Large => r.between(sides.large / 2, sides.large),
    }
}

/// Box and polynomials.
type Surfaces = (Ends, Vec<Vec<Term>>);

/// A box that has the origin, or just misses it.
fn around_origin(r: &mut Random, n: usize, size: Size) -> Ends {
    let side = |_| {
        let length = length(r, n, size);
        let low = r.between(-length, 0) + r.pick(&[0, 0, -1]);
        (low, low + length)
    };
    (0..n).map(side).collect()
}

/// A box that ends at the largest coordinates on about every second axis.
fn far_out(r: &mut Random, n: usize, size: Size) -> Ends {
    let most = LARGEST_COORDINATE;
    let side = |_| {
        let length = length(r, n, size);
        let anywhere = r.between(-most, most - length);
        let at_zero = r.between(-length, 0);
        let low = r.pick(&[-most, most - length, most - length, at_zero, anywhere]);
        (low, low + length)
    };
    (0..n).map(side).collect()
}

/// The box cut to sides that are not too long, with the vertex still in it.
fn cut_to_size(r: &mut Random, ends: &mut Ends, size: Size, kept: &Vertex) {
    let n = ends.len();
    for ((low, high), &x) in ends.iter_mut().zip(kept) {
        let length = length(r, n, size).min(*high - *low);
        *low = r.between((x - length).max(*low), x.min(*high - length));
        *high = *low + length;
    }
}

/// The polynomial moved so that its sum at a vertex is small, or around the bias.
fn close_to(r: &mut Random, terms: &[Term], at: &Vertex, bias: u8) -> Vec<Term> {
    let b = bias as i128;
    let wanted = r.pick(&[0, 0, 0, 1, -1, b, -b, b + 1, -b - 1]);
    let constant = wanted - sum(terms, at);
    gathered(&[terms, &[term(constant as i64, &[])]].concat())
}

/// A linear form with the axis, mostly, that is small at a vertex.
fn form_close_to(r: &mut Random, n: usize, axis: usize, at: &Vertex, bias: u8) -> Vec<Term> {
    loop {
        let form = linear_form(r, n, Some(axis));
        let form = scaled(r, &form, bias);
        let form = close_to(r, &form, at, bias);
        if within_limits(&form) {
            return form;
        }
    }
}

/// Products of linear forms.
fn planes(r: &mut Random, n: usize, size: Size) -> Surfaces {
    let most = r.pick(&[1, 2, 3, 4]);
    let ends = around_origin(r, n, size);
    (ends, own_axes(r, n).iter().map(|&axis| linear_product(r, n, axis, most)).collect())
}

/// The product of two ellipsoids, each through a vertex close to its centre; and linear products.
fn rounds(r: &mut Random, n: usize, size: Size) -> Surfaces {
    let ends = around_origin(r, n, size);
    let one = |r: &mut Random| {
        let center = vertex_in(r, &ends);
        let on_it = vertex_near(r, &ends, &center);
        let round = ellipsoid(r, n, &center);
        through(r, &round, &on_it, 0)
    };
    let mut polynomials = vec![product(&one(r), &one(r))];
    polynomials.extend(own_axes(r, n)[1..].iter().map(|&axis| linear_product(r, n, axis, 2)));
    (ends, polynomials)
}

/// A product of balls that has another sign at their centres, one or two inner vertices; and planes
/// close to one of these.
fn around_vertices(r: &mut Random, n: usize, size: Size, bias: u8) -> Surfaces {
    let mut ends = around_origin(r, n, size);
    ends.iter_mut().for_each(|(low, high)| *high = (*high).max(*low + 2));
    let inner: Ends = ends.iter().map(|&(low, high)| (low + 1, high - 1)).collect();
    let mut balls = vec![term(r.pick(&[1, 1, -1]), &[])];
    let mut center = vertex_in(r, &inner);
    for _ in 0..r.pick(&[1, 2, 2]) {
        center = vertex_in(r, &inner);
        let mut ball = squares(&center[..n].iter().map(|&c| (2, c)).collect::<Vec<_>>());
        ball.push(term(-1, &[]));
        balls = product(&balls, &gathered(&ball));
    }
    let mut polynomials = vec![scaled(r, &balls, bias)];
    let others = own_axes(r, n)[1..].iter();
    polynomials.extend(others.map(|&axis| form_close_to(r, n, axis, &center, bias)));
    (ends, polynomials)
}

/// A linear form with coefficients up to a size, each axis with one of its own.
fn steep_form(r: &mut Random, n: usize, size: i64) -> Vec<Term> {
    let own = |axis| {
        let coefficient = r.between(size / 4 + 1, size) * r.pick(&[1, -1]);
        Term { coefficient, exponents: power_of(axis, 1) }
    };
    (1..=n).rev().map(own).collect()
}

/// A constant less a square, or the like with another sign; and planes close to a vertex at which
/// the square is 0.
fn ridge(r: &mut Random, n: usize, size: Size, bias: u8) -> Surfaces {
    let ends = around_origin(r, n, size);
    let at = vertex_in(r, &ends);
    let form = steep_form(r, n, 12);
    let form = gathered(&[&form[..], &[term(-sum(&form, &at) as i64, &[])]].concat());
    let square = product(&[term(-1, &[])], &product(&form, &form));
    let constant = bias as i64 + r.between(1, 60);
    let ridge = gathered(&[&square[..], &[term(constant, &[])]].concat());
    let sign = [term(r.pick(&[1, 1, -1]), &[])];
    let mut polynomials = vec![product(&sign, &ridge)];
    let others = own_axes(r, n)[1..].iter();
    polynomials.extend(others.map(|&axis| form_close_to(r, n, axis, &at, bias)));
    (ends, polynomials)
}

/// A linear form or the product of two that is just above the bias at a vertex, and the same less
/// rising constants.
fn ragged(r: &mut Random, n: usize, size: Size, bias: u8) -> Surfaces {
    let ends = around_origin(r, n, size);
    let at = vertex_in(r, &ends);
    let most = bias as i64 / 2 + 2;
    let form = steep_form(r, n, most);
    let two = product(&steep_form(r, n, 9), &steep_form(r, n, 9));
    let first = if r.once_in(2) { form } else { two };
    let constant = bias as i64 + r.between(1, most) - sum(&first, &at) as i64;
    let mut less: Vec<i64> = (2..n).map(|_| r.between(1, most)).collect();
    less.sort();
    let moved = |by: i64| gathered(&[&first[..], &[term(constant - by, &[])]].concat());
    (ends, [0].into_iter().chain(less).map(moved).collect())
}

/// Any terms, mostly with a linear one.
fn any_terms(r: &mut Random, n: usize, size: Size) -> Surfaces {
    let ends = around_origin(r, n, size);
    let degree = r.pick(&[1, 2, 3, 4, 4]);
    let any = |r: &mut Random, axis| polynomial(r, n, axis, Shape { most: 6, degree, size: 5 });
    (ends, own_axes(r, n).iter().map(|&axis| any(r, axis)).collect())
}

/// A plane of the grid through a vertex: an axis, or the difference of two, is constant.
fn grid_plane(one: usize, other: Option<usize>, at: &Vertex) -> Vec<Term> {
    let own = |coefficient, axis| Term { coefficient, exponents: power_of(axis, 1) };
    let mut terms = vec![own(1, one), term(-at[one - 1], &[])];
    if let Some(other) = other {
        terms.extend([own(-1, other), term(at[other - 1], &[])]);
    }
    gathered(&terms)
}

/// Any of the planes of the grid through a vertex.
fn any_grid_plane(r: &mut Random, n: usize, at: &Vertex) -> Vec<Term> {
    let (one, other) = (1 + r.index(n), 1 + r.index(n));
    grid_plane(one, (one != other).then_some(other), at)
}

/// A plane of the grid, and at times the next one beside it or others close to a vertex, times a
/// power of an axis that is far from 0 in the box and as large a factor as there can be.
fn large_beside(r: &mut Random, plane: &[Term], ends: &Ends, at: &Vertex, far: usize) -> Vec<Term> {
    let beside = gathered(&[plane, &[term(r.pick(&[1, -1]), &[])]].concat());
    let mut others = Vec::new();
    // One plane, two beside each other, two, three.
    match r.pick(&[0, 0, 0, 1, 1, 2, 3]) {
        0 => {}
        1 => others.push(beside),
        count => {
            for _ in 1..count {
                let near = vertex_near(r, ends, at);
                others.push(any_grid_plane(r, ends.len(), &near));
            }
        }
    }
    others.resize(3, vec![Term { coefficient: 1, exponents: power_of(far, 1) }]);
    let all = others.iter().fold(plane.to_vec(), |all, next| product(&all, next));
    let largest = all.iter().map(|t| t.coefficient.abs()).max().expect("a term");
    // What is added to it is smaller.
    let factor = ((LARGEST_COEFFICIENT - 300_000) / largest).max(1) * r.pick(&[1, -1]);
    product(&[term(factor, &[])], &all)
}

/// A box that is far from 0 on one axis, every second time up to the largest coordinate, and that
/// axis.
fn far_on_one_axis(r: &mut Random, n: usize, size: Size) -> (Ends, usize) {
    let mut ends = around_origin(r, n, size);
    let far = 1 + r.index(n);
    let (low, high) = ends[far - 1];
    let away = r.between(16, 230);
    let away = r.pick(&[away, -away, LARGEST_COORDINATE - high, -LARGEST_COORDINATE - low]);
    ends[far - 1] = (low + away, high + away);
    (ends, far)
}

/// Polynomials that are readable on a few planes of the grid and mostly not beside them; on these
/// planes they are linear.
fn sheets(r: &mut Random, n: usize, size: Size, bias: u8) -> Surfaces {
    loop {
        let (ends, far) = far_on_one_axis(r, n, size);
        let at = vertex_in(r, &ends);
        let large = r.index(n - 1);
        let mut polynomials = Vec::new();
        for (k, &axis) in own_axes(r, n).iter().enumerate() {
            let mut p = form_close_to(r, n, axis, &at, bias);
            if k == large || r.once_in(4) {
                let plane = any_grid_plane(r, n, &at);
                p = gathered(&[p, large_beside(r, &plane, &ends, &at, far)].concat());
            }
            polynomials.push(p);
        }
        if polynomials.iter().all(|p| within_limits(p)) {
            return (ends, polynomials);
        }
    }
}

/// A facet of the box, often at the high ends; once in four times in the face at the high end of an
/// axis.
fn facet_in(r: &mut Random, ends: &Ends, axis: usize) -> Facet {
    let n = ends.len();
    let in_face = r.once_in(4);
    let may_have = |masks: &&Masks| !in_face || !has(masks[n - 2], axis);
    let some: Vec<Masks> = chains(n).iter().filter(may_have).copied().collect();
    let mut facet = Facet { n, lowest: [0; MOST], masks: r.pick(&some) };
    for (k, &(low, high)) in ends.iter().enumerate() {
        let highest = high - has(facet.mask(n - 1), k + 1) as i64;
        let anywhere = r.between(low, highest);
        facet.lowest[k] = r.pick(&[highest, anywhere]);
    }
    if in_face {
        facet.lowest[axis - 1] = ends[axis - 1].1;
    }
    facet
}

/// The axes of a mask, from 1 on.
fn axes_of(mask: u8) -> Vec<usize> {
    (1..=MOST).filter(|&axis| has(mask, axis)).collect()
}

/// Linear forms by which a facet is crossed. Form k goes up by a step between the facet's vertices
/// k - 1 and k and nowhere else. Each begins less far under 0 than the one before, so that all are 0
/// at a point inside; or all begin at 0, as in case C.
fn forms_crossing(r: &mut Random, facet: &Facet, bias: u8) -> Vec<Vec<Term>> {
    let n = facet.n;
    let unit = bias as i64 + 1;
    let ties = r.once_in(3);
    let form = |r: &mut Random, k: usize| {
        let axis = r.pick(&axes_of(facet.mask(k) & !facet.mask(k - 1)));
        let step = if ties { unit } else { unit * (n as i64 + 1) };
        let start = if ties { 0 } else { -unit * (n - k + 1) as i64 };
        let terms = [
            Term { coefficient: step, exponents: power_of(axis, 1) },
            term(start - step * facet.lowest[axis - 1], &[]),
        ];
        let sign = if ties { 1 } else { r.pick(&[1, -1]) };
        product(&[term(sign, &[])], &gathered(&terms))
    };
    (1..n).map(|k| form(r, k)).collect()
}

/// A facet that is crossed, and readable on the plane of the grid that has it; mostly not beside it.
fn alone(r: &mut Random, n: usize, size: Size, bias: u8) -> Surfaces {
    loop {
        let (ends, far) = far_on_one_axis(r, n, size);
        let facet = facet_in(r, &ends, far);
        let missing = axes_of(!facet.mask(n - 1) & ((1 << n) - 1));
        let steps = (1..n).map(|k| axes_of(facet.mask(k) & !facet.mask(k - 1)));
        let plane = match steps.into_iter().find(|axes| axes.len() == 2) {
            Some(two) => grid_plane(two[0], Some(two[1]), &facet.lowest),
            None => grid_plane(missing[0], None, &facet.lowest),
        };
        let mut polynomials = forms_crossing(r, &facet, bias);
        let p = &mut polynomials[r.index(n - 1)];
        let large = large_beside(r, &plane, &ends, &facet.lowest, far);
        *p = gathered(&[&p[..], &large].concat());
        if polynomials.iter().all(|p| within_limits(p)) {
            return (ends, polynomials);
        }
    }
}

/// Products of one or two linear forms, close to vertices of a box far out.
fn far(r: &mut Random, n: usize, size: Size, bias: u8) -> Surfaces {
    let ends = far_out(r, n, size);
    let at = vertex_in(r, &ends);
    let mut polynomials = Vec::new();
    for &axis in own_axes(r, n) {
        let one = form_close_to(r, n, axis, &at, bias);
        let other = vertex_near(r, &ends, &at);
        let both = product(&one, &form_close_to(r, n, axis, &other, 0));
        polynomials.push(if within_limits(&both) && r.once_in(2) { both } else { one });
    }
    (ends, polynomials)
}

/// The polynomials times the bias or so and, every second time, moved close to a vertex of the box.
fn fitted(r: &mut Random, (ends, polynomials): Surfaces, bias: u8) -> Surfaces {
    let near = vertex_in(r, &ends);
    let moves = r.once_in(2);
    let mut all = Vec::new();
    for p in &polynomials {
        let p = scaled(r, p, bias);
        all.push(if moves { through(r, &p, &near, bias) } else { p });
    }
    (ends, all)
}

/// Any facet whose lowest vertex is in the box, with any side.
fn any_start(r: &mut Random, ends: &Ends) -> Place {
    let n = ends.len();
    let facet = Facet { n, lowest: vertex_in(r, ends), masks: r.pick(chains(n)) };
    Place { facet, side: r.below(2) as u8 }
}

/// The job in a box that is cut to size, with a vertex of it still in it.
fn cut(r: &mut Random, mut parts: Parts, size: Size, kept: &Vertex) -> Parts {
    cut_to_size(r, &mut parts.ends, size, kept);
    parts.start = any_start(r, &parts.ends);
    parts
}

/// A job of a kind that is made for traces, in a box that is cut to size.
fn of_old_kind(r: &mut Random, n: usize, kind: Kind, size: Size) -> Parts {
    let (_, parts) = valid_of(r, n, kind, false);
    let mut kept = vertex_in(r, &parts.ends);
    if kind == Kind::IntoReadableLimit {
        kept[0] = kept[0].max(15);
    }
    cut(r, parts, size, &kept)
}

/// A job of a kind, in a box of that size.
pub fn outlines_of(r: &mut Random, n: usize, kind: Outline, size: Size) -> Parts {
    let large = r.between(60, 255) as u8;
    let bias = if kind == Outline::Ragged { large } else { any_bias(r) };
    let (ends, polynomials) = match kind {
        Outline::ManyTies => {
            let (corner, parts) = with_many_ties(r, n);
            return cut(r, parts, size, &corner);
        }
        Outline::InCube => {
            let (corner, parts) = for_ways(r, n);
            return cut(r, parts, size, &corner);
        }
        Outline::IntoLimit => return of_old_kind(r, n, Kind::IntoReadableLimit, size),
        Outline::AroundLimit => return of_old_kind(r, n, Kind::AroundReadableLimit, size),
        Outline::Planes => {
            let made = planes(r, n, size);
            fitted(r, made, bias)
        }
        Outline::Rounds => {
            let made = rounds(r, n, size);
            fitted(r, made, bias)
        }
        Outline::AnyTerms => {
            let made = any_terms(r, n, size);
            fitted(r, made, bias)
        }
        Outline::AroundVertices => around_vertices(r, n, size, bias),
        Outline::Ridge => ridge(r, n, size, bias),
        Outline::Ragged => ragged(r, n, size, bias),
        Outline::Sheets => sheets(r, n, size, bias),
        Outline::Alone => alone(r, n, size, bias),
        Outline::Far => far(r, n, size, bias),
    };
    let start = any_start(r, &ends);
    Parts { n, bias, ends, polynomials, start }
}

/// A job of any kind and any dimension, in a small box.
pub fn any_outlines(r: &mut Random) -> (Outline, Parts) {
    let (n, kind) = (any_dimension(r), r.named());
    (kind, outlines_of(r, n, kind, Size::Small))
}

/// Any bytes to hand to Open, made of a job in a small box. A change may give it a larger one.
pub fn any_job_in_small_box(r: &mut Random) -> AnyJob {
    let (made, parts) = valid_of_any(r, false);
    let kept = vertex_in(r, &parts.ends);
    let parts = cut(r, parts, Size::Small, &kept);
    let (bytes, change, damages) = any_change(r, &parts);
    AnyJob { bytes, made_in: parts.n, made, change, damages }
}

#[cfg(test)]
mod tests {
    use super::*;
    use crate::job::open;
    use crate::limits::DIMENSIONS;
    use crate::seams::seams_of;
    use crate::seams_met::Run;
    use crate::tally::{Named, Tally};

    /// Jobs of each kind open in each dimension, in boxes of both sizes, and reach what the kind is
    /// for.
    #[test]
    fn each_kind_reaches_its_aim() {
        for kind in Outline::all() {
            let (mut runs, mut counts) = (Tally::default(), Tally::default());
            for n in DIMENSIONS {
                let mut r = Random::new(68);
                for k in 0..600 {
                    let size = if k % 40 == 0 { Size::Large } else { Size::Small };
                    let parts = outlines_of(&mut r, n, kind, size);
                    let seams = seams_of(&open(&parts.bytes()).expect("a valid job"));
                    seams.iter().for_each(|seam| runs.count(n, Run::of(seam)));
                    counts.count(n, seams.len().min(2));
                }
            }
            println!("{kind:?}");
            runs.assert_often(
                5,
                match kind {
                    Outline::AroundVertices | Outline::Ridge => &[Run::Closed, Run::EdgeToEdge],
                    Outline::Sheets => &[Run::EdgeToEdge, Run::AloneAtEdge, Run::AloneInside],
                    Outline::IntoLimit => &[Run::EdgeToEdge, Run::EdgeToLimit, Run::AloneAtEdge],
                    _ => &[Run::EdgeToEdge],
                },
            );
            match kind {
                Outline::Ragged => runs.assert_often(3, &[Run::Closed]),
                Outline::Alone => runs.assert_often(60, &[Run::AloneAtEdge, Run::AloneInside]),
                _ => {}
            }
            // Several seams in a box.
            match kind {
                Outline::IntoLimit | Outline::AroundLimit => counts.assert_includes(&[0, 1]),
                Outline::Sheets | Outline::Alone => counts.assert_includes(&[1, 2]),
                _ => counts.assert_often(10, &[1, 2]),
            }
        }
    }

    /// Jobs in small boxes open as often as others, and few have a box that a change made larger.
    #[test]
    fn small_boxes_stay_small() {
        let mut r = Random::new(69);
        let mut met = Tally::default();
        for _ in 0..20_000 {
            let job = any_job_in_small_box(&mut r);
            let longest = open(&job.bytes).map(|opened| {
                opened.ends.iter().map(|(low, high)| high - low).max().expect("an axis")
            });
            met.count(job.n(), longest.map(|longest| longest <= 6));
        }
        met.assert_often(2_000, &[Ok(true)]);
        met.assert_includes(&[Ok(false), Err(6)]);
    }
}
