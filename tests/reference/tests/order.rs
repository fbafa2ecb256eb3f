//! The reference's order of cutting: what makes the answer mean something, by brute force on fields
//! of signs and on jobs; what does not hold; the curves against the list of seams and against
//! Trace; and the checks of any product.

use std::collections::{BTreeMap, HashSet};

use reference::build::place;
use reference::generate::{any_outlines, nest_of, Nest, Random};
use reference::grid::{vertex, Facet, Place, Vertex};
use reference::job::Job;
use reference::marked::beside_an_open_curve;
use reference::operations::{trace_places, Verdict};
use reference::order::{judge, Curves, CutOrder, Values};
use reference::order_checks::{self as checks, Least};
use reference::order_lists::{bytes_of, N};
use reference::product::Reference;
use reference::seams::seams_of;
use reference::tally::Tally;

/// Any signs in a box of up to 15 x 15 vertices; now and then a vertex is not readable. Every
/// second field has rings around a vertex, with some signs changed: one loop in another, and so on.
fn any_signs(r: &mut Random) -> Values {
    let rings = r.once_in(2);
    let shortest = if rings { 9 } else { 3 };
    let side = |_| {
        let low = r.between(-9, 3);
        (low, low + r.between(shortest, 14))
    };
    let ends: Vec<(i64, i64)> = (0..2).map(side).collect();
    let middle = [0, 1].map(|k| (ends[k].0 + ends[k].1) / 2);
    let often = r.between(2, 8);
    let (changed, unreadable) = (r.pick(&[0, 0, 2, 5, 15]), r.pick(&[0, 0, 2, 5]));
    let mut columns = Vec::new();
    for x in ends[0].0..=ends[0].1 {
        for y in ends[1].0..=ends[1].1 {
            // How many edges of the grid lead to the middle.
            let (dx, dy) = (x - middle[0], y - middle[1]);
            let distance = dx.abs().max(dy.abs()).max((dx - dy).abs());
            let mut above = if rings { distance % 2 == 0 } else { r.between(1, 10) <= often };
            above ^= r.between(1, 100) <= changed;
            let value = if above { r.pick(&[1, 7]) } else { r.pick(&[0, -1, -7]) };
            let is_readable = r.between(1, 100) > unreadable;
            columns.push(is_readable.then_some([1, value, 0, 0]));
        }
    }
    Values { ends, columns }
}

/// Any job with several loops, or for the list of seams.
fn any_job(r: &mut Random) -> Job {
    loop {
        let kind = r.named();
        let nest = nest_of(r, kind);
        let parts = if r.once_in(3) { any_outlines(r).1 } else { nest };
        if parts.n == N {
            return parts.opened();
        }
    }
}

fn vertices(curves: &Curves<Values>, number: usize) -> Vec<Vertex> {
    let facets = curves.found()[number].facets.iter();
    facets.flat_map(|facet| facet.vertices()[..N].to_vec()).collect()
}

/// The greatest coordinate on axis 1 of a vertex of the curve.
fn greatest(curves: &Curves<Values>, number: usize) -> i64 {
    vertices(curves, number).iter().map(|v| v[0]).max().expect("a vertex")
}

/// Whether all vertices of a curve are inside another, or none is; none if some are.
fn steady(curves: &Curves<Values>, of: usize, other: usize) -> Option<bool> {
    let all = vertices(curves, of);
    let inside = all.iter().filter(|v| curves.is_inside(v, other)).count();
    (inside == 0 || inside == all.len()).then_some(inside > 0)
}

/// Counts of what held.
#[derive(Default)]
struct Facts {
    /// A loop and another curve, by whether that closes, whether they share a vertex, and inside.
    pairs: Tally<(bool, bool, bool)>,
    /// An open curve and a loop, by whether all vertices of the loop are on one side.
    against_open: Tally<bool>,
    /// How many loops a loop is in.
    depths: Tally<usize>,
}

/// The facts on all curves of a field; and that the reference answers by them.
fn check_facts(r: &mut Random, values: &Values, facts: &mut Facts) {
    let mut curves = Curves::all(values);
    let numbers = 0..curves.found().len();
    let (loops, open): (Vec<usize>, Vec<usize>) =
        numbers.clone().partition(|&number| curves.found()[number].closes());
    let mut inside: BTreeMap<(usize, usize), bool> = BTreeMap::new();
    for &outer in &loops {
        let of_outer: HashSet<Vertex> = vertices(&curves, outer).into_iter().collect();
        for other in numbers.clone().filter(|&other| other != outer) {
            // All vertices of all its facets are inside the loop, or none is.
            let is_inside = steady(&curves, other, outer).expect("all or none");
            inside.insert((other, outer), is_inside);
            let closes = curves.found()[other].closes();
            let shares = vertices(&curves, other).iter().any(|v| of_outer.contains(v));
            facts.pairs.count(N, (closes, shares, is_inside));
            // The loop around it reaches farther.
            if is_inside {
                assert!(greatest(&curves, outer) > greatest(&curves, other));
            }
        }
        // On its own loop the lowest vertices of the facets disagree.
        let facets = curves.found()[outer].facets.iter();
        let own: HashSet<bool> =
            facets.map(|facet| curves.is_inside(&facet.lowest, outer)).collect();
        assert_eq!(own.len(), 2);
        for &other in &open {
            facts.against_open.count(N, steady(&curves, outer, other).is_some());
        }
    }
    for &one in &loops {
        let around: Vec<usize> = loops
            .iter()
            .copied()
            .filter(|&other| inside.get(&(one, other)) == Some(&true))
            .collect();
        // Never mutual; and what is around one around it is around it, too.
        for &other in &around {
            assert!(!inside[&(other, one)]);
            for &third in loops.iter().filter(|&&third| third != one && third != other) {
                assert!(!inside[&(other, third)] || around.contains(&third));
            }
        }
        facts.depths.count(N, around.len());
    }
    // The order by rising greatest coordinate stands; any other is answered by the pairs.
    let mut order = loops.clone();
    r.shuffle(&mut order);
    order.sort_by_key(|&number| greatest(&curves, number));
    let mut lists = vec![order.clone()];
    order.reverse();
    lists.push(order.clone());
    r.shuffle(&mut order);
    lists.push(order);
    for (k, list) in lists.iter().enumerate() {
        let on_loop = |&number: &usize| {
            let facet = r.pick(&curves.found()[number].facets);
            Place { facet, side: r.below(2) as u8 }
        };
        let places: Vec<Place> = list.iter().map(on_loop).collect();
        let later_inside =
            |k: &usize| list[k + 1..].iter().any(|&later| inside[&(later, list[*k])]);
        let first = (0..list.len()).find(later_inside);
        let wanted = first.map_or(CutOrder::Stands, CutOrder::Breaks);
        assert_eq!(curves.cut_order(&bytes_of(&places)), Ok(wanted));
        assert!(k > 0 || wanted == CutOrder::Stands);
    }
}

/// On fields of signs, with nests six deep.
#[test]
fn facts_on_signs() {
    let mut r = Random::new(80);
    let mut facts = Facts::default();
    for _ in 0..2_500 {
        let values = any_signs(&mut r);
        check_facts(&mut r, &values, &mut facts);
    }
    let each = [false, true].map(|closes| {
        [(closes, false, false), (closes, false, true), (closes, true, false), (closes, true, true)]
    });
    facts.pairs.assert_often_in(N, 500, &each[1]);
    facts.pairs.assert_often_in(N, 10, &each[0]);
    facts.against_open.assert_often_in(N, 500, &[true, false]);
    facts.depths.assert_often_in(N, 100, &[0, 1, 2, 3, 4]);
    facts.depths.assert_often_in(N, 20, &[5]);
}

/// On jobs. Along a row, a column or a diagonal no polynomial changes its sign more than four
/// times, so that a loop is in one other at most.
#[test]
fn facts_on_jobs() {
    let mut r = Random::new(81);
    let mut facts = Facts::default();
    let mut changes = Tally::default();
    for _ in 0..2_500 {
        let job = any_job(&mut r);
        let values = Values::of(&job);
        check_facts(&mut r, &values, &mut facts);
        let (low, high) = job.ends[0];
        for y in job.ends[1].0..=job.ends[1].1 {
            let edge = |x: &i64| judge(&values, &place(&[*x, y], &[1], 0).facet) == Ok(true);
            changes.count(N, (low..high).filter(edge).count());
        }
    }
    changes.assert_met_in(N, &[0, 1, 2, 3, 4]);
    let each = [(true, false, false), (true, false, true), (true, true, false), (true, true, true)];
    facts.pairs.assert_often_in(N, 100, &each);
    facts.against_open.assert_often_in(N, 100, &[true, false]);
    facts.depths.assert_met_in(N, &[0, 1]);
    facts.depths.assert_often_in(N, 1_000, &[0, 1]);
}

/// The smallest job whose open curve has one vertex of a loop inside and another not.
#[test]
fn not_steady_against_an_open_curve() {
    let job = beside_an_open_curve().opened();
    let above: Vec<[i64; 2]> = (0..=2)
        .flat_map(|x| (0..=2).map(move |y| [x, y]))
        .filter(|v| Values::of(&job).columns[(3 * v[0] + v[1]) as usize].expect("readable")[1] > 0)
        .collect();
    assert_eq!(above, [[1, 1], [2, 0]]);
    let values = Values::of(&job);
    let mut curves = Curves::all(&values);
    let open = [place(&[1, 0], &[1], 0).facet, place(&[2, 0], &[2], 0).facet];
    let around = place(&[0, 0], &[3], 0).facet;
    let (open_number, number) = (curves.number_of(&open[0]), curves.number_of(&around));
    assert_eq!(curves.found().len(), 2);
    let facets: HashSet<Facet> = curves.found()[open_number].facets.iter().copied().collect();
    assert_eq!(facets, HashSet::from(open));
    assert_eq!(curves.found()[open_number].edges, 2);
    assert!(curves.found()[number].closes());
    assert_eq!(curves.found()[number].facets.len(), 6);
    assert!(curves.is_inside(&vertex(&[0, 0]), open_number));
    assert!(!curves.is_inside(&vertex(&[1, 1]), open_number));
    assert_eq!(steady(&curves, number, open_number), None);
    assert_eq!(steady(&curves, open_number, number), Some(false));
}

/// The curves are those of the list of seams, and of Trace: a place is on a loop exactly if its
/// trace is one, and then the trace has its facets.
#[test]
fn curves_are_seams_and_traces() {
    let mut r = Random::new(82);
    let mut met = Tally::default();
    for _ in 0..2_000 {
        let job = any_job(&mut r);
        let mut curves = Curves::of(&job);
        let seams = seams_of(&job);
        for seam in &seams {
            let number = curves.number_of(&r.pick(&seam.facets));
            let curve = &curves.found()[number];
            let facets: HashSet<Facet> = curve.facets.iter().copied().collect();
            assert_eq!(facets, seam.facets.iter().copied().collect());
            assert_eq!((curve.edges, curve.limits), (seam.edges, seam.limits));
            let start = Place { facet: r.pick(&seam.facets), side: r.below(2) as u8 };
            let from_place = Job { start, ..job.clone() };
            let (verdict, places) = trace_places(&from_place, usize::MAX).expect("a crossed facet");
            assert_eq!(verdict == Verdict::Loop, curve.closes());
            let traced: HashSet<Facet> = places.iter().map(|place| place.facet).collect();
            assert!(!curve.closes() || traced == facets);
            let wanted = if curve.closes() { Ok(CutOrder::Stands) } else { Err(18) };
            assert_eq!(curves.cut_order(&start.bytes()), wanted);
            met.count(N, verdict);
        }
        assert_eq!(curves.found().len(), seams.len());
    }
    met.assert_often_in(N, 50, &[Verdict::Loop, Verdict::Edge, Verdict::Limit]);
}

/// How many loops jobs of each kind have, and how many inside one.
#[test]
fn nests_reach_their_aims() {
    let mut r = Random::new(83);
    let (mut loops, mut inner) = (Tally::default(), Tally::default());
    for _ in 0..4_000 {
        let kind: Nest = r.named();
        let parts = nest_of(&mut r, kind);
        reference::order_lists::with_case(&parts, |case| {
            loops.count(N, (kind, case.loops.len().min(2)));
            let most = case.outer().iter().map(|&k| case.inside_of(k).len()).max();
            inner.count(N, (kind, most.unwrap_or(0).min(5)));
            // One loop at most has others inside, in all that were tried.
            assert!(case.outer().len() <= 1);
        });
    }
    let several = [Nest::Rounds, Nest::Wells, Nest::Studded, Nest::Row, Nest::Strips, Nest::Chosen];
    loops.assert_often_in(N, 30, &several.map(|kind| (kind, 2)));
    loops.assert_often_in(N, 30, &[Nest::Far, Nest::IntoLimit, Nest::BesideLimit].map(|k| (k, 2)));
    loops.assert_often_in(N, 5, &[(Nest::AnyTerms, 1)]);
    let nested = [Nest::Rounds, Nest::Wells, Nest::Studded, Nest::Row, Nest::IntoLimit];
    inner.assert_often_in(N, 30, &nested.map(|kind| (kind, 1)));
    inner.assert_often_in(N, 30, &[(Nest::Row, 3), (Nest::Row, 5)]);
}

#[test]
fn any_lists() {
    let least =
        Least { answers: 200, positions: 600, faults: 4, two_refusals: 4, inner: 30, others: 100 };
    checks::any_lists(&Reference, 84, 1_500, least);
}

#[test]
fn every_order() {
    checks::every_order(&Reference, 85, 300, 20);
}

#[test]
fn every_place() {
    checks::every_place(&Reference, 86, 20);
}

#[test]
fn as_trace_says() {
    checks::as_trace_says(&Reference, 87, 1_000);
}

#[test]
fn goes_by_the_bias() {
    checks::goes_by_the_bias(&Reference, 88, 1_000, 50);
}

#[test]
fn any_jobs() {
    checks::any_jobs(&Reference, 89, 12_000);
}

#[test]
fn least_number_is_answered() {
    checks::least_number_is_answered(&Reference);
}

#[test]
fn long_lists() {
    checks::long_lists(&Reference);
}

#[test]
fn long_loop() {
    checks::long_loop(&Reference);
}
