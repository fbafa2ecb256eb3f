//! The reference's list of seams: the flood fill against the curves found by sets and against Trace,
//! and the checks of any product.

use std::collections::HashSet;

use reference::curve::Joints;
use reference::generate::{outlines_of, Random, Size};
use reference::grid::{Facet, Masks, Place, Vertex};
use reference::job::Job;
use reference::limits::DIMENSIONS;
use reference::operations::{trace_places, Verdict};
use reference::product::Reference;
use reference::seams::{seams_of, Seam};
use reference::seams_checks::{self as checks, Least};
use reference::tally::Tally;

/// What facets are compared by: the lowest vertex, then the masks.
fn key(facet: &Facet) -> (Vertex, Masks) {
    (facet.lowest, facet.masks)
}

/// The trace of the same job with that place as its start.
fn from_place(job: &Job, start: Place) -> (Verdict, Vec<Place>) {
    trace_places(&Job { start, ..job.clone() }, usize::MAX).expect("a crossed facet")
}

/// The two traces from the place have just the facets of the seam. On one that closes each has them
/// all; on others only the place is on both, and edges and limits are as the flood fill has them.
fn check_traces(job: &Job, seam: &Seam) {
    let place = seam.place();
    let (verdict, forth) = from_place(job, place);
    let (turned_verdict, back) = from_place(job, place.turned());
    let facets: HashSet<Facet> = seam.facets.iter().copied().collect();
    assert_eq!(facets.len(), seam.facets.len(), "a facet twice");
    let traced: HashSet<Facet> = forth.iter().chain(&back).map(|place| place.facet).collect();
    assert_eq!(traced, facets);
    let verdicts = [verdict, turned_verdict];
    let count = |wanted: Verdict| verdicts.iter().filter(|verdict| **verdict == wanted).count();
    assert_eq!((count(Verdict::Edge), count(Verdict::Limit)), (seam.edges, seam.limits));
    let listed_twice = if seam.closes() { facets.len() } else { 1 };
    assert_eq!(forth.len() + back.len(), facets.len() + listed_twice);
    assert!(facets.iter().all(|facet| key(facet) >= key(&place.facet)));
}

/// So many jobs of each dimension in small boxes, and some in larger ones: the curves by sets are the
/// seams, each once, and the traces from their places have them.
#[test]
fn seams_are_the_curves() {
    let mut met = Tally::default();
    for (n, jobs) in DIMENSIONS.into_iter().zip([4_000, 3_000, 2_000]) {
        let mut r = Random::new(70);
        for k in 0..jobs {
            let kind = r.named();
            let size = if k % 40 == 0 { Size::Large } else { Size::Small };
            let job = outlines_of(&mut r, n, kind, size).opened();
            let seams = seams_of(&job);
            let joints = Joints::of(&job);
            let curves = joints.curves();
            assert_eq!(seams.len(), curves.len());
            let least: Vec<Facet> = seams.iter().map(|seam| seam.least()).collect();
            assert!(least.windows(2).all(|pair| key(&pair[0]) < key(&pair[1])));
            for seam in &seams {
                let curve = joints.curve(&seam.least());
                assert_eq!(seam.facets.iter().copied().collect::<HashSet<_>>(), curve);
                assert_eq!(seam.closes(), joints.closes(&curve));
                assert!(curves.contains(&curve));
                check_traces(&job, seam);
                met.count(n, (seam.facets.len() == 1, seam.edges, seam.limits));
            }
        }
    }
    let open = [(2, 0), (1, 1), (0, 2), (0, 0)].map(|(edges, limits)| (false, edges, limits));
    met.assert_met(&[&open[..], &[(true, 1, 1), (true, 0, 2)]].concat());
}

#[test]
fn small_boxes() {
    let least = Least {
        listed: [20, 100, 250],
        runs: [12, 10, 80],
        standing: [5, 25, 200],
        orders: [500, 80, 150],
        chains: [200, 30, 4],
        lies: [25, 10, 10],
        starts: 200,
    };
    checks::small_boxes(&Reference, 71, 40_000, least);
}

#[test]
fn every_space() {
    checks::every_space(&Reference, 72, 4_000, [4, 6, 40]);
}

#[test]
fn any_start() {
    checks::any_start(&Reference, 73, 2_000, 50);
}

#[test]
fn goes_by_the_bias() {
    checks::goes_by_the_bias(&Reference, 74, 5_000, [80; 3]);
}

#[test]
fn any_jobs() {
    checks::any_jobs(&Reference, 75, 30_000);
}

#[test]
fn least_number_is_answered() {
    checks::least_number_is_answered(&Reference);
}

#[test]
fn larger_boxes() {
    checks::larger_boxes(&Reference, 76, [200, 120, 100]);
}

#[test]
fn long_boxes() {
    checks::long_boxes(&Reference, 77, 10);
}

#[test]
fn long_seam() {
    checks::long_seam(&Reference);
}

#[test]
fn all_signs() {
    checks::all_signs(&Reference);
}

#[test]
fn with_many_seams() {
    checks::with_many_seams(&Reference);
}

#[test]
fn each_facet_in_one_seam() {
    checks::each_facet_in_one_seam(&Reference, 78, [1_000, 500, 250]);
}
