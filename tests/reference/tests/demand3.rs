//! The third demand on the reference: the reversed trace, no facet twice, each joined to the
//! start's, and the two traces together against the curve found by brute force over the box; in
//! every dimension and at every bias.

use std::collections::HashSet;

use reference::curve::Joints;
use reference::generate::{valid_small, Bias, Random};
use reference::grid::{Facet, Place};
use reference::job::Job;
use reference::limits::DIMENSIONS;
use reference::operations::{facet_is_crossed, trace_places, Verdict};
use reference::tally::{Named, Tally};

/// The trace of the same job with that place as its start.
fn from_place(job: &Job, start: Place, space: usize) -> (Verdict, Vec<Place>) {
    trace_places(&Job { start, ..job.clone() }, space).expect("no refusal")
}

/// The trace from the last place turned, with space for just as many, lists the same places
/// in reverse down to the start, each turned. No facet stands in a trace twice.
fn check_reversal(job: &Job, start: Place, space: usize) {
    let (verdict, places) = from_place(job, start, space);
    let facets: HashSet<Facet> = places.iter().map(|p| p.facet).collect();
    assert_eq!(facets.len(), places.len(), "a facet twice");
    assert_eq!(verdict == Verdict::Full && places.is_empty(), space == 0);
    if let Some(last) = places.last() {
        let (_, back) = from_place(job, last.turned(), places.len());
        let wanted: Vec<Place> = places.iter().rev().map(|p| p.turned()).collect();
        assert_eq!(back, wanted);
    }
}

/// Everything the demand says about the curve of the start's facet: whether it closes, and the
/// facets.
fn check_curve(job: &Job) -> (bool, HashSet<Facet>) {
    let start = job.start;
    let joints = Joints::of(job);
    let curve = joints.curve(&start.facet);
    let space = curve.len();
    let (verdict, forth) = from_place(job, start, space);
    let (turned_verdict, back) = from_place(job, start.turned(), space);
    assert_ne!(verdict, Verdict::Full);
    assert_ne!(turned_verdict, Verdict::Full);
    let listed: HashSet<Facet> = forth.iter().chain(&back).map(|p| p.facet).collect();
    assert_eq!(listed, curve);
    let closed = joints.closes(&curve);
    if closed {
        assert_eq!((verdict, turned_verdict), (Verdict::Loop, Verdict::Loop));
        assert_eq!((forth.len(), back.len()), (curve.len(), curve.len()));
    } else {
        assert_ne!(verdict, Verdict::Loop);
        assert_ne!(turned_verdict, Verdict::Loop);
        assert_eq!(forth.len() + back.len(), curve.len() + 1);
        let shared = forth.iter().filter(|p| back.iter().any(|q| q.facet == p.facet));
        assert_eq!(shared.map(|p| p.facet).collect::<Vec<_>>(), vec![start.facet]);
    }
    (closed, curve)
}

/// What the facets of a curve are at bias 0, as far as they are crossed there.
const AT_BIAS_0: [&str; 4] = ["the same curve", "of one other", "of several", "not crossed"];

/// Which of these it is; of several if the bias joins what falls into pieces without it.
fn at_bias_0(job: &Job, curve: &HashSet<Facet>) -> &'static str {
    let [same, one_other, several, not_crossed] = AT_BIAS_0;
    let plain = Job { bias: 0, ..job.clone() };
    let mut crossed = curve.iter().filter(|facet| facet_is_crossed(&plain, facet));
    let Some(&facet) = crossed.next() else { return not_crossed };
    let traced = [0, 1].map(|side| from_place(&plain, Place { facet, side }, usize::MAX).1);
    let one: HashSet<Facet> = traced.iter().flatten().map(|place| place.facet).collect();
    if one == *curve {
        same
    } else if crossed.all(|facet| one.contains(facet)) {
        one_other
    } else {
        several
    }
}

/// So many jobs of dimension n.
fn check_jobs(n: usize, jobs: u32) {
    let mut r = Random::new(3);
    let (mut closed, mut open_ended, mut longest) = (0, 0, 0);
    let (mut biases, mut without, mut differ) = (Tally::default(), Tally::default(), 0);
    while closed + open_ended < jobs {
        let (made, parts) = valid_small(&mut r, n);
        let job = parts.opened();
        if trace_places(&job, 1).is_err() {
            continue;
        }
        let (is_closed, curve) = check_curve(&job);
        let count = curve.len();
        for space in [0, 1, count / 2, count, count + 3] {
            check_reversal(&job, job.start, space);
            check_reversal(&job, job.start.turned(), space);
        }
        closed += is_closed as u32;
        open_ended += !is_closed as u32;
        longest = longest.max(count);
        biases.count(n, made.bias);
        if made.bias != Bias::Zero {
            let found = at_bias_0(&job, &curve);
            without.count(n, found);
            differ += (found != AT_BIAS_0[0]) as u32;
        }
    }
    println!("{n}: {closed} closed, {open_ended} not, the longest of {longest} facets");
    assert!(closed > jobs / 10 && open_ended > jobs / 2 && longest > 80);
    biases.assert_met_in(n, &Bias::all());
    without.assert_met_in(n, &AT_BIAS_0);
    assert!(differ > jobs / 4, "{differ} differ from the curve at bias 0");
}

/// Most of the time goes into dimension 4, so the dimensions are checked side by side.
#[test]
fn reversal_repeats_and_whole_curves() {
    std::thread::scope(|scope| {
        for (n, jobs) in DIMENSIONS.into_iter().zip([4_000, 4_000, 2_000]) {
            scope.spawn(move || check_jobs(n, jobs));
        }
    });
}
