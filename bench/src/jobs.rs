//! The jobs that are timed: those that are traced, by name, and those that are opened in a row.

use reference::build::{exponents, gathered, place, power_of, term, Parts};
use reference::crossed::Term;
use reference::curve::vertices_of_box;
use reference::generate::{vertex_in, Random};
use reference::grid::{chains, Facet, Place};
use reference::job::Job;
use reference::limits::{Limits, LARGEST_COEFFICIENT, LARGEST_COORDINATE};
use reference::operations::facet_is_crossed;

/// The job with a crossed start: the first crossed facet, the last coordinate going up from 0.
fn crossed_start(mut parts: Parts) -> Parts {
    let n = parts.n;
    let job = parts.opened();
    for level in 0..=parts.ends[n - 1].1 {
        let mut ends = parts.ends.clone();
        ends[n - 1] = (level, level);
        for lowest in vertices_of_box(&Job { ends, ..job.clone() }) {
            for &masks in chains(n) {
                let facet = Facet { n, lowest, masks };
                if facet_is_crossed(&job, &facet) {
                    parts.start = Place { facet, side: 0 };
                    return parts;
                }
            }
        }
    }
    panic!("no crossed facet");
}

/// Every term that a body may hold, with coefficients by exponents.
fn all_terms(n: usize, coefficient: impl Fn(&[u8]) -> i64) -> Vec<Term> {
    exponents(n).iter().map(|e| term(coefficient(e), e)).collect()
}

/// A job in a cube around the origin, with its start.
pub(crate) fn job_from(reach: i64, polynomials: Vec<Vec<Term>>, start: Place) -> Parts {
    let n = start.facet.n;
    Parts { n, bias: 0, ends: vec![(-reach, reach); n], polynomials, start }
}

/// A job in a cube around the origin, whose start is searched for.
pub(crate) fn job(reach: i64, polynomials: Vec<Vec<Term>>) -> Parts {
    let n = polynomials.len() + 1;
    let lowest = vec![0; n];
    let masks: Vec<u8> = (1..n).map(|k| (1 << k) - 1).collect();
    crossed_start(job_from(reach, polynomials, place(&lowest, &masks, 0)))
}

/// A circle or a sphere around the origin: the squares of n coordinates add up to `size`.
pub(crate) fn sphere(n: usize, size: i64) -> Vec<Term> {
    let square = |axis| Term { coefficient: 1, exponents: power_of(axis, 2) };
    gathered(&(1..=n).map(square).chain([term(-size, &[])]).collect::<Vec<_>>())
}

/// A closed curve or surface with every term.
fn round(n: usize, size: i64) -> Vec<Term> {
    all_terms(n, |e| if e.iter().all(|&x| x == 0) { -size } else { 1 })
}

/// A surface with every term, close to where axes k and k + 1 are equal.
fn slanting(n: usize, k: usize) -> Vec<Term> {
    all_terms(n, |e| if e[k - 1] < e[k] { -1 } else { 1 })
}

/// 3x + 2y + z.
fn plane() -> Vec<Term> {
    gathered(&[term(3, &[1]), term(2, &[0, 1]), term(1, &[0, 0, 1])])
}

/// The jobs of dimensions 2 and 3 that are traced.
fn jobs_of_2_and_3() -> Vec<(&'static str, Parts)> {
    let cutting_plane =
        gathered(&[term(3, &[1]), term(5, &[0, 1]), term(7, &[0, 0, 1]), term(-1, &[])]);
    vec![
        ("circle_3", job(256, vec![sphere(2, 62_501)])),
        ("quartic_15", job(60, vec![round(2, 1_000_000)])),
        ("sphere_plane_4_4", job(256, vec![sphere(3, 62_501), cutting_plane])),
        ("quartic_plane_35_3", job(50, vec![round(3, 1_000_000), plane()])),
        ("two_quartics_35_35", job(50, vec![round(3, 1_000_000), slanting(3, 1)])),
    ]
}

/// The jobs of dimension 4 that are traced. Their starts are given: a search would take long.
fn jobs_of_4() -> Vec<(&'static str, Parts)> {
    let diagonal = gathered(&[term(1, &[1]), term(-1, &[0, 0, 0, 1])]);
    let quartics = vec![round(4, 100_000), slanting(4, 1), slanting(4, 2)];
    vec![
        (
            "sphere_planes_5_3_2",
            job_from(
                100,
                vec![sphere(4, 8_100), plane(), diagonal.clone()],
                place(&[-2, 41, -80, -2], &[1, 11, 15], 0),
            ),
        ),
        (
            "quartic_planes_70_3_2",
            job_from(
                30,
                vec![round(4, 100_000), plane(), diagonal],
                place(&[0, -11, 18, 0], &[1, 13, 15], 0),
            ),
        ),
        (
            "three_quartics_70_70_70",
            job_from(30, quartics, place(&[-14, 7, 17, 0], &[1, 3, 15], 0)),
        ),
    ]
}

/// Name and bytes of each job that is traced.
pub fn jobs() -> Vec<(&'static str, Vec<u8>)> {
    let all = jobs_of_2_and_3().into_iter().chain(jobs_of_4());
    all.map(|(name, parts)| (name, parts.bytes())).collect()
}

/// So many of the terms that a body may hold, with any coefficients.
fn some_terms(r: &mut Random, n: usize, count: usize) -> Vec<Term> {
    let mut all = exponents(n).to_vec();
    r.shuffle(&mut all);
    all.truncate(count);
    all.sort();
    let with_coefficient = |exponents| {
        let coefficient = r.between(1, LARGEST_COEFFICIENT) * r.pick(&[1, -1]);
        Term { coefficient, exponents }
    };
    all.into_iter().map(with_coefficient).collect()
}

/// A job that opens, with so many terms a body; any box, any start in it, any bias.
fn some_job(r: &mut Random, n: usize, terms: usize) -> Parts {
    let mut ends = Vec::new();
    for _ in 0..n {
        let low = r.between(-LARGEST_COORDINATE, LARGEST_COORDINATE - 1);
        ends.push((low, r.between(low + 1, LARGEST_COORDINATE)));
    }
    let polynomials = (1..n).map(|_| some_terms(r, n, terms)).collect();
    let facet = Facet { n, lowest: vertex_in(r, &ends), masks: r.pick(chains(n)) };
    let start = Place { facet, side: r.below(2) as u8 };
    Parts { n, bias: r.byte(), ends, polynomials, start }
}

/// So many jobs of dimension n to open, with so many terms a body: the same in every run.
pub fn to_open(n: usize, terms: usize, count: usize) -> Vec<Vec<u8>> {
    assert!((1..=Limits::of(n).terms).contains(&terms), "no body has {terms} terms");
    let mut r = Random::new(32);
    (0..count).map(|_| some_job(&mut r, n, terms).bytes()).collect()
}
