//! The jobs whose seams are listed: curves that grow with the box, in boxes of more and more units
//! around the origin. Every value in them is readable, so that every facet of a box is judged. The
//! starts count only for their form.

use reference::build::{gathered, place, power_of, product, term};
use reference::crossed::Term;
use reference::grid::chains;
use reference::job::Job;

use crate::jobs::{job_from, sphere};
use crate::long_curves::three_times_the_angle;

/// A job by its box and its curve.
pub struct SeamJob {
    pub n: usize,
    /// Units to a side of the box.
    pub side: i64,
    pub curve: &'static str,
    pub job: Vec<u8>,
}

impl SeamJob {
    pub fn name(&self) -> String {
        format!("{}_{}_{}", self.curve, self.side, self.n)
    }
}

/// How many facets have all their vertices in the box.
pub fn facets_of_box(job: &Job) -> u64 {
    let n = job.n;
    let with_masks = |last: u8| {
        let vertices = |k: usize| (job.ends[k].1 - job.ends[k].0 + 1) as u64;
        (0..n).map(|k| vertices(k) - (last >> k & 1) as u64).product::<u64>()
    };
    chains(n).iter().map(|masks| with_masks(masks[n - 2])).sum()
}

/// The sum of the coordinates, each so many times.
pub(crate) fn form(coefficients: &[i64]) -> Vec<Term> {
    let times = |(k, &coefficient)| Term { coefficient, exponents: power_of(k + 1, 1) };
    gathered(&coefficients.iter().enumerate().map(times).collect::<Vec<_>>())
}

/// One polynomial plus so many times another.
pub(crate) fn plus(a: &[Term], factor: i64, b: &[Term]) -> Vec<Term> {
    gathered(&[a, &product(&[term(factor, &[])], b)].concat())
}

/// A polynomial less a number.
pub(crate) fn less(a: &[Term], number: i64) -> Vec<Term> {
    plus(a, -number, &[term(1, &[])])
}

/// (p - a)(p + a)
fn two_sheets(p: &[Term], a: i64) -> Vec<Term> {
    product(&less(p, a), &less(p, -a))
}

/// (p - a) p (p + a)
fn three_sheets(p: &[Term], a: i64) -> Vec<Term> {
    product(&two_sheets(p, a), p)
}

/// A ball as large as the box, and one of half its radius in it.
fn two_spheres(n: usize, reach: i64) -> Vec<Term> {
    product(&ball(n, reach), &sphere(n, reach * reach / 4 + 1))
}

/// A ball as large as the box.
pub(crate) fn ball(n: usize, reach: i64) -> Vec<Term> {
    sphere(n, reach * reach * 61 / 64 + 1)
}

/// A quarter of the square of a radius almost as large as the box.
fn quarter(reach: i64) -> i64 {
    reach * reach * 15 / 64
}

/// Name and polynomial of each curve of dimension 2 in a box that reaches so far.
fn curves_of_2(reach: i64) -> Vec<(&'static str, Vec<Term>)> {
    let (x, y) = (form(&[1]), form(&[0, 1]));
    let (sum, difference) = (form(&[1, 1]), form(&[1, -1]));
    let square = reach * reach;
    let mut all = vec![
        ("circle", ball(2, reach)),
        // An oval left of x = 0, a branch right of it.
        ("oval_and_branch", plus(&three_sheets(&x, reach * 3 / 4), -reach / 3, &product(&y, &y))),
        ("three_lines", three_sheets(&form(&[1, 2]), reach * 5 / 2)),
        // Three times along the diagonal, where a unit passes the most facets.
        ("bends", plus(&three_sheets(&sum, reach), -square / 3, &difference)),
    ];
    // Two quarters of a disc, and a curve around each of two corners. At 256 no polynomial of
    // degree 4 is readable in all of the box.
    if reach <= 128 {
        let disc = product(&product(&x, &y), &sphere(2, square + 64));
        all.push(("quarters", less(&disc, square * reach / 2)));
    }
    all
}

fn curves_of_3(reach: i64) -> Vec<(&'static str, Vec<Vec<Term>>)> {
    let slanting = form(&[1, 2, 3]);
    vec![
        ("circle", vec![ball(3, reach), less(&form(&[3, 5, 7]), 1)]),
        ("six_circles", vec![two_spheres(3, reach), three_sheets(&slanting, reach)]),
        (
            "nine_lines",
            vec![three_sheets(&form(&[2, 1, -1]), reach), three_sheets(&slanting, reach)],
        ),
        (
            "angles",
            vec![sphere(2, 4 * quarter(reach)), three_times_the_angle(1, 3, quarter(reach))],
        ),
    ]
}

fn curves_of_4(reach: i64) -> Vec<(&'static str, Vec<Vec<Term>>)> {
    let (slanting, diagonal) = (form(&[3, 2, 1]), form(&[1, 0, 0, -1]));
    let angle = |axis, another| three_times_the_angle(axis, another, quarter(reach));
    vec![
        ("circle", vec![ball(4, reach), slanting.clone(), diagonal.clone()]),
        ("four_circles", vec![two_spheres(4, reach), two_sheets(&slanting, reach), diagonal]),
        (
            "eight_lines",
            vec![
                two_sheets(&form(&[1, 0, 0, 1]), reach / 2),
                two_sheets(&form(&[0, 1, 0, -1]), reach / 2),
                two_sheets(&form(&[0, 0, 2, 1]), reach),
            ],
        ),
        ("angles", vec![sphere(2, 4 * quarter(reach)), angle(1, 3), angle(3, 4)]),
    ]
}

fn in_box(side: i64, curve: &'static str, polynomials: Vec<Vec<Term>>) -> SeamJob {
    let n = polynomials.len() + 1;
    let masks: Vec<u8> = (1..n).map(|k| (1 << k) - 1).collect();
    let parts = job_from(side / 2, polynomials, place(&vec![0; n], &masks, 0));
    SeamJob { n, side, curve, job: parts.bytes() }
}

/// Every job, by dimension and box.
pub fn seam_jobs() -> Vec<SeamJob> {
    let mut all = Vec::new();
    for side in [64, 128, 256, 512] {
        for (curve, polynomial) in curves_of_2(side / 2) {
            all.push(in_box(side, curve, vec![polynomial]));
        }
    }
    for side in [16, 32, 64] {
        all.extend(curves_of_3(side / 2).into_iter().map(|(curve, p)| in_box(side, curve, p)));
    }
    for side in [8, 16] {
        all.extend(curves_of_4(side / 2).into_iter().map(|(curve, p)| in_box(side, curve, p)));
    }
    all
}
