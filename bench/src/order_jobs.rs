//! The jobs and lists whose order of cutting is asked for: loops in each other and side by side, in
//! boxes of more and more units around the origin. A list has every loop of the box.

use reference::build::{place, product, term};
use reference::crossed::Term;
use reference::operations::Verdict;

use crate::jobs::job_from;
use crate::plain::{self, signed_16};
use crate::seam_jobs::{ball, form, less, plus};
use crate::seams_careful;

/// The bytes of a place in dimension 2.
const SIZE: usize = 6;

/// A job, and a place on each of its loops in an order of cutting.
pub struct OrderJob {
    /// Units to a side of the box.
    pub side: i64,
    pub curve: &'static str,
    pub job: Vec<u8>,
    pub list: Vec<u8>,
    /// The places of each loop of the list.
    pub places: Vec<usize>,
}

impl OrderJob {
    pub fn name(&self) -> String {
        format!("{}_{}", self.curve, self.side)
    }

    pub fn walked(&self) -> usize {
        walked(&self.places)
    }
}

/// The places that are walked without a table: each loop for itself, and once more for each position
/// behind it.
pub fn walked(places: &[usize]) -> usize {
    let times = (1..=places.len()).rev();
    places.iter().zip(times).map(|(places, times)| places * times).sum()
}

/// An ellipse through the origin with its centre at (a, a): p (x - a)² + q (y - a)² less its value at
/// the origin.
fn ellipse_at(a: i64, p: i64, q: i64) -> Vec<Term> {
    let (x, y) = (form(&[1]), form(&[0, 1]));
    let squares = plus(&product(&[term(p, &[])], &product(&x, &x)), q, &product(&y, &y));
    plus(&squares, -2 * a, &form(&[p, q]))
}

/// -p²
fn less_square(p: &[Term]) -> Vec<Term> {
    plus(&[], -1, &product(p, p))
}

/// Name and polynomial of each curve in a box that reaches so far. A coefficient is at most 2²⁰, so
/// what is large passes close to the origin.
fn curves(reach: i64) -> Vec<(&'static str, Vec<Term>)> {
    let smaller = 4_900 * reach * reach / 65_536;
    let inner = less(&ellipse_at(reach * 100 / 256, 1, 1), -smaller);
    let nest = product(&ellipse_at(reach * 106 / 256, 1, 1), &inner);
    // Two ellipses that cross in four points: inside one of the two alone there are four ovals.
    let a = reach * 79 / 256;
    let crossing = product(&ellipse_at(a, 4, 1), &ellipse_at(a, 1, 4));
    let ovals = less(&crossing, -120 * a * a);
    // Seven grid points in a row, then the same eight to the right in the next row.
    let slots = less(&less_square(&form(&[1, -8])), -10);
    // A disc with a line of grid points that are 0.
    let holes = product(&less_square(&form(&[1, 2])), &ball(2, reach));
    vec![("nest", nest), ("ovals", ovals), ("slots", slots), ("holes", holes)]
}

/// The greatest x of a vertex of these places.
fn greatest_x(places: &[u8]) -> i64 {
    let each = places.chunks_exact(SIZE);
    each.map(|place| signed_16(place) + (place[4] & 1) as i64).max().expect("a place")
}

/// A loop by its place, the greatest x of a vertex, and how many places it has.
struct Loop {
    place: Vec<u8>,
    greatest: i64,
    places: usize,
}

/// Every loop of the box, by rising greatest x of a vertex: such an order stands.
fn loops(job: &[u8]) -> Vec<Loop> {
    let mut seams = vec![0; SIZE * 2_000];
    let listed = seams_careful::seams(job, &mut seams);
    assert!(!listed.full, "more seams");
    let (mut at, mut buffer) = (job.to_vec(), vec![0; SIZE * 10_000]);
    let start = job.len() - SIZE;
    let mut all = Vec::new();
    for place in seams.chunks_exact(SIZE).take(listed.count) {
        at[start..].copy_from_slice(place);
        if let Ok((Verdict::Loop, places)) = plain::trace(&at, &mut buffer) {
            let greatest = greatest_x(&buffer[..SIZE * places]);
            all.push(Loop { place: place.to_vec(), greatest, places });
        }
    }
    all.sort_by_key(|one| one.greatest);
    all
}

fn listed(side: i64, curve: &'static str, job: &[u8], loops: &[&Loop]) -> OrderJob {
    OrderJob {
        side,
        curve,
        job: job.to_vec(),
        list: loops.iter().flat_map(|one| one.place.clone()).collect(),
        places: loops.iter().map(|one| one.places).collect(),
    }
}

/// Every job with its list, by box. The holes come twice: before their outer loop, and behind it,
/// which is no order that stands.
pub fn order_jobs() -> Vec<OrderJob> {
    let mut all = Vec::new();
    for side in [64, 128, 256, 512] {
        for (curve, polynomial) in curves(side / 2) {
            let job = job_from(side / 2, vec![polynomial], place(&[0, 0], &[1], 0)).bytes();
            let loops = loops(&job);
            let rising: Vec<&Loop> = loops.iter().collect();
            all.push(listed(side, curve, &job, &rising));
            if curve == "holes" {
                let falling: Vec<&Loop> = loops.iter().rev().collect();
                all.push(listed(side, "outer_first", &job, &falling));
            }
        }
    }
    all
}
