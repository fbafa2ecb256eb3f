//! "Operations and what they turn down". Each opens the job first; its own refusals are
//! tested in the order written. A refusal is its number alone and no buffer is touched.

use crate::crossed::{self, column, is_crossed, running_sums, sum, Column, Fraction};
use crate::grid::{vertex, Facet, Place, Vertex};
use crate::job::{open, Job};
use crate::limits::MOST;

/// **Body.** The part of the job that holds the body, as offset and length.
pub fn body(job: &[u8], index: u64) -> Result<(usize, usize), u8> {
    let opened = open(job)?;
    if index >= opened.n as u64 + 1 {
        return Err(12);
    }
    Ok(opened.bodies[index as usize])
}

fn in_box(job: &Job, v: &Vertex) -> bool {
    job.ends.iter().enumerate().all(|(k, &(low, high))| low <= v[k] && v[k] <= high)
}

/// Why some vertices have no columns.
enum Unfit {
    /// A vertex lies outside the box.
    Outside,
    /// All lie in the box and a value is not readable.
    Unreadable,
}

/// The columns of up to n + 1 vertices, in their order.
fn columns(job: &Job, vertices: &[Vertex]) -> Result<[Column; MOST + 1], Unfit> {
    if !vertices.iter().all(|v| in_box(job, v)) {
        return Err(Unfit::Outside);
    }
    let mut columns = [[0; MOST]; MOST + 1];
    for (here, v) in columns.iter_mut().zip(vertices) {
        *here = column(&job.polynomials, job.bias, v).ok_or(Unfit::Unreadable)?;
    }
    Ok(columns)
}

/// The sums at the vertices, before the readable test and the bias; none if one of the vertices
/// lies outside the box.
pub fn sums(job: &Job, vertices: &[Vertex]) -> Option<Vec<i128>> {
    let inside = vertices.iter().all(|v| in_box(job, v));
    let at = |v| job.polynomials.iter().map(move |polynomial| sum(polynomial, v));
    inside.then(|| vertices.iter().flat_map(at).collect())
}

/// 9 a vertex outside the box; 10 a vertex value not readable; else the columns of the facet.
pub fn facet_columns(job: &Job, facet: &Facet) -> Result<[Column; MOST + 1], u8> {
    columns(job, &facet.vertices()[..job.n]).map_err(|unfit| match unfit {
        Unfit::Outside => 9,
        Unfit::Unreadable => 10,
    })
}

/// 9, 10, then 11 not crossed.
fn crossed_columns(job: &Job, facet: &Facet) -> Result<[Column; MOST + 1], u8> {
    let columns = facet_columns(job, facet)?;
    if !is_crossed(&columns[..job.n]) {
        return Err(11);
    }
    Ok(columns)
}

/// Whether the facet is in the box with readable values and crossed.
pub fn facet_is_crossed(job: &Job, facet: &Facet) -> bool {
    crossed_columns(job, facet).is_ok()
}

/// **Judge.** 13, 9, 10; else crossed or not.
pub fn judge(job: &[u8], place: &[u8]) -> Result<bool, u8> {
    let job = open(job)?;
    let place = Place::read(job.n, place).ok_or(13)?;
    let columns = facet_columns(&job, &place.facet)?;
    Ok(is_crossed(&columns[..job.n]))
}

/// The exact coordinates of the facet's point, in steps, before they are rounded.
pub fn exact_point(job: &Job, facet: &Facet) -> Result<Vec<Fraction>, u8> {
    let columns = crossed_columns(job, facet)?;
    Ok(crossed::exact_point(facet, &columns[..job.n]))
}

fn point_of(job: &Job, facet: &Facet) -> Result<Vertex, u8> {
    let columns = crossed_columns(job, facet)?;
    Ok(crossed::point(facet, &columns[..job.n]))
}

/// **Point.** 13, 9, 10, then 11 not crossed; else the coordinates, each at the nearest step of
/// 1/1024, a half at the even one.
pub fn point(job: &[u8], place: &[u8]) -> Result<Vertex, u8> {
    let job = open(job)?;
    let place = Place::read(job.n, place).ok_or(13)?;
    point_of(&job, &place.facet)
}

#[derive(Clone, Copy, PartialEq, Eq, Debug)]
pub enum Step {
    Next(Place),
    Edge,
    Limit,
}

/// The simplex on the place's side: edge, limit, or the place of its other crossed facet,
/// its side leading onward.
fn onward(job: &Job, place: &Place) -> Step {
    let n = job.n;
    let (simplex, extra) = place.simplex();
    let columns = match columns(job, &simplex.vertices()[..=n]) {
        Err(Unfit::Outside) => return Step::Edge,
        Err(Unfit::Unreadable) => return Step::Limit,
        Ok(columns) => columns,
    };
    let is_crossed_without = |i: usize| {
        let mut facet = [[0; MOST]; MOST];
        for k in 0..n {
            facet[k] = columns[if k < i { k } else { k + 1 }];
        }
        is_crossed(&facet[..n])
    };
    let others: Vec<usize> = (0..=n).filter(|&i| i != extra && is_crossed_without(i)).collect();
    assert_eq!(others.len(), 1, "exactly one other crossed facet");
    Step::Next(Place::out_of(&simplex, others[0]))
}

/// **Step.** 13, 9, 10, 11; else what lies on the place's side.
pub fn step(job: &[u8], place: &[u8]) -> Result<Step, u8> {
    let job = open(job)?;
    let place = Place::read(job.n, place).ok_or(13)?;
    crossed_columns(&job, &place.facet)?;
    Ok(onward(&job, &place))
}

#[derive(Clone, Copy, PartialEq, Eq, PartialOrd, Ord, Debug)]
pub enum Verdict {
    Loop,
    Edge,
    Limit,
    Full,
}

impl Verdict {
    pub fn word(&self) -> &'static str {
        match self {
            Verdict::Loop => "loop",
            Verdict::Edge => "edge",
            Verdict::Limit => "limit",
            Verdict::Full => "full",
        }
    }
}

/// The trace of an opened job as verdict and places, with space for `space` of them.
pub fn trace_places(job: &Job, space: usize) -> Result<(Verdict, Vec<Place>), u8> {
    crossed_columns(job, &job.start.facet)?;
    let mut places = Vec::new();
    let mut next = job.start;
    loop {
        if places.len() == space {
            return Ok((Verdict::Full, places));
        }
        places.push(next);
        match onward(job, &next) {
            Step::Edge => return Ok((Verdict::Edge, places)),
            Step::Limit => return Ok((Verdict::Limit, places)),
            Step::Next(place) if place.facet == job.start.facet => {
                return Ok((Verdict::Loop, places))
            }
            Step::Next(place) => next = place,
        }
    }
}

/// **Trace.** 9, 10, 11 for the job's start; else places one after another in the buffer, and
/// verdict and count. Bytes past the last place written keep their values.
pub fn trace(job: &[u8], buffer: &mut [u8]) -> Result<(Verdict, usize), u8> {
    let job = open(job)?;
    let size = 3 * job.n;
    let (verdict, places) = trace_places(&job, buffer.len() / size)?;
    for (k, place) in places.iter().enumerate() {
        buffer[size * k..size * (k + 1)].copy_from_slice(&place.bytes());
    }
    Ok((verdict, places.len()))
}

/// The same job with that place as its start.
pub fn with_start(job: &[u8], place: &Place) -> Vec<u8> {
    let bytes = place.bytes();
    let mut out = job.to_vec();
    let at = out.len() - bytes.len();
    out[at..].copy_from_slice(&bytes);
    out
}

#[derive(Clone, Copy, PartialEq, Debug)]
pub enum Move {
    Lift([f64; 3]),
    Draw([f64; 3]),
    Close,
}

/// **Pen.** Places, a closed mark and an index k.
pub fn pen(job: &[u8], places: &[u8], closed: bool, k: u64) -> Result<Move, u8> {
    let job = open(job)?;
    let size = 3 * job.n;
    if places.len() % size != 0 {
        return Err(13);
    }
    let m = (places.len() / size) as u64;
    if k == m && m > 0 && closed {
        return Ok(Move::Close);
    }
    if k >= m {
        return Err(12);
    }
    let at = size * k as usize;
    let place = Place::read(job.n, &places[at..at + size]).ok_or(13)?;
    let steps = point_of(&job, &place.facet)?;
    // Axes 1 to 3: the third is 0 for n = 2.
    let millimetres = [1, 2, 3].map(|axis: usize| steps[axis - 1] as f64 / 1024.0);
    Ok(if k == 0 { Move::Lift(millimetres) } else { Move::Draw(millimetres) })
}

/// **Running sum.** 12 the polynomial's number is not under n - 1; 12 more terms than it has; 9 the
/// vertex outside the box. Else the exact sum after so many terms, from the last to the first,
/// without the readable test and without the bias. Coordinates above n are not read.
pub fn running_sum(
    job: &[u8],
    polynomial: u64,
    coordinates: &[i64; MOST],
    terms: u64,
) -> Result<i128, u8> {
    let job = open(job)?;
    if polynomial >= job.n as u64 - 1 {
        return Err(12);
    }
    let polynomial = &job.polynomials[polynomial as usize];
    if terms > polynomial.len() as u64 {
        return Err(12);
    }
    let v = vertex(&coordinates[..job.n]);
    if !in_box(&job, &v) {
        return Err(9);
    }
    Ok(running_sums(polynomial, &v)[terms as usize])
}
