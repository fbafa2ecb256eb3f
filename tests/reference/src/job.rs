//! "The job": contents first, then bodies; and Open.

use crate::crossed::Term;
use crate::grid::Place;
use crate::limits::{Limits, DIMENSIONS, LARGEST_COEFFICIENT, LARGEST_COORDINATE, LARGEST_DEGREE};

/// What Open finds in the bytes of a job.
#[derive(Clone, Debug)]
pub struct Job {
    pub n: usize,
    /// A value no larger in size counts as 0.
    pub bias: u8,
    /// Offset and length of each body: box, the n - 1 polynomials, start.
    pub bodies: Vec<(usize, usize)>,
    /// Per axis the low and high end.
    pub ends: Vec<(i64, i64)>,
    pub polynomials: Vec<Vec<Term>>,
    pub start: Place,
}

fn unsigned_16(bytes: &[u8], at: usize) -> usize {
    bytes[at] as usize + 256 * bytes[at + 1] as usize
}

fn signed_16(bytes: &[u8], at: usize) -> i64 {
    i16::from_le_bytes([bytes[at], bytes[at + 1]]) as i64
}

fn signed_32(bytes: &[u8], at: usize) -> i64 {
    i32::from_le_bytes([bytes[at], bytes[at + 1], bytes[at + 2], bytes[at + 3]]) as i64
}

/// Offset and length of each body; none if the contents are cut short, bodies are not adjacent,
/// or a length is wrong for its kind.
fn read_contents(n: usize, job: &[u8]) -> Option<Vec<(usize, usize)>> {
    let mut ended = 4 + 4 * (n + 1);
    if job.len() < ended {
        return None;
    }
    let mut bodies = Vec::new();
    for k in 0..=n {
        let entry = 4 + 4 * k;
        let (offset, length) = (unsigned_16(job, entry), unsigned_16(job, entry + 2));
        let fits_kind = if k == 0 {
            length == 4 * n
        } else if k < n {
            length % 8 == 0 && length / 8 >= 1 && length / 8 <= Limits::of(n).terms
        } else {
            length == 3 * n
        };
        if offset != ended || !fits_kind {
            return None;
        }
        ended = offset + length;
        bodies.push((offset, length));
    }
    (ended == job.len()).then_some(bodies)
}

/// Per axis the low and high end; none if one is beyond its limit or low is not under high.
fn read_box(body: &[u8]) -> Option<Vec<(i64, i64)>> {
    let mut ends = Vec::new();
    for bytes in body.chunks_exact(4) {
        let (low, high) = (signed_16(bytes, 0), signed_16(bytes, 2));
        let within = |end: i64| (-LARGEST_COORDINATE..=LARGEST_COORDINATE).contains(&end);
        if !within(low) || !within(high) || low >= high {
            return None;
        }
        ends.push((low, high));
    }
    Some(ends)
}

/// The terms; none if one is beyond its limits or does not rise over the one before.
pub fn read_polynomial(n: usize, body: &[u8]) -> Option<Vec<Term>> {
    let mut terms: Vec<Term> = Vec::new();
    for bytes in body.chunks_exact(8) {
        let coefficient = signed_32(bytes, 0);
        let exponents = [bytes[4], bytes[5], bytes[6], bytes[7]];
        let degree: u32 = exponents.iter().map(|&e| e as u32).sum();
        if coefficient == 0
            || coefficient > LARGEST_COEFFICIENT
            || coefficient < -LARGEST_COEFFICIENT
            || exponents[n..].iter().any(|&e| e != 0)
            || degree > LARGEST_DEGREE
            || terms.last().is_some_and(|before| exponents <= before.exponents)
        {
            return None;
        }
        terms.push(Term { coefficient, exponents });
    }
    Some(terms)
}

/// **Open.** The refusals are tested in rising number.
pub fn open(job: &[u8]) -> Result<Job, u8> {
    // 1: fewer than 4 bytes.
    if job.len() < 4 {
        return Err(1);
    }
    // 2: byte 0 wrong. Byte 3 is the bias, which may be any byte.
    if job[0] != 1 {
        return Err(2);
    }
    // 3: dimension.
    let n = job[1] as usize;
    if !DIMENSIONS.contains(&n) {
        return Err(3);
    }
    // 4: entry count.
    if job[2] as usize != n + 1 {
        return Err(4);
    }
    // 5: contents cut short, bodies not adjacent, or a length wrong for its kind.
    let bodies = read_contents(n, job).ok_or(5)?;
    let body = |k: usize| &job[bodies[k].0..bodies[k].0 + bodies[k].1];
    // 6: box.
    let ends = read_box(body(0)).ok_or(6)?;
    // 7: a term or the order of terms.
    let polynomials: Option<Vec<_>> = (1..n).map(|k| read_polynomial(n, body(k))).collect();
    let polynomials = polynomials.ok_or(7)?;
    // 8: start's chain or side malformed.
    let start = Place::read(n, body(n)).ok_or(8)?;
    Ok(Job { n, bias: job[3], bodies, ends, polynomials, start })
}
