//! Writing jobs in Rust, made for comparing times: the bodies are tested as Open would test them in
//! the job, then contents and bodies are copied to the buffer; nothing is allocated. Once
//! straightforward (`write_job`), and once with the careful test of the terms
//! (`write_job_carefully`). The tests of box, terms and start are those of the openers (`open.rs`).
//! Unproved; compared with the reference by `write_tests.rs`.

use crate::open::{is_axis, is_place, is_polynomial, is_polynomial_in};

/// What the writer is handed: dimension, bias, and bodies that are in no job yet. The polynomials
/// past the first n - 1 are not read.
#[derive(Clone, Copy, Debug)]
pub struct Loose<'a> {
    pub n: u64,
    pub bias: u8,
    pub ends: &'a [u8],
    pub polynomials: [&'a [u8]; 3],
    pub start: &'a [u8],
}

/// The bodies in the order of the job: box, the first n - 1 polynomials, start. Behind these stands
/// what is not read.
#[inline(always)]
fn in_order<'a>(n: usize, loose: &Loose<'a>) -> [&'a [u8]; 5] {
    let [first, second, third] = loose.polynomials;
    let mut bodies = [loose.ends, first, second, third, loose.start];
    bodies[n] = loose.start;
    bodies
}

/// Whether body k may have this length.
#[inline(always)]
fn fits_kind(n: usize, most_terms: usize, k: usize, length: usize) -> bool {
    if k == 0 {
        length == 4 * n
    } else if k < n {
        length % 8 == 0 && (1..=most_terms).contains(&(length / 8))
    } else {
        length == 3 * n
    }
}

/// Contents first, bodies behind them. The lengths are right for their kinds, so each number has
/// room in its entry, and the job has the length of all.
#[inline(always)]
fn lay(n: usize, bias: u8, bodies: &[&[u8]], job: &mut [u8]) {
    job[..4].copy_from_slice(&[1, n as u8, n as u8 + 1, bias]);
    let mut offset = 4 + 4 * bodies.len();
    for (k, body) in bodies.iter().enumerate() {
        let (entry, end) = (4 + 4 * k, offset + body.len());
        job[entry..entry + 2].copy_from_slice(&(offset as u16).to_le_bytes());
        job[entry + 2..entry + 4].copy_from_slice(&(body.len() as u16).to_le_bytes());
        job[offset..end].copy_from_slice(body);
        offset = end;
    }
}

/// Writes the job to the buffer from its front: the job's length, or the number of the first
/// refusal, beside which nothing is written.
pub fn write_job(loose: &Loose, buffer: &mut [u8]) -> Result<usize, u8> {
    write_by(loose, buffer, is_polynomial)
}

/// The same with the careful test of the terms.
pub fn write_job_carefully(loose: &Loose, buffer: &mut [u8]) -> Result<usize, u8> {
    write_by(loose, buffer, |n, body| match n {
        2 => is_polynomial_in::<2>(body),
        3 => is_polynomial_in::<3>(body),
        _ => is_polynomial_in::<4>(body),
    })
}

#[inline(always)]
fn write_by(
    loose: &Loose,
    buffer: &mut [u8],
    is_polynomial: impl Fn(usize, &[u8]) -> bool,
) -> Result<usize, u8> {
    let n = loose.n as usize;
    let most_terms = match n {
        2 => 15,
        3 => 35,
        4 => 70,
        _ => return Err(3),
    };
    let bodies = &in_order(n, loose)[..=n];
    let mut kinds = bodies.iter().enumerate();
    if !kinds.all(|(k, body)| fits_kind(n, most_terms, k, body.len())) {
        return Err(5);
    }
    if !bodies[0].chunks_exact(4).all(is_axis) {
        return Err(6);
    }
    if !bodies[1..n].iter().all(|body| is_polynomial(n, body)) {
        return Err(7);
    }
    if !is_place(n, bodies[n]) {
        return Err(8);
    }
    let length = 4 + 4 * bodies.len() + bodies.iter().map(|body| body.len()).sum::<usize>();
    let job = buffer.get_mut(..length).ok_or(16)?;
    lay(n, loose.bias, bodies, job);
    Ok(length)
}
