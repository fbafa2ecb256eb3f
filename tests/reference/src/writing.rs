//! Request 2.2, "Writing jobs", from its words: the job is laid out as the paper has it, contents
//! first and bodies behind them, and is turned away for what opening it gives.

use std::fmt;

use crate::job::open;
use crate::limits::{DIMENSIONS, MOST};

/// What a job is written from: n, the bias and loose bodies.
#[derive(Clone, PartialEq, Eq)]
pub struct Loose {
    pub n: u64,
    pub bias: u8,
    /// The box.
    pub ends: Vec<u8>,
    /// As many as the largest dimension has; those past the first n - 1 are not read.
    pub polynomials: [Vec<u8>; MOST - 1],
    pub start: Vec<u8>,
}

/// One of the bodies that are handed over. Polynomials are numbered from 1.
#[derive(Clone, Copy, PartialEq, Eq, PartialOrd, Ord, Debug)]
pub enum Which {
    Box,
    Polynomial(usize),
    Start,
}

impl Which {
    /// The bodies of a job of dimension n, in their order.
    pub fn of(n: usize) -> Vec<Which> {
        let polynomials = (1..n).map(Which::Polynomial);
        [Which::Box].into_iter().chain(polynomials).chain([Which::Start]).collect()
    }
}

impl Loose {
    pub fn body(&self, which: Which) -> &[u8] {
        match which {
            Which::Box => &self.ends,
            Which::Polynomial(k) => &self.polynomials[k - 1],
            Which::Start => &self.start,
        }
    }

    pub fn body_mut(&mut self, which: Which) -> &mut Vec<u8> {
        match which {
            Which::Box => &mut self.ends,
            Which::Polynomial(k) => &mut self.polynomials[k - 1],
            Which::Start => &mut self.start,
        }
    }
}

/// Of a body that is too long to be looked at, its length and its first bytes.
impl fmt::Debug for Loose {
    fn fmt(&self, f: &mut fmt::Formatter) -> fmt::Result {
        write!(f, "n {}, bias {}", self.n, self.bias)?;
        for which in Which::of(MOST) {
            let body = self.body(which);
            let shown = &body[..body.len().min(600)];
            write!(f, "; {which:?} of {} bytes {shown:?}", body.len())?;
        }
        Ok(())
    }
}

/// A number of the contents, in 16 bits. One that is too large for them is 5: it comes of a body
/// that is too long for its entry.
fn entry(number: usize) -> Result<[u8; 2], u8> {
    u16::try_from(number).map(u16::to_le_bytes).map_err(|_| 5)
}

/// The job of the loose bodies, if it opens.
fn job_of(loose: &Loose) -> Result<Vec<u8>, u8> {
    // 3: dimension. Any number of 64 bits may be handed over, of which byte 1 holds few.
    let n = DIMENSIONS.into_iter().find(|&n| n as u64 == loose.n).ok_or(3)?;
    let bodies: Vec<&[u8]> = Which::of(n).into_iter().map(|which| loose.body(which)).collect();
    let mut job = vec![1, n as u8, n as u8 + 1, loose.bias];
    let mut offset = 4 + 4 * (n + 1);
    for body in &bodies {
        job.extend(entry(offset)?);
        job.extend(entry(body.len())?);
        offset += body.len();
    }
    bodies.iter().for_each(|body| job.extend_from_slice(body));
    // 5 to 8 as opening the result gives them.
    open(&job)?;
    Ok(job)
}

/// **Writing a job.** The job goes to the front of the buffer, and its length is the answer. Bytes
/// behind it keep their values.
pub fn write_job(loose: &Loose, buffer: &mut [u8]) -> Result<usize, u8> {
    let job = job_of(loose)?;
    // 16: the buffer is shorter than the job.
    let front = buffer.get_mut(..job.len()).ok_or(16)?;
    front.copy_from_slice(&job);
    Ok(job.len())
}
