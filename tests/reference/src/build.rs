//! Jobs from their parts, for tests and tools: contents first, then bodies.

use std::sync::OnceLock;

use crate::cartesian::cartesian;
use crate::crossed::Term;
use crate::grid::{vertex, Facet, Place};
use crate::job::Job;
use crate::limits::{LARGEST_COEFFICIENT, LARGEST_DEGREE, MOST};

/// The parts of a job.
#[derive(Clone, Debug)]
pub struct Parts {
    pub n: usize,
    pub bias: u8,
    pub ends: Vec<(i64, i64)>,
    pub polynomials: Vec<Vec<Term>>,
    pub start: Place,
}

/// A term of coefficient and exponents, from axis 1 on; those not given are 0.
pub fn term(coefficient: i64, exponents: &[u8]) -> Term {
    let mut all = [0; MOST];
    all[..exponents.len()].copy_from_slice(exponents);
    Term { coefficient, exponents: all }
}

/// The exponents of one axis to a power.
pub fn power_of(axis: usize, power: u8) -> [u8; MOST] {
    let mut exponents = [0; MOST];
    exponents[axis - 1] = power;
    exponents
}

/// All exponents that a term may have, in rising order.
pub fn exponents(n: usize) -> &'static [[u8; MOST]] {
    static TABLES: [OnceLock<Vec<[u8; MOST]>>; MOST + 1] = [const { OnceLock::new() }; MOST + 1];
    TABLES[n].get_or_init(|| {
        let mut all: Vec<[u8; MOST]> = cartesian(&vec![(0..=LARGEST_DEGREE as u8).collect(); n]);
        all.retain(|e| e.iter().map(|&p| p as u32).sum::<u32>() <= LARGEST_DEGREE);
        all
    })
}

/// Like terms gathered, zeros left out, in rising order.
pub fn gathered(terms: &[Term]) -> Vec<Term> {
    let mut all: Vec<Term> = Vec::new();
    for t in terms {
        match all.iter_mut().find(|u| u.exponents == t.exponents) {
            Some(u) => u.coefficient += t.coefficient,
            None => all.push(*t),
        }
    }
    all.retain(|t| t.coefficient != 0);
    all.sort_by_key(|t| t.exponents);
    all
}

/// Whether there are terms and each coefficient is within its limit.
pub fn within_limits(terms: &[Term]) -> bool {
    !terms.is_empty() && terms.iter().all(|t| t.coefficient.abs() <= LARGEST_COEFFICIENT)
}

/// The product of two polynomials.
pub fn product(a: &[Term], b: &[Term]) -> Vec<Term> {
    let mut all = Vec::new();
    for s in a {
        for t in b {
            let mut exponents = s.exponents;
            for (e, more) in exponents.iter_mut().zip(t.exponents) {
                *e += more;
            }
            all.push(Term { coefficient: s.coefficient * t.coefficient, exponents });
        }
    }
    gathered(&all)
}

/// A place of the n coordinates and n - 1 masks given.
pub fn place(lowest: &[i64], masks: &[u8], side: u8) -> Place {
    let n = lowest.len();
    assert_eq!(masks.len(), n - 1);
    let mut all = [0; MOST - 1];
    all[..n - 1].copy_from_slice(masks);
    Place { facet: Facet { n, lowest: vertex(lowest), masks: all }, side }
}

impl Parts {
    /// The bodies of the job. Numbers that do not fit their field are cut to it.
    pub fn bodies(&self) -> Vec<Vec<u8>> {
        let mut bodies: Vec<Vec<u8>> = Vec::new();
        let mut ends = Vec::new();
        for &(low, high) in &self.ends {
            ends.extend_from_slice(&(low as i16).to_le_bytes());
            ends.extend_from_slice(&(high as i16).to_le_bytes());
        }
        bodies.push(ends);
        for polynomial in &self.polynomials {
            let mut body = Vec::new();
            for t in polynomial {
                body.extend_from_slice(&(t.coefficient as i32).to_le_bytes());
                body.extend_from_slice(&t.exponents);
            }
            bodies.push(body);
        }
        bodies.push(self.start.bytes());
        bodies
    }

    /// The bytes of the job.
    pub fn bytes(&self) -> Vec<u8> {
        assemble(self.n, self.bias, &self.bodies())
    }

    /// The parts as Open would find them, for judging facets before the start is chosen.
    pub fn opened(&self) -> Job {
        Job {
            n: self.n,
            bias: self.bias,
            bodies: Vec::new(),
            ends: self.ends.clone(),
            polynomials: self.polynomials.clone(),
            start: self.start,
        }
    }
}

/// Contents and then the bodies; offsets and lengths are cut to 16 bits.
pub fn assemble(n: usize, bias: u8, bodies: &[Vec<u8>]) -> Vec<u8> {
    let mut out = vec![1, n as u8, n as u8 + 1, bias];
    let mut offset = 4 + 4 * bodies.len();
    for body in bodies {
        out.extend_from_slice(&(offset as u16).to_le_bytes());
        out.extend_from_slice(&(body.len() as u16).to_le_bytes());
        offset += body.len();
    }
    for body in bodies {
        out.extend_from_slice(body);
    }
    out
}

/// Case A of the paper.
pub fn case_a() -> Parts {
    Parts {
        n: 2,
        bias: 0,
        ends: vec![(-1, 1), (-1, 1)],
        polynomials: vec![vec![term(-1, &[0, 0]), term(2, &[0, 2]), term(2, &[2, 0])]],
        start: place(&[0, 0], &[1], 0),
    }
}

/// Case C of the paper for n = 3, and its like in another dimension: polynomial k is axis k, and
/// the masks of the start are 1, 3, .., each with one axis more.
pub fn case_c(n: usize) -> Parts {
    let masks: Vec<u8> = (1..n).map(|k| (1 << k) - 1).collect();
    Parts {
        n,
        bias: 0,
        ends: vec![(0, 1); n],
        polynomials: (1..n).map(|axis| vec![term(1, &power_of(axis, 1))]).collect(),
        start: place(&vec![0; n], &masks, 0),
    }
}

#[cfg(test)]
mod tests {
    use super::*;
    use crate::limits::{Limits, DIMENSIONS};

    /// A body may hold each of them once.
    #[test]
    fn as_many_exponents_as_terms() {
        for n in DIMENSIONS {
            assert_eq!(exponents(n).len(), Limits::of(n).terms);
            assert!(exponents(n).windows(2).all(|pair| pair[0] < pair[1]));
        }
    }
}
