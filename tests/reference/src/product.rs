//! The operations as one table of functions, so that a test can be run on the reference and
//! on the proved library alike.

use crate::formula::{self, TermList};
use crate::grid::Vertex;
use crate::ground::{self, Ground};
use crate::job::{self, Job};
use crate::limits::MOST;
use crate::operations::{self, Move, Step, Verdict};
use crate::order::{self, CutOrder};
use crate::seams::{self, Ending};
use crate::small;
use crate::writing::{self, Loose};

/// Everything the product answers. A refusal is its number.
pub trait Product {
    /// n and each polynomial's count of terms.
    fn open(&self, job: &[u8]) -> Result<(usize, Vec<usize>), u8>;
    /// Offset and length of the part of the job that holds the body.
    fn body(&self, job: &[u8], index: u64) -> Result<(usize, usize), u8>;
    fn judge(&self, job: &[u8], place: &[u8]) -> Result<bool, u8>;
    /// Judge, with its ground.
    fn judge_ground(&self, job: &[u8], place: &[u8]) -> Result<Ground, u8>;
    /// Steps by axis; 0 above axis n.
    fn point(&self, job: &[u8], place: &[u8]) -> Result<Vertex, u8>;
    fn step(&self, job: &[u8], place: &[u8]) -> Result<Step, u8>;
    fn trace(&self, job: &[u8], buffer: &mut [u8]) -> Result<(Verdict, usize), u8>;
    fn pen(&self, job: &[u8], places: &[u8], closed: bool, k: u64) -> Result<Move, u8>;
    /// The sum of the last `terms` terms. Polynomials are numbered from 0.
    fn running_sum(
        &self,
        job: &[u8],
        polynomial: u64,
        coordinates: &[i64; MOST],
        terms: u64,
    ) -> Result<i128, u8>;
    /// Open of the small cutter.
    fn small_open(&self, job: &[u8]) -> Result<(usize, Vec<usize>), u8>;
    /// Trace of the small cutter.
    fn small_trace(&self, job: &[u8], buffer: &mut [u8]) -> Result<(Verdict, usize), u8>;
    /// How the list of seams ends, and the count of places written.
    fn seams(&self, job: &[u8], buffer: &mut [u8]) -> Result<(Ending, usize), u8>;
    /// Whether the order of cutting that a list of places proposes stands.
    fn cut_order(&self, job: &[u8], list: &[u8]) -> Result<CutOrder, u8>;
    /// The length of the job that was written from loose bodies.
    fn write_job(&self, loose: &Loose, buffer: &mut [u8]) -> Result<usize, u8>;
    /// The term list of a formula, or its refusal, whole.
    fn formula(&self, n: u64, text: &[u8]) -> TermList;
}

/// What Open answers to a job that opens.
fn counts(opened: Job) -> (usize, Vec<usize>) {
    (opened.n, opened.polynomials.iter().map(|p| p.len()).collect())
}

/// The reference.
pub struct Reference;

impl Product for Reference {
    fn open(&self, job: &[u8]) -> Result<(usize, Vec<usize>), u8> {
        job::open(job).map(counts)
    }
    fn body(&self, job: &[u8], index: u64) -> Result<(usize, usize), u8> {
        operations::body(job, index)
    }
    fn judge(&self, job: &[u8], place: &[u8]) -> Result<bool, u8> {
        operations::judge(job, place)
    }
    fn judge_ground(&self, job: &[u8], place: &[u8]) -> Result<Ground, u8> {
        ground::judge_ground(job, place)
    }
    fn point(&self, job: &[u8], place: &[u8]) -> Result<Vertex, u8> {
        operations::point(job, place)
    }
    fn step(&self, job: &[u8], place: &[u8]) -> Result<Step, u8> {
        operations::step(job, place)
    }
    fn trace(&self, job: &[u8], buffer: &mut [u8]) -> Result<(Verdict, usize), u8> {
        operations::trace(job, buffer)
    }
    fn pen(&self, job: &[u8], places: &[u8], closed: bool, k: u64) -> Result<Move, u8> {
        operations::pen(job, places, closed, k)
    }
    fn running_sum(
        &self,
        job: &[u8],
        polynomial: u64,
        coordinates: &[i64; MOST],
        terms: u64,
    ) -> Result<i128, u8> {
        operations::running_sum(job, polynomial, coordinates, terms)
    }
    fn small_open(&self, job: &[u8]) -> Result<(usize, Vec<usize>), u8> {
        small::small_open(job).map(counts)
    }
    fn small_trace(&self, job: &[u8], buffer: &mut [u8]) -> Result<(Verdict, usize), u8> {
        small::small_trace(job, buffer)
    }
    fn seams(&self, job: &[u8], buffer: &mut [u8]) -> Result<(Ending, usize), u8> {
        seams::seams(job, buffer)
    }
    fn cut_order(&self, job: &[u8], list: &[u8]) -> Result<CutOrder, u8> {
        order::cut_order(job, list)
    }
    fn write_job(&self, loose: &Loose, buffer: &mut [u8]) -> Result<usize, u8> {
        writing::write_job(loose, buffer)
    }
    fn formula(&self, n: u64, text: &[u8]) -> TermList {
        formula::formula(n, text)
    }
}
