//! The C interface of the proved library, and a safe wrapper that gives its answers as the
//! reference gives them. Everything that depends on how the answers are handed over is here.
//!
//! Conventions, all checked by the wrapper: refusal 0 is none; beside a refusal every other
//! field is 0; a field for an axis above n is 0; a field that the answer does not use is 0.

use reference::build::place;
use reference::formula::{TermList, LONGEST};
use reference::grid::{vertex, Vertex};
use reference::ground::Ground;
use reference::limits::MOST;
use reference::operations::{Move, Step, Verdict};
use reference::order::CutOrder;
use reference::product::Product;
use reference::seams::Ending;
use reference::writing::Loose;

#[repr(C)]
#[derive(Clone, Copy, PartialEq, Debug)]
struct OpenAnswer {
    refusal: u64,
    n: u64,
    terms1: u64,
    terms2: u64,
    terms3: u64,
}

#[repr(C)]
#[derive(Clone, Copy, PartialEq, Debug)]
struct BodyAnswer {
    refusal: u64,
    offset: u64,
    length: u64,
}

#[repr(C)]
#[derive(Clone, Copy, PartialEq, Debug)]
struct JudgeAnswer {
    refusal: u64,
    crossed: u64,
}

#[repr(C)]
#[derive(Clone, Copy, PartialEq, Debug)]
struct GroundAnswer {
    refusal: u64,
    kind: u64,
    n: u64,
    vertex: u64,
    power: u64,
    power0: u64,
    power1: u64,
    power2: u64,
    power3: u64,
}

#[repr(C)]
#[derive(Clone, Copy, PartialEq, Debug)]
struct PointAnswer {
    refusal: u64,
    x: i64,
    y: i64,
    z: i64,
    w: i64,
}

#[repr(C)]
#[derive(Clone, Copy, PartialEq, Debug)]
struct StepAnswer {
    refusal: u64,
    outcome: u64,
    x: i64,
    y: i64,
    z: i64,
    w: i64,
    mask1: u64,
    mask2: u64,
    mask3: u64,
    side: u64,
}

#[repr(C)]
#[derive(Clone, Copy, PartialEq, Debug)]
struct TraceAnswer {
    refusal: u64,
    verdict: u64,
    count: u64,
}

#[repr(C)]
#[derive(Clone, Copy, PartialEq, Debug)]
struct SeamsAnswer {
    refusal: u64,
    full: u64,
    count: u64,
}

#[repr(C)]
#[derive(Clone, Copy, PartialEq, Debug)]
struct OrderAnswer {
    refusal: u64,
    stands: u64,
    position: u64,
}

#[repr(C)]
#[derive(Clone, Copy, PartialEq, Debug)]
struct WriteAnswer {
    refusal: u64,
    length: u64,
}

#[repr(C)]
#[derive(Clone, Copy, PartialEq, Debug)]
struct FormulaAnswer {
    refusal: u64,
    count: u64,
    bytes: [u8; LONGEST],
}

#[repr(C)]
#[derive(Clone, Copy, PartialEq, Debug)]
struct PenAnswer {
    refusal: u64,
    kind: u64,
    x: f64,
    y: f64,
    z: f64,
}

#[repr(C)]
#[derive(Clone, Copy, PartialEq, Debug)]
struct SumAnswer {
    refusal: u64,
    sum: i64,
}

extern "C" {
    fn gethwapiko_open(job: *const u8, job_len: usize) -> OpenAnswer;
    fn gethwapiko_body(job: *const u8, job_len: usize, index: u64) -> BodyAnswer;
    fn gethwapiko_judge(
        job: *const u8,
        job_len: usize,
        place: *const u8,
        place_len: usize,
    ) -> JudgeAnswer;
    fn gethwapiko_judge_ground(
        job: *const u8,
        job_len: usize,
        place: *const u8,
        place_len: usize,
    ) -> GroundAnswer;
    fn gethwapiko_point(
        job: *const u8,
        job_len: usize,
        place: *const u8,
        place_len: usize,
    ) -> PointAnswer;
    fn gethwapiko_step(
        job: *const u8,
        job_len: usize,
        place: *const u8,
        place_len: usize,
    ) -> StepAnswer;
    fn gethwapiko_trace(
        job: *const u8,
        job_len: usize,
        buffer: *mut u8,
        buffer_len: usize,
    ) -> TraceAnswer;
    fn gethwapiko_pen(
        job: *const u8,
        job_len: usize,
        places: *const u8,
        places_len: usize,
        closed: u8,
        k: u64,
    ) -> PenAnswer;
    fn gethwapiko_running_sum(
        job: *const u8,
        job_len: usize,
        polynomial: u64,
        x: i64,
        y: i64,
        z: i64,
        w: i64,
        terms: u64,
    ) -> SumAnswer;
    fn gethwapiko_small_open(job: *const u8, job_len: usize) -> OpenAnswer;
    fn gethwapiko_small_trace(
        job: *const u8,
        job_len: usize,
        buffer: *mut u8,
        buffer_len: usize,
    ) -> TraceAnswer;
    fn gethwapiko_seams(
        job: *const u8,
        job_len: usize,
        buffer: *mut u8,
        buffer_len: usize,
    ) -> SeamsAnswer;
    fn gethwapiko_cut_order(
        job: *const u8,
        job_len: usize,
        places: *const u8,
        places_len: usize,
    ) -> OrderAnswer;
    fn gethwapiko_write_job(
        n: u64,
        bias: u8,
        ends: *const u8,
        ends_len: usize,
        polynomial1: *const u8,
        polynomial1_len: usize,
        polynomial2: *const u8,
        polynomial2_len: usize,
        polynomial3: *const u8,
        polynomial3_len: usize,
        start: *const u8,
        start_len: usize,
        buffer: *mut u8,
        buffer_len: usize,
    ) -> WriteAnswer;
    fn gethwapiko_formula(n: u64, text: *const u8, text_len: usize) -> FormulaAnswer;
}

/// The refusal, if there is one, with the rest of the answer checked to be 0.
fn refused(refusal: u64, rest_is_zero: bool) -> Result<(), u8> {
    if refusal == 0 {
        return Ok(());
    }
    assert!(rest_is_zero, "a refusal's other fields are 0");
    Err(u8::try_from(refusal).expect("a refusal number"))
}

/// A field that is 0 or 1.
fn mark(field: u64) -> bool {
    assert!(field <= 1, "0 or 1");
    field == 1
}

/// The dimension of a job that opens.
fn dimension(job: &[u8]) -> usize {
    job[1] as usize
}

/// The first fields, with the others checked to be 0.
fn used<T: PartialEq + Default>(count: usize, fields: &[T]) -> &[T] {
    let (used, rest) = fields.split_at(count);
    assert!(rest.iter().all(|field| *field == T::default()), "a field that is not used is 0");
    used
}

impl OpenAnswer {
    /// n and each polynomial's count of terms.
    fn read(self) -> Result<(usize, Vec<usize>), u8> {
        let terms = [self.terms1, self.terms2, self.terms3];
        refused(self.refusal, self.n == 0 && terms == [0; 3])?;
        let counts = used(self.n as usize - 1, &terms);
        Ok((self.n as usize, counts.iter().map(|&count| count as usize).collect()))
    }
}

impl TraceAnswer {
    /// Verdict and count.
    fn read(self) -> Result<(Verdict, usize), u8> {
        refused(self.refusal, (self.verdict, self.count) == (0, 0))?;
        let verdict = match self.verdict {
            0 => Verdict::Loop,
            1 => Verdict::Edge,
            2 => Verdict::Limit,
            3 => Verdict::Full,
            _ => panic!("no verdict {}", self.verdict),
        };
        Ok((verdict, self.count as usize))
    }
}

/// The proved library.
pub struct Library;

// Each function is marked inline so that a test program holds the calls that it makes and no
// others: while the library is built in stages, a test of an operation that is there links.
impl Product for Library {
    #[inline]
    fn open(&self, job: &[u8]) -> Result<(usize, Vec<usize>), u8> {
        unsafe { gethwapiko_open(job.as_ptr(), job.len()) }.read()
    }

    #[inline]
    fn body(&self, job: &[u8], index: u64) -> Result<(usize, usize), u8> {
        let a = unsafe { gethwapiko_body(job.as_ptr(), job.len(), index) };
        refused(a.refusal, (a.offset, a.length) == (0, 0))?;
        Ok((a.offset as usize, a.length as usize))
    }

    #[inline]
    fn judge(&self, job: &[u8], place: &[u8]) -> Result<bool, u8> {
        let a = unsafe { gethwapiko_judge(job.as_ptr(), job.len(), place.as_ptr(), place.len()) };
        refused(a.refusal, a.crossed == 0)?;
        Ok(mark(a.crossed))
    }

    #[inline]
    fn judge_ground(&self, job: &[u8], place: &[u8]) -> Result<Ground, u8> {
        let a = unsafe {
            gethwapiko_judge_ground(job.as_ptr(), job.len(), place.as_ptr(), place.len())
        };
        let (named, powers) = ([a.vertex, a.power], [a.power0, a.power1, a.power2, a.power3]);
        let no_vertex = named == [0; 2];
        let no_powers = a.n == 0 && powers == [0; 4];
        refused(a.refusal, a.kind == 0 && no_vertex && no_powers)?;
        match a.kind {
            0 => {
                assert!(no_vertex && no_powers);
                Ok(Ground::ZeroDeterminant)
            }
            1 => {
                assert!(no_powers);
                Ok(Ground::Against { vertex: a.vertex, power: a.power })
            }
            2 => {
                assert!(no_vertex && a.n == dimension(job) as u64);
                Ok(Ground::Crossed { powers: used(dimension(job), &powers).to_vec() })
            }
            _ => panic!("no kind {}", a.kind),
        }
    }

    #[inline]
    fn point(&self, job: &[u8], place: &[u8]) -> Result<Vertex, u8> {
        let a = unsafe { gethwapiko_point(job.as_ptr(), job.len(), place.as_ptr(), place.len()) };
        let steps = [a.x, a.y, a.z, a.w];
        refused(a.refusal, steps == [0; 4])?;
        Ok(vertex(used(dimension(job), &steps)))
    }

    #[inline]
    fn step(&self, job: &[u8], from: &[u8]) -> Result<Step, u8> {
        let a = unsafe { gethwapiko_step(job.as_ptr(), job.len(), from.as_ptr(), from.len()) };
        let (lowest, masks) = ([a.x, a.y, a.z, a.w], [a.mask1, a.mask2, a.mask3]);
        let no_place = (lowest, masks, a.side) == ([0; 4], [0; 3], 0);
        refused(a.refusal, a.outcome == 0 && no_place)?;
        match a.outcome {
            0 => {
                let n = dimension(job);
                let masks = masks.map(|mask| u8::try_from(mask).expect("a mask"));
                let side = mark(a.side) as u8;
                Ok(Step::Next(place(used(n, &lowest), used(n - 1, &masks), side)))
            }
            1 | 2 => {
                assert!(no_place);
                Ok(if a.outcome == 1 { Step::Edge } else { Step::Limit })
            }
            _ => panic!("no outcome {}", a.outcome),
        }
    }

    #[inline]
    fn trace(&self, job: &[u8], buffer: &mut [u8]) -> Result<(Verdict, usize), u8> {
        let (at, length) = (buffer.as_mut_ptr(), buffer.len());
        unsafe { gethwapiko_trace(job.as_ptr(), job.len(), at, length) }.read()
    }

    #[inline]
    fn pen(&self, job: &[u8], places: &[u8], closed: bool, k: u64) -> Result<Move, u8> {
        // Any number but 0 is a mark that is set.
        let closed = if closed { [1, 2, 255][k as usize % 3] } else { 0 };
        let a = unsafe {
            gethwapiko_pen(job.as_ptr(), job.len(), places.as_ptr(), places.len(), closed, k)
        };
        // Axes 1 to 3; the third is 0 in dimension 2.
        let at_zero = [a.x, a.y, a.z].iter().all(|x| x.to_bits() == 0);
        refused(a.refusal, a.kind == 0 && at_zero)?;
        // The floats are handed on as they are, so that a test can compare their bits.
        Ok(match a.kind {
            0 => Move::Lift([a.x, a.y, a.z]),
            1 => Move::Draw([a.x, a.y, a.z]),
            2 => {
                assert!(at_zero);
                Move::Close
            }
            _ => panic!("no move {}", a.kind),
        })
    }

    #[inline]
    fn running_sum(
        &self,
        job: &[u8],
        polynomial: u64,
        coordinates: &[i64; MOST],
        terms: u64,
    ) -> Result<i128, u8> {
        let [x, y, z, w] = *coordinates;
        let a = unsafe {
            gethwapiko_running_sum(job.as_ptr(), job.len(), polynomial, x, y, z, w, terms)
        };
        refused(a.refusal, a.sum == 0)?;
        Ok(a.sum as i128)
    }

    #[inline]
    fn small_open(&self, job: &[u8]) -> Result<(usize, Vec<usize>), u8> {
        unsafe { gethwapiko_small_open(job.as_ptr(), job.len()) }.read()
    }

    #[inline]
    fn small_trace(&self, job: &[u8], buffer: &mut [u8]) -> Result<(Verdict, usize), u8> {
        let (at, length) = (buffer.as_mut_ptr(), buffer.len());
        unsafe { gethwapiko_small_trace(job.as_ptr(), job.len(), at, length) }.read()
    }

    #[inline]
    fn seams(&self, job: &[u8], buffer: &mut [u8]) -> Result<(Ending, usize), u8> {
        let (at, length) = (buffer.as_mut_ptr(), buffer.len());
        let a = unsafe { gethwapiko_seams(job.as_ptr(), job.len(), at, length) };
        refused(a.refusal, (a.full, a.count) == (0, 0))?;
        let ending = if mark(a.full) { Ending::Full } else { Ending::Complete };
        Ok((ending, a.count as usize))
    }

    #[inline]
    fn cut_order(&self, job: &[u8], list: &[u8]) -> Result<CutOrder, u8> {
        let (at, length) = (list.as_ptr(), list.len());
        let a = unsafe { gethwapiko_cut_order(job.as_ptr(), job.len(), at, length) };
        refused(a.refusal, (a.stands, a.position) == (0, 0))?;
        if mark(a.stands) {
            assert_eq!(a.position, 0, "a field that is not used is 0");
            return Ok(CutOrder::Stands);
        }
        Ok(CutOrder::Breaks(a.position as usize))
    }

    #[inline]
    fn write_job(&self, loose: &Loose, buffer: &mut [u8]) -> Result<usize, u8> {
        let [p1, p2, p3] = &loose.polynomials;
        let a = unsafe {
            gethwapiko_write_job(
                loose.n,
                loose.bias,
                loose.ends.as_ptr(),
                loose.ends.len(),
                p1.as_ptr(),
                p1.len(),
                p2.as_ptr(),
                p2.len(),
                p3.as_ptr(),
                p3.len(),
                loose.start.as_ptr(),
                loose.start.len(),
                buffer.as_mut_ptr(),
                buffer.len(),
            )
        };
        refused(a.refusal, a.length == 0)?;
        Ok(a.length as usize)
    }

    #[inline]
    fn formula(&self, n: u64, text: &[u8]) -> TermList {
        let a = unsafe { gethwapiko_formula(n, text.as_ptr(), text.len()) };
        // All fields are handed on as they are, so that a test can compare each byte.
        TermList { refusal: a.refusal, count: a.count, bytes: a.bytes }
    }
}
