//! What the bench calls by the C interface itself: Open, the list of seams, the order of cutting, the
//! writer of jobs and the reader of formulas of the proved library, and Open, Trace and, if it has
//! them, the list of seams, the order of cutting, the writer and the reader of an earlier state of it,
//! if one is linked (`build.rs`).

#[cfg(before)]
use reference::operations::Verdict;
use reference::order::CutOrder;
use tracer::formula_plain::FormulaAnswer;
use tracer::open::Opened;
use tracer::seams_plain::Listed;
use tracer::write_plain::Loose;

#[repr(C)]
pub struct OpenAnswer {
    refusal: u64,
    n: u64,
    terms: [u64; 3],
}

impl OpenAnswer {
    /// The answer as the opener in Rust gives it.
    pub fn opened(&self) -> Result<Opened, u8> {
        match self.refusal {
            0 => Ok(Opened { n: self.n as usize, terms: self.terms.map(|count| count as usize) }),
            number => Err(number as u8),
        }
    }
}

#[repr(C)]
struct SeamsAnswer {
    refusal: u64,
    full: u64,
    count: u64,
}

impl SeamsAnswer {
    /// The answer as the lister in Rust gives it.
    fn listed(&self) -> Listed {
        assert_eq!(self.refusal, 0, "no refusal");
        Listed { full: self.full == 1, count: self.count as usize }
    }
}

#[repr(C)]
struct OrderAnswer {
    refusal: u64,
    stands: u64,
    position: u64,
}

impl OrderAnswer {
    /// The answer as the reference gives it.
    fn read(&self) -> Result<CutOrder, u8> {
        match (self.refusal, self.stands) {
            (0, 1) => Ok(CutOrder::Stands),
            (0, _) => Ok(CutOrder::Breaks(self.position as usize)),
            (number, _) => Err(number as u8),
        }
    }
}

#[repr(C)]
pub struct WriteAnswer {
    refusal: u64,
    length: u64,
}

impl WriteAnswer {
    /// The answer as the writer in Rust gives it.
    pub fn written(&self) -> Result<usize, u8> {
        match self.refusal {
            0 => Ok(self.length as usize),
            number => Err(number as u8),
        }
    }
}

extern "C" {
    fn gethwapiko_open(job: *const u8, job_length: usize) -> OpenAnswer;
    fn gethwapiko_seams(
        job: *const u8,
        job_length: usize,
        buffer: *mut u8,
        buffer_length: usize,
    ) -> SeamsAnswer;
    fn gethwapiko_cut_order(
        job: *const u8,
        job_length: usize,
        places: *const u8,
        places_length: usize,
    ) -> OrderAnswer;
    fn gethwapiko_write_job(
        n: u64,
        bias: u8,
        ends: *const u8,
        ends_length: usize,
        polynomial1: *const u8,
        polynomial1_length: usize,
        polynomial2: *const u8,
        polynomial2_length: usize,
        polynomial3: *const u8,
        polynomial3_length: usize,
        start: *const u8,
        start_length: usize,
        buffer: *mut u8,
        buffer_length: usize,
    ) -> WriteAnswer;
    fn gethwapiko_formula(n: u64, text: *const u8, text_length: usize) -> FormulaAnswer;
}

/// Open of the proved library.
pub fn open(job: &[u8]) -> OpenAnswer {
    unsafe { gethwapiko_open(job.as_ptr(), job.len()) }
}

/// The list of seams of the proved library.
pub fn seams(job: &[u8], buffer: &mut [u8]) -> Listed {
    let (room, length) = (buffer.as_mut_ptr(), buffer.len());
    unsafe { gethwapiko_seams(job.as_ptr(), job.len(), room, length) }.listed()
}

/// The order of cutting of the proved library.
pub fn cut_order(job: &[u8], list: &[u8]) -> Result<CutOrder, u8> {
    unsafe { gethwapiko_cut_order(job.as_ptr(), job.len(), list.as_ptr(), list.len()) }.read()
}

/// The writer of jobs of the proved library.
pub fn write_job(loose: &Loose, buffer: &mut [u8]) -> WriteAnswer {
    let Loose { n, bias, ends, polynomials: [first, second, third], start } = *loose;
    unsafe {
        gethwapiko_write_job(
            n,
            bias,
            ends.as_ptr(),
            ends.len(),
            first.as_ptr(),
            first.len(),
            second.as_ptr(),
            second.len(),
            third.as_ptr(),
            third.len(),
            start.as_ptr(),
            start.len(),
            buffer.as_mut_ptr(),
            buffer.len(),
        )
    }
}

/// The reader of formulas of the proved library.
pub fn formula(n: u64, text: &[u8]) -> FormulaAnswer {
    unsafe { gethwapiko_formula(n, text.as_ptr(), text.len()) }
}

#[cfg(before)]
#[repr(C)]
struct TraceAnswer {
    refusal: u64,
    verdict: u64,
    count: u64,
}

#[cfg(before)]
extern "C" {
    fn before_gethwapiko_open(job: *const u8, job_length: usize) -> OpenAnswer;
    fn before_gethwapiko_trace(
        job: *const u8,
        job_length: usize,
        buffer: *mut u8,
        buffer_length: usize,
    ) -> TraceAnswer;
}

/// Open of the earlier state.
#[cfg(before)]
pub fn open_before(job: &[u8]) -> OpenAnswer {
    unsafe { before_gethwapiko_open(job.as_ptr(), job.len()) }
}

/// Trace of the earlier state.
#[cfg(before)]
pub fn trace_before(job: &[u8], buffer: &mut [u8]) -> Result<(Verdict, usize), u8> {
    let (room, length) = (buffer.as_mut_ptr(), buffer.len());
    let answer = unsafe { before_gethwapiko_trace(job.as_ptr(), job.len(), room, length) };
    if answer.refusal != 0 {
        return Err(answer.refusal as u8);
    }
    let verdicts = [Verdict::Loop, Verdict::Edge, Verdict::Limit, Verdict::Full];
    Ok((verdicts[answer.verdict as usize], answer.count as usize))
}

#[cfg(before_seams)]
extern "C" {
    fn before_gethwapiko_seams(
        job: *const u8,
        job_length: usize,
        buffer: *mut u8,
        buffer_length: usize,
    ) -> SeamsAnswer;
}

/// The list of seams of the earlier state.
#[cfg(before_seams)]
pub fn seams_before(job: &[u8], buffer: &mut [u8]) -> Listed {
    let (room, length) = (buffer.as_mut_ptr(), buffer.len());
    unsafe { before_gethwapiko_seams(job.as_ptr(), job.len(), room, length) }.listed()
}

#[cfg(before_order)]
extern "C" {
    fn before_gethwapiko_cut_order(
        job: *const u8,
        job_length: usize,
        places: *const u8,
        places_length: usize,
    ) -> OrderAnswer;
}

/// The order of cutting of the earlier state.
#[cfg(before_order)]
pub fn cut_order_before(job: &[u8], list: &[u8]) -> Result<CutOrder, u8> {
    let (places, length) = (list.as_ptr(), list.len());
    unsafe { before_gethwapiko_cut_order(job.as_ptr(), job.len(), places, length) }.read()
}

#[cfg(before_write)]
extern "C" {
    fn before_gethwapiko_write_job(
        n: u64,
        bias: u8,
        ends: *const u8,
        ends_length: usize,
        polynomial1: *const u8,
        polynomial1_length: usize,
        polynomial2: *const u8,
        polynomial2_length: usize,
        polynomial3: *const u8,
        polynomial3_length: usize,
        start: *const u8,
        start_length: usize,
        buffer: *mut u8,
        buffer_length: usize,
    ) -> WriteAnswer;
}

/// The writer of jobs of the earlier state.
#[cfg(before_write)]
pub fn write_job_before(loose: &Loose, buffer: &mut [u8]) -> WriteAnswer {
    let Loose { n, bias, ends, polynomials: [first, second, third], start } = *loose;
    unsafe {
        before_gethwapiko_write_job(
            n,
            bias,
            ends.as_ptr(),
            ends.len(),
            first.as_ptr(),
            first.len(),
            second.as_ptr(),
            second.len(),
            third.as_ptr(),
            third.len(),
            start.as_ptr(),
            start.len(),
            buffer.as_mut_ptr(),
            buffer.len(),
        )
    }
}

#[cfg(before_formula)]
extern "C" {
    fn before_gethwapiko_formula(n: u64, text: *const u8, text_length: usize) -> FormulaAnswer;
}

/// The reader of formulas of the earlier state.
#[cfg(before_formula)]
pub fn formula_before(n: u64, text: &[u8]) -> FormulaAnswer {
    unsafe { before_gethwapiko_formula(n, text.as_ptr(), text.len()) }
}
