//! Open in Rust, made for comparing times: one pass over the contents and one over each body, the
//! exponents of the term before carried along, nothing allocated. Once straightforward (`open`), and
//! once with a careful test of the terms (`open_carefully`): n is a const parameter and a term is an
//! array of 8 bytes, so that no index is tested. Unproved; compared with the reference by the tests
//! of `lib.rs`. Every function is inlined, as the compiler does by itself in a program that has one
//! of the two.

/// What Open answers to a job that it does not turn down.
#[derive(Clone, Copy, PartialEq, Eq, Debug)]
pub struct Opened {
    pub n: usize,
    /// Each polynomial's count of terms; 0 for one that dimension n does not have.
    pub terms: [usize; 3],
}

/// The bodies of a job: box, the n - 1 polynomials, start; room for those of dimension 4.
type Bodies<'a> = [&'a [u8]; 5];

#[inline(always)]
fn unsigned_16(bytes: &[u8]) -> usize {
    u16::from_le_bytes([bytes[0], bytes[1]]) as usize
}

#[inline(always)]
fn signed_16(bytes: &[u8]) -> i16 {
    i16::from_le_bytes([bytes[0], bytes[1]])
}

/// The bodies; none if the contents are cut short, the bodies are not adjacent or do not end the
/// job, or a length is wrong for its kind.
#[inline(always)]
fn bodies(n: usize, most_terms: usize, job: &[u8]) -> Option<Bodies<'_>> {
    let contents = job.get(4..4 + 4 * (n + 1))?;
    let mut bodies: Bodies = [&[]; 5];
    let mut end = 4 + contents.len();
    for (k, entry) in contents.chunks_exact(4).enumerate() {
        let (offset, length) = (unsigned_16(entry), unsigned_16(&entry[2..]));
        let fits_kind = if k == 0 {
            length == 4 * n
        } else if k < n {
            length % 8 == 0 && (1..=most_terms).contains(&(length / 8))
        } else {
            length == 3 * n
        };
        if offset != end || !fits_kind {
            return None;
        }
        end += length;
        bodies[k] = job.get(offset..end)?;
    }
    (end == job.len()).then_some(bodies)
}

/// Whether the low and high end of an axis are within their limits, low under high.
#[inline(always)]
pub(crate) fn is_axis(ends: &[u8]) -> bool {
    let (low, high) = (signed_16(ends), signed_16(&ends[2..]));
    -256 <= low && low < high && high <= 256
}

/// Whether each term is within its limits and rises over the one before.
#[inline(always)]
pub(crate) fn is_polynomial(n: usize, body: &[u8]) -> bool {
    let mut before: Option<[u8; 4]> = None;
    for term in body.chunks_exact(8) {
        // Not byte by byte: that compiles to four stores and a load that waits for all of them.
        let coefficient = i32::from_le_bytes(term[..4].try_into().unwrap());
        let exponents: [u8; 4] = term[4..].try_into().unwrap();
        let degree: u32 = exponents.iter().map(|&e| e as u32).sum();
        if coefficient == 0
            || coefficient.unsigned_abs() > 1_048_576
            || exponents[n..].iter().any(|&e| e != 0)
            || degree > 4
            || before.is_some_and(|before| exponents <= before)
        {
            return false;
        }
        before = Some(exponents);
    }
    true
}

/// The same for dimension N, carefully.
#[inline(always)]
pub(crate) fn is_polynomial_in<const N: usize>(body: &[u8]) -> bool {
    let mut before: Option<[u8; 4]> = None;
    for term in body.as_chunks::<8>().0 {
        let coefficient = i32::from_le_bytes(term[..4].try_into().unwrap());
        let exponents: [u8; 4] = term[4..].try_into().unwrap();
        let degree: u32 = exponents.iter().map(|&e| e as u32).sum();
        if coefficient == 0
            || coefficient.unsigned_abs() > 1_048_576
            || exponents[N..].iter().any(|&e| e != 0)
            || degree > 4
            || before.is_some_and(|before| exponents <= before)
        {
            return false;
        }
        before = Some(exponents);
    }
    true
}

/// Whether the masks of a place are a chain of masks of n axes, and the side is 0 or 1.
#[inline(always)]
pub(crate) fn is_place(n: usize, body: &[u8]) -> bool {
    let (masks, side) = (&body[2 * n..3 * n - 1], body[3 * n - 1]);
    let mut before = 0;
    for &mask in masks {
        // The first is not 0, since it strictly holds the 0 that is set before it.
        if mask >> n != 0 || mask & before != before || mask == before {
            return false;
        }
        before = mask;
    }
    side <= 1
}

/// Open: n and the counts of terms, or the number of the first refusal.
pub fn open(job: &[u8]) -> Result<Opened, u8> {
    open_by(job, is_polynomial)
}

/// The same with the careful test of the terms.
pub fn open_carefully(job: &[u8]) -> Result<Opened, u8> {
    open_by(job, |n, body| match n {
        2 => is_polynomial_in::<2>(body),
        3 => is_polynomial_in::<3>(body),
        _ => is_polynomial_in::<4>(body),
    })
}

#[inline(always)]
fn open_by(job: &[u8], is_polynomial: impl Fn(usize, &[u8]) -> bool) -> Result<Opened, u8> {
    // Byte 3 is the bias, which may be any byte.
    let &[kind, n, entries, _, ..] = job else { return Err(1) };
    if kind != 1 {
        return Err(2);
    }
    let n = n as usize;
    let most_terms = match n {
        2 => 15,
        3 => 35,
        4 => 70,
        _ => return Err(3),
    };
    if entries as usize != n + 1 {
        return Err(4);
    }
    let bodies = bodies(n, most_terms, job).ok_or(5)?;
    if !bodies[0].chunks_exact(4).all(is_axis) {
        return Err(6);
    }
    let polynomials = &bodies[1..n];
    if !polynomials.iter().all(|body| is_polynomial(n, body)) {
        return Err(7);
    }
    if !is_place(n, bodies[n]) {
        return Err(8);
    }
    let mut terms = [0; 3];
    for (count, body) in terms.iter_mut().zip(polynomials) {
        *count = body.len() / 8;
    }
    Ok(Opened { n, terms })
}
