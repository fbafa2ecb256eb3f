//! A straightforward order of cutting in Rust, made for comparing times, by the library's method. The
//! list is gone through position by position: a place's own trace is walked, then the loop of each
//! earlier position, counting the edges ahead of the place's lowest vertex in its row. No facet is
//! remembered, so a loop is walked again for each position behind it. The walks are by the parts of
//! `plain.rs`, with the room that they have for dimension 2 elsewhere, or with no more than
//! dimension 2 needs. It takes a job that opens and tests nothing of it but the dimension; the list
//! it tests. Unproved; compared with the reference by `order_tests.rs`.

use reference::operations::Verdict;
use reference::order::CutOrder;

use crate::plain::{is_crossed, read, signed_16, Job, Simplex};

pub(crate) const N: usize = 2;
/// The bytes of a place.
pub(crate) const SIZE: usize = 3 * N;
/// Those of its facet, without the side.
const FACET: usize = SIZE - 1;

/// A place of the list, with the values at its facet's vertices.
pub(crate) struct Listed<const A: usize, const P: usize> {
    bytes: [u8; SIZE],
    pub(crate) lowest: [i64; A],
    values: [[i64; P]; N],
}

/// The place at a position, or what it is refused for: 13, 9, 10, 11.
pub(crate) fn listed<const A: usize, const P: usize>(
    job: &Job<A, P>,
    bytes: &[u8],
) -> Result<Listed<A, P>, u8> {
    let (mask, side) = (bytes[2 * N], bytes[FACET]);
    if !(1..=3).contains(&mask) || side > 1 {
        return Err(13);
    }
    let (mut lowest, mut other) = ([0; A], [0; A]);
    for axis in 0..N {
        lowest[axis] = signed_16(&bytes[2 * axis..]);
        other[axis] = lowest[axis] + (mask >> axis & 1) as i64;
    }
    if !job.holds(&lowest) || !job.holds(&other) {
        return Err(9);
    }
    let values = [job.values(&lowest).ok_or(10)?, job.values(&other).ok_or(10)?];
    if !is_crossed(N, |k| values[k]) {
        return Err(11);
    }
    Ok(Listed { bytes: bytes.try_into().expect("a place"), lowest, values })
}

/// Walks from a place on and shows each place to `see`, until that stops the walk with something, or
/// to the verdict of the trace.
#[inline(always)]
pub(crate) fn walk<const A: usize, const P: usize, const V: usize, T>(
    job: &Job<A, P>,
    from: &Listed<A, P>,
    mut see: impl FnMut(&[u8]) -> Option<T>,
) -> Result<Verdict, T> {
    let mut here: Simplex<A, P, V> = Simplex::with_values(N, &from.bytes, &from.values);
    let mut place = [0; 12];
    place[..SIZE].copy_from_slice(&from.bytes);
    loop {
        if let Some(stopped) = see(&place[..SIZE]) {
            return Err(stopped);
        }
        let exit = match here.exit(job) {
            Err(verdict) => return Ok(verdict),
            Ok(exit) => exit,
        };
        place = here.place_without(N, exit);
        if place[..FACET] == from.bytes[..FACET] {
            return Ok(Verdict::Loop);
        }
        here = here.across(N, exit);
    }
}

/// Whether the place is an edge along axis 1 in the row of that vertex, from it on.
fn is_ahead(place: &[u8], v: &[i64]) -> bool {
    place[2 * N] == 1 && signed_16(&place[2..]) == v[1] && signed_16(place) >= v[0]
}

/// The verdict of a trace that writes nothing.
#[inline(never)]
fn verdict<const A: usize, const P: usize, const V: usize>(
    job: &Job<A, P>,
    from: &Listed<A, P>,
) -> Verdict {
    walk::<A, P, V, ()>(job, from, |_| None).expect("nothing stops it")
}

/// Whether the place is inside the loop of another, by a walk along that; 18 if it lies on it.
#[inline(never)]
fn is_inside<const A: usize, const P: usize, const V: usize>(
    job: &Job<A, P>,
    place: &Listed<A, P>,
    other: &Listed<A, P>,
) -> Result<bool, u8> {
    let mut odd = false;
    walk::<A, P, V, u8>(job, other, |here| {
        if here[..FACET] == place.bytes[..FACET] {
            return Some(18);
        }
        odd ^= is_ahead(here, &place.lowest);
        None
    })?;
    Ok(odd)
}

/// What is refused before any place is looked at: another dimension, a length that does not fit.
pub(crate) fn refuse(job: &[u8], list: &[u8]) -> Result<(), u8> {
    if job[1] as usize != N {
        return Err(3);
    }
    if list.len() % SIZE != 0 {
        return Err(13);
    }
    Ok(())
}

fn order_in<const A: usize, const P: usize, const V: usize>(
    bytes: &[u8],
    list: &[u8],
) -> Result<CutOrder, u8> {
    refuse(bytes, list)?;
    let (job, _) = read::<A, P>(bytes);
    let count = list.len() / SIZE;
    let at = |k: usize| listed(&job, &list[SIZE * k..SIZE * (k + 1)]);
    let mut first = count;
    for k in 0..count {
        let place = at(k)?;
        if verdict::<A, P, V>(&job, &place) != Verdict::Loop {
            return Err(18);
        }
        for j in (0..k).rev() {
            if is_inside::<A, P, V>(&job, &place, &at(j)?)? {
                first = first.min(j);
            }
        }
    }
    Ok(if first < count { CutOrder::Breaks(first) } else { CutOrder::Stands })
}

/// Whether the order of a list stands, in a job that opens. The room is that of the plain tracer and
/// lister in dimensions 2 and 3.
pub fn cut_order(job: &[u8], list: &[u8]) -> Result<CutOrder, u8> {
    order_in::<3, 2, 4>(job, list)
}

/// The same with room for dimension 2 alone.
pub fn cut_order_narrow(job: &[u8], list: &[u8]) -> Result<CutOrder, u8> {
    order_in::<N, 1, 3>(job, list)
}
