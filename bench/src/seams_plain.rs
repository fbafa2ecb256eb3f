//! A straightforward list of seams in Rust, made for comparing times. The lowest vertices of the
//! box are gone through in order, the values at the vertices of the unit cube above each are taken
//! once, and each chain of masks is judged by them, unless a polynomial has one side only there. A crossed facet is walked from both ways, one
//! step each in turn, by the parts of `plain.rs`, until a facet that comes before it is met, a walk
//! closes or both have ended. No facet is remembered. It takes a job that opens and tests nothing
//! of it. Unproved; compared with brute force by the tests of `seam_tests.rs`.

use std::cmp::Ordering;

use reference::grid::{chains, Masks};

use crate::plain::{is_crossed, read, signed_16, Job, Simplex};

/// The answer: whether more seams than space remain, and the count of places written.
#[derive(Clone, Copy, PartialEq, Eq, Debug)]
pub struct Listed {
    pub full: bool,
    pub count: usize,
}

/// The values at the vertices of a unit cube, by mask: none outside the box or if not readable.
type Cube<const P: usize> = [Option<[i64; P]>; 16];

fn cube<const A: usize, const P: usize>(job: &Job<A, P>, lowest: &[i64; A]) -> Cube<P> {
    let mut cube = [None; 16];
    for (mask, values) in cube[..1 << job.n].iter_mut().enumerate() {
        let mut v = *lowest;
        for axis in 0..job.n {
            v[axis] += (mask >> axis & 1) as i64;
        }
        if job.holds(&v) {
            *values = job.values(&v);
        }
    }
    cube
}

/// Whether some polynomial has one side only at the vertices that are there: then no facet is
/// crossed.
fn is_one_sided<const P: usize>(n: usize, cube: &Cube<P>) -> bool {
    let there = || cube.iter().flatten();
    (0..n - 1).any(|k| !there().any(|values| values[k] > 0) || !there().any(|values| values[k] <= 0))
}

/// The values at the n vertices of a facet, if all are there; room for those of a simplex.
fn facet_values<const P: usize, const V: usize>(
    cube: &Cube<P>,
    masks: &[u8],
) -> Option<[[i64; P]; V]> {
    let mut values = [[0; P]; V];
    values[0] = cube[0]?;
    for (k, &mask) in masks.iter().enumerate() {
        values[k + 1] = cube[mask as usize]?;
    }
    Some(values)
}

/// The place of a facet with side 0.
fn place_of(lowest: &[i64], masks: &[u8]) -> [u8; 12] {
    let n = lowest.len();
    let mut place = [0; 12];
    for (axis, x) in lowest.iter().enumerate() {
        place[2 * axis..2 * axis + 2].copy_from_slice(&(*x as i16).to_le_bytes());
    }
    place[2 * n..3 * n - 1].copy_from_slice(masks);
    place
}

/// The order of two facets: lowest vertex first, axis 1 weighing most, then the masks.
fn compared(n: usize, a: &[u8], b: &[u8]) -> Ordering {
    for axis in 0..n {
        let (x, y) = (signed_16(&a[2 * axis..]), signed_16(&b[2 * axis..]));
        if x != y {
            return x.cmp(&y);
        }
    }
    a[2 * n..3 * n - 1].cmp(&b[2 * n..3 * n - 1])
}

/// Whether a crossed facet is the least of its seam, and in how many steps this was seen.
fn is_least<const A: usize, const P: usize, const V: usize>(
    job: &Job<A, P>,
    place: &[u8; 12],
    values: &[[i64; P]],
) -> (bool, u64) {
    let n = job.n;
    let mut turned = *place;
    turned[3 * n - 1] = 1;
    let walk = |place| Some(Simplex::<A, P, V>::with_values(n, place, values));
    let mut walks = [walk(place), walk(&turned)];
    let mut steps = 0;
    while walks.iter().any(Option::is_some) {
        for walk in &mut walks {
            let Some(here) = walk else { continue };
            steps += 1;
            match here.exit(job) {
                Err(_) => *walk = None,
                Ok(exit) => match compared(n, &here.place_without(n, exit), place) {
                    Ordering::Less => return (false, steps),
                    Ordering::Equal => return (true, steps),
                    Ordering::Greater => *here = here.across(n, exit),
                },
            }
        }
    }
    (true, steps)
}

/// The next vertex of the box, axis 1 going slowest; none behind the last.
fn next_vertex<const A: usize, const P: usize>(job: &Job<A, P>, v: &[i64; A]) -> Option<[i64; A]> {
    let mut next = *v;
    for axis in (0..job.n).rev() {
        let (low, high) = job.ends[axis];
        if next[axis] < high {
            next[axis] += 1;
            return Some(next);
        }
        next[axis] = low;
    }
    None
}

/// `walked` is told the steps for each crossed facet.
fn seams_in<const A: usize, const P: usize, const V: usize>(
    bytes: &[u8],
    buffer: &mut [u8],
    mut walked: impl FnMut(u64),
) -> Listed {
    let (job, _) = read::<A, P>(bytes);
    let n = job.n;
    let size = 3 * n;
    let space = buffer.len() / size;
    let chains: &[Masks] = chains(n);
    let mut count = 0;
    let mut at = Some(job.ends.map(|(low, _)| low));
    while let Some(lowest) = at {
        let cube = cube(&job, &lowest);
        at = next_vertex(&job, &lowest);
        if is_one_sided(n, &cube) {
            continue;
        }
        for masks in chains.iter().map(|masks| &masks[..n - 1]) {
            let Some(values) = facet_values::<P, V>(&cube, masks) else { continue };
            if !is_crossed(n, |k| values[k]) {
                continue;
            }
            let place = place_of(&lowest[..n], masks);
            let (least, steps) = is_least::<A, P, V>(&job, &place, &values[..n]);
            walked(steps);
            if least {
                if count == space {
                    return Listed { full: true, count };
                }
                buffer[size * count..size * (count + 1)].copy_from_slice(&place[..size]);
                count += 1;
            }
        }
    }
    Listed { full: false, count }
}

/// The seams of a job that opens; `walked` is told the steps for each crossed facet.
pub fn seams_with(job: &[u8], buffer: &mut [u8], walked: impl FnMut(u64)) -> Listed {
    if job[1] < 4 {
        seams_in::<3, 2, 4>(job, buffer, walked)
    } else {
        seams_in::<4, 3, 5>(job, buffer, walked)
    }
}

/// The seams of a job that opens.
pub fn seams(job: &[u8], buffer: &mut [u8]) -> Listed {
    seams_with(job, buffer, |_| {})
}
