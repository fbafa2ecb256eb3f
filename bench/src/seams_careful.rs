//! A careful list of seams in Rust, made for comparing times: the same method as `seams_plain.rs`,
//! with n a const parameter, over the parts of `careful.rs`. The vertices of the cube that can be
//! read are bits of a word, and so are those that a chain of masks needs; a facet's judgement ends
//! at the first vertex whose sign differs. It takes a job that opens and tests nothing of it.
//! Unproved; compared with brute force by the tests of `seam_tests.rs`.

use std::cmp::Ordering;

use reference::grid::chains;

use crate::careful::{parity, sign, Job, Place, Simplex, Values};
use crate::seams_plain::Listed;

/// The masks of a facet, as a place has them, and the vertices of the cube that it has, a bit each.
struct Chain {
    masks: u64,
    needs: u32,
}

/// Every chain of masks, in rising order.
fn chains_of<const N: usize>() -> Vec<Chain> {
    let all = chains(N).iter().map(|masks| &masks[..N - 1]);
    all.map(|masks| Chain {
        masks: masks.iter().rev().fold(0, |word, &mask| word << 8 | (mask as u64) << 8),
        needs: masks.iter().fold(1, |bits, &mask| bits | 1 << mask),
    })
    .collect()
}

/// The values at the vertices of a unit cube, by mask, and which of them are there.
struct Cube {
    values: [Values; 16],
    readable: u32,
}

impl Cube {
    fn of<const N: usize>(job: &mut Job<N>, lowest: &[i64; N]) -> Cube {
        let mut cube = Cube { values: [[0; 3]; 16], readable: 0 };
        for mask in 0..1 << N {
            let v = std::array::from_fn(|a| lowest[a] + (mask >> a & 1) as i64);
            if job.holds(&v) {
                if let Some(values) = job.values(&v) {
                    cube.values[mask] = values;
                    cube.readable |= 1 << mask;
                }
            }
        }
        cube
    }

    /// Whether some polynomial has one side only at the vertices that are there: then no facet is
    /// crossed.
    fn is_one_sided<const N: usize>(&self) -> bool {
        let mut high = [0u32; 3];
        for mask in 0..1 << N {
            for k in 0..N - 1 {
                high[k] |= ((self.values[mask][k] > 0) as u32) << mask;
            }
        }
        (0..N - 1).any(|k| {
            let high = high[k] & self.readable;
            high == 0 || high == self.readable
        })
    }

    /// The values at the vertices of a facet.
    fn facet<const N: usize>(&self, masks: u64) -> [&Values; N] {
        std::array::from_fn(|k| &self.values[(masks >> (8 * k)) as usize & 15])
    }
}

/// The sign of the facet's determinant if the facet is crossed, else 0: it is crossed if all its
/// vertices have one sign.
fn crossed_sign<const N: usize>(w: &[&Values; N]) -> i64 {
    let mut first = 0;
    for k in 0..N {
        let other = |i: usize| if i + 1 < N { w[if i < k { i } else { i + 1 }] } else { w[0] };
        let sign = parity(k) * sign::<N>([other(0), other(1), other(2)]);
        if k == 0 {
            first = sign;
        }
        if sign != first {
            return 0;
        }
    }
    first
}

/// The order of two facets: lowest vertex first, axis 1 weighing most, then the masks.
fn compared<const N: usize>(a: &Place<N>, b: &Place<N>) -> Ordering {
    for axis in 0..N {
        if a.lowest[axis] != b.lowest[axis] {
            return a.lowest[axis].cmp(&b.lowest[axis]);
        }
    }
    // The first mask is in the lowest of the bytes.
    a.masks.swap_bytes().cmp(&b.masks.swap_bytes())
}

/// Whether a crossed facet is the least of its seam.
fn is_least<const N: usize>(
    job: &mut Job<N>,
    place: &Place<N>,
    values: &[&Values; N],
    sign: i64,
) -> bool {
    let turned = Place { side: 1, ..*place };
    let mut walks = [place, &turned].map(|place| Simplex::with_values(place, values, sign));
    let mut under_way = [true; 2];
    while under_way[0] || under_way[1] {
        for (walk, under_way) in walks.iter_mut().zip(&mut under_way) {
            if !*under_way {
                continue;
            }
            match walk.look(job) {
                Err(_) => *under_way = false,
                Ok(()) => match compared(&walk.cross(walk.exit()), place) {
                    Ordering::Less => return false,
                    Ordering::Equal => return true,
                    Ordering::Greater => {}
                },
            }
        }
    }
    true
}

/// Goes to the next vertex of the box, axis 1 going slowest; whether there is one.
fn go_on<const N: usize>(job: &Job<N>, v: &mut [i64; N]) -> bool {
    for a in (0..N).rev() {
        if v[a] < job.high[a] {
            v[a] += 1;
            return true;
        }
        v[a] = job.low[a];
    }
    false
}

fn seams_in<const N: usize>(bytes: &[u8], buffer: &mut [u8]) -> Listed {
    let mut job: Job<N> = Job::read(bytes);
    let chains = chains_of::<N>();
    let mut lowest = job.low;
    let mut room = buffer.chunks_exact_mut(3 * N);
    let mut count = 0;
    loop {
        let cube = Cube::of(&mut job, &lowest);
        let judged = if cube.is_one_sided::<N>() { &[] } else { &chains[..] };
        for chain in judged {
            if chain.needs & !cube.readable != 0 {
                continue;
            }
            let values = cube.facet::<N>(chain.masks);
            let sign = crossed_sign(&values);
            if sign == 0 {
                continue;
            }
            let place = Place { lowest, masks: chain.masks, side: 0 };
            if is_least(&mut job, &place, &values, sign) {
                match room.next() {
                    None => return Listed { full: true, count },
                    Some(out) => place.write(out),
                }
                count += 1;
            }
        }
        if !go_on(&job, &mut lowest) {
            return Listed { full: false, count };
        }
    }
}

/// The seams of a job that opens.
pub fn seams(job: &[u8], buffer: &mut [u8]) -> Listed {
    match job[1] {
        2 => seams_in::<2>(job, buffer),
        3 => seams_in::<3>(job, buffer),
        _ => seams_in::<4>(job, buffer),
    }
}
