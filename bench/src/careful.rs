//! A careful tracer in Rust, made for comparing times: n is a const parameter, so that every
//! loop over axes and vertices is unrolled; nothing in the loop of a trace calls a function on
//! slices or tests an index; one vertex is summed a step and the values of the others are carried.
//! It takes a job that opens and tests nothing of it. Unproved; compared with the reference by
//! the tests of `lib.rs`. `seams_careful.rs` walks by its parts; what is inlined is said where the
//! compiler would else compile the trace in another way for that.

use reference::operations::Verdict;

/// Room for the vertices of a simplex in dimension 4.
const VERTICES: usize = 5;
/// The values at a vertex, of up to three polynomials; those that are not there are 0.
pub(crate) type Values = [i64; 3];

struct Term {
    coefficient: i64,
    exponents: [u8; 4],
}

pub(crate) struct Job<const N: usize> {
    pub(crate) low: [i64; N],
    pub(crate) high: [i64; N],
    readable: i64,
    bias: i64,
    polynomials: [Vec<Term>; 3],
    /// The powers of the coordinates of the vertex that is summed, by axis and exponent. An entry
    /// for each byte, so that no index needs a test; those above 4 are not used.
    powers: [[i64; 256]; N],
}

fn signed_16(bytes: &[u8], at: usize) -> i64 {
    i16::from_le_bytes([bytes[at], bytes[at + 1]]) as i64
}

/// The body of entry k of the contents.
fn body(job: &[u8], k: usize) -> &[u8] {
    let field = |at: usize| u16::from_le_bytes([job[at], job[at + 1]]) as usize;
    let (offset, length) = (field(4 + 4 * k), field(6 + 4 * k));
    &job[offset..offset + length]
}

fn terms(body: &[u8]) -> Vec<Term> {
    let all = body.chunks_exact(8);
    all.map(|b| Term {
        coefficient: i32::from_le_bytes([b[0], b[1], b[2], b[3]]) as i64,
        exponents: [b[4], b[5], b[6], b[7]],
    })
    .collect()
}

impl<const N: usize> Job<N> {
    pub(crate) fn read(job: &[u8]) -> Job<N> {
        let ends = body(job, 0);
        let mut polynomials = [Vec::new(), Vec::new(), Vec::new()];
        for k in 1..N {
            polynomials[k - 1] = terms(body(job, k));
        }
        Job {
            low: std::array::from_fn(|a| signed_16(ends, 4 * a)),
            high: std::array::from_fn(|a| signed_16(ends, 4 * a + 2)),
            readable: if N == 4 { 524_288 } else { 268_435_456 },
            bias: job[3] as i64,
            polynomials,
            powers: [[1; 256]; N],
        }
    }

    pub(crate) fn holds(&self, v: &[i64; N]) -> bool {
        let mut inside = true;
        for a in 0..N {
            inside &= self.low[a] <= v[a] && v[a] <= self.high[a];
        }
        inside
    }

    /// The values at a vertex, or none if one of them is not readable. A sum no larger in size than
    /// the bias counts as 0.
    pub(crate) fn values(&mut self, v: &[i64; N]) -> Option<Values> {
        for a in 0..N {
            for e in 1..5 {
                self.powers[a][e] = self.powers[a][e - 1] * v[a];
            }
        }
        let mut values = [0; 3];
        for k in 0..N - 1 {
            let mut sum = 0;
            for t in &self.polynomials[k] {
                let mut product = t.coefficient;
                for a in 0..N {
                    product *= self.powers[a][t.exponents[a] as usize];
                }
                sum += product;
            }
            if sum < -self.readable || sum > self.readable {
                return None;
            }
            if sum < -self.bias || sum > self.bias {
                values[k] = sum;
            }
        }
        Some(values)
    }
}

fn cross(a: &Values, b: &Values) -> i64 {
    a[0] * b[1] - b[0] * a[1]
}

fn determinant_3(a: &Values, b: &Values, c: &Values) -> i64 {
    a[2] * cross(b, c) - b[2] * cross(a, c) + c[2] * cross(a, b)
}

/// The sign of the first number that is not 0.
fn first_sign<const COUNT: usize>(numbers: [i64; COUNT]) -> i64 {
    for x in numbers {
        if x != 0 {
            return x.signum();
        }
    }
    0
}

/// The first non-zero coefficient, in rising powers of e, of the determinant whose columns are
/// (1, e, .., e to the n-1) and those of n - 1 vertices: its sign. Ties are looked at last.
#[inline(always)]
pub(crate) fn sign<const N: usize>(w: [&Values; 3]) -> i64 {
    let [a, b, c] = w;
    match N {
        2 => {
            if a[0] > 0 {
                1
            } else {
                -1
            }
        }
        3 => {
            let power_0 = cross(a, b);
            if power_0 != 0 {
                return power_0.signum();
            }
            first_sign([a[1] - b[1], b[0] - a[0]])
        }
        _ => {
            let power_0 = determinant_3(a, b, c);
            if power_0 != 0 {
                return power_0.signum();
            }
            // The row of the power is replaced by the row of ones.
            let with_ones = |k: usize, l: usize| {
                let [a, b, c] = w.map(|v| [v[k], v[l], 1]);
                determinant_3(&a, &b, &c)
            };
            first_sign([-with_ones(1, 2), with_ones(0, 2), -with_ones(0, 1)])
        }
    }
}

/// 1 for even numbers and -1 for odd ones.
pub(crate) fn parity(k: usize) -> i64 {
    1 - 2 * (k as i64 & 1)
}

/// A facet: its lowest vertex, its masks in bytes 1 to n - 1 of a word, a side.
#[derive(Clone, Copy)]
pub(crate) struct Place<const N: usize> {
    pub(crate) lowest: [i64; N],
    pub(crate) masks: u64,
    pub(crate) side: u8,
}

impl<const N: usize> Place<N> {
    fn read(bytes: &[u8]) -> Place<N> {
        let mut masks = 0;
        for k in 1..N {
            masks |= (bytes[2 * N + k - 1] as u64) << (8 * k);
        }
        let lowest = std::array::from_fn(|a| signed_16(bytes, 2 * a));
        Place { lowest, masks, side: bytes[3 * N - 1] }
    }

    pub(crate) fn write(&self, out: &mut [u8]) {
        for a in 0..N {
            out[2 * a] = self.lowest[a] as u8;
            out[2 * a + 1] = (self.lowest[a] >> 8) as u8;
        }
        for k in 1..N {
            out[2 * N + k - 1] = (self.masks >> (8 * k)) as u8;
        }
        out[3 * N - 1] = self.side;
    }

    fn has_facet(&self, other: &Place<N>) -> bool {
        let mut same = self.masks == other.masks;
        for a in 0..N {
            same &= self.lowest[a] == other.lowest[a];
        }
        same
    }
}

/// A simplex with the values at its vertices, the vertex behind the facet that it was entered by,
/// and the sign of that facet's determinant.
pub(crate) struct Simplex<const N: usize> {
    corner: [i64; N],
    /// Byte k is the mask of vertex k.
    masks: u64,
    values: [Values; VERTICES],
    extra: usize,
    sign: i64,
}

/// 1 in each of the lowest `count` bytes.
const fn ones(count: usize) -> u64 {
    0x0101_0101_0101 & ((1 << (8 * count)) - 1)
}

impl<const N: usize> Simplex<N> {
    const ALL: u64 = (1 << N) - 1;

    fn mask(&self, k: usize) -> u64 {
        self.masks >> (8 * k) & 0xff
    }

    fn vertex(&self, k: usize) -> [i64; N] {
        let mask = self.mask(k);
        std::array::from_fn(|a| self.corner[a] + (mask >> a & 1) as i64)
    }

    /// The simplex on the side of a place; its values are not yet known.
    fn of_place(place: &Place<N>) -> Simplex<N> {
        let mut corner = place.lowest;
        let mask = |k: usize| if k < N { place.masks >> (8 * k) & 0xff } else { Self::ALL };
        let last = mask(N - 1);
        // The masks from the lowest vertex up, with that of the extra vertex among them.
        let (masks, extra) = if last != Self::ALL && place.side == 0 {
            (place.masks | Self::ALL << (8 * N), N)
        } else if last != Self::ALL {
            let missing = Self::ALL ^ last;
            corner[missing.trailing_zeros() as usize] -= 1;
            ((place.masks << 8) | (missing * (ones(N + 1) - 1)), 0)
        } else {
            let bend = (1..N).find(|&k| (mask(k) ^ mask(k - 1)).count_ones() == 2);
            let bend = bend.expect("a bent facet");
            let added = mask(bend) ^ mask(bend - 1);
            let lower = added & added.wrapping_neg();
            let first = if place.side == 0 { lower } else { added ^ lower };
            let below = place.masks & ((1 << (8 * bend)) - 1);
            let above = (place.masks >> (8 * bend)) << (8 * (bend + 1));
            (below | (mask(bend - 1) | first) << (8 * bend) | above, bend)
        };
        Simplex { corner, masks, values: [[0; 3]; VERTICES], extra, sign: 0 }
    }

    /// The simplex on the side of a place, with the values at the facet's vertices and the sign of
    /// its determinant.
    pub(crate) fn with_values(place: &Place<N>, values: &[&Values; N], sign: i64) -> Simplex<N> {
        let mut simplex = Self::of_place(place);
        for k in 0..N {
            simplex.values[if k < simplex.extra { k } else { k + 1 }] = *values[k];
        }
        Simplex { sign, ..simplex }
    }

    /// The sign of the vertices other than i and k, i under k.
    fn sign_without(&self, i: usize, k: usize) -> i64 {
        let first = if i > 0 {
            0
        } else if k > 1 {
            1
        } else {
            2
        };
        let last = if k < N {
            N
        } else if i < N - 1 {
            N - 1
        } else {
            N - 2
        };
        let v = &self.values;
        match N {
            2 => sign::<N>([&v[first], &v[0], &v[0]]),
            3 => sign::<N>([&v[first], &v[last], &v[0]]),
            _ => sign::<N>([&v[first], &v[10 - i - k - first - last], &v[last]]),
        }
    }

    /// Whether the facet without the extra vertex is crossed; keeps its sign.
    fn enter(&mut self) -> bool {
        let e = self.extra;
        let mut same = true;
        for (position, k) in (0..=N).filter(|&k| k != e).enumerate() {
            let sign = parity(position) * self.sign_without(k.min(e), k.max(e));
            if position == 0 {
                self.sign = sign;
            }
            same &= sign != 0 && sign == self.sign;
        }
        same
    }

    /// The vertex behind the other crossed facet: of two facets, the sign of the vertices that
    /// they share rules one out, and the crossed one is never ruled out.
    pub(crate) fn exit(&self) -> usize {
        let mut kept = if self.extra == 0 { 1 } else { 0 };
        for k in 1..=N {
            if k > kept && k != self.extra {
                let wanted = self.sign * parity(kept + k + self.extra);
                if self.sign_without(kept, k) != wanted {
                    kept = k;
                }
            }
        }
        kept
    }

    /// Takes the values at the new vertex; or edge, or limit.
    #[inline(always)]
    pub(crate) fn look(&mut self, job: &mut Job<N>) -> Result<(), Verdict> {
        let new = self.vertex(self.extra);
        if !job.holds(&new) {
            return Err(Verdict::Edge);
        }
        match job.values(&new) {
            None => return Err(Verdict::Limit),
            Some(values) => self.values[self.extra] = values,
        }
        Ok(())
    }

    /// Goes through the facet without vertex i; gives its place.
    pub(crate) fn cross(&mut self, i: usize) -> Place<N> {
        self.sign *= parity(i + self.extra + 1);
        if i == 0 {
            let first = self.mask(1);
            for a in 0..N {
                self.corner[a] += (first >> a & 1) as i64;
            }
            let rest = (self.masks >> 8) ^ (first * ones(N));
            self.masks = rest | Self::ALL << (8 * N);
            for k in 0..N {
                self.values[k] = self.values[k + 1];
            }
            self.extra = N;
            Place { lowest: self.corner, masks: rest, side: 0 }
        } else if i == N {
            let lowest = self.corner;
            let rest = self.masks & ((1 << (8 * N)) - 1);
            let last = Self::ALL ^ self.mask(N - 1);
            for a in 0..N {
                self.corner[a] -= (last >> a & 1) as i64;
            }
            self.masks = (rest << 8) | (last * (ones(N + 1) - 1));
            for k in (0..N).rev() {
                self.values[k + 1] = self.values[k];
            }
            self.extra = 0;
            Place { lowest, masks: rest, side: 1 }
        } else {
            let (before, here, after) = (self.mask(i - 1), self.mask(i), self.mask(i + 1));
            let below = self.masks & ((1 << (8 * i)) - 1);
            let above = (self.masks >> (8 * (i + 1))) << (8 * i);
            self.masks ^= (before ^ after) << (8 * i);
            self.extra = i;
            let side = ((here ^ before) < (after ^ here)) as u8;
            Place { lowest: self.corner, masks: below | above, side }
        }
    }
}

fn trace_in<const N: usize>(bytes: &[u8], buffer: &mut [u8]) -> Result<(Verdict, usize), u8> {
    let mut job: Job<N> = Job::read(bytes);
    let start: Place<N> = Place::read(body(bytes, N));
    let mut here = Simplex::of_place(&start);
    let e = here.extra;
    if (0..=N).any(|k| k != e && !job.holds(&here.vertex(k))) {
        return Err(9);
    }
    for k in (0..=N).filter(|&k| k != e) {
        here.values[k] = job.values(&here.vertex(k)).ok_or(10)?;
    }
    if !here.enter() {
        return Err(11);
    }
    let mut place = start;
    let mut count = 0;
    for out in buffer.chunks_exact_mut(3 * N) {
        place.write(out);
        count += 1;
        if let Err(verdict) = here.look(&mut job) {
            return Ok((verdict, count));
        }
        place = here.cross(here.exit());
        if place.has_facet(&start) {
            return Ok((Verdict::Loop, count));
        }
    }
    Ok((Verdict::Full, count))
}

/// Trace of a job that opens.
pub fn trace(job: &[u8], buffer: &mut [u8]) -> Result<(Verdict, usize), u8> {
    match job[1] {
        2 => trace_in::<2>(job, buffer),
        3 => trace_in::<3>(job, buffer),
        _ => trace_in::<4>(job, buffer),
    }
}
