//! A straightforward tracer in Rust, made for comparing times: it carries the values of the
//! current simplex' vertices along and sums the polynomials at one new vertex a step. It takes
//! a job that opens and tests nothing of it. Unproved; compared with the reference by the tests
//! of `lib.rs`. `seams_plain.rs` walks by its parts; what is inlined is said where the compiler would
//! else compile the trace in another way for that.
//!
//! n is a variable. The arrays have room for A axes, P polynomials and V vertices: one more of
//! each in dimension 4, so that the smaller dimensions carry nothing along that they do not have.

use reference::operations::Verdict;

pub(crate) struct Term<const A: usize> {
    coefficient: i64,
    exponents: [usize; A],
}

pub(crate) struct Job<const A: usize, const P: usize> {
    pub(crate) n: usize,
    bias: i64,
    pub(crate) ends: [(i64, i64); A],
    polynomials: [Vec<Term<A>>; P],
}

/// A simplex with the values at its vertices and the vertex behind the facet it was entered by.
#[derive(Clone, Copy)]
pub(crate) struct Simplex<const A: usize, const P: usize, const V: usize> {
    corner: [i64; A],
    order: [usize; A],
    values: [[i64; P]; V],
    extra: usize,
}

pub(crate) fn signed_16(bytes: &[u8]) -> i64 {
    i16::from_le_bytes([bytes[0], bytes[1]]) as i64
}

pub(crate) fn read<const A: usize, const P: usize>(job: &[u8]) -> (Job<A, P>, &[u8]) {
    let n = job[1] as usize;
    let body = |k: usize| {
        let entry = &job[4 + 4 * k..8 + 4 * k];
        let offset = u16::from_le_bytes([entry[0], entry[1]]) as usize;
        let length = u16::from_le_bytes([entry[2], entry[3]]) as usize;
        &job[offset..offset + length]
    };
    let mut ends = [(0, 0); A];
    for (axis, bytes) in body(0).chunks_exact(4).enumerate() {
        ends[axis] = (signed_16(bytes), signed_16(&bytes[2..]));
    }
    let terms = |k: usize| -> Vec<Term<A>> {
        let all = body(k).chunks_exact(8);
        all.map(|b| Term {
            coefficient: i32::from_le_bytes([b[0], b[1], b[2], b[3]]) as i64,
            exponents: std::array::from_fn(|axis| b[4 + axis] as usize),
        })
        .collect()
    };
    let polynomials = std::array::from_fn(|k| if k + 1 < n { terms(k + 1) } else { Vec::new() });
    (Job { n, bias: job[3] as i64, ends, polynomials }, body(n))
}

impl<const A: usize, const P: usize> Job<A, P> {
    const READABLE: i64 = if A == 4 { 524_288 } else { 268_435_456 };

    pub(crate) fn holds(&self, v: &[i64; A]) -> bool {
        (0..self.n).all(|k| self.ends[k].0 <= v[k] && v[k] <= self.ends[k].1)
    }

    /// The values at a vertex, or none if one of them is not readable. A sum no larger in size than
    /// the bias counts as 0.
    pub(crate) fn values(&self, v: &[i64; A]) -> Option<[i64; P]> {
        let mut powers = [[1i64; 5]; A];
        for axis in 0..self.n {
            for e in 1..5 {
                powers[axis][e] = powers[axis][e - 1] * v[axis];
            }
        }
        let mut values = [0i64; P];
        for k in 0..self.n - 1 {
            for t in &self.polynomials[k] {
                let mut product = t.coefficient;
                for axis in 0..A {
                    product *= powers[axis][t.exponents[axis]];
                }
                values[k] += product;
            }
            if values[k] < -Self::READABLE || values[k] > Self::READABLE {
                return None;
            }
            if values[k].abs() <= self.bias {
                values[k] = 0;
            }
        }
        Some(values)
    }
}

/// The sign of the first number that is not 0.
fn first_sign<const COUNT: usize>(numbers: [i64; COUNT]) -> i64 {
    for x in numbers {
        if x != 0 {
            return x.signum();
        }
    }
    0
}

/// Crossed, for n = 3: the coefficients of each vertex by cyclic exchange of columns.
#[inline(always)]
fn is_crossed_3<const P: usize>(w: [[i64; P]; 3]) -> bool {
    let power_0 = |a: [i64; P], b: [i64; P]| a[0] * b[1] - b[0] * a[1];
    let d = power_0(w[1], w[2]) + power_0(w[2], w[0]) + power_0(w[0], w[1]);
    if d == 0 {
        return false;
    }
    for i in 0..3 {
        let (a, b) = (w[(i + 1) % 3], w[(i + 2) % 3]);
        if first_sign([power_0(a, b), a[1] - b[1], b[0] - a[0]]) != d.signum() {
            return false;
        }
    }
    true
}

/// Crossed, for n = 4: the coefficients of each vertex are the minors of the other columns.
#[inline(always)]
fn is_crossed_4<const P: usize>(w: [[i64; P]; 4]) -> bool {
    let (mut d, mut signs) = (0, [0; 4]);
    for i in 0..4 {
        let others = [0, 1, 2].map(|k| w[if k < i { k } else { k + 1 }]);
        let [a, b, c] = others.map(|v| [1, v[0], v[1], v[2]]);
        // The minor of these rows, with another sign for every other vertex.
        let minor = |k: usize, l: usize, m: usize| {
            let sum = a[k] * (b[l] * c[m] - c[l] * b[m]) - b[k] * (a[l] * c[m] - c[l] * a[m])
                + c[k] * (a[l] * b[m] - b[l] * a[m]);
            if i % 2 == 0 {
                sum
            } else {
                -sum
            }
        };
        let power_0 = minor(1, 2, 3);
        d += power_0;
        signs[i] = if power_0 != 0 {
            power_0.signum()
        } else {
            first_sign([-minor(0, 2, 3), minor(0, 1, 3), -minor(0, 1, 2)])
        };
    }
    d != 0 && signs.iter().all(|&sign| sign == d.signum())
}

/// Crossed, by the values at the facet's vertices.
#[inline(always)]
pub(crate) fn is_crossed<const P: usize>(n: usize, at: impl Fn(usize) -> [i64; P]) -> bool {
    match n {
        2 => (at(0)[0] > 0) != (at(1)[0] > 0),
        3 => is_crossed_3([at(0), at(1), at(2)]),
        _ => is_crossed_4([at(0), at(1), at(2), at(3)]),
    }
}

impl<const A: usize, const P: usize, const V: usize> Simplex<A, P, V> {
    fn vertex(&self, i: usize) -> [i64; A] {
        let mut v = self.corner;
        for &axis in &self.order[..i] {
            v[axis] += 1;
        }
        v
    }

    #[inline(never)]
    fn is_crossed_without(&self, n: usize, i: usize) -> bool {
        is_crossed(n, |k| self.values[if k < i { k } else { k + 1 }])
    }

    /// The place of the facet without vertex i, its side leading out of this simplex.
    #[inline(always)]
    pub(crate) fn place_without(&self, n: usize, i: usize) -> [u8; 12] {
        let mut place = [0u8; 12];
        let lowest = if i == 0 { self.vertex(1) } else { self.corner };
        for axis in 0..n {
            place[2 * axis..2 * axis + 2].copy_from_slice(&(lowest[axis] as i16).to_le_bytes());
        }
        let (mut mask, mut at) = (0u8, 2 * n);
        let first = if i == 0 { 1 } else { 0 };
        for k in first + 1..=n {
            mask |= 1 << self.order[k - 1];
            if k != i {
                place[at] = mask;
                at += 1;
            }
        }
        let side = if i == n {
            1
        } else if i == 0 {
            0
        } else {
            (self.order[i - 1] < self.order[i]) as u8
        };
        place[at] = side;
        place
    }

    /// The simplex on the other side of the facet without vertex i.
    #[inline(always)]
    pub(crate) fn across(&self, n: usize, i: usize) -> Self {
        let mut next = *self;
        if i == 0 {
            next.corner[self.order[0]] += 1;
            next.order[..n].rotate_left(1);
            next.values[..=n].rotate_left(1);
            next.extra = n;
        } else if i == n {
            next.corner[self.order[n - 1]] -= 1;
            next.order[..n].rotate_right(1);
            next.values[..=n].rotate_right(1);
            next.extra = 0;
        } else {
            next.order.swap(i - 1, i);
            next.extra = i;
        }
        next
    }

    /// The vertex behind the other crossed facet, after the values at the new vertex are taken; or
    /// edge, or limit.
    #[inline(always)]
    pub(crate) fn exit(&mut self, job: &Job<A, P>) -> Result<usize, Verdict> {
        let n = job.n;
        let new = self.vertex(self.extra);
        if !job.holds(&new) {
            return Err(Verdict::Edge);
        }
        match job.values(&new) {
            None => return Err(Verdict::Limit),
            Some(values) => self.values[self.extra] = values,
        }
        let exit = (0..=n).find(|&i| i != self.extra && self.is_crossed_without(n, i));
        Ok(exit.expect("another crossed facet"))
    }

    /// The simplex on the side of a place; its values are not yet known.
    fn of_place(n: usize, place: &[u8]) -> Self {
        let mut corner = [0i64; A];
        for axis in 0..n {
            corner[axis] = signed_16(&place[2 * axis..]);
        }
        let side = place[3 * n - 1];
        let (mut order, mut count, mut before) = ([0; A], 0, 0u8);
        let mut extra = n;
        for &mask in &place[2 * n..3 * n - 1] {
            let first = count;
            for axis in (0..n).filter(|axis| (mask & !before) >> axis & 1 == 1) {
                order[count] = axis;
                count += 1;
            }
            if count == first + 2 {
                extra = first + 1;
                if side == 1 {
                    order.swap(first, first + 1);
                }
            }
            before = mask;
        }
        if count < n {
            let missing = (0..n).find(|k| before >> k & 1 == 0).expect("a missing axis");
            order[n - 1] = missing;
            if side == 1 {
                corner[missing] -= 1;
                order[..n].rotate_right(1);
                extra = 0;
            }
        }
        Simplex { corner, order, values: [[0; P]; V], extra }
    }

    /// The simplex on the side of a place, with the values at the facet's vertices.
    pub(crate) fn with_values(n: usize, place: &[u8], values: &[[i64; P]]) -> Self {
        let mut simplex = Self::of_place(n, place);
        for (k, &value) in values.iter().enumerate() {
            simplex.values[if k < simplex.extra { k } else { k + 1 }] = value;
        }
        simplex
    }
}

fn trace_in<const A: usize, const P: usize, const V: usize>(
    bytes: &[u8],
    buffer: &mut [u8],
) -> Result<(Verdict, usize), u8> {
    let (job, start) = read::<A, P>(bytes);
    let n = job.n;
    let size = 3 * n;
    let space = buffer.len() / size;
    let mut here: Simplex<A, P, V> = Simplex::of_place(n, start);
    let own = |extra: usize| (0..=n).filter(move |&i| i != extra);
    if !own(here.extra).all(|i| job.holds(&here.vertex(i))) {
        return Err(9);
    }
    for i in own(here.extra) {
        here.values[i] = job.values(&here.vertex(i)).ok_or(10)?;
    }
    if !here.is_crossed_without(n, here.extra) {
        return Err(11);
    }
    let mut place = [0u8; 12];
    place[..size].copy_from_slice(start);
    let mut count = 0;
    loop {
        if count == space {
            return Ok((Verdict::Full, count));
        }
        buffer[size * count..size * (count + 1)].copy_from_slice(&place[..size]);
        count += 1;
        let exit = match here.exit(&job) {
            Err(verdict) => return Ok((verdict, count)),
            Ok(exit) => exit,
        };
        place = here.place_without(n, exit);
        if place[..size - 1] == start[..size - 1] {
            return Ok((Verdict::Loop, count));
        }
        here = here.across(n, exit);
    }
}

/// Trace of a job that opens.
pub fn trace(job: &[u8], buffer: &mut [u8]) -> Result<(Verdict, usize), u8> {
    if job[1] < 4 {
        trace_in::<3, 2, 4>(job, buffer)
    } else {
        trace_in::<4, 3, 5>(job, buffer)
    }
}
