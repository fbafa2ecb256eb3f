//! Running sums to ask for, and jobs whose sums are large.

use super::kinds::vertex_in;
use super::random::Random;
use crate::build::{case_c, exponents, Parts};
use crate::crossed::Term;
use crate::limits::{LARGEST_COEFFICIENT, LARGEST_COORDINATE, MOST};
use crate::named;
use crate::tally::{Named, Tally};

named! {
    /// Which polynomial is asked for.
    NumberKind {
        /// One of the job's.
        OfTheJob: 10,
        /// n - 1.
        OnePast: 1,
        /// A larger number.
        Far: 1,
    }
}

named! {
    /// How many terms are asked for.
    CountKind {
        /// None.
        Zero: 1,
        /// Any number of those that the polynomial has.
        Within: 6,
        /// As many as the polynomial has.
        All: 2,
        /// One more.
        OnePast: 1,
        /// A larger number.
        Far: 1,
    }
}

named! {
    /// Where the vertex lies.
    VertexKind {
        /// Anywhere in the box.
        Inside: 5,
        /// At a corner of the box.
        Corner: 4,
        /// In the box but for one axis, on which it is one past an end.
        OnePast: 2,
        /// In the box but for one axis, on which it is far out.
        Far: 2,
    }
}

/// How a running sum to ask for was made.
pub type SumKinds = (NumberKind, CountKind, VertexKind);

/// A running sum to ask for.
#[derive(Clone, Copy, Debug)]
pub struct AnySum {
    pub polynomial: u64,
    /// By axis; above n it may be noise.
    pub coordinates: [i64; MOST],
    pub terms: u64,
    pub kinds: SumKinds,
}

/// Numbers for the axes above n, which are not read.
const NOISE: &[i64] = &[i64::MIN, i64::MAX, -1, 1, 257, 1 << 32];

fn number_of(r: &mut Random, n: usize, kind: NumberKind) -> u64 {
    let within = r.below(n as u64 - 1);
    match kind {
        NumberKind::OfTheJob => within,
        NumberKind::OnePast => n as u64 - 1,
        // Some are one of the job's if only the low bits are read.
        NumberKind::Far => {
            r.pick(&[n as u64, 255, 256 + within, (1 << 32) + within, 1 << 63, u64::MAX])
        }
    }
}

fn count_of(r: &mut Random, all: u64, kind: CountKind) -> u64 {
    let within = r.below(all + 1);
    match kind {
        CountKind::Zero => 0,
        CountKind::Within => within,
        CountKind::All => all,
        CountKind::OnePast => all + 1,
        // Some are a count of the polynomial's if only the low bits are read, or if 8 bytes a term
        // leave 64 bits.
        CountKind::Far => r.pick(&[
            all + 2,
            256 + within,
            (1 << 32) + within,
            (1 << 61) + within,
            1 << 63,
            u64::MAX - 1,
            u64::MAX,
        ]),
    }
}

fn coordinates_of(r: &mut Random, ends: &[(i64, i64)], kind: VertexKind) -> [i64; MOST] {
    let mut at = vertex_in(r, ends);
    let axis = r.index(ends.len());
    let ((low, high), x) = (ends[axis], at[axis]);
    match kind {
        VertexKind::Inside => {}
        VertexKind::Corner => {
            for (x, &(low, high)) in at.iter_mut().zip(ends) {
                *x = r.pick(&[low, high]);
            }
        }
        VertexKind::OnePast => at[axis] = r.pick(&[low - 1, high + 1]),
        // Some lie in the box if only the low bits are read.
        VertexKind::Far => {
            at[axis] = r.pick(&[
                x - (1 << 16),
                x + (1 << 16),
                x - (1 << 32),
                x + (1 << 32),
                i64::MIN,
                i64::MAX,
            ])
        }
    }
    if r.once_in(2) {
        at[ends.len()..].fill_with(|| r.pick(NOISE));
    }
    at
}

/// A running sum to ask for, of a job made of these parts.
pub fn any_sum(r: &mut Random, parts: &Parts) -> AnySum {
    let kinds: SumKinds = (r.named(), r.named(), r.named());
    let polynomial = number_of(r, parts.n, kinds.0);
    // The terms are those of another polynomial where there is none of that number.
    let summed = &parts.polynomials[polynomial as usize % (parts.n - 1)];
    let terms = count_of(r, summed.len() as u64, kinds.1);
    let coordinates = coordinates_of(r, &parts.ends, kinds.2);
    AnySum { polynomial, coordinates, terms, kinds }
}

impl AnySum {
    /// The refusal by a job made of the parts: 12 for the number or the count, then 9.
    pub fn refusal(&self) -> Option<u8> {
        let (number, count, vertex) = self.kinds;
        if number != NumberKind::OfTheJob || matches!(count, CountKind::OnePast | CountKind::Far) {
            return Some(12);
        }
        matches!(vertex, VertexKind::OnePast | VertexKind::Far).then_some(9)
    }
}

impl Tally<SumKinds> {
    /// Fails unless each kind of number was met with each kind of count and of vertex in each
    /// dimension, and as many in the largest dimension as in each other.
    pub fn assert_all(&self) {
        self.assert_most_in_largest();
        let mut all = Vec::new();
        for number in NumberKind::all() {
            for count in CountKind::all() {
                all.extend(VertexKind::all().into_iter().map(|vertex| (number, count, vertex)));
            }
        }
        self.assert_met(&all);
    }
}

/// A job with each term that a body may hold, of the largest size or little less, in the largest
/// box: its sums are as large as they come where the signs agree, and fall below a partial sum
/// where they do not. All of the largest size, they are multiples of it.
pub fn with_largest_terms(r: &mut Random, n: usize) -> Parts {
    let signs = r.pick(&[&[1][..], &[-1], &[1, -1]]);
    let less = r.pick(&[0, 9]);
    let largest = |r: &mut Random, &exponents: &[u8; MOST]| {
        let size = r.between(LARGEST_COEFFICIENT - less, LARGEST_COEFFICIENT);
        Term { coefficient: r.pick(signs) * size, exponents }
    };
    let full = |r: &mut Random| exponents(n).iter().map(|e| largest(r, e)).collect();
    Parts {
        bias: r.byte(),
        ends: vec![(-LARGEST_COORDINATE, LARGEST_COORDINATE); n],
        polynomials: (1..n).map(|_| full(r)).collect(),
        ..case_c(n)
    }
}

#[cfg(test)]
mod tests {
    use super::*;
    use crate::crossed::sum;
    use crate::generate::valid_of_any;
    use crate::grid::vertex;
    use crate::operations::running_sum;

    /// The answer to a running sum of a job made of these parts.
    fn wanted(parts: &Parts, asked: &AnySum) -> Result<i128, u8> {
        if let Some(refusal) = asked.refusal() {
            return Err(refusal);
        }
        let terms = &parts.polynomials[asked.polynomial as usize];
        let last = &terms[terms.len() - asked.terms as usize..];
        Ok(sum(last, &vertex(&asked.coordinates[..parts.n])))
    }

    /// Each is refused as its kinds say, or is the sum of the last terms, whatever stands above
    /// axis n.
    #[test]
    fn each_sum_reaches_its_answer() {
        let mut r = Random::new(8);
        let mut kinds = Tally::default();
        for _ in 0..20_000 {
            let (_, mut parts) = valid_of_any(&mut r, false);
            if r.once_in(10) {
                parts = with_largest_terms(&mut r, parts.n);
            }
            for _ in 0..5 {
                let asked = any_sum(&mut r, &parts);
                let AnySum { polynomial, coordinates, terms, .. } = asked;
                let found = running_sum(&parts.bytes(), polynomial, &coordinates, terms);
                assert_eq!(found, wanted(&parts, &asked), "{asked:?} of {parts:?}");
                kinds.count(parts.n, asked.kinds);
            }
        }
        kinds.assert_all();
    }
}
