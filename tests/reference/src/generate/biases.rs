//! The biases of jobs, and polynomials with sums around them.

use super::random::Random;
use crate::build::within_limits;
use crate::crossed::{sum, Term};
use crate::grid::Vertex;
use crate::named;

named! {
    /// The biases of jobs.
    Bias {
        /// 0: every value counts as it is.
        Zero: 5,
        /// 1.
        One: 2,
        /// From 2 to 20.
        Small: 2,
        /// 255.
        Largest: 2,
        /// The size of a sum close to the curve, or 1 less, but not 0.
        AtASum: 3,
    }
}

/// The largest bias.
const LARGEST: u8 = 255;

impl Bias {
    /// The number in byte 3, if it does not depend on the sums.
    pub fn number(self, r: &mut Random) -> Option<u8> {
        match self {
            Bias::Zero => Some(0),
            Bias::One => Some(1),
            Bias::Small => Some(r.between(2, 20) as u8),
            Bias::Largest => Some(LARGEST),
            Bias::AtASum => None,
        }
    }

    /// The bias for a sum at one of the vertices; the largest if no sum there is small enough.
    pub fn at_a_sum(r: &mut Random, polynomials: &[Vec<Term>], at: &[Vertex]) -> (Bias, u8) {
        let sums = polynomials.iter().flat_map(|p| at.iter().map(|v| sum(p, v)));
        let sizes = sums.map(|sum| sum.unsigned_abs()).filter(|&size| size > 0);
        let at_or_below = sizes.flat_map(|size| [size, (size - 1).max(1)]);
        let biases: Vec<u8> = at_or_below.filter_map(|size| u8::try_from(size).ok()).collect();
        if biases.is_empty() {
            return (Bias::Largest, LARGEST);
        }
        (Bias::AtASum, r.pick(&biases))
    }
}

/// The polynomial as it is, or times the bias or 1 more, so that a polynomial of small values
/// has values larger than the bias, at it and 1 past it.
pub fn scaled(r: &mut Random, terms: &[Term], bias: u8) -> Vec<Term> {
    let factor = r.pick(&[1, bias.max(1) as i64, bias as i64 + 1]);
    let times = |t: &Term| Term { coefficient: factor * t.coefficient, ..*t };
    let all: Vec<Term> = terms.iter().map(times).collect();
    if within_limits(&all) {
        all
    } else {
        terms.to_vec()
    }
}

#[cfg(test)]
mod tests {
    use super::*;
    use crate::generate::valid;
    use crate::job::Job;
    use crate::operations::trace_places;
    use crate::sums_met::{SumsMet, AROUND_BIAS};
    use crate::tally::{Named, Tally};
    use std::collections::BTreeMap;

    /// Whether the number is as the name says.
    fn fits(bias: Bias, number: u8) -> bool {
        match bias {
            Bias::Zero => number == 0,
            Bias::One => number == 1,
            Bias::Small => (2..=20).contains(&number),
            Bias::Largest => number == LARGEST,
            Bias::AtASum => number > 0,
        }
    }

    /// At each bias but 0, sums at the bias and 1 past it stand where a trace begins and ends, and
    /// traces come up that differ from those at bias 0.
    #[test]
    fn each_bias_matters() {
        let mut r = Random::new(7);
        let mut sums: BTreeMap<Bias, SumsMet> = BTreeMap::new();
        let mut differs = Tally::default();
        for _ in 0..20_000 {
            let (made, parts) = valid(&mut r);
            assert!(fits(made.bias, parts.bias));
            let job = parts.opened();
            let traced = trace_places(&job, 40);
            let at_zero = trace_places(&Job { bias: 0, ..job.clone() }, 40);
            differs.count(parts.n, (made.bias, traced != at_zero));
            let met = sums.entry(made.bias).or_default();
            met.count(&job, &job.start);
            if let Some(last) = traced.iter().flat_map(|(_, places)| places).last() {
                met.count(&job, last);
            }
        }
        let both = |bias| [(bias, true), (bias, false)];
        differs.assert_met(&Bias::all().into_iter().flat_map(both).collect::<Vec<_>>()[1..]);
        for (bias, met) in sums.into_iter().skip(1) {
            println!("{bias:?}");
            met.assert_includes(&[AROUND_BIAS]);
        }
    }
}
