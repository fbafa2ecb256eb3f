//! The running sum against the reference.

use library::answers::Answers;
use library::ffi::Library;
use reference::build::{case_a, case_c, exponents, Parts};
use reference::crossed::{running_sums, sum, value, Term};
use reference::generate::{
    any_job, any_sum, valid_of_any, vertex_in, with_largest_terms, AnySum, Bias, CountKind,
    JobTally, NumberKind, Random, SumKinds, VertexKind,
};
use reference::grid::{vertex, Vertex};
use reference::limits::{Limits, DIMENSIONS, MOST};
use reference::product::{Product, Reference};
use reference::tally::{Answer, Named, Tally};

/// Compares the two answers; gives what they are.
fn compare(job: &[u8], polynomial: u64, at: &[i64; MOST], terms: u64) -> Result<i128, u8> {
    let wanted = Reference.running_sum(job, polynomial, at, terms);
    let found = Library.running_sum(job, polynomial, at, terms);
    assert_eq!(found, wanted, "{terms} terms of {polynomial} at {at:?} in {job:?}");
    wanted
}

/// The running sum's own answers.
const OWN: [Answer; 4] = [Err(12), Err(9), Ok("readable"), Ok("not readable")];

/// An answer by its name.
fn name(n: usize, answer: Result<i128, u8>) -> Answer {
    let readable = |sum| Limits::of(n).is_readable(sum);
    answer.map(|sum| if readable(sum) { "readable" } else { "not readable" })
}

/// Sums that a wrong product would not give.
const DISTINCT: [&str; 4] =
    ["unlike that of the first", "larger than the whole", "0 by the bias", "of a full body"];

/// Which of them the sum of the last k terms is.
fn distinct(parts: &Parts, terms: &[Term], v: &Vertex, k: usize) -> Vec<&'static str> {
    let found = sum(&terms[terms.len() - k..], v);
    let holds = [
        found != sum(&terms[..k], v),
        found.abs() > sum(terms, v).abs(),
        found != value(parts.bias, found),
        terms.len() == Limits::of(parts.n).terms,
    ];
    DISTINCT.into_iter().zip(holds).filter(|(_, holds)| *holds).map(|(name, _)| name).collect()
}

/// Coordinates outside the box that must come up on each axis.
const OUTSIDE: [&str; 4] = ["below the low end", "above the high end", "the least", "the largest"];

/// Which of them it is: the first two are past their end by one.
fn outside((low, high): (i64, i64), x: i64) -> Option<&'static str> {
    let at = [low - 1, high + 1, i64::MIN, i64::MAX].iter().position(|&out| x == out);
    at.map(|k| OUTSIDE[k])
}

/// Counts of the running sums of valid jobs.
#[derive(Default)]
struct Met {
    kinds: Tally<SumKinds>,
    answers: Answers,
    /// Numbers of polynomials and of terms, each with the other one good: 12.
    far: Tally<(&'static str, u64)>,
    /// Axis and coordinate: 9.
    outside: Tally<(usize, &'static str)>,
    // Of those that were answered:
    /// The mask of the axes on which a corner is at the high end.
    corners: Tally<usize>,
    polynomials: Tally<u64>,
    terms: Tally<u64>,
    /// Whether a number above axis n was not 0.
    noise: Tally<bool>,
    distinct: Tally<&'static str>,
}

impl Met {
    fn count(&mut self, bias: Bias, parts: &Parts, asked: &AnySum, answer: Result<i128, u8>) {
        self.kinds.count(parts.n, asked.kinds);
        self.answers.count(parts.n, bias, name(parts.n, answer));
        match answer {
            Err(12) => self.count_far(parts.n, asked),
            Err(_) => self.count_outside(parts, asked),
            Ok(_) => self.count_answered(parts, asked),
        }
    }

    fn count_far(&mut self, n: usize, asked: &AnySum) {
        match asked.kinds {
            (NumberKind::Far, CountKind::Within, _) => {
                self.far.count(n, ("polynomial", asked.polynomial))
            }
            (NumberKind::OfTheJob, _, _) => self.far.count(n, ("terms", asked.terms)),
            _ => {}
        }
    }

    fn count_outside(&mut self, parts: &Parts, asked: &AnySum) {
        for (k, &ends) in parts.ends.iter().enumerate() {
            if let Some(name) = outside(ends, asked.coordinates[k]) {
                self.outside.count(parts.n, (k + 1, name));
            }
        }
    }

    fn count_answered(&mut self, parts: &Parts, asked: &AnySum) {
        let (n, at) = (parts.n, asked.coordinates);
        let high = |axis: &usize| at[axis - 1] == parts.ends[axis - 1].1;
        if asked.kinds.2 == VertexKind::Corner {
            self.corners.count(n, (1..=n).filter(high).map(|axis| 1 << (axis - 1)).sum());
        }
        self.polynomials.count(n, asked.polynomial);
        self.terms.count(n, asked.terms);
        self.noise.count(n, at[n..].iter().any(|&x| x != 0));
        let terms = &parts.polynomials[asked.polynomial as usize];
        for name in distinct(parts, terms, &vertex(&at[..n]), asked.terms as usize) {
            self.distinct.count(n, name);
        }
    }

    /// Fails unless all that is counted was met in each dimension.
    fn assert_all(&self) {
        self.kinds.assert_all();
        self.answers.assert_met(&OWN);
        self.far.assert_includes(&[("polynomial", u64::MAX), ("terms", u64::MAX)]);
        self.distinct.assert_met(&DISTINCT);
        for n in DIMENSIONS {
            let ways = (1..=n).flat_map(|axis| OUTSIDE.map(|name| (axis, name)));
            self.outside.assert_met_in(n, &ways.collect::<Vec<_>>());
            self.corners.assert_met_in(n, &(0..1 << n).collect::<Vec<_>>());
            self.polynomials.assert_met_in(n, &(0..n as u64 - 1).collect::<Vec<_>>());
            self.terms.assert_met_in(n, &(0..=Limits::of(n).terms as u64).collect::<Vec<_>>());
            self.noise.assert_met_in(n, if n < MOST { &[false, true] } else { &[false] });
        }
    }
}

#[test]
fn running_sum_is_the_reference() {
    let mut r = Random::new(26);
    let (mut made, mut met) = (Tally::default(), Met::default());
    for _ in 0..60_000 {
        let (names, parts) = valid_of_any(&mut r, false);
        let job = parts.bytes();
        made.count(parts.n, names);
        for _ in 0..5 {
            let asked = any_sum(&mut r, &parts);
            let answer = compare(&job, asked.polynomial, &asked.coordinates, asked.terms);
            assert_eq!(answer.err(), asked.refusal(), "{asked:?} of {job:?}");
            met.count(names.bias, &parts, &asked, answer);
        }
    }
    made.assert_all();
    met.assert_all();
}

/// The job is opened first, whatever is asked for: each refusal of Open comes up with each kind of
/// number.
#[test]
fn running_sum_opens_first() {
    let mut r = Random::new(27);
    let (mut made, mut answers) = (JobTally::default(), Tally::default());
    for _ in 0..100_000 {
        let (_, parts) = valid_of_any(&mut r, false);
        let job = any_job(&mut r);
        let asked = any_sum(&mut r, &parts);
        let answer = compare(&job.bytes, asked.polynomial, &asked.coordinates, asked.terms);
        answers.count(job.n(), (name(job.n(), answer), asked.kinds.0));
        made.count(&job);
    }
    made.assert_all();
    let with_each = |number| NumberKind::all().into_iter().map(move |kind| (Err(number), kind));
    answers.assert_includes(&(1..=8).chain([12]).flat_map(with_each).collect::<Vec<_>>());
    answers.assert_includes(&[Err(9), Ok("readable")].map(|own| (own, NumberKind::OfTheJob)));
}

/// Compares every partial sum of a polynomial; gives them. The last is the same from the first term
/// to the last.
fn compare_all(parts: &Parts, polynomial: usize, v: &Vertex) -> Vec<i128> {
    let (job, terms) = (parts.bytes(), &parts.polynomials[polynomial]);
    let wanted = running_sums(terms, v);
    assert_eq!((wanted.first(), wanted.last()), (Some(&0), Some(&sum(terms, v))));
    for (k, &sum) in wanted.iter().enumerate() {
        assert_eq!(compare(&job, polynomial as u64, v, k as u64), Ok(sum));
    }
    wanted
}

/// One by one, of each polynomial at a vertex of the box.
#[test]
fn every_partial_sum() {
    let mut r = Random::new(28);
    let (mut made, mut full) = (Tally::default(), Tally::default());
    for _ in 0..6_000 {
        let (names, parts) = valid_of_any(&mut r, false);
        made.count(parts.n, names);
        for (k, terms) in parts.polynomials.iter().enumerate() {
            let v = vertex_in(&mut r, &parts.ends);
            compare_all(&parts, k, &v);
            full.count(parts.n, (k, terms.len() == Limits::of(parts.n).terms));
        }
    }
    made.assert_all();
    for n in DIMENSIONS {
        let each = (0..n - 1).flat_map(|k| [(k, false), (k, true)]);
        full.assert_met_in(n, &each.collect::<Vec<_>>());
    }
}

/// The largest sum that a polynomial can have, the least, and one that a 64-bit float would round.
const LARGE: [&str; 3] = ["the largest", "the least", "rounded by a float"];

/// Which of them it is.
fn large(n: usize, sum: i128) -> Option<&'static str> {
    let degrees = exponents(n).iter().map(|e| e.iter().sum::<u8>() as u32);
    let largest: i128 = degrees.map(|degree| 256i128.pow(degree) << 20).sum();
    let holds = [sum == largest, sum == -largest, sum != sum as f64 as i128];
    holds.iter().position(|&holds| holds).map(|k| LARGE[k])
}

/// One by one, of full bodies of the largest terms, at and beside the corners of the largest box.
#[test]
fn largest_sums() {
    let mut r = Random::new(29);
    let mut met = Tally::default();
    for n in DIMENSIONS {
        for _ in 0..300 {
            let parts = with_largest_terms(&mut r, n);
            let from = r.pick(&[&[256][..], &[256, -256], &[256, -256, 255, -255]]);
            let at: Vec<i64> = (0..n).map(|_| r.pick(from)).collect();
            for k in 0..n - 1 {
                let sums = compare_all(&parts, k, &vertex(&at));
                sums.iter().filter_map(|&sum| large(n, sum)).for_each(|name| met.count(n, name));
            }
        }
    }
    met.assert_met(&LARGE);
}

/// Sums are the same at every bias.
#[test]
fn every_bias() {
    for parts in [case_a(), case_c(3), case_c(4)] {
        for (k, terms) in parts.polynomials.iter().enumerate() {
            for terms in 0..=terms.len() as u64 {
                let ask = |bias| {
                    let job = Parts { bias, ..parts.clone() }.bytes();
                    compare(&job, k as u64, &[1; MOST], terms)
                };
                let at_zero = ask(0);
                assert!(at_zero.is_ok());
                assert!((1..=255).all(|bias| ask(bias) == at_zero));
            }
        }
    }
}
