//! Trace against Step of the same product, as checks of any product: behind each place of a trace
//! stands what Step answers there, and the trace ends as Step's answer at its last place says.

use crate::build::Parts;
use crate::generate::{of_any_course, of_course, valid, Course, Random};
use crate::grid::Place;
use crate::limits::{DIMENSIONS, MOST};
use crate::long_curves::long_curves;
use crate::operations::{Step, Verdict};
use crate::product::Product;
use crate::tally::{Answer, Tally};

/// Whether a trace from that start has the verdict if Step gives this at its last place. A loop
/// comes to the start's facet with the side that it left by.
fn ends(verdict: Verdict, start: &Place, last: &Step) -> bool {
    match (verdict, last) {
        (Verdict::Edge, Step::Edge) | (Verdict::Limit, Step::Limit) => true,
        (Verdict::Loop, Step::Next(next)) => next == start,
        (Verdict::Full, Step::Next(next)) => next.facet != start.facet,
        _ => false,
    }
}

/// Traces with space for so many places and steps from each; gives Trace's answer. What Trace
/// refuses at the start, Step refuses there.
fn check(product: &impl Product, parts: &Parts, space: usize) -> Result<(Verdict, usize), u8> {
    let (job, size) = (parts.bytes(), 3 * parts.n);
    let mut buffer = vec![0; size * space];
    let answer = product.trace(&job, &mut buffer);
    let first = parts.start.bytes();
    let Ok((verdict, count)) = answer else {
        assert_eq!(product.step(&job, &first).map(|_| ()), answer.map(|_| ()), "{job:?}");
        return answer;
    };
    let places: Vec<&[u8]> = buffer.chunks_exact(size).take(count).collect();
    assert_eq!(places.len(), count, "{job:?}");
    assert_eq!(places.first(), (space > 0).then_some(&&first[..]), "{job:?}");
    assert!(verdict != Verdict::Full || count == space, "full at {count} of {space} in {job:?}");
    for (k, place) in places.iter().enumerate() {
        let step = product.step(&job, place);
        let goes_on = match (&step, places.get(k + 1)) {
            (Err(_), _) => false,
            (Ok(step), Some(next)) => Place::read(parts.n, next).map(Step::Next) == Some(*step),
            (Ok(step), None) => ends(verdict, &parts.start, step),
        };
        assert!(goes_on, "{step:?} at place {k} of {verdict:?} {count} in {job:?}");
    }
    answer
}

/// How often each verdict must come up in each dimension, at bias 0 and above, and how many steps
/// must be made in each.
pub struct Least {
    pub verdicts: u64,
    pub steps: usize,
}

/// Counts of checked traces.
#[derive(Default)]
struct Checked {
    answers: Tally<Answer>,
    /// Verdicts, with whether the bias is above 0.
    verdicts: Tally<(bool, Verdict)>,
    /// By dimension.
    steps: [usize; MOST + 1],
}

impl Checked {
    fn check(&mut self, product: &impl Product, parts: &Parts, space: usize) {
        let answer = check(product, parts, space);
        self.answers.count(parts.n, answer.map(|(verdict, _)| verdict.word()));
        if let Ok((verdict, count)) = answer {
            self.verdicts.count(parts.n, (parts.bias > 0, verdict));
            self.steps[parts.n] += count;
        }
    }

    /// Fails unless these verdicts and the steps were met as often.
    fn assert_often(&self, least: &Least, verdicts: &[Verdict]) {
        let with_bias = |&verdict: &Verdict| [(false, verdict), (true, verdict)];
        let wanted: Vec<(bool, Verdict)> = verdicts.iter().flat_map(with_bias).collect();
        self.verdicts.assert_often(least.verdicts, &wanted);
        for n in DIMENSIONS {
            let steps = self.steps[n];
            println!("{n}: {steps} steps");
            assert!(steps >= least.steps, "{steps} steps in dimension {n}");
        }
    }
}

/// So many jobs of any kind or course, with little space or much: every answer comes up.
pub fn any_traces(product: &impl Product, seed: u64, jobs: usize, least: Least) {
    let mut r = Random::new(seed);
    let mut checked = Checked::default();
    for _ in 0..jobs {
        let parts = if r.once_in(2) { valid(&mut r).1 } else { of_any_course(&mut r).1 };
        let space = r.pick(&[0, 1, 2, 5, 20, 400]);
        checked.check(product, &parts, space);
    }
    let verdicts = [Verdict::Loop, Verdict::Edge, Verdict::Limit, Verdict::Full];
    checked.assert_often(&least, &verdicts);
    let answers = verdicts.map(|verdict| Ok(verdict.word()));
    checked.answers.assert_met(&[&answers[..], &[Err(9), Err(10), Err(11)]].concat());
}

/// So many jobs of each dimension whose curves go far around, and the long curves, most of them
/// with space for so many places.
pub fn long_traces(product: &impl Product, seed: u64, jobs: usize, space: usize, least: Least) {
    let mut checked = Checked::default();
    for n in DIMENSIONS {
        let mut r = Random::new(seed);
        for _ in 0..jobs {
            let parts = of_course(&mut r, n, Course::FarAround);
            checked.check(product, &parts, r.pick(&[space, space, 200]));
        }
    }
    for (parts, _) in long_curves() {
        checked.check(product, &parts, space);
    }
    checked.assert_often(&least, &[Verdict::Loop, Verdict::Full]);
}
