//! The answers that a test must meet.

use reference::generate::Bias;
use reference::tally::{Answer, Named, Tally};

/// An operation's own answers and the refusals of Open.
pub fn and_those_of_open(own: &[Answer]) -> Vec<Answer> {
    (1..=8).map(Err).chain(own.iter().copied()).collect()
}

/// Each of these answers at each bias.
pub fn at_each_bias(answers: &[Answer]) -> Vec<(Bias, Answer)> {
    let with_each = |bias| answers.iter().map(move |&answer| (bias, answer));
    Bias::all().into_iter().flat_map(with_each).collect()
}

/// Counts of answers, and of those that are no refusal by bias.
#[derive(Default)]
pub struct Answers {
    all: Tally<Answer>,
    by_bias: Tally<(Bias, Answer)>,
}

impl Answers {
    pub fn count(&mut self, n: usize, bias: Bias, answer: Answer) {
        self.all.count(n, answer);
        if answer.is_ok() {
            self.by_bias.count(n, (bias, answer));
        }
    }

    /// Fails unless each of these was met in each dimension, and those that are no refusal with
    /// each bias.
    pub fn assert_includes(&self, wanted: &[Answer]) {
        self.all.assert_includes(wanted);
        let own: Vec<Answer> = wanted.iter().copied().filter(|answer| answer.is_ok()).collect();
        self.by_bias.assert_includes(&at_each_bias(&own));
    }

    /// Fails also if another answer was met.
    pub fn assert_met(&self, wanted: &[Answer]) {
        self.all.assert_met(wanted);
        self.assert_includes(wanted);
    }
}
