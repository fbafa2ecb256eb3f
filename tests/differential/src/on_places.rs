//! The comparison of an operation that takes a job and a place.

use std::fmt::Debug;

use reference::build::Parts;
use reference::generate::{any_job, any_place, valid, JobTally, PlaceTally, Random};
use reference::grid::Place;
use reference::job::Job;
use reference::limits::DIMENSIONS;
use reference::sums_met::{SumsMet, AROUND_BIAS, AT_LIMIT, NOT_READABLE};
use reference::tally::{Answer, Tally};

use crate::answers::{and_those_of_open, at_each_bias};

/// An operation on a job and a place.
type Operation<A> = fn(job: &[u8], place: &[u8]) -> Result<A, u8>;

/// An operation of the library, that of the reference, names for its answers, all the answers
/// that it has besides those of Open, and some that the bias changes, from what to what.
pub struct OnPlaces<A: 'static> {
    pub library: Operation<A>,
    pub reference: Operation<A>,
    pub name: fn(&A) -> &'static str,
    pub own: &'static [Answer],
    pub changed: &'static [(Answer, Answer)],
}

impl<A: PartialEq + Debug> OnPlaces<A> {
    fn named(&self, answer: &Result<A, u8>) -> Answer {
        answer.as_ref().map(self.name).map_err(|number| *number)
    }

    /// Compares the two answers; gives what they are.
    pub fn compare(&self, job: &[u8], place: &[u8]) -> Result<A, u8> {
        let wanted = (self.reference)(job, place);
        assert_eq!((self.library)(job, place), wanted, "{place:?} in {job:?}");
        wanted
    }

    /// So many valid jobs with so many places each; places of each kind come up, each answer at
    /// each bias, sums at the readable limit and at the bias, and answers that the bias changes.
    pub fn valid_jobs(&self, seed: u64, jobs: usize, places: usize) {
        self.valid_jobs_and(seed, jobs, places, |_, _, _| {});
    }

    /// The same, with something done for each answer that is no refusal.
    pub fn valid_jobs_and(
        &self,
        seed: u64,
        jobs: usize,
        places: usize,
        mut and: impl FnMut(&Job, &Place, &A),
    ) {
        let mut r = Random::new(seed);
        let (mut made, mut places_made) = (Tally::default(), PlaceTally::default());
        let (mut answers, mut changed) = (Tally::default(), Tally::default());
        let mut sums = SumsMet::default();
        for _ in 0..jobs {
            let (names, parts) = valid(&mut r);
            let (job, opened) = (parts.bytes(), parts.opened());
            let at_zero = Parts { bias: 0, ..parts.clone() }.bytes();
            made.count(parts.n, names);
            for _ in 0..places {
                let place = any_place(&mut r, &parts);
                let answer = self.compare(&job, &place.bytes);
                let plain = (self.reference)(&at_zero, &place.bytes);
                if answer != plain {
                    changed.count(parts.n, (self.named(&plain), self.named(&answer)));
                }
                answers.count(parts.n, (names.bias, self.named(&answer)));
                places_made.count(&place);
                let Some(read) = Place::read(parts.n, &place.bytes) else { continue };
                sums.count(&opened, &read);
                if let Ok(answer) = answer {
                    and(&opened, &read, &answer);
                }
            }
        }
        made.assert_all();
        places_made.assert_all();
        sums.assert_includes(&[AROUND_BIAS, NOT_READABLE, AT_LIMIT]);
        answers.assert_met(&at_each_bias(self.own));
        changed.assert_includes(self.changed);
    }

    /// Jobs of every make, each with a place made for another: the job is opened first, whatever
    /// the place, and the place is looked at next. Places of each dimension come up with jobs of
    /// each.
    pub fn any_jobs(&self, seed: u64, jobs: usize) {
        let mut r = Random::new(seed);
        let (mut answers, mut lengths) = (Tally::default(), Tally::default());
        let (mut made, mut places) = (JobTally::default(), PlaceTally::default());
        for _ in 0..jobs {
            let (_, parts) = valid(&mut r);
            let job = any_job(&mut r);
            let place = any_place(&mut r, &parts);
            let answer = self.compare(&job.bytes, &place.bytes);
            answers.count(job.n(), self.named(&answer));
            if answer == Err(13) {
                lengths.count(job.n(), place.bytes.len());
            }
            made.count(&job);
            places.count(&place);
        }
        made.assert_all();
        places.assert_all();
        answers.assert_includes(&and_those_of_open(&[Err(13)]));
        lengths.assert_includes(&DIMENSIONS.map(|n| 3 * n));
    }
}
