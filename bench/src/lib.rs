//! Two tracers, two listers of seams, two orders of cutting, two openers, two writers of jobs and two
//! readers of formulas in Rust for comparing times, and the jobs and texts that are timed.

pub mod careful;
pub mod formula_plain;
pub mod formula_table;
pub mod formula_texts;
pub mod jobs;
pub mod long_curves;
pub mod open;
pub mod order_jobs;
pub mod order_plain;
pub mod order_table;
pub mod plain;
pub mod seam_jobs;
pub mod seams_careful;
pub mod seams_plain;
pub mod write_jobs;
pub mod write_plain;

#[cfg(test)]
mod formula_tests;
#[cfg(test)]
mod order_tests;
#[cfg(test)]
mod seam_tests;
#[cfg(test)]
mod write_tests;

#[cfg(test)]
mod tests {
    use std::fmt::Debug;

    use reference::build::{assemble, case_a, case_c, exponents, gathered, place, term, Parts};
    use reference::generate::{any_job, valid, JobTally, Random};
    use reference::limits::{Limits, DIMENSIONS};
    use reference::operations::Verdict;
    use reference::product::{Product, Reference};
    use reference::tally::{Answer, Tally};

    use crate::jobs::{jobs, to_open};
    use crate::long_curves::{long_curves, spaces};
    use crate::open::{open, open_carefully, Opened};
    use crate::{careful, plain};

    /// Compares answers and buffers of that length with the reference; gives the answer.
    fn compared(what: &impl Debug, job: &[u8], length: usize) -> Result<(Verdict, usize), u8> {
        let noise = vec![0x5a; length];
        let mut wanted_buffer = noise.clone();
        let wanted = Reference.trace(job, &mut wanted_buffer);
        for trace in [plain::trace, careful::trace] {
            let mut buffer = noise.clone();
            assert_eq!(trace(job, &mut buffer), wanted, "{what:?}");
            assert!(buffer == wanted_buffer, "{what:?}");
        }
        wanted
    }

    #[test]
    fn both_write_what_the_reference_writes() {
        let mut r = Random::new(31);
        let mut made = Tally::default();
        for _ in 0..30_000 {
            let (names, parts) = valid(&mut r);
            let length = 3 * parts.n * r.pick(&[0, 1, 7, 120]) + r.pick(&[0, 2]);
            let _any = compared(&parts, &parts.bytes(), length);
            made.count(parts.n, names);
        }
        made.assert_all();
    }

    /// Both know the bias: at 199 one of two lobes is a loop of its own, at 200 their waist is low.
    #[test]
    fn both_join_two_lobes_by_a_bias() {
        let terms = [
            term(200, &[]),
            term(-1_040, &[0, 1]),
            term(1_040, &[0, 2]),
            term(-120, &[2]),
            term(1, &[4]),
        ];
        for (bias, count) in [(0, 46), (199, 50), (200, 98), (255, 98)] {
            let parts = Parts {
                n: 2,
                bias,
                ends: vec![(-12, 12), (-3, 4)],
                polynomials: vec![gathered(&terms)],
                start: place(&[-11, 0], &[1], 0),
            };
            let answer = compared(&parts, &parts.bytes(), 600);
            assert_eq!(answer, Ok((Verdict::Loop, count)), "bias {bias}");
        }
    }

    /// Every curve that is timed closes, with so many places. Those of `long_curves` fill each
    /// space that they are timed with.
    #[test]
    fn timed_curves_are_loops() {
        let length_of = |job: &[u8], space| 3 * job[1] as usize * space;
        let timed = jobs().into_iter().chain(long_curves());
        let names_and_places: Vec<(&str, usize)> = timed
            .map(|(name, job)| match compared(&name, &job, length_of(&job, 50_000)) {
                Ok((Verdict::Loop, places)) => (name, places),
                answer => panic!("{name}: {answer:?}"),
            })
            .collect();
        let wanted = [
            ("circle_3", 3_418),
            ("quartic_15", 534),
            ("sphere_plane_4_4", 6_564),
            ("quartic_plane_35_3", 1_064),
            ("two_quartics_35_35", 716),
            ("sphere_planes_5_3_2", 3_234),
            ("quartic_planes_70_3_2", 890),
            ("three_quartics_70_70_70", 426),
            ("around_parabola_14", 6_658),
            ("around_parabolas_14_14", 46_520),
            ("angles_3_3_3", 48_876),
        ];
        assert_eq!(names_and_places, wanted);
        for ((name, job), (_, places)) in long_curves().into_iter().zip(&wanted[jobs().len()..]) {
            for space in spaces(*places) {
                let answer = compared(&name, &job, length_of(&job, space));
                assert_eq!(answer, Ok((Verdict::Full, space)), "{name}");
            }
        }
    }

    /// Compares the openers' answers with the reference; gives what they are.
    fn opened(job: &[u8]) -> Answer {
        let wanted = Reference.open(job).map(|(n, counts)| {
            let mut terms = [0; 3];
            terms[..counts.len()].copy_from_slice(&counts);
            Opened { n, terms }
        });
        assert_eq!(open(job), wanted, "{job:?}");
        assert_eq!(open_carefully(job), wanted, "{job:?}");
        wanted.map(|_| "opens")
    }

    #[test]
    fn open_is_the_reference() {
        let mut r = Random::new(33);
        let (mut made, mut answers) = (JobTally::default(), Tally::default());
        for _ in 0..300_000 {
            let job = any_job(&mut r);
            answers.count(job.n(), opened(&job.bytes));
            made.count(&job);
        }
        made.assert_all();
        answers.assert_met(&(1..=8).map(Err).chain([Ok("opens")]).collect::<Vec<_>>());
    }

    /// Every beginning of a job that opens, and every byte of it at each of its values.
    #[test]
    fn open_at_every_cut_and_every_byte() {
        for parts in [case_a(), case_c(3), case_c(4)] {
            let job = parts.bytes();
            for at in 0..job.len() {
                _ = opened(&job[..at]);
                let mut changed = job.clone();
                for byte in 0..=255 {
                    changed[at] = byte;
                    _ = opened(&changed);
                }
            }
        }
    }

    /// Every count of terms up to one more than any dimension has, in each polynomial.
    #[test]
    fn open_at_every_count_of_terms() {
        for n in DIMENSIONS {
            for (k, count) in (1..n).flat_map(|k| (0..=71).map(move |count| (k, count))) {
                let mut bodies = case_c(n).bodies();
                let terms = exponents(n).iter().cycle().take(count);
                bodies[k] = terms.flat_map(|e| [[1, 0, 0, 0], *e].concat()).collect();
                let opens = (1..=Limits::of(n).terms).contains(&count);
                let wanted = if opens { Ok("opens") } else { Err(5) };
                assert_eq!(opened(&assemble(n, 0, &bodies)), wanted, "{count} terms");
            }
        }
    }

    /// The jobs that are timed open, with the terms asked for, and no two are the same.
    #[test]
    fn jobs_to_open_open() {
        for n in DIMENSIONS {
            for terms in [1, Limits::of(n).terms - 1, Limits::of(n).terms] {
                let mut jobs = to_open(n, terms, 300);
                for job in &jobs {
                    assert_eq!(Reference.open(job), Ok((n, vec![terms; n - 1])));
                }
                jobs.sort();
                jobs.dedup();
                assert_eq!(jobs.len(), 300);
            }
        }
    }
}
