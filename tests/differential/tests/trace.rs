//! Trace against the reference: answer and every byte of the buffer, with no space, space for
//! one, one less than needed, just enough, more, and lengths between two counts of places.

use library::answers::{and_those_of_open, Answers};
use library::ffi::Library;
use reference::build::Parts;
use reference::generate::{any_job, of_any_course, valid, JobTally, Random};
use reference::grid::Place;
use reference::job::Job;
use reference::long_curves::long_curves;
use reference::operations::{trace_places, Verdict};
use reference::product::{Product, Reference};
use reference::sums_met::{SumsMet, AROUND_BIAS, NOT_READABLE};
use reference::tally::{Answer, Tally};
use reference::transitions_met::TransitionsMet;

/// Trace's own answers.
const OWN: [Answer; 7] =
    [Err(9), Err(10), Err(11), Ok("loop"), Ok("edge"), Ok("limit"), Ok("full")];

/// Compares answers and buffers; gives both.
fn compare_buffers(
    r: &mut Random,
    job: &[u8],
    length: usize,
) -> (Result<(Verdict, usize), u8>, Vec<u8>) {
    let before = r.bytes(length);
    let mut wanted_buffer = before.clone();
    let wanted = Reference.trace(job, &mut wanted_buffer);
    let mut buffer = before.clone();
    assert_eq!(Library.trace(job, &mut buffer), wanted, "{length} bytes for {job:?}");
    assert!(buffer == wanted_buffer, "other bytes: {length} bytes for {job:?}");
    if wanted.is_err() {
        assert!(buffer == before);
    }
    (wanted, buffer)
}

fn compare(r: &mut Random, job: &[u8], length: usize) -> Result<(Verdict, usize), u8> {
    compare_buffers(r, job, length).0
}

/// Compares traces with space for so many places; gives verdict and places.
fn compare_places(
    r: &mut Random,
    parts: &Parts,
    space: usize,
) -> Result<(Verdict, Vec<Place>), u8> {
    let size = 3 * parts.n;
    let (answer, buffer) = compare_buffers(r, &parts.bytes(), size * space);
    let (verdict, count) = answer?;
    let read = |bytes| Place::read(parts.n, bytes).expect("a place");
    Ok((verdict, buffer.chunks_exact(size).take(count).map(read).collect()))
}

/// An answer by its name.
fn name<T>(answer: Result<(Verdict, T), u8>) -> Answer {
    answer.map(|(verdict, _)| verdict.word())
}

#[test]
fn trace_is_the_reference() {
    let mut r = Random::new(19);
    let mut made = Tally::default();
    let (mut with_space, mut around) = (Answers::default(), Answers::default());
    for _ in 0..100_000 {
        let (names, parts) = valid(&mut r);
        let job = parts.bytes();
        let size = 3 * parts.n;
        made.count(parts.n, names);
        // Space enough for most traces first; then one length around the count.
        let answer = compare(&mut r, &job, size * 150);
        with_space.count(parts.n, names.bias, name(answer));
        let count = answer.map_or(0, |(_, count)| count);
        let space = r.pick(&[0, 1, count.max(1) - 1, count, count + 1, count + 7]).min(20);
        let length = size * space + r.pick(&[0, 0, 1, size - 1]);
        around.count(parts.n, names.bias, name(compare(&mut r, &job, length)));
    }
    made.assert_all();
    with_space.assert_met(&OWN);
    around.assert_met(&OWN);
}

/// Traces that the bias changes, from what to what.
const CHANGED: [(Answer, Answer); 7] = [
    (Ok("loop"), Ok("loop")),
    (Ok("loop"), Ok("edge")),
    (Ok("edge"), Ok("edge")),
    (Ok("edge"), Err(11)),
    (Err(11), Ok("loop")),
    (Err(11), Ok("edge")),
    (Err(11), Ok("limit")),
];

/// Sums around the bias and sums that are not readable at a bias come up where traces begin and
/// end, and the bias changes traces.
#[test]
fn trace_goes_by_the_bias() {
    let mut r = Random::new(24);
    let (mut changed, mut sums) = (Tally::default(), SumsMet::default());
    for _ in 0..20_000 {
        let (_, parts) = valid(&mut r);
        let job = parts.opened();
        _ = compare(&mut r, &parts.bytes(), 3 * parts.n * 60);
        let traced = trace_places(&job, 60);
        let at_zero = trace_places(&Job { bias: 0, ..job.clone() }, 60);
        sums.count(&job, &job.start);
        if let Some(last) = traced.iter().flat_map(|(_, places)| places).last() {
            sums.count(&job, last);
        }
        if traced != at_zero {
            changed.count(parts.n, (name(at_zero), name(traced)));
        }
    }
    sums.assert_includes(&[AROUND_BIAS, NOT_READABLE]);
    changed.assert_includes(&CHANGED);
}

/// All the named spaces, on closed and open curves.
#[test]
fn each_space_around_the_count() {
    let mut r = Random::new(20);
    let mut answers = Answers::default();
    for _ in 0..8_000 {
        let (names, parts) = valid(&mut r);
        let job = parts.bytes();
        let size = 3 * parts.n;
        let count = compare(&mut r, &job, size * 100).map_or(0, |(_, count)| count);
        for space in [0, 1, count.max(1) - 1, count, count + 1, count + 5] {
            for more in [0, 1, size - 1] {
                let answer = compare(&mut r, &job, size * space + more);
                answers.count(parts.n, names.bias, name(answer));
            }
        }
    }
    answers.assert_met(&OWN);
}

/// A job that does not open leaves the buffer as it was.
#[test]
fn trace_opens_first() {
    let mut r = Random::new(21);
    let (mut made, mut answers) = (JobTally::default(), Tally::default());
    for _ in 0..100_000 {
        let job = any_job(&mut r);
        let length = r.index(200);
        answers.count(job.n(), name(compare(&mut r, &job.bytes, length)));
        made.count(&job);
    }
    made.assert_all();
    answers.assert_met(&and_those_of_open(&OWN));
}

/// Traces go through simplices by every way, with every tie, and to every end.
#[test]
fn trace_passes_every_way() {
    let mut r = Random::new(35);
    let (mut made, mut met) = (Tally::default(), TransitionsMet::default());
    for _ in 0..45_000 {
        let (course, parts) = of_any_course(&mut r);
        made.count(parts.n, course);
        if let Ok((verdict, places)) = compare_places(&mut r, &parts, 300) {
            met.count(&parts.opened(), verdict, &places);
        }
    }
    made.assert_all();
    met.assert_later([500, 100, 25]);
    met.assert_first([150, 40, 10]);
    met.assert_following([1_000, 60, 10]);
    met.assert_ties([500, 300, 300]);
    met.assert_deciding([300, 30, 10]);
    met.assert_ends([40, 10, 20]);
}

/// The whole of a curve of tens of thousands of places, which is shorter in dimension 2.
#[test]
fn trace_of_a_long_curve() {
    let mut r = Random::new(36);
    for (parts, count) in long_curves() {
        let (job, size) = (parts.bytes(), 3 * parts.n);
        for (space, wanted) in [
            (count + 1, (Verdict::Loop, count)),
            (count, (Verdict::Loop, count)),
            (count - 1, (Verdict::Full, count - 1)),
        ] {
            assert_eq!(compare(&mut r, &job, size * space), Ok(wanted));
        }
    }
}
