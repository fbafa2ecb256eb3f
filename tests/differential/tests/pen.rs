//! Pen against the reference.

use library::answers::{and_those_of_open, Answers};
use library::ffi::Library;
use reference::build::Parts;
use reference::generate::{
    any_job, any_place, valid, valid_for_rounding, JobTally, PlaceTally, Random,
};
use reference::grid::Place;
use reference::job::open;
use reference::operations::{trace_places, Move};
use reference::product::{Product, Reference};
use reference::roundings_met::RoundingsMet;
use reference::sums_met::{SumsMet, AROUND_BIAS, NOT_READABLE};
use reference::tally::Tally;

/// A move by its name and with its floats as bits.
fn bits(answer: &Result<Move, u8>) -> Result<(&'static str, [u64; 3]), u8> {
    match answer {
        Ok(Move::Lift(point)) => Ok(("lift", point.map(f64::to_bits))),
        Ok(Move::Draw(point)) => Ok(("draw", point.map(f64::to_bits))),
        Ok(Move::Close) => Ok(("close", [0; 3])),
        Err(number) => Err(*number),
    }
}

/// Up to four places of a trace, now and then any place behind them, now and then a byte more.
fn some_places(r: &mut Random, parts: &Parts, made: &mut PlaceTally) -> Vec<u8> {
    let size = 3 * parts.n;
    let mut places = vec![0; size * r.index(5)];
    let count = Reference.trace(&parts.bytes(), &mut places).map_or(0, |(_, count)| count);
    places.truncate(size * count);
    if r.once_in(3) {
        let place = any_place(r, parts);
        made.count(&place);
        places.extend(place.bytes);
    }
    if r.once_in(10) {
        places.push(0);
    }
    places
}

/// Counts the coordinates of a lift or a draw to place k: axes 1 to 3, as far as there are any.
fn count_roundings(roundings: &mut RoundingsMet, job: &[u8], places: &[u8], k: u64, to: Move) {
    let (Move::Lift(point) | Move::Draw(point)) = to else { return };
    let job = open(job).expect("a job that opens");
    let at = 3 * job.n * k as usize;
    let place = Place::read(job.n, &places[at..at + 3 * job.n]).expect("a place");
    roundings.count(&job, &place.facet, &point.map(|millimetres| (1024.0 * millimetres) as i64));
}

#[test]
fn pen_is_the_reference() {
    let mut r = Random::new(22);
    let (mut jobs, mut made) = (JobTally::default(), PlaceTally::default());
    let (mut answers, mut roundings) = (Answers::default(), RoundingsMet::default());
    for _ in 0..60_000 {
        let (mut names, parts) = valid(&mut r);
        let (mut n, mut job) = (parts.n, parts.bytes());
        if r.once_in(5) {
            let other = any_job(&mut r);
            jobs.count(&other);
            (n, names, job) = (other.n(), other.made, other.bytes);
        }
        let places = some_places(&mut r, &parts, &mut made);
        let m = (places.len() / (3 * parts.n)) as u64;
        for _ in 0..5 {
            // Large ones too, which times 3n leave 64 bits or come close to that.
            let close = u64::MAX / (3 * n as u64);
            let far = r.pick(&[1 << 32, u64::MAX, close, close + 1]);
            let k = r.pick(&[0, 1, m, m.max(1) - 1, m + 1, 2, far]);
            let closed = r.once_in(2);
            let answer = Reference.pen(&job, &places, closed, k);
            let wanted = bits(&answer);
            let found = bits(&Library.pen(&job, &places, closed, k));
            assert_eq!(found, wanted, "{k} {closed} of {places:?} in {job:?}");
            answers.count(n, names.bias, wanted.map(|(name, _)| name));
            if let Ok(to) = answer {
                count_roundings(&mut roundings, &job, &places, k, to);
            }
        }
    }
    jobs.assert_all();
    made.assert_all();
    let own = [9, 10, 11, 12, 13].map(Err).into_iter().chain(["lift", "draw", "close"].map(Ok));
    answers.assert_met(&and_those_of_open(&own.collect::<Vec<_>>()));
    roundings.assert_often(20);
    roundings.assert_halves(100);
}

/// Along curves that are made for it, with many halves of a step.
#[test]
fn pen_goes_to_the_nearest_step() {
    let mut r = Random::new(31);
    let mut roundings = RoundingsMet::default();
    for _ in 0..20_000 {
        let (_, parts) = valid_for_rounding(&mut r);
        let job = parts.bytes();
        let Ok((_, places)) = trace_places(&parts.opened(), 6) else { continue };
        let written: Vec<u8> = places.iter().flat_map(|place| place.bytes()).collect();
        for k in 0..places.len() as u64 {
            let answer = Reference.pen(&job, &written, false, k);
            let found = bits(&Library.pen(&job, &written, false, k));
            assert_eq!(found, bits(&answer), "{k} of {written:?} in {job:?}");
            count_roundings(&mut roundings, &job, &written, k, answer.expect("a move"));
        }
    }
    roundings.assert_often(100);
    roundings.assert_halves(500);
}

/// Places with sums around the bias and with sums that are not readable at a bias come up, and the
/// bias changes moves.
#[test]
fn pen_goes_by_the_bias() {
    let mut r = Random::new(25);
    let (mut changed, mut sums) = (Tally::default(), SumsMet::default());
    for _ in 0..20_000 {
        let (_, parts) = valid(&mut r);
        let (job, at_zero) = (parts.bytes(), Parts { bias: 0, ..parts.clone() }.bytes());
        let bytes = any_place(&mut r, &parts).bytes;
        let Some(place) = Place::read(parts.n, &bytes) else { continue };
        let wanted = bits(&Reference.pen(&job, &bytes, false, 0));
        assert_eq!(bits(&Library.pen(&job, &bytes, false, 0)), wanted, "{place:?} in {job:?}");
        sums.count(&parts.opened(), &place);
        let plain = bits(&Reference.pen(&at_zero, &bytes, false, 0));
        if wanted != plain {
            changed.count(parts.n, (plain.map(|(name, _)| name), wanted.map(|(name, _)| name)));
        }
    }
    sums.assert_includes(&[AROUND_BIAS, NOT_READABLE]);
    let lift = Ok("lift");
    changed.assert_met(&[(lift, lift), (lift, Err(11)), (Err(11), lift)]);
}
