//! The orders of cutting in Rust against the reference, which finds curves by a flood fill.

use reference::build::{case_c, gathered, place, product, term, Parts};
use reference::generate::Random;
use reference::limits::{DIMENSIONS, LARGEST_COEFFICIENT};
use reference::order::{self, CutOrder};
use reference::tally::{Answer, Tally};

use crate::order_jobs::{order_jobs, walked};
use crate::seams_careful;
use crate::{order_plain, order_table, plain};

const SIZE: usize = 6;

type Order = fn(&[u8], &[u8]) -> Result<CutOrder, u8>;
const ORDERS: [Order; 3] =
    [order_plain::cut_order, order_plain::cut_order_narrow, order_table::cut_order];

/// All give the reference's answer.
fn compared(job: &[u8], list: &[u8]) -> Result<CutOrder, u8> {
    let wanted = order::cut_order(job, list);
    for cut_order in ORDERS {
        assert_eq!(cut_order(job, list), wanted, "{list:?} for {job:?}");
    }
    wanted
}

/// ((p x + q y)² - c)(x² + y² + s x - r) in a small box, or with the other sign, or so steep that
/// values are not readable.
fn some_job(r: &mut Random) -> Vec<u8> {
    let form = [term(r.between(-3, 3), &[1]), term(r.between(1, 4), &[0, 1])];
    let strip = [&product(&form, &form)[..], &[term(-r.between(0, 5), &[])]].concat();
    let disc = [
        term(-r.between(0, 80), &[]),
        term(1, &[2]),
        term(1, &[0, 2]),
        term(r.between(-4, 4), &[1]),
    ];
    let gentle = product(&strip, &disc);
    let largest = gentle.iter().map(|t| t.coefficient.abs()).max().expect("a term");
    let factor = r.pick(&[1, -1, LARGEST_COEFFICIENT / largest]);
    let polynomial = gathered(&product(&[term(factor, &[])], &gentle));
    let reach = r.between(6, 11);
    let parts = Parts {
        n: 2,
        bias: r.pick(&[0, 0, 9]),
        ends: vec![(-reach, reach + 1), (-reach, reach)],
        polynomials: vec![polynomial],
        start: place(&[0, 0], &[1], 0),
    };
    parts.bytes()
}

/// Some place of the trace from this one, with either side.
fn moved(r: &mut Random, job: &[u8], place: &[u8]) -> Vec<u8> {
    let (mut at, mut buffer) = (job.to_vec(), vec![0; SIZE * 1_000]);
    let start = job.len() - SIZE;
    at[start..].copy_from_slice(place);
    let (_, count) = plain::trace(&at, &mut buffer).expect("a crossed place");
    let k = r.index(count);
    let mut moved = buffer[SIZE * k..SIZE * (k + 1)].to_vec();
    moved[SIZE - 1] = r.below(2) as u8;
    moved
}

/// Places on the seams of a job, in any order; some once more, some changed.
fn some_list(r: &mut Random, job: &[u8]) -> Vec<u8> {
    let mut seams = vec![0; SIZE * 200];
    let count = seams_careful::seams(job, &mut seams).count;
    let mut places: Vec<&[u8]> = seams.chunks_exact(SIZE).take(count).collect();
    r.shuffle(&mut places);
    places.truncate(1 + r.index(8));
    let mut list: Vec<u8> = places.iter().flat_map(|place| moved(r, job, place)).collect();
    if !places.is_empty() && r.below(6) == 0 {
        list.extend(moved(r, job, places[0]));
    }
    if !list.is_empty() && r.below(4) == 0 {
        let at = r.index(list.len());
        list[at] = r.pick(&[0, 1, 2, 3, 4, 11, 12, 255]);
    }
    if r.below(20) == 0 {
        list.truncate(r.index(list.len() + 1));
    }
    list
}

#[test]
fn all_answer_as_the_reference() {
    let mut r = Random::new(51);
    let mut met = Tally::default();
    for _ in 0..3_000 {
        let job = some_job(&mut r);
        for _ in 0..4 {
            let list = some_list(&mut r, &job);
            let answer: Answer = compared(&job, &list).map(|order| match order {
                CutOrder::Stands => "stands",
                CutOrder::Breaks(0) => "breaks at 0",
                CutOrder::Breaks(_) => "breaks later",
            });
            met.count(2, answer);
        }
    }
    let orders = ["stands", "breaks at 0", "breaks later"].map(Ok);
    let refusals = [13, 9, 10, 11, 18].map(Err);
    met.assert_met_in(2, &refusals.into_iter().chain(orders).collect::<Vec<_>>());
}

/// An empty list stands; one in another dimension is refused, whatever it is.
#[test]
fn other_dimensions() {
    for n in DIMENSIONS {
        let job = case_c(n).bytes();
        let wanted = if n == 2 { Ok(CutOrder::Stands) } else { Err(3) };
        assert_eq!(compared(&job, &[]), wanted);
        let wanted = if n == 2 { Err(13) } else { Err(3) };
        assert_eq!(compared(&job, &[1]), wanted);
    }
}

/// Name, loops, their places, and the places walked, of every list that is timed.
const TIMED: &[(&str, usize, usize, usize)] = &[
    ("nest_64", 2, 452, 650),
    ("ovals_64", 4, 344, 860),
    ("slots_64", 7, 210, 840),
    ("holes_64", 28, 592, 2_860),
    ("outer_first_64", 28, 592, 14_308),
    ("nest_128", 2, 920, 1_338),
    ("ovals_128", 4, 816, 2_040),
    ("slots_128", 15, 450, 3_600),
    ("holes_128", 56, 1_184, 10_424),
    ("outer_first_128", 56, 1_184, 57_064),
    ("nest_256", 2, 1_860, 2_698),
    ("ovals_256", 4, 1_752, 4_380),
    ("slots_256", 31, 930, 14_880),
    ("holes_256", 112, 2_368, 39_664),
    ("outer_first_256", 112, 2_368, 227_920),
    ("nest_512", 2, 3_720, 5_394),
    ("ovals_512", 4, 3_624, 9_060),
    ("slots_512", 63, 1_890, 60_480),
    ("holes_512", 224, 4_748, 154_604),
    ("outer_first_512", 224, 4_748, 913_696),
];

/// All but those with the outer loop first stand.
#[test]
fn timed_lists() {
    let mut found = Vec::new();
    for timed in order_jobs() {
        let name = timed.name();
        let stands = timed.curve != "outer_first";
        let wanted = if stands { CutOrder::Stands } else { CutOrder::Breaks(0) };
        for cut_order in ORDERS {
            assert_eq!(cut_order(&timed.job, &timed.list), Ok(wanted), "{name}");
        }
        if timed.side <= 128 {
            assert_eq!(compared(&timed.job, &timed.list), Ok(wanted), "{name}");
        }
        let places: usize = timed.places.iter().sum();
        found.push((name, timed.places.len(), places, timed.walked()));
    }
    let wanted: Vec<_> =
        TIMED.iter().map(|&(name, k, places, all)| (name.to_string(), k, places, all)).collect();
    assert_eq!(found, wanted);
}

/// The first of three loops is walked three times, the last once.
#[test]
fn places_walked() {
    assert_eq!(walked(&[100, 10, 1]), 321);
    assert_eq!(walked(&[]), 0);
}
