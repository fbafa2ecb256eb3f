//! Times the order of cutting, list by list: the rounds take turns, the shortest call of each is
//! kept. Printed by the places that are walked without a table, so that the ratios are those of the
//! calls.

use std::hint::black_box;
use std::path::{Path, PathBuf};
use std::time::{Duration, Instant};

use reference::operations::Verdict;
use reference::order::CutOrder;
use tracer::order_jobs::{order_jobs, walked, OrderJob};
use tracer::{order_plain, order_table, plain};

use crate::archives;
use crate::time_seams::shortest;
use crate::time_trace::{buffer_for, read};

/// Calls are repeated until about so many places are walked, within these limits.
const PLACES_A_FIGURE: u64 = 4_000_000;
const LEAST_ROUNDS: u64 = 10;
const MOST_ROUNDS: u64 = 3_000;

type Order = fn(&[u8], &[u8]) -> Result<CutOrder, u8>;

/// The proved one first: the others are what it is compared with.
const ORDERS: &[(&str, Order)] = &[
    ("proved", archives::cut_order),
    ("plain", order_plain::cut_order),
    ("narrow", order_plain::cut_order_narrow),
    ("table", order_table::cut_order),
    #[cfg(before_order)]
    ("before", archives::cut_order_before),
];

/// All give the same answer, which is no refusal.
fn assert_agreed(name: &str, job: &[u8], list: &[u8]) {
    let first = ORDERS[0].1(job, list);
    assert!(first.is_ok(), "{name}: {first:?}");
    for &(order, cut_order) in &ORDERS[1..] {
        assert_eq!(cut_order(job, list), first, "{order} on {name}");
    }
}

fn timed(cut_order: Order, job: &[u8], list: &[u8]) -> Duration {
    let begun = Instant::now();
    let answer = cut_order(black_box(job), black_box(list));
    let time = begun.elapsed();
    black_box(answer).expect("no refusal");
    time
}

fn row(timed_job: &OrderJob) {
    let OrderJob { side, curve, job, list, places } = timed_job;
    assert_agreed(&timed_job.name(), job, list);
    let walked = timed_job.walked();
    let rounds = (PLACES_A_FIGURE / walked as u64).clamp(LEAST_ROUNDS, MOST_ROUNDS);
    let best = shortest(rounds, ORDERS.len(), |k| timed(ORDERS[k].1, job, list));
    let times: Vec<f64> = best.iter().map(|t| t.as_nanos() as f64 / walked as f64).collect();
    let all: usize = places.iter().sum();
    print!("{side:>4} {curve:<12} {:>5} {all:>6} {walked:>8}", places.len());
    times.iter().for_each(|ns| print!(" {ns:>8.2}"));
    times[1..].iter().for_each(|ns| print!(" {:>15.2}", times[0] / ns));
    println!(" {:>9.3}", best[0].as_secs_f64() * 1000.0);
}

pub fn all() {
    println!("best ns a place walked; all by the places walked without a table");
    print!("side {:<12} {:>5} {:>6} {:>8}", "curve", "loops", "places", "walked");
    ORDERS.iter().for_each(|(name, _)| print!(" {name:>8}"));
    ORDERS[1..].iter().for_each(|(name, _)| print!(" {:>15}", format!("proved/{name}")));
    println!(" {:>9}", "proved ms");
    order_jobs().iter().for_each(row);
}

/// The file of the places that belong to a job file.
pub fn places_of(file: &Path) -> PathBuf {
    file.with_extension("places")
}

/// How many places each loop of a list has.
fn places_in(job: &[u8], list: &[u8]) -> Vec<usize> {
    let size = 3 * job[1] as usize;
    let (mut at, mut buffer) = (job.to_vec(), buffer_for(job, crate::time_trace::SPACE));
    let mut places = |place: &[u8]| {
        let start = at.len() - size;
        at[start..].copy_from_slice(place);
        let (verdict, count) = plain::trace(&at, &mut buffer).expect("no refusal");
        assert_eq!(verdict, Verdict::Loop);
        count
    };
    list.chunks_exact(size).map(|place| places(place)).collect()
}

/// One order on one job with its list, so many times; prints the places walked of one.
pub fn run(order: &str, file: &str, times: &str) {
    let known = ORDERS.iter().find(|(name, _)| *name == order);
    let (_, cut_order) = known.unwrap_or_else(|| panic!("no order {order}"));
    let times: usize = times.parse().expect("how many times");
    let (job, list) = (read(file), read(&places_of(Path::new(file)).to_string_lossy()));
    for _ in 0..times {
        black_box(cut_order(black_box(&job), black_box(&list))).expect("no refusal");
    }
    println!("{}", walked(&places_in(&job, &list)));
}
