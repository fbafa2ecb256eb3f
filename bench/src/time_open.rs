//! Times Open on many jobs in a row: jobs with full bodies first, then whether the time is linear
//! in the bytes of a job and in the jobs. The rounds of the openers take turns, and the shortest of
//! each is kept.

use std::hint::black_box;
use std::time::{Duration, Instant};

use reference::limits::{Limits, DIMENSIONS};
use tracer::jobs::to_open;
use tracer::open::{open, open_carefully, Opened};

use crate::archives;

/// Jobs in a row.
const JOBS: usize = 300;
/// Rounds are repeated until about this many bytes are opened, so that short ones go on as long as
/// long ones.
const BYTES_A_FIGURE: usize = 500_000_000;

struct Opener {
    name: &'static str,
    /// The answer to one job.
    answer: fn(&[u8]) -> Result<Opened, u8>,
    /// Opens all the jobs once.
    open_all: fn(&[Vec<u8>]),
}

const OPENERS: &[Opener] = &[
    Opener {
        name: "proved",
        answer: |job| archives::open(job).opened(),
        open_all: |jobs| open_all(archives::open, jobs),
    },
    Opener { name: "plain", answer: open, open_all: |jobs| open_all(open, jobs) },
    Opener {
        name: "careful",
        answer: open_carefully,
        open_all: |jobs| open_all(open_carefully, jobs),
    },
    #[cfg(before)]
    Opener {
        name: "before",
        answer: |job| archives::open_before(job).opened(),
        open_all: |jobs| open_all(archives::open_before, jobs),
    },
];

/// The ratios that are printed, by positions in the list of openers.
const RATIOS: &[(usize, usize)] = &[
    (0, 1),
    (0, 2),
    #[cfg(before)]
    (3, 1),
    #[cfg(before)]
    (0, 3),
];

/// Opens all the jobs, one after another. The answers stay as the opener gives them, so that none
/// is timed with a conversion, and no opener is inlined.
fn open_all<A>(open: fn(&[u8]) -> A, jobs: &[Vec<u8>]) {
    let open = black_box(open);
    for job in jobs {
        black_box(&open(black_box(&job[..])));
    }
}

/// So many jobs, after all openers have been seen to open them to the right answer.
fn agreed(n: usize, terms: usize, count: usize) -> Vec<Vec<u8>> {
    let jobs = to_open(n, terms, count);
    let mut counts = [0; 3];
    counts[..n - 1].fill(terms);
    for job in &jobs {
        for opener in OPENERS {
            let answer = (opener.answer)(job);
            assert_eq!(answer, Ok(Opened { n, terms: counts }), "{} on {job:?}", opener.name);
        }
    }
    jobs
}

fn bytes_of(jobs: &[Vec<u8>]) -> usize {
    jobs.iter().map(Vec::len).sum()
}

/// Nanoseconds a job in the shortest round of each opener.
fn shortest(jobs: &[Vec<u8>]) -> Vec<f64> {
    let mut best = vec![Duration::MAX; OPENERS.len()];
    for _ in 0..BYTES_A_FIGURE / bytes_of(jobs) {
        for (best, opener) in best.iter_mut().zip(OPENERS) {
            let begun = Instant::now();
            (opener.open_all)(jobs);
            *best = (*best).min(begun.elapsed());
        }
    }
    best.iter().map(|round| round.as_nanos() as f64 / jobs.len() as f64).collect()
}

/// The most terms of a body.
fn full(n: usize) -> usize {
    Limits::of(n).terms
}

fn names() -> String {
    OPENERS.iter().map(|opener| format!(" {:>8}", opener.name)).collect()
}

fn full_bodies() {
    let of_names = |&(a, b): &(usize, usize)| format!("{}/{}", OPENERS[a].name, OPENERS[b].name);
    let ratios: String = RATIOS.iter().map(|pair| format!(" {:>14}", of_names(pair))).collect();
    println!("best ns a byte, {JOBS} jobs with full bodies in a row");
    println!("{:>2} {:>6} {:>6}{}{ratios}", "n", "terms", "bytes", names());
    for n in DIMENSIONS {
        let jobs = agreed(n, full(n), JOBS);
        let (bytes, times) = (jobs[0].len(), shortest(&jobs));
        print!("{n:>2} {:>6} {bytes:>6}", full(n));
        times.iter().for_each(|ns| print!(" {:>8.3}", ns / bytes as f64));
        RATIOS.iter().for_each(|&(a, b)| print!(" {:>14.2}", times[a] / times[b]));
        println!();
    }
}

/// Times a job, a byte, and a byte that the row has more than the row before.
fn by_terms() {
    println!(
        "\nbest ns a job, a byte, and a byte more than in the row before; {JOBS} jobs in a row"
    );
    print!("{:>2} {:>6} {:>6}", "n", "terms", "bytes");
    OPENERS.iter().for_each(|opener| print!(" {:>8} {:>7} {:>7}", opener.name, "byte", "more"));
    println!();
    for n in DIMENSIONS {
        let mut row_before: Option<(usize, Vec<f64>)> = None;
        for terms in [1].into_iter().chain((10..full(n)).step_by(10)).chain([full(n)]) {
            let jobs = agreed(n, terms, JOBS);
            let (bytes, times) = (jobs[0].len(), shortest(&jobs));
            print!("{n:>2} {terms:>6} {bytes:>6}");
            for (k, ns) in times.iter().enumerate() {
                let more = row_before.as_ref().map_or(String::new(), |(fewer, before)| {
                    format!("{:.3}", (ns - before[k]) / (bytes - fewer) as f64)
                });
                print!(" {ns:>8.1} {:>7.3} {more:>7}", ns / bytes as f64);
            }
            println!();
            row_before = Some((bytes, times));
        }
    }
}

fn by_jobs() {
    println!("\nbest ns a job, so many jobs with full bodies in a row");
    println!("{:>2} {:>6}{}", "n", "jobs", names());
    for n in DIMENSIONS {
        for count in [100, 200, 400, 800] {
            print!("{n:>2} {count:>6}");
            shortest(&agreed(n, full(n), count)).iter().for_each(|ns| print!(" {ns:>8.1}"));
            println!();
        }
    }
}

pub fn all() {
    full_bodies();
    by_terms();
    by_jobs();
}

/// One opener on the jobs of a dimension with so many terms a body, so many times; prints the bytes
/// of one time.
pub fn run(opener: &str, n: &str, terms: &str, times: &str) {
    let known = OPENERS.iter().find(|known| known.name == opener);
    let known = known.unwrap_or_else(|| panic!("no opener {opener}"));
    let n: usize = n.parse().expect("a dimension");
    let terms = match terms {
        "full" => full(n),
        count => count.parse().expect("how many terms, or full"),
    };
    let times: usize = times.parse().expect("how many times");
    let jobs = to_open(n, terms, JOBS);
    for _ in 0..times {
        (known.open_all)(black_box(&jobs));
    }
    println!("{}", bytes_of(&jobs));
}
