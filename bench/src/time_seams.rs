//! Times the list of seams, job by job: buffers cleared before timing, the rounds of the listers
//! taking turns, the shortest call of each kept. Last the four outlines of document 001's example 1.

use std::hint::black_box;
use std::path::Path;
use std::time::{Duration, Instant};

use reference::job::open;
use reference::operations::Verdict;
use tracer::seam_jobs::{facets_of_box, seam_jobs, SeamJob};
use tracer::seams_plain::{seams_with, Listed};
use tracer::{seams_careful, seams_plain};

use crate::archives;
use crate::time_trace::{buffer_for, read, Trace, TRACERS};

/// Places that a buffer holds: more than any job here has seams.
const SPACE: usize = 100;
/// Calls are repeated until about so many facets are gone through, within these limits.
const FACETS_A_FIGURE: u64 = 20_000_000;
const LEAST_ROUNDS: u64 = 5;
const MOST_ROUNDS: u64 = 200;

type Lister = fn(&[u8], &mut [u8]) -> Listed;

/// The proved one first: the others are what it is compared with.
const LISTERS: &[(&str, Lister)] = &[
    ("proved", archives::seams),
    ("plain", seams_plain::seams),
    ("careful", seams_careful::seams),
    #[cfg(before_seams)]
    ("before", archives::seams_before),
];

/// The count of seams, after all listers have been seen to write the same and nothing more.
fn agreed(name: &str, job: &[u8]) -> usize {
    let written = |list: Lister| {
        let mut buffer = buffer_for(job, SPACE);
        buffer.fill(0x5a);
        (list(job, &mut buffer), buffer)
    };
    let first = written(LISTERS[0].1);
    for &(lister, list) in &LISTERS[1..] {
        let other = written(list);
        assert_eq!(other.0, first.0, "{lister} on {name}");
        assert!(other.1 == first.1, "{lister} on {name}: other bytes");
    }
    assert!(!first.0.full, "{name} has more seams");
    first.0.count
}

fn facets(job: &[u8]) -> u64 {
    facets_of_box(&open(job).expect("a job that opens"))
}

/// How many facets are crossed, and the steps for all of them: counted by the plain lister.
fn walked(job: &[u8]) -> (u64, u64) {
    let (mut crossed, mut steps) = (0, 0);
    seams_with(job, &mut buffer_for(job, SPACE), |more| {
        crossed += 1;
        steps += more;
    });
    (crossed, steps)
}

/// The shortest call of each kind, in so many rounds in which they take turns.
pub fn shortest(
    rounds: u64,
    kinds: usize,
    mut call: impl FnMut(usize) -> Duration,
) -> Vec<Duration> {
    let mut best = vec![Duration::MAX; kinds];
    for _ in 0..rounds {
        for (kind, best) in best.iter_mut().enumerate() {
            *best = (*best).min(call(kind));
        }
    }
    best
}

/// One call of a lister on a cleared buffer.
fn timed(list: Lister, job: &[u8], buffer: &mut [u8]) -> Duration {
    buffer.fill(0);
    let begun = Instant::now();
    black_box(list(black_box(job), black_box(buffer)));
    begun.elapsed()
}

fn row(timed_job: &SeamJob) {
    let SeamJob { n, side, curve, job } = timed_job;
    let seams = agreed(&timed_job.name(), job);
    let (facets, (crossed, steps)) = (facets(job), walked(job));
    let rounds = (FACETS_A_FIGURE / facets).clamp(LEAST_ROUNDS, MOST_ROUNDS);
    let mut buffer = buffer_for(job, SPACE);
    let best = shortest(rounds, LISTERS.len(), |k| timed(LISTERS[k].1, job, &mut buffer));
    let times: Vec<f64> = best.iter().map(|t| t.as_nanos() as f64 / facets as f64).collect();
    print!("{n} {side:>4} {curve:<16} {facets:>8} {crossed:>7} {seams:>5}");
    print!(" {:>6.2}", steps as f64 / crossed as f64);
    times.iter().for_each(|ns| print!(" {ns:>8.1}"));
    times[1..].iter().for_each(|ns| print!(" {:>15.2}", times[0] / ns));
    println!();
}

fn head() {
    println!("best ns a facet of the box; steps a crossed facet");
    print!("n side {:<16} {:>8} {:>7} {:>5} {:>6}", "curve", "facets", "crossed", "seams", "steps");
    LISTERS.iter().for_each(|(name, _)| print!(" {name:>8}"));
    LISTERS[1..].iter().for_each(|(name, _)| print!(" {:>15}", format!("proved/{name}")));
    println!();
}

/// The buffers for all the outlines of a job, and the job with the start that is set.
struct Outlines {
    size: usize,
    job: Vec<u8>,
    listed: Vec<u8>,
    places: Vec<u8>,
}

impl Outlines {
    fn of(job: &[u8]) -> Outlines {
        Outlines {
            size: 3 * job[1] as usize,
            job: job.to_vec(),
            listed: buffer_for(job, SPACE),
            places: buffer_for(job, crate::time_trace::SPACE),
        }
    }

    fn clear(&mut self) {
        self.listed.fill(0);
        self.places.fill(0);
    }

    /// Lists the seams and traces each from its place, which are loops; gives their places.
    fn trace(&mut self, list: Lister, trace: Trace) -> usize {
        let seams = list(&self.job, &mut self.listed).count;
        let start = self.job.len() - self.size;
        let mut written = 0;
        for place in self.listed.chunks_exact(self.size).take(seams) {
            self.job[start..].copy_from_slice(place);
            let answer = trace(&self.job, &mut self.places[self.size * written..]);
            let (verdict, count) = answer.expect("no refusal");
            assert_eq!(verdict, Verdict::Loop);
            written += count;
        }
        written
    }
}

/// Document 001's example 1, whose published time is that of all its four outlines.
fn document_001() {
    let file = Path::new(env!("CARGO_MANIFEST_DIR")).join("../examples/document_001_example_1.job");
    let job = read(&file.to_string_lossy());
    let seams = agreed("example 1", &job);
    let mut outlines = Outlines::of(&job);
    // Listers and tracers have the same names in the same order.
    let tracer = |k: usize| TRACERS[k].1;
    let places = outlines.trace(LISTERS[0].1, tracer(0));
    println!("\ndocument 001, example 1: {seams} outlines, {places} places; published: 32 ms");
    print!("{:<24}", "best ms");
    LISTERS.iter().for_each(|(name, _)| print!(" {name:>8}"));
    println!();
    let print_row = |what: &str, best: Vec<Duration>| {
        print!("{what:<24}");
        best.iter().for_each(|call| print!(" {:>8.3}", call.as_secs_f64() * 1000.0));
        println!();
    };
    let mut buffer = buffer_for(&job, SPACE);
    let listed = shortest(MOST_ROUNDS, LISTERS.len(), |k| timed(LISTERS[k].1, &job, &mut buffer));
    print_row("listed", listed);
    let traced = shortest(MOST_ROUNDS, LISTERS.len(), |k| {
        outlines.clear();
        let begun = Instant::now();
        assert_eq!(black_box(outlines.trace(LISTERS[k].1, tracer(k))), places);
        begun.elapsed()
    });
    print_row("listed and all traced", traced);
}

pub fn all() {
    head();
    seam_jobs().iter().for_each(row);
    document_001();
}

/// One lister on one job, so many times; prints the facets of the box.
pub fn run(lister: &str, file: &str, times: &str) {
    let known = LISTERS.iter().find(|(name, _)| *name == lister);
    let (_, list) = known.unwrap_or_else(|| panic!("no lister {lister}"));
    let times: usize = times.parse().expect("how many times");
    let job = read(file);
    let mut buffer = buffer_for(&job, SPACE);
    for _ in 0..times {
        black_box(list(black_box(&job), black_box(&mut buffer)));
    }
    println!("{}", facets(&job));
}
