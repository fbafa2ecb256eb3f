//! Times the writing of jobs from loose bodies: jobs in a row, each to a buffer of its own, all
//! buffers cleared before timing. The rounds of the writers take turns, and the shortest of each is
//! kept.

use std::hint::black_box;
use std::time::{Duration, Instant};

use tracer::write_jobs::{taken_apart, write_jobs, WriteJobs};
use tracer::write_plain::{write_job, write_job_carefully, Loose};

use crate::archives;
use crate::time_seams::shortest;

/// The bytes of a buffer: more than any job has, and whole cache lines.
const ROOM: usize = 1_792;
/// Rounds are repeated until about this many bytes are written.
const BYTES_A_FIGURE: usize = 200_000_000;

struct Writer {
    name: &'static str,
    /// The answer for one job.
    answer: fn(&Loose, &mut [u8]) -> Result<usize, u8>,
    /// Writes all the jobs once.
    write_all: fn(&[Loose], &mut [u8]),
}

/// The proved one first: the others are what it is compared with.
const WRITERS: &[Writer] = &[
    Writer {
        name: "proved",
        answer: |loose, buffer| archives::write_job(loose, buffer).written(),
        write_all: |jobs, room| write_all(archives::write_job, jobs, room),
    },
    Writer {
        name: "plain",
        answer: write_job,
        write_all: |jobs, room| write_all(write_job, jobs, room),
    },
    Writer {
        name: "careful",
        answer: write_job_carefully,
        write_all: |jobs, room| write_all(write_job_carefully, jobs, room),
    },
    #[cfg(before_write)]
    Writer {
        name: "before",
        answer: |loose, buffer| archives::write_job_before(loose, buffer).written(),
        write_all: |jobs, room| write_all(archives::write_job_before, jobs, room),
    },
];

/// Writes all the jobs, one after another. The answers stay as the writer gives them, so that none
/// is timed with a conversion, and no writer is inlined.
fn write_all<A>(write: fn(&Loose, &mut [u8]) -> A, jobs: &[Loose], room: &mut [u8]) {
    let write = black_box(write);
    for (loose, buffer) in jobs.iter().zip(room.chunks_exact_mut(ROOM)) {
        black_box(&write(black_box(loose), black_box(buffer)));
    }
}

/// One writer on one job, to a buffer of that length: the job stands at its front and bytes behind it
/// are kept, or it is too short and nothing is written.
fn assert_written(writer: &Writer, job: &[u8], loose: &Loose, length: usize) {
    let mut buffer = vec![0x5a; length];
    let mut wanted = (Err(16), buffer.clone());
    if let Some(front) = wanted.1.get_mut(..job.len()) {
        front.copy_from_slice(job);
        wanted.0 = Ok(job.len());
    }
    let answer = (writer.answer)(loose, &mut buffer);
    assert_eq!(answer, wanted.0, "{} on {loose:?}", writer.name);
    assert!(buffer == wanted.1, "{} on {loose:?}: other bytes", writer.name);
}

/// The loose bodies, after all writers have been seen to write each job from its own.
fn agreed(timed: &WriteJobs) -> Vec<Loose<'_>> {
    let apart: Vec<Loose> = timed.jobs.iter().map(|job| taken_apart(job)).collect();
    for (job, loose) in timed.jobs.iter().zip(&apart) {
        for writer in WRITERS {
            for length in [job.len() - 1, job.len(), ROOM] {
                assert_written(writer, job, loose, length);
            }
        }
    }
    apart
}

/// One round of a writer, on cleared buffers.
fn round(writer: &Writer, jobs: &[Loose], room: &mut [u8]) -> Duration {
    room.fill(0);
    let begun = Instant::now();
    (writer.write_all)(jobs, room);
    begun.elapsed()
}

fn row(timed: &WriteJobs) {
    let (jobs, bytes) = (agreed(timed), timed.jobs[0].len());
    let mut room = vec![0; ROOM * jobs.len()];
    let rounds = (BYTES_A_FIGURE / (bytes * jobs.len())) as u64;
    let best = shortest(rounds, WRITERS.len(), |k| round(&WRITERS[k], &jobs, &mut room));
    let times: Vec<f64> = best.iter().map(|t| t.as_nanos() as f64 / jobs.len() as f64).collect();
    print!("{:<8} {bytes:>6}", timed.name);
    times.iter().for_each(|ns| print!(" {ns:>8.1}"));
    times[1..].iter().for_each(|ns| print!(" {:>15.2}", times[0] / ns));
    println!();
}

pub fn all() {
    println!("best ns a job, {} jobs in a row", tracer::write_jobs::JOBS);
    print!("{:<8} {:>6}", "jobs", "bytes");
    WRITERS.iter().for_each(|writer| print!(" {:>8}", writer.name));
    WRITERS[1..].iter().for_each(|w| print!(" {:>15}", format!("proved/{}", w.name)));
    println!();
    write_jobs().iter().for_each(row);
}

/// One writer on the jobs of a name, so many times; prints the jobs of one time.
pub fn run(writer: &str, name: &str, times: &str) {
    let known = WRITERS.iter().find(|known| known.name == writer);
    let known = known.unwrap_or_else(|| panic!("no writer {writer}"));
    let all = write_jobs();
    let timed = all.iter().find(|timed| timed.name == name);
    let timed = timed.unwrap_or_else(|| panic!("no jobs {name}"));
    let times: usize = times.parse().expect("how many times");
    let jobs: Vec<Loose> = timed.jobs.iter().map(|job| taken_apart(job)).collect();
    let mut room = vec![0; ROOM * jobs.len()];
    for _ in 0..times {
        (known.write_all)(black_box(&jobs), black_box(&mut room));
    }
    println!("{}", jobs.len());
}
