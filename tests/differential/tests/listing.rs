//! The listing program against the reference's text.

use std::io::{Read, Write};
use std::path::PathBuf;
use std::process::{Command, Stdio};

use library::answers::{and_those_of_open, Answers};
use reference::build::{case_a, case_c, gathered, place, power_of, term, Parts};
use reference::generate::{any_job, valid, valid_for_rounding, Bias, JobTally, Random};
use reference::job::open;
use reference::listing::listing;
use reference::marked::{upright, CASE_A_LISTING, CASE_C_4_LISTING, UPRIGHT_LISTINGS};
use reference::roundings_met::RoundingsMet;
use reference::sums_met::{SumsMet, AROUND_BIAS, NOT_READABLE};
use reference::tally::{Answer, Named, Tally};

/// The program; the test fails if it has not been built.
fn program() -> PathBuf {
    let path = PathBuf::from(env!("CARGO_MANIFEST_DIR")).join("../../crates/listing/out/listing");
    assert!(path.exists(), "the listing program is missing: build crates/listing/out/listing first");
    path
}

/// What the program writes, and that it ends with status 0.
fn printed(job: &[u8]) -> String {
    let mut child = Command::new(program())
        .stdin(Stdio::piped())
        .stdout(Stdio::piped())
        .spawn()
        .expect("the listing program starts");
    // A program that has read its fill may close the pipe: that is no failure.
    child.stdin.take().expect("a pipe").write_all(job).ok();
    let mut text = String::new();
    child.stdout.take().expect("a pipe").read_to_string(&mut text).expect("a text");
    assert!(child.wait().expect("an end").success(), "status of the listing program");
    text
}

#[test]
fn cases_and_lengths() {
    assert_eq!(printed(&case_a().bytes()), CASE_A_LISTING);
    assert_eq!(printed(&case_c(4).bytes()), CASE_C_4_LISTING);
    for (counts, text) in UPRIGHT_LISTINGS {
        for turned in (0..counts.len()).map(Some).chain([None]) {
            assert_eq!(printed(&upright(counts, turned).bytes()), text);
        }
    }
    for length in [0, 1, 3, 4, 2047, 2048, 2049, 4096, 70_000] {
        for first in [0, 1] {
            let mut job = vec![0; length];
            if length > 0 {
                job[0] = first;
            }
            assert_eq!(printed(&job), listing(&job), "{length} bytes, the first {first}");
        }
        let mut job = case_a().bytes();
        job.resize(length.max(job.len()), 0);
        assert_eq!(printed(&job), listing(&job), "case A in {length} bytes");
    }
}

#[test]
fn examples() {
    let examples = PathBuf::from(env!("CARGO_MANIFEST_DIR")).join("../../examples");
    let mut count = 0;
    for entry in std::fs::read_dir(examples).expect("the examples") {
        let path = entry.expect("a file").path();
        if path.extension().is_some_and(|e| e == "job") {
            let job = std::fs::read(&path).expect("a job file");
            assert_eq!(printed(&job), listing(&job), "{}", path.display());
            count += 1;
        }
    }
    assert!(count > 0);
}

/// A straight line across the largest box of dimension 4 has more places than the space holds.
#[test]
fn a_trace_longer_than_the_space() {
    let sum = |axis: usize| [axis, axis + 1].map(|a| term(1, &power_of(a, 1)));
    let line = Parts {
        ends: vec![(-256, 256); 4],
        polynomials: (1..4).map(|axis| gathered(&sum(axis))).collect(),
        start: place(&[250, -250, 250, -250], &[1, 3, 7], 0),
        ..case_c(4)
    };
    let text = printed(&line.bytes());
    assert_eq!(text.lines().next(), Some("4 full 4096"));
    assert!(text == listing(&line.bytes()));
}

/// What a listing says in its first line: the refusal or the verdict.
fn answer(text: &str) -> Answer {
    let words: Vec<&str> = text.lines().next().expect("a line").split(' ').collect();
    match words[..] {
        ["refused", number] => Err(number.parse().expect("a number")),
        [_, verdict, _] => {
            let known = ["loop", "edge", "limit", "full"].into_iter().find(|v| *v == verdict);
            Ok(known.expect("a verdict"))
        }
        _ => panic!("{text}"),
    }
}

/// Jobs to list, each with its dimension and the name of its bias.
fn jobs() -> Vec<(usize, Bias, Vec<u8>)> {
    let mut r = Random::new(23);
    let (mut any, mut made) = (JobTally::default(), Tally::default());
    let mut sums = SumsMet::default();
    let mut jobs = Vec::new();
    for _ in 0..6_000 {
        let job = any_job(&mut r);
        any.count(&job);
        jobs.push((job.n(), job.made.bias, job.bytes));
        let (names, parts) = valid(&mut r);
        made.count(parts.n, names);
        sums.count(&parts.opened(), &parts.start);
        jobs.push((parts.n, names.bias, parts.bytes()));
    }
    any.assert_all();
    made.assert_all();
    sums.assert_includes(&[AROUND_BIAS, NOT_READABLE]);
    // Curves with many halves of a step.
    for _ in 0..3_000 {
        let (names, parts) = valid_for_rounding(&mut r);
        jobs.push((parts.n, names.bias, parts.bytes()));
    }
    jobs
}

/// The listing of the same job at bias 0.
fn listing_at_bias_0(job: &[u8]) -> String {
    let mut plain = job.to_vec();
    plain.iter_mut().skip(3).take(1).for_each(|bias| *bias = 0);
    listing(&plain)
}

/// Counts the coordinates of the lines behind the first: lowest vertex, masks, point in steps.
fn count_roundings(roundings: &mut RoundingsMet, job: &[u8], text: &str) {
    let Ok(job) = open(job) else { return };
    let n = job.n;
    for line in text.lines().skip(1) {
        let words = line.split(' ').map(|word| word.parse().expect("a number"));
        let numbers: Vec<i64> = words.collect();
        let (facet, steps) = numbers.split_at(2 * n - 1);
        let masks: Vec<u8> = facet[n..].iter().map(|&mask| mask as u8).collect();
        roundings.count(&job, &place(&facet[..n], &masks, 0).facet, steps);
    }
}

#[test]
fn listing_is_the_reference() {
    let jobs = jobs();
    // Most of the time goes into starting the program, so a few are started side by side.
    let compare = |(_, _, job): &(usize, Bias, Vec<u8>)| {
        let wanted = listing(job);
        assert_eq!(printed(job), wanted, "{job:?}");
        let differs = wanted != listing_at_bias_0(job);
        (wanted, differs)
    };
    let compared: Vec<(String, bool)> = std::thread::scope(|scope| {
        let parts = jobs.chunks(jobs.len() / 4);
        let compare_all = |part: &[_]| part.iter().map(compare).collect::<Vec<_>>();
        let threads: Vec<_> = parts.map(|part| scope.spawn(move || compare_all(part))).collect();
        threads.into_iter().flat_map(|thread| thread.join().expect("no difference")).collect()
    });
    let (mut answers, mut changed) = (Answers::default(), Tally::default());
    let mut roundings = RoundingsMet::default();
    for ((n, bias, job), (text, differs)) in jobs.iter().zip(&compared) {
        answers.count(*n, *bias, answer(text));
        if *differs {
            changed.count(*n, *bias);
        }
        count_roundings(&mut roundings, job, text);
    }
    let own = [Err(9), Err(10), Err(11), Ok("loop"), Ok("edge"), Ok("limit")];
    answers.assert_includes(&and_those_of_open(&own));
    changed.assert_includes(&Bias::all()[1..]);
    roundings.assert_often(50);
    roundings.assert_halves(150);
}
