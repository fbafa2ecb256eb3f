//! The program that lists the seams against the reference's text.

use std::io::{Read, Write};
use std::path::PathBuf;
use std::process::{Command, Stdio};

use library::answers::and_those_of_open;
use reference::build::case_a;
use reference::generate::{any_job_in_small_box, any_outlines, Random};
use reference::job::open;
use reference::limits::DIMENSIONS;
use reference::long_curves::long_curves;
use reference::many_seams::many_seams;
use reference::marked::seams_listings;
use reference::seams_checks::is_small;
use reference::seams_listing::seams_listing;
use reference::tally::{Answer, Tally};

/// The program; the test fails if it has not been built.
fn program() -> PathBuf {
    let path = PathBuf::from(env!("CARGO_MANIFEST_DIR")).join("../../crates/seams/out/seams");
    assert!(path.exists(), "the program is missing: build crates/seams/out/seams first");
    path
}

/// What the program writes, and that it ends with status 0.
fn printed(job: &[u8]) -> String {
    let mut child = Command::new(program())
        .stdin(Stdio::piped())
        .stdout(Stdio::piped())
        .spawn()
        .expect("the program starts");
    // A program that has read its fill may close the pipe: that is no failure.
    child.stdin.take().expect("a pipe").write_all(job).ok();
    let mut text = String::new();
    child.stdout.take().expect("a pipe").read_to_string(&mut text).expect("a text");
    assert!(child.wait().expect("an end").success(), "status of the program");
    text
}

#[test]
fn cases_and_lengths() {
    for (parts, text) in seams_listings() {
        assert_eq!(printed(&parts.bytes()), text);
    }
    for length in [0, 1, 3, 4, 2047, 2048, 2049, 4096, 70_000] {
        for first in [0, 1] {
            let mut job = vec![0; length];
            if length > 0 {
                job[0] = first;
            }
            assert_eq!(printed(&job), seams_listing(&job), "{length} bytes, the first {first}");
        }
        let mut job = case_a().bytes();
        job.resize(length.max(job.len()), 0);
        assert_eq!(printed(&job), seams_listing(&job), "case A in {length} bytes");
    }
}

#[test]
fn examples() {
    let examples = PathBuf::from(env!("CARGO_MANIFEST_DIR")).join("../../examples");
    let mut count = 0;
    for entry in std::fs::read_dir(examples).expect("the examples") {
        let path = entry.expect("a file").path();
        if path.extension().is_some_and(|e| e == "job") {
            let job = std::fs::read(&path).expect("a job file");
            assert_eq!(printed(&job), seams_listing(&job), "{}", path.display());
            count += 1;
        }
    }
    assert!(count > 0);
}

/// In dimension 3 there are more seams than the space holds.
#[test]
fn more_seams_than_space() {
    let first = ["2 complete 319", "3 full 4096", "4 complete 852"];
    for ((parts, _), first) in many_seams().iter().zip(first) {
        let text = printed(&parts.bytes());
        assert_eq!(text.lines().next(), Some(first));
        assert!(text == seams_listing(&parts.bytes()), "another text behind {first}");
    }
}

/// A trace of more places than the listing has space for is followed to its end.
#[test]
fn a_long_seam() {
    let [(parts, count), ..] = long_curves();
    let text = printed(&parts.bytes());
    assert!(text.lines().any(|line| line.ends_with(&format!(" loop {count}"))));
    assert!(text == seams_listing(&parts.bytes()));
}

/// What a text says in its first line: the refusal or the ending.
fn answer(text: &str) -> Answer {
    let words: Vec<&str> = text.lines().next().expect("a line").split(' ').collect();
    match words[..] {
        ["refused", number] => Err(number.parse().expect("a number")),
        [_, "complete", _] => Ok("complete"),
        [_, "full", _] => Ok("full"),
        _ => panic!("{text}"),
    }
}

/// The verdict in a line behind the first.
fn verdict(line: &str) -> &'static str {
    let words: Vec<&str> = line.split(' ').collect();
    let known = ["loop", "edge", "limit"].into_iter().find(|v| *v == words[words.len() - 2]);
    known.expect("a verdict")
}

/// Jobs to list, each with its dimension and whether it has a bias.
fn jobs() -> Vec<(usize, bool, Vec<u8>)> {
    let mut r = Random::new(88);
    let mut made = Tally::default();
    let mut jobs = Vec::new();
    for _ in 0..2_000 {
        let job = any_job_in_small_box(&mut r);
        if open(&job.bytes).map_or(true, |opened| is_small(&opened)) {
            jobs.push((job.n(), job.bytes.get(3).is_some_and(|&bias| bias > 0), job.bytes));
        }
        let (kind, parts) = any_outlines(&mut r);
        made.count(parts.n, kind);
        jobs.push((parts.n, parts.bias > 0, parts.bytes()));
    }
    made.assert_all();
    jobs
}

#[test]
fn texts_are_the_reference() {
    let jobs = jobs();
    // Most of the time goes into starting the program, so a few are started side by side.
    let compare = |(_, _, job): &(usize, bool, Vec<u8>)| {
        let wanted = seams_listing(job);
        assert_eq!(printed(job), wanted, "{job:?}");
        wanted
    };
    let compared: Vec<String> = std::thread::scope(|scope| {
        let parts = jobs.chunks(jobs.len() / 4);
        let compare_all = |part: &[_]| part.iter().map(compare).collect::<Vec<_>>();
        let threads: Vec<_> = parts.map(|part| scope.spawn(move || compare_all(part))).collect();
        threads.into_iter().flat_map(|thread| thread.join().expect("no difference")).collect()
    });
    let (mut answers, mut verdicts, mut counts) =
        (Tally::default(), Tally::default(), Tally::default());
    for ((n, has_bias, _), text) in jobs.iter().zip(&compared) {
        answers.count(*n, answer(text));
        if answer(text).is_ok() {
            text.lines().skip(1).for_each(|line| verdicts.count(*n, (*has_bias, verdict(line))));
            counts.count(*n, (text.lines().count() - 1).min(4));
        }
    }
    answers.assert_met(&and_those_of_open(&[Ok("complete")]));
    let each = ["loop", "edge", "limit"].into_iter();
    let wanted: Vec<_> = each.flat_map(|v| [(false, v), (true, v)]).collect();
    DIMENSIONS.into_iter().for_each(|n| verdicts.assert_often_in(n, 5, &wanted));
    counts.assert_often(1, &[0, 1, 2, 3, 4]);
}
