//! Every row of examples/README.md: verdict and count of the job's start, and the curve of its
//! facet by brute force over the box.

use std::collections::HashSet;
use std::path::{Path, PathBuf};

use reference::curve::Joints;
use reference::job::open;
use reference::listing::SPACE;
use reference::operations::{trace_places, with_start, Verdict};

fn examples() -> PathBuf {
    Path::new(env!("CARGO_MANIFEST_DIR")).join("../../examples")
}

/// Name, verdict and count, curve, of each row of the table of jobs, which is the first that has
/// names; the page may have other tables behind it.
fn rows() -> Vec<[String; 3]> {
    let text = std::fs::read_to_string(examples().join("README.md")).expect("the table");
    let cells = |line: &str| -> Vec<String> {
        line.split('|').map(|cell| cell.trim().to_string()).collect()
    };
    let table = text.lines().skip_while(|line| !line.starts_with("| Name")).skip(2);
    table
        .take_while(|line| line.starts_with("| "))
        .map(|line| {
            let c = cells(line);
            [c[1].clone(), c[3].clone(), c[4].clone()]
        })
        .collect()
}

#[test]
fn each_row_holds() {
    let rows = rows();
    for [name, answer, whole] in &rows {
        let bytes = std::fs::read(examples().join(format!("{name}.job"))).expect("a job file");
        let job = open(&bytes).expect("a job that opens");
        let (verdict, forth) = trace_places(&job, SPACE).expect("no refusal");
        assert_eq!(format!("{} {}", verdict.word(), forth.len()), *answer, "{name}");
        let joints = Joints::of(&job);
        let curve = joints.curve(&job.start.facet);
        let closed = joints.closes(&curve);
        let ending = if closed { "closes" } else { "does not close" };
        assert_eq!(format!("{} facets, {ending}", curve.len()), *whole, "{name}");
        // The two traces from the start list the curve.
        let turned = open(&with_start(&bytes, &job.start.turned())).expect("a job that opens");
        let (turned_verdict, back) = trace_places(&turned, SPACE).expect("no refusal");
        let listed: HashSet<_> = forth.iter().chain(&back).map(|p| p.facet).collect();
        assert_eq!(listed, curve, "{name}");
        let loops = [verdict, turned_verdict].map(|v| v == Verdict::Loop);
        assert_eq!(loops, [closed, closed], "{name}");
        let listed_twice = if closed { curve.len() } else { 1 };
        assert_eq!(forth.len() + back.len(), curve.len() + listed_twice, "{name}");
    }
    let files = std::fs::read_dir(examples()).expect("the examples");
    let jobs = files
        .filter(|f| f.as_ref().expect("a file").path().extension().is_some_and(|e| e == "job"));
    assert_eq!(jobs.count(), rows.len(), "each job file has a row");
}
