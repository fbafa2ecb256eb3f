//! Every curve of a job's box, by brute force: reads a job from standard input, whose start
//! counts only for its form, and prints for each curve its least facet, how many facets it has
//! and whether it closes.

use std::io::Read;
use std::process::ExitCode;

use reference::curve::Joints;
use reference::job::open;

fn main() -> ExitCode {
    let mut bytes = Vec::new();
    if std::io::stdin().read_to_end(&mut bytes).is_err() {
        return ExitCode::FAILURE;
    }
    let job = match open(&bytes) {
        Ok(job) => job,
        Err(number) => {
            println!("refused {number}");
            return ExitCode::FAILURE;
        }
    };
    let joints = Joints::of(&job);
    for curve in joints.curves() {
        let least = curve.iter().min().expect("a curve has a facet");
        println!(
            "start {:?} masks {:?}: {} facets, {}",
            &least.lowest[..job.n],
            &least.masks[..job.n - 1],
            curve.len(),
            if joints.closes(&curve) { "closes" } else { "does not close" }
        );
    }
    ExitCode::SUCCESS
}
