//! Times the proved library's Trace, list of seams, order of cutting, Open, writing of jobs and reading
//! of formulas against Rust made for the purpose: all optimised, on the same jobs, within one run. With
//! an earlier state of the library linked (`build.rs`), that is timed too, under the name `before`.
//!
//!     bench                        Trace on the jobs of `jobs.rs`
//!     bench FILE..                 Trace on these job files
//!     bench linear                 Trace on the curves of `long_curves.rs`, with more and more space
//!     bench seams                  the list of seams on the jobs of `seam_jobs.rs`, and on example 1
//!                                  of document 001
//!     bench order                  the order of cutting on the lists of `order_jobs.rs`
//!     bench open                   Open on jobs in a row
//!     bench writing                the writing of the jobs of `write_jobs.rs` from their bodies
//!     bench formulas               the reading of the texts of `formula_texts.rs`
//!     bench write FOLDER           writes the jobs of `jobs.rs` to files and prints their names
//!     bench write-long FOLDER      writes the curves of `long_curves.rs` to files and prints each
//!                                  name once with each space
//!     bench write-seams FOLDER     writes the jobs of `seam_jobs.rs` to files and prints their names
//!     bench write-order FOLDER     writes the jobs of `order_jobs.rs` to files, with the places of each
//!                                  list beside them, and prints the names of the jobs
//!     bench formula-names          prints the names of the texts of `formula_texts.rs`
//!
//! For a counter of instructions, one tracer, lister, order, opener, writer or reader (proved, plain,
//! careful, before; instead of careful for an order narrow and table, for a reader table) so many times:
//!
//!     bench run TRACER FILE TIMES             prints the places of one time
//!     bench run TRACER FILE SPACE TIMES       the same with space for so many places
//!     bench run-seams LISTER FILE TIMES       prints the facets of the box
//!     bench run-order ORDER FILE TIMES        prints the places walked of one time
//!     bench run-open OPENER N TERMS TIMES     300 jobs of dimension N with TERMS terms a body, or
//!                                             `full`; prints the bytes of one time
//!     bench run-writing WRITER NAME TIMES     the jobs of `write_jobs.rs` with that name; prints how
//!                                             many are written in one time
//!     bench run-formulas READER NAME TIMES    the text of `formula_texts.rs` with that name; prints its
//!                                             bytes

mod archives;
mod time_formula;
mod time_linear;
mod time_open;
mod time_order;
mod time_seams;
mod time_trace;
mod time_write;

use std::path::{Path, PathBuf};

use tracer::careful;
use tracer::jobs::jobs;
use tracer::long_curves::{long_curves, spaces};
use tracer::order_jobs::order_jobs;
use tracer::seam_jobs::seam_jobs;

fn write_job(folder: &str, name: &str, job: &[u8]) -> PathBuf {
    let file = Path::new(folder).join(format!("{name}.job"));
    std::fs::write(&file, job).expect("a folder to write to");
    file
}

fn write(folder: &str) {
    for (name, job) in jobs() {
        println!("{}", write_job(folder, name, &job).display());
    }
}

fn write_long(folder: &str) {
    for (name, job) in long_curves() {
        let file = write_job(folder, name, &job);
        let mut buffer = time_trace::buffer_for(&job, time_trace::SPACE);
        let (_, places) = careful::trace(&job, &mut buffer).expect("no refusal");
        spaces(places).for_each(|space| println!("{} {space}", file.display()));
    }
}

fn write_seams(folder: &str) {
    for timed in seam_jobs() {
        println!("{}", write_job(folder, &timed.name(), &timed.job).display());
    }
}

fn write_order(folder: &str) {
    for timed in order_jobs() {
        let file = write_job(folder, &timed.name(), &timed.job);
        std::fs::write(time_order::places_of(&file), &timed.list).expect("a folder to write to");
        println!("{}", file.display());
    }
}

fn main() {
    let words: Vec<String> = std::env::args().skip(1).collect();
    let words: Vec<&str> = words.iter().map(|word| word.as_str()).collect();
    match words[..] {
        ["linear"] => time_linear::all(),
        ["open"] => time_open::all(),
        ["order"] => time_order::all(),
        ["seams"] => time_seams::all(),
        ["writing"] => time_write::all(),
        ["formulas"] => time_formula::all(),
        ["write", folder] => write(folder),
        ["write-long", folder] => write_long(folder),
        ["write-seams", folder] => write_seams(folder),
        ["write-order", folder] => write_order(folder),
        ["formula-names"] => time_formula::names(),
        ["run", tracer, file, times] => time_trace::run(tracer, file, time_trace::SPACE, times),
        ["run", tracer, file, space, times] => {
            time_trace::run(tracer, file, space.parse().expect("how many places"), times)
        }
        ["run-seams", lister, file, times] => time_seams::run(lister, file, times),
        ["run-order", order, file, times] => time_order::run(order, file, times),
        ["run-open", opener, n, terms, times] => time_open::run(opener, n, terms, times),
        ["run-writing", writer, name, times] => time_write::run(writer, name, times),
        ["run-formulas", reader, name, times] => time_formula::run(reader, name, times),
        [] => {
            time_trace::head();
            for (name, job) in jobs() {
                time_trace::time(name, &job);
            }
        }
        _ => {
            time_trace::head();
            for file in words {
                let name = Path::new(file).file_stem().expect("a file").to_string_lossy();
                time_trace::time(&name, &time_trace::read(file));
            }
        }
    }
}
