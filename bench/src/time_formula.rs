//! Times the reading of formulas, text by text: rounds of calls one after another, the rounds of the
//! readers taking turns, the shortest of each kept.

use std::hint::black_box;
use std::time::{Duration, Instant};

use tracer::formula_plain::FormulaAnswer;
use tracer::formula_texts::{formula_texts, FormulaText};
use tracer::{formula_plain, formula_table};

use crate::archives;
use crate::time_seams::shortest;

/// A round reads about so many bytes.
const BYTES_A_ROUND: usize = 5_000;
/// Rounds are repeated until about so many bytes are read.
const BYTES_A_FIGURE: usize = 5_000_000;

type Reader = fn(u64, &[u8]) -> FormulaAnswer;

/// The proved one first: the others are what it is compared with. All hand back the same struct.
const READERS: &[(&str, Reader)] = &[
    ("proved", archives::formula),
    ("plain", formula_plain::formula),
    ("table", formula_table::formula),
    #[cfg(before_formula)]
    ("before", archives::formula_before),
];

/// The terms or the refusal, after all readers have been seen to give the same answer.
fn agreed(timed: &FormulaText) -> String {
    let answer = |read: Reader| read(timed.n, timed.text.as_bytes());
    let first = answer(READERS[0].1);
    for &(reader, read) in &READERS[1..] {
        let other = answer(read);
        let numbers = |answer: &FormulaAnswer| (answer.refusal, answer.count);
        assert_eq!(numbers(&other), numbers(&first), "{reader} on {}", timed.name);
        assert!(other.bytes == first.bytes, "{reader} on {}: other bytes", timed.name);
    }
    match first.refusal {
        0 => format!("{}", first.count),
        refusal => format!("refused {refusal}"),
    }
}

/// Reads a text so many times.
fn read_all(read: Reader, timed: &FormulaText, calls: usize) {
    let read = black_box(read);
    for _ in 0..calls {
        black_box(&read(black_box(timed.n), black_box(timed.text.as_bytes())));
    }
}

fn round(read: Reader, timed: &FormulaText, calls: usize) -> Duration {
    let begun = Instant::now();
    read_all(read, timed, calls);
    begun.elapsed()
}

fn row(timed: &FormulaText) {
    let answer = agreed(timed);
    let bytes = timed.text.len();
    let calls = (BYTES_A_ROUND / bytes).max(1);
    let rounds = (BYTES_A_FIGURE / (bytes * calls)) as u64;
    let best = shortest(rounds, READERS.len(), |k| round(READERS[k].1, timed, calls));
    let times: Vec<f64> = best.iter().map(|t| t.as_nanos() as f64 / calls as f64).collect();
    print!("{:<14} {} {bytes:>6} {answer:>10}", timed.name, timed.n);
    times.iter().for_each(|ns| print!(" {ns:>9.1}"));
    times[1..].iter().for_each(|ns| print!(" {:>13.2}", times[0] / ns));
    println!(" {:>9.2}", times[0] / bytes as f64);
}

pub fn all() {
    println!("best ns a text, and the proved ns a byte");
    print!("{:<14} n {:>6} {:>10}", "text", "bytes", "terms");
    READERS.iter().for_each(|(name, _)| print!(" {name:>9}"));
    READERS[1..].iter().for_each(|(name, _)| print!(" {:>13}", format!("proved/{name}")));
    println!(" {:>9}", "a byte");
    formula_texts().iter().for_each(row);
}

/// One reader on the text of a name, so many times; prints the bytes of the text.
pub fn run(reader: &str, name: &str, times: &str) {
    let known = READERS.iter().find(|(known, _)| *known == reader);
    let (_, read) = known.unwrap_or_else(|| panic!("no reader {reader}"));
    let all = formula_texts();
    let timed = all.iter().find(|timed| timed.name == name);
    let timed = timed.unwrap_or_else(|| panic!("no text {name}"));
    read_all(*read, timed, times.parse().expect("how many times"));
    println!("{}", timed.text.len());
}

/// The names of the texts.
pub fn names() {
    formula_texts().iter().for_each(|timed| println!("{}", timed.name));
}
