//! The readers of formulas in Rust against the reference.

use reference::formula::formula as wanted;
use reference::generate::{any_formula, FormulaTally, Random};
use reference::tally::Tally;

use crate::formula_plain::FormulaAnswer;
use crate::formula_texts::formula_texts;
use crate::{formula_plain, formula_table};

/// Compares whole answers with the reference; gives the count of terms or the refusal.
fn compared(n: u64, text: &[u8]) -> Result<u64, u64> {
    let wanted = wanted(n, text);
    for formula in [formula_plain::formula, formula_table::formula] {
        let FormulaAnswer { refusal, count, bytes } = formula(n, text);
        let shown = || format!("for n {n} and {}", text.escape_ascii());
        assert_eq!((refusal, count), (wanted.refusal, wanted.count), "{}", shown());
        assert!(bytes == wanted.bytes, "other bytes {}", shown());
    }
    match wanted.refusal {
        0 => Ok(wanted.count),
        refusal => Err(refusal),
    }
}

#[test]
fn both_read_what_the_reference_reads() {
    let mut r = Random::new(73);
    let (mut made, mut met) = (FormulaTally::default(), Tally::default());
    for _ in 0..20_000 {
        let any = any_formula(&mut r);
        met.count(any.made_in, compared(any.n, &any.text).map(|_| "terms"));
        made.count(&any);
    }
    made.assert_all();
    met.assert_met(&[Err(3), Err(14), Err(15), Ok("terms")]);
}

/// Every text of up to five of eight bytes.
#[test]
fn every_short_text() {
    for (n, alphabet) in [(2, b"x1(-^)+*"), (3, b"zw50-^()"), (4, b"0w4^2*()")] {
        for length in 0..=5 {
            for number in 0..8_usize.pow(length) {
                let digits = (0..length).map(|k| number >> (3 * k) & 7);
                let text: Vec<u8> = digits.map(|digit| alphabet[digit]).collect();
                _ = compared(n, &text);
            }
        }
    }
}

/// Every byte of some texts at each of its values, every beginning, and every byte put in between.
#[test]
fn at_every_byte() {
    for text in ["2*x^2+2*y^2-1", "-(x+10)^3*y", "((z)-z)^0*1048576", "-((1234567-w))"] {
        let text = text.as_bytes();
        for at in 0..=text.len() {
            for n in 2..=4 {
                _ = compared(n, &text[..at]);
                let behind = [at, text.len().min(at + 1)].map(|from| &text[from..]);
                for byte in 0..=255 {
                    for rest in behind {
                        _ = compared(n, &[&text[..at], &[byte], rest].concat());
                    }
                }
            }
        }
    }
}

#[test]
fn at_every_dimension() {
    for n in 0..=300 {
        assert_eq!(compared(n, b"x").is_ok(), (2..=4).contains(&n));
        _ = compared(n, b"");
    }
}

/// Parentheses to any depth, closed and not: no reader calls itself deeper than 16.
#[test]
fn at_great_depths() {
    for depth in (0..40).chain([100_000]) {
        let opened = "(".repeat(depth) + "x";
        let closed = opened.clone() + &")".repeat(depth);
        let wanted = if depth > 16 { Err(15) } else { Ok(1) };
        assert_eq!(compared(2, closed.as_bytes()), wanted);
        assert_eq!(compared(2, (closed + ")").as_bytes()), Err(14));
        assert_eq!(compared(2, (opened + "(").as_bytes()), Err(14));
    }
}

/// Name, dimension, bytes, and terms or refusal of each text that is timed.
#[test]
fn timed_texts() {
    let found: Vec<_> = formula_texts()
        .iter()
        .map(|timed| {
            let answer = compared(timed.n, timed.text.as_bytes());
            (timed.name, timed.n, timed.text.len(), answer)
        })
        .collect();
    let wanted = [
        ("case_a", 2, 13, Ok(3)),
        ("example_1", 2, 39, Ok(6)),
        ("example_2", 2, 19, Ok(4)),
        ("example_3", 2, 27, Ok(6)),
        ("example_4", 2, 45, Ok(8)),
        ("quartic_15", 2, 167, Ok(15)),
        ("quartic_35", 3, 423, Ok(35)),
        ("quartic_70", 4, 888, Ok(70)),
        ("power_70", 4, 13, Ok(70)),
        ("nested_16", 2, 65, Ok(3)),
        ("sum_1000", 3, 1_000, Ok(35)),
        ("sum_10000", 3, 10_000, Ok(35)),
        ("outside_end", 3, 1_000, Err(14)),
        ("outside_front", 3, 1_000, Err(14)),
        ("limit_front", 3, 1_000, Err(15)),
        ("zero", 3, 1_000, Err(15)),
        ("nested_17", 2, 69, Err(15)),
    ];
    assert_eq!(found, wanted);
}
