//! The texts that are read as formulas.

use reference::build::exponents;
use reference::generate::Random;
use reference::limits::LARGEST_COEFFICIENT;

use crate::formula_plain::Exponents;

/// A text and its dimension, by name.
pub struct FormulaText {
    pub name: &'static str,
    pub n: u64,
    pub text: String,
}

/// The first four examples of document 001, as they stand there.
const DOCUMENT_001: [(&str, &str); 4] = [
    ("example_1", "4*y^4+17*x^2*y^2-20*y^2+4*x^4-20*x^2+17"),
    ("example_2", "x^3+3*x^2*y+x^2-y^2"),
    ("example_3", "x^3-x*y^2-3*x^2+2*y^2+3*x-1"),
    ("example_4", "3*x^3-5*x*y^2-4*x^2-10*x*y+10*y^2-6*x+20*y+12"),
];

/// A term as it is typed, with its sign.
fn typed(coefficient: i64, exponents: &Exponents) -> String {
    let mut text = format!("{coefficient:+}");
    for (letter, power) in "xyzw".chars().zip(exponents) {
        match power {
            0 => {}
            1 => text += &format!("*{letter}"),
            _ => text += &format!("*{letter}^{power}"),
        }
    }
    text
}

/// The first term of a sum has no plus.
fn sum(terms: impl Iterator<Item = String>) -> String {
    let text: String = terms.collect();
    text.strip_prefix('+').unwrap_or(&text).to_string()
}

/// Every term of the dimension, with any coefficients.
fn quartic(n: usize) -> String {
    let mut r = Random::new(71);
    let all = exponents(n);
    sum(all.iter().map(|e| typed(r.between(1, LARGEST_COEFFICIENT) * r.pick(&[1, -1]), e)))
}

/// The terms of dimension 3 over and over, with small coefficients, up to just so many bytes.
fn long_sum(length: usize) -> String {
    let mut r = Random::new(72);
    let mut text = "x".to_string();
    for e in exponents(3).iter().cycle() {
        let term = typed(r.between(1, 99) * r.pick(&[1, -1]), e);
        if text.len() + term.len() + 2 > length {
            break;
        }
        text += &term;
    }
    // What is left, at least two bytes, is filled with ones, the last with zeros in front.
    while text.len() + 8 < length {
        text += "+1";
    }
    let digits = length - text.len() - 1;
    text + &format!("+{:0digits$}", 1)
}

/// Parentheses inside each other, in each of which something is done.
fn nested(depth: usize) -> String {
    let done = ["+y)", "-2)", "*3)", "-x)"];
    let behind: String = done.into_iter().cycle().take(depth).collect();
    "(".repeat(depth) + "x" + &behind
}

pub fn formula_texts() -> Vec<FormulaText> {
    let mut all = Vec::new();
    let mut put = |name, n, text: String| all.push(FormulaText { name, n, text });
    put("case_a", 2, "2*x^2+2*y^2-1".to_string());
    for (name, text) in DOCUMENT_001 {
        put(name, 2, text.to_string());
    }
    put("quartic_15", 2, quartic(2));
    put("quartic_35", 3, quartic(3));
    put("quartic_70", 4, quartic(4));
    put("power_70", 4, "(1+x+y+z+w)^4".to_string());
    put("nested_16", 2, nested(16));
    put("sum_1000", 3, long_sum(1_000));
    put("sum_10000", 3, long_sum(10_000));
    // Refused: 14 at the end, and at the front; 15 for a limit at the front, for zero, and for a
    // seventeenth parenthesis.
    put("outside_end", 3, long_sum(999) + "+");
    put("outside_front", 3, "+".to_string() + &long_sum(999));
    put("limit_front", 3, "1048577+".to_string() + &long_sum(992));
    put("zero", 3, "(".to_string() + &long_sum(996) + ")*0");
    put("nested_17", 2, nested(17));
    all
}
